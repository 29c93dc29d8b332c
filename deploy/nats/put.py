#!/usr/bin/python3 -B
"""Puts step lines into their partitions on NATS JetStream, and writes the replies in the order of the lines.

    put.py PARTITIONS --producer NAME [--nats URL] [--name NAME] [--timeout SECONDS] < LINES
    put.py PARTITIONS --producer NAME .. --follow LINES REPLIES

As `deploy/redis/put.py` says it, the statuses too. A producer's steps have a subject of their own. Each is put with its
number and the digest of all up to it, and is refused where the one before it isn't the last of that subject: so none is
put twice or left out, and a name that begins anew with other lines is told. URL is RECALL_NATS of the environment where
it isn't said.
"""

import time

import jet  # (this finds the modules of the folder above)
import putting
import running
from running import Away, Fault
import worker

BATCH = 100  # (lines put at once to a partition)


def partitions_of(connection, name, count):
    """The partitions of this name. Their count is fixed by who comes first, since tenants would lie elsewhere by
    another."""
    running.count_of(count)
    worker.make_about(connection, name)
    stream, subject = f"{name}-about", f"{name}.about.partitions"
    try:
        connection.call(subject, str(count).encode(), **worker.expecting(0))
    except jet.Refused as refused:
        if refused.args[0] not in worker.STALE:
            raise
    if (fixed := int(connection.last(stream, subject)[1].payload)) != count:
        raise Fault(1, f"{name} has {fixed} partitions, not {count}")
    partitions = [worker.Partition(connection, name, number) for number in range(count)]
    for partition in partitions:
        partition.make()
    return partitions


class Connected:
    """What has a connection, and makes another where that is lost."""

    def __init__(self, url):
        self.url, self.connection = url, None

    def reach(self):
        """The connection. A new one begins with what the server has."""
        if not self.connection:
            self.connection = jet.Connection(self.url)
            self.begin()
        return self.connection

    def lose(self):
        if self.connection:
            self.connection.close()
            self.connection = None


class Producer(Connected, putting.Lines):
    """Puts lines of its own, in order, each once."""

    def __init__(self, url, partitions, name):
        Connected.__init__(self, url)
        putting.Lines.__init__(self, name, len(partitions))
        self.partitions, self.token = partitions, name.encode().hex()
        self.at = [0] * len(partitions)  # (the number of its last step in each stream)
        self.batch = [BATCH] * len(partitions)
        if not 0 < len(name.encode()) <= 256:
            raise Fault(1, "a producer has a name of 1 to 256 bytes")

    def begin(self):
        """A new connection may lead to a server that has less."""
        for at in range(len(self.partitions)):
            self.look(at)

    def subject(self, at):
        partition = self.partitions[at]
        return f"{partition.name}.{partition.number}.steps.{self.token}"

    def look(self, at):
        """Learns which of its steps a partition has."""
        found = self.connection.last(self.partitions[at].steps, self.subject(at))
        self.at[at], next, digest = 0, 0, ""
        if found:
            self.at[at], headers = found[0], found[1].headers
            next, digest = int(headers["Recall-Number"]) + 1, headers["Recall-Digest"]
        self.learn(at, next, digest.encode())

    def send(self):
        """Puts the next lines of each partition; gives whether all are there. It is to be asked again: where a
        partition has all, it is asked what it has."""
        try:
            self.reach()
            asked = [(at, self.put(at)) for at in range(len(self.partitions))]
            for at, tokens in asked:
                self.hear(at, tokens)
        except Away:
            self.lose()
            raise
        return self.are_put()

    def put(self, at):
        """Sends the next lines of a partition. Each is refused where the one before it isn't the last step of all: so
        those behind a refused one are refused too."""
        before, tokens, first = None, [], self.next[at]
        for number, line in enumerate(self.lines[at][first : first + self.batch[at]], first):
            digest = self.digests[at][number + 1].decode()
            words = {"Recall_From": self.token, "Recall_Number": number, "Recall_Digest": digest}
            words |= {"Nats_Expected_Last_Msg_Id": before} if before else worker.expecting(self.at[at])
            before = f"{self.token}:{number}:{digest}"
            tokens.append(self.connection.ask(self.subject(at), line, Nats_Msg_Id=before, **words))
        return tokens

    def hear(self, at, tokens):
        """Takes the answers. Where other producers put steps in between, it goes on with fewer at once."""
        is_refused = False
        for token in tokens:
            try:
                self.at[at] = self.connection.answer(token)["seq"]
                self.next[at] += 1
            except jet.Refused as refused:
                if refused.args[0] not in worker.STALE:
                    raise
                is_refused = True
        if is_refused or not tokens:
            self.look(at)
        self.batch[at] = 1 if is_refused else min(2 * self.batch[at], BATCH)

    def alone(self, at):
        """Whether nobody has the lease of a partition."""
        try:
            return not self.reach().last(self.partitions[at].leases, self.partitions[at].lease_subject)
        except jet.Refused:
            return True  # (there is no stream of leases: nobody ever had one)


class Replies(Connected):
    """Reads the replies of partitions, each step's once."""

    def __init__(self, url, partitions):
        super().__init__(url)
        self.partitions = partitions
        self.last = [(0, None)] * len(partitions)  # (the number of the last reply that was read, and what it was)
        self.next = {}

    def begin(self):
        """Reads on behind the last reply, or from the first one where that is gone."""
        self.pulls = []
        for at, partition in enumerate(self.partitions):
            number, was = self.last[at]
            there = number and self.connection.get(partition.replies, seq=number)
            if number and (not there or there[1].headers != was):
                self.last[at], number = (0, None), 0
            self.pulls.append(jet.Pull(self.connection, partition.replies, number + 1))

    def read(self, milliseconds):
        """The next replies, waiting so long for one: partition, producer, number, reply. A number that came before is
        of a step that was put again after a loss: its reply is the same, and is left out. So is one without a
        number."""
        try:
            self.reach()
            for pull in self.pulls:
                pull.ask()
            self.connection.wait(self.pulls, time.monotonic() + milliseconds / 1000)
            for at, pull in enumerate(self.pulls):
                yield from self.taken(at, pull.taken())
        except Away:
            self.lose()
            raise

    def taken(self, at, messages):
        """Those of these replies that are new."""
        for message in messages:
            self.last[at] = message.sequence(), message.headers
            if number := message.headers.get("Recall-Number"):
                who, number = (at, message.headers["Recall-From"]), int(number)
                if number >= self.next.get(who, 0):
                    self.next[who] = number + 1
                    yield at, bytes.fromhex(who[1]), number, message.payload


@jet.told()
def work(words):
    """Puts the lines of the words."""
    partitions = partitions_of(jet.Connection(words.server), jet.name(words.name), words.partitions)
    producer, replies = Producer(words.server, partitions, words.producer), Replies(words.server, partitions)
    putting.serve(words, putting.Exchange(producer, replies, words.timeout, jet.told))


if __name__ == "__main__":
    words = putting.words_of(__doc__, "nats", jet.URL)
    running.end("put", lambda: work(words))
