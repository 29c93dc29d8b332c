#!/usr/bin/python3 -B
"""A worker of one partition on NATS JetStream: feeds its steps to a `recall run`, in order, and records each reply.

    worker.py PROGRAM PARTITION [--nats URL] [--name NAME] [--lease MILLISECONDS]

It waits for the partition's lease, puts a fence among the replies, starts PROGRAM, and gives it the steps from the
first one. As many replies as are recorded are dropped; those behind them are appended. Each append expects the reply,
or the fence, that this worker put before it: so one whose lease is over, and who has seen no other's fence, is refused.
Whatever goes wrong ends the worker: start it anew. The rest is as `deploy/redis/worker.py` says it, the statuses too.
URL is RECALL_NATS of the environment where it isn't said. The time of a lease is that of whoever has the first one.
"""

import json
import os
import re
import socket
import time

import jet  # (this finds the modules of the folder above)
import running
from running import PAUSE, Fault
import working
from working import WORD, Step

STALE = {10070, 10071}  # (refusals: the last message isn't the one that is expected)
LEAST = 100  # (milliseconds that a server takes as an age)


def expecting(sequence):
    """The header of an append that is refused where another message is the last of its subject."""
    return {"Nats_Expected_Last_Subject_Sequence": sequence}


class Partition:
    """The streams and subjects of one partition."""

    def __init__(self, connection, name, number):
        self.connection, self.name, self.number = connection, name, number
        self.steps, self.replies = (f"{name}-{number}-{stream}" for stream in ("steps", "replies"))
        self.leases, self.about = f"{name}-leases", f"{name}-about"
        self.replies_subject, self.lease_subject = f"{name}.{number}.replies", f"{name}.lease.{number}"

    def make(self):
        """Makes the streams that aren't there: nothing is ever taken out of them."""
        forever = {"deny_delete": True, "deny_purge": True}
        self.connection.stream(self.steps, subjects=[f"{self.name}.{self.number}.steps.*"], **forever)
        self.connection.stream(self.replies, subjects=[self.replies_subject], **forever)
        make_about(self.connection, self.name)

    def put(self, what, words):
        """Puts a word about the partition, for people: nothing rests on it."""
        self.connection.call(f"{self.name}.about.{what}.{self.number}", words)

    def noted(self, what):
        """The last such word, or nothing."""
        found = self.connection.last(self.about, f"{self.name}.about.{what}.{self.number}")
        return found and json.loads(found[1].payload)

    @jet.told()
    def note(self, status, why):
        """Notes why a worker ended, in a server that can be reached."""
        if status == 4:
            return
        self.connection = jet.Connection(self.connection.url)
        count = (self.noted("fault") or {"count": 0})["count"] + 1
        self.put("fault", {**who(), "status": status, "when": time.time(), "why": why[:1000], "count": count})


def make_about(connection, name):
    """Makes the stream of words about partitions, of each of which the last one is kept."""
    connection.stream(f"{name}-about", subjects=[f"{name}.about.>"], max_msgs_per_subject=1)


def who():
    return {"host": socket.gethostname(), "pid": os.getpid()}


class Lease:
    """The right to work on a partition: a message that the server drops unless another takes its place in time. What
    keeps others from appending is the fence; the lease sees to it that they don't try."""

    def __init__(self, partition, length):
        self.partition, self.length, self.keeping = partition, length, None
        if length < LEAST:
            raise Fault(2, f"a lease lasts {LEAST} milliseconds at least, and not {length}")
        nanoseconds = length * 1_000_000
        words = {"max_age": nanoseconds, "duplicate_window": nanoseconds, "max_msgs_per_subject": 1}
        partition.connection.stream(partition.leases, subjects=[f"{partition.name}.lease.*"], **words)

    def put(self, connection, expected):
        """Puts the message, where the one before is the expected one; gives its number."""
        words = {**who(), "since": time.time()}
        return connection.call(self.partition.lease_subject, words, **expecting(expected))["seq"]

    def take(self):
        """Takes it, if nobody has it."""
        try:
            self.at = self.number = self.put(self.partition.connection, 0)
        except jet.Refused as refused:
            if refused.args[0] not in STALE:
                raise
            return False
        self.partition.put("holder", {**who(), "since": time.time()})
        return True

    def run(self, program):
        """Starts a run of the program, and renews the lease from now on, on a connection of its own."""
        run, self.own = running.Run(program, self.check), jet.Connection(self.partition.connection.url)
        self.keeping = working.Keeping(self.length / 1000, run, self.renew)
        return run

    @jet.told()
    def renew(self):
        try:
            self.at = self.put(self.own, self.at)
        except jet.Refused as refused:
            raise fenced("a renewal", self.number) if refused.args[0] in STALE else refused

    def check(self):
        """Raises what stopped its renewal, and answers the server's question whether anybody is there."""
        self.keeping.check()
        self.partition.connection.meanwhile()

    def give_back(self):
        """Gives it back, if it is still there to be given."""
        if self.keeping:
            self.keeping.is_over.set()
            self.keeping.join(jet.ANSWER)
        try:
            self.partition.connection.api(f"STREAM.MSG.DELETE.{self.partition.leases}", seq=self.at, no_erase=True)
        except jet.Refused as refused:
            if refused.args[0] != jet.GONE:
                raise


def fenced(what, number):
    return Fault(3, f"refused: FENCED {what}: the lease {number} is over")


def step_of(message):
    """A step, as its message has it: its place is its number in the stream, for nothing is taken out. What came in
    otherwise than from a producer may have any word in the place of its number there."""
    number = message.headers.get("Recall-Number", "")
    sender = message.headers.get("Recall-From", "")
    is_number = re.fullmatch("0|[1-9][0-9]{0,14}", number) and re.fullmatch("([0-9a-f]{2})+", sender)
    return Step(message.sequence(), message.payload, sender if is_number else "", number if is_number else "")


class Worker(working.Worker):
    """A worker that has put its fence among the replies."""

    def __init__(self, partition, lease, run):
        self.partition, self.lease = partition, lease
        while (fence := self.fence()) is None:
            pass  # (another worker has appended meanwhile, which is over now)
        self.at, count, last = fence
        super().__init__(run, count, (count, self.reply(last)) if count else None)

    def fence(self):
        """Puts a fence behind the last reply: whoever doesn't know it can't append. Gives its number, how many replies
        there are, and the number of the last one; nothing where there is one more than was seen."""
        partition = self.partition
        at, last = partition.connection.last(partition.replies, partition.replies_subject) or (0, None)
        count = int(last.headers["Recall-Count"]) if last else 0
        reply = int(last.headers.get("Recall-Last", at)) if last else 0
        words = {"Recall_Fence": self.lease.number, "Recall_Count": count, "Recall_Last": reply}
        try:
            fence = partition.connection.call(partition.replies_subject, b"", **words, **expecting(at))["seq"]
        except jet.Refused as refused:
            if refused.args[0] not in STALE:
                raise
            return None
        return fence, count, reply

    def reply(self, number):
        """The reply of this number among the stream's messages."""
        own = jet.Connection(self.partition.connection.url)
        try:
            if found := jet.Pull(own, self.partition.replies, number).read(jet.ANSWER):
                return found[0].payload
            raise own.lost("it didn't give the last reply in time")
        finally:
            own.close()

    def steps(self):
        with jet.told():
            pull = jet.Pull(jet.Connection(self.partition.connection.url), self.partition.steps, 1)
            while True:
                if found := pull.read(1):
                    yield [step_of(message) for message in found]

    @jet.told()
    def append(self, steps, replies):
        """Appends them one behind another: each is refused where the one before it isn't the last one."""
        connection, fence, asked, before = self.partition.connection, self.lease.number, [], None
        for count, (step, reply) in enumerate(zip(steps, replies), self.count + 1):
            if step.at != count:
                raise Fault(1, f"the step behind {count - 1} replies is {step.at}: the stream of steps isn't whole")
            words = {"Recall_Count": count, "Recall_From": step.sender, "Recall_Number": step.number}
            words |= {"Nats_Expected_Last_Msg_Id": before} if before else expecting(self.at)
            before = f"{fence}:{count}"
            asked.append(connection.ask(self.partition.replies_subject, reply, Nats_Msg_Id=before, **words))
        try:
            answers = [connection.answer(token) for token in asked]
        except jet.Refused as refused:
            raise fenced("an append", fence) if refused.args[0] in STALE else refused
        self.at = answers[-1]["seq"]

    def check(self):
        self.lease.check()


@jet.told()
def reach(words):
    """The partition that the words name. Where the server knows how many there are, it must be one of them."""
    name, connection = jet.name(words.name), jet.Connection(words.server)
    if connection.most < WORD:
        what = f"the server's max_payload is {connection.most}, and a reply may need {WORD}"
        raise Fault(1, f"{what}: start it by deploy/nats/start")
    make_about(connection, name)
    fixed = connection.last(f"{name}-about", f"{name}.about.partitions")
    running.check_partition(name, words.partition, int(fixed[1].payload) if fixed else 0)
    return Partition(connection, name, words.partition)


@jet.told()
def serve(partition, program, words, stopping, say):
    """Waits for the lease, works until it is told to stop or something fails, and gives the lease back."""
    partition.make()
    lease = Lease(partition, words.lease)
    while not lease.take():
        if stopping.wait(PAUSE):
            return
    run = lease.run(program)
    try:
        worker = Worker(partition, lease, run)
        say(f"lease {lease.number}, {partition.replies} has {worker.count}, program {run.process.pid}")
        worker.work(stopping)
    finally:
        run.kill()
        lease.give_back()


if __name__ == "__main__":
    working.main(working.words_of(__doc__, "nats", jet.URL), reach, serve)
