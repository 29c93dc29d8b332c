#!/usr/bin/python3 -B
"""Puts step lines into their partitions, and writes the replies in the order of the lines.

    put.py PARTITIONS --producer NAME [--redis URL] [--name NAME] [--timeout SECONDS] < LINES
    put.py PARTITIONS --producer NAME .. --follow LINES REPLIES

A line goes to the partition of its tenant; one without a tenant that can be read goes to partition 0, since it is
answered `bad-line` wherever it is, and so does one of more than 65,536 bytes, of which the first 65,537 are put. The
producer numbers its lines in each partition from 0, and the server takes none twice and leaves none out: each put
answers the number that it waits for. So a put that had no answer, or that a crash of the server lost, is made good by
going on from that number, and the same producer can be run again on the same lines, or on these and more behind them.

A producer's NAME is for one list of lines. With the number of its next line stands a digest of all lines before it:
where the lines that are given aren't those, nothing is put, no reply is written, and the status is 1. So it is where
they are fewer, and where an epoch has begun since: take another name.

Where replies are owed and none comes for SECONDS (60; with 0 it waits for ever), it ends, and says which partitions owe
them and which of these have no worker. A server that goes away is waited for as long. Run again on the same lines, it
goes on.

With `--follow` it puts the lines that come into the file LINES, for ever, and appends the replies that the file REPLIES
doesn't have: so it can be a service that is started anew whenever it ends. LINES is only added to. REPLIES may be
deleted while it isn't running: all replies are written anew then.

URL is RECALL_REDIS of the environment where it isn't said. Status 0: all lines have their replies. 1: refused, or a
file's fault. 2: bad words. 4: the server can't be reached. 6: no reply for so long.
"""

import redis

import reaching  # (this finds the modules of the folder above)
import putting
import running
from running import Fault
import worker

BATCH = 100  # (lines put at once to a partition)
READ, MOST = 1000, 8 << 20  # (replies read at once of a partition; bytes of them, unless one alone has more)


def partitions_of(server, name, count):
    """The partitions of this name. Their count is fixed by who comes first, since tenants would lie elsewhere by
    another. It is one of 1 to 16,384."""
    fixed = int(server.set(f"{name}:partitions", running.count_of(count), nx=True, get=True) or count)
    if fixed != count:
        raise Fault(1, f"{name} has {fixed} partitions, not {count}")
    return [worker.Partition(server, name, number) for number in range(count)]


class Producer(putting.Lines):
    """Puts lines of its own, in order, each once."""

    def __init__(self, server, partitions, name):
        super().__init__(name, len(partitions))
        self.server, self.partitions = server, partitions
        self.epochs = [partition.epoch() for partition in partitions]

    def send(self):
        """Puts the next lines of each partition, and learns from which number on to go on. Gives whether all are there.
        It is to be asked again after a lost connection, also where all were there before. `Other` where the name has
        put lines that are not these."""
        calls = self.server.pipeline(transaction=False)
        asked = []
        for at, (partition, lines, next) in enumerate(zip(self.partitions, self.lines, self.next)):
            epoch = self.epochs[at]
            words = partition.key("epoch"), partition.key("steps", epoch), partition.key("producers"), epoch, self.name
            for number, line in enumerate(lines[next : next + BATCH], next):
                calls.fcall("recall_put", 3, *words, number, self.digests[at][number], line)
                asked.append(at)
            calls.fcall("recall_next", 3, *words)
            asked.append(at)
        for at, told in zip(asked, calls.execute(raise_on_error=False)):
            self.learn(at, *self.answer(at, told))
        return self.are_put()

    def answer(self, at, told):
        """What the server told of a partition: the number that is next, and the digest of the lines before it."""
        if isinstance(told, redis.ResponseError) and str(told).startswith("OTHER"):
            raise putting.Other(f"partition {at}: {str(told)[6:]}")
        if isinstance(told, Exception):
            raise told
        return told

    def alone(self, at):
        """Whether nobody has the lease of a partition."""
        return not self.server.exists(self.partitions[at].key("lease"))


class Replies:
    """Reads the replies of partitions, each step's once."""

    def __init__(self, server, partitions):
        self.server = server
        self.last = {partition.key("replies", partition.epoch()).encode(): b"0" for partition in partitions}
        self.at = {stream: at for at, stream in enumerate(self.last)}
        self.next = {}

    def read(self, milliseconds):
        """The next replies, waiting so long for one: partition, producer, number, reply. A number that came before is
        of a step that was put again after a loss: its reply is the same, and is left out. So is one without a number:
        no producer put its step."""
        woken = dict(self.server.xread(self.last, count=1, block=milliseconds))
        calls = self.server.pipeline(transaction=False)
        for stream, last in self.last.items():
            calls.fcall_ro("recall_read", 1, stream, last, 0, 0)
        for stream, told in zip(self.at, calls.execute(raise_on_error=False)):
            if not self.is_gone(stream, told) and stream in woken:
                yield from self.taken(stream, woken[stream])
                yield from self.taken(stream, self.behind(stream))

    def is_gone(self, stream, told):
        """Whether the last reply that was read is gone: a crash or a failover took it, and what comes in its place may
        have ids before it, by another machine's clock. Then it begins at the first reply, and leaves out by their
        numbers those that it has given."""
        if isinstance(told, redis.ResponseError) and str(told).startswith("GONE"):
            self.last[stream] = b"0"
            return True
        if isinstance(told, Exception):
            raise told
        return False

    def behind(self, stream):
        """The entries behind the last one."""
        try:
            more = self.server.fcall_ro("recall_read", 1, stream, self.last[stream], READ, MOST)
        except redis.ResponseError as told:
            self.is_gone(stream, told)  # (or this is a fault)
            return []
        return [(id, dict(zip(words[::2], words[1::2]))) for id, words in more]

    def taken(self, stream, entries):
        """Those of these replies that are new."""
        for id, entry in entries:
            self.last[stream] = id
            if entry[b"number"].isdigit():
                who, number = (self.at[stream], entry[b"from"]), int(entry[b"number"])
                if number >= self.next.get(who, 0):
                    self.next[who] = number + 1
                    yield *who, number, entry[b"reply"]


def exchange_of(server, partitions, name, timeout=0):
    """An exchange of lines under this name."""
    return putting.Exchange(Producer(server, partitions, name), Replies(server, partitions), timeout, reaching.told)


@reaching.told()
def work(words):
    """Puts the lines of the words."""
    server = reaching.connect(words.server, words.timeout or None)
    partitions = partitions_of(server, words.name, words.partitions)
    putting.serve(words, exchange_of(server, partitions, words.producer, words.timeout))


if __name__ == "__main__":
    words = putting.words_of(__doc__, "redis", reaching.URL)
    running.end("put", lambda: work(words))
