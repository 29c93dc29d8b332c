"""A producer, whatever the engine: lines of its own, each put once and in order, and their replies.

A producer's name is for one list of lines. With the number of each line goes a digest of it and all before it: so two
runs of one name know whether all their lines are the same. What an engine adds: how lines are put, and how replies are
read.
"""

import argparse
import collections
import contextlib
import fcntl
import hashlib
import os
import sys
import time

from running import LONGEST, Away, Fault, partition_of

AGAIN = 1  # (seconds after which a producer asks what is there)


class Other(Fault):
    """A producer's name was used for other lines: none of these was put."""

    def __init__(self, why):
        super().__init__(1, why)


class Lines:
    """The lines of a producer, by partitions. It keeps them all, to give those again that were lost. `next` of a
    partition is the number of the line that the server waits for. One that begins anew under a name that has put lines
    must have all of these, and perhaps more, before it sends."""

    def __init__(self, name, partitions):
        self.name, self.lines = name, [[] for _ in range(partitions)]
        self.digests = [[b""] for _ in range(partitions)]  # (of the first lines: none, one, two, ..)
        self.next = [0] * partitions

    def add(self, line):
        """Takes a line to be put; gives its partition and its number there."""
        line = line[:LONGEST]
        at = partition_of(line, len(self.lines))
        self.lines[at].append(line)
        self.digests[at].append(hashlib.sha1(self.digests[at][-1] + line).hexdigest().encode())
        return at, len(self.lines[at]) - 1

    def learn(self, at, next, digest):
        """Takes what the server has of a partition: which number is next, and the digest of the lines before it."""
        if self.digests[at][next : next + 1] != [digest]:
            given = len(self.lines[at])
            they = f"the producer {self.name} has {next} steps"
            raise Other(f"partition {at}: {they}, and they don't begin the {given} given")
        self.next[at] = next

    def are_put(self):
        return all(next == len(lines) for next, lines in zip(self.next, self.lines))


class Exchange:
    """Lines that are put, and their replies in the order of the lines. `producer` has `add`, `send` and `alone`;
    `replies` has `read`; `told` is a context in which an engine's faults are those of `running`."""

    def __init__(self, producer, replies, timeout=0, told=contextlib.nullcontext):
        self.producer, self.replies, self.timeout, self.told = producer, replies, timeout, told
        self.places, self.found, self.at = [], {}, 0
        self.is_sent, self.gone, self.since, self.asked = True, None, time.monotonic(), 0

    def give(self, lines):
        """Takes lines to be put behind those before."""
        if self.is_done() and not self.gone:
            self.since = time.monotonic()
        self.places += [self.producer.add(line) for line in lines]
        self.is_sent = self.is_sent and not lines

    def is_done(self):
        return self.at == len(self.places)

    def turn(self):
        """Puts some lines and reads some replies; gives those that are next in order."""
        try:
            with self.told():
                self.put_and_read()
            self.gone = None
        except Away as gone:
            self.is_sent, self.gone = False, gone
            time.sleep(0.2)
        while not self.is_done() and self.places[self.at] in self.found:
            yield self.found.pop(self.places[self.at])
            self.at, self.since = self.at + 1, time.monotonic()
        is_owed = self.gone or not self.is_done()
        if self.timeout and time.monotonic() - self.since > self.timeout and is_owed:
            raise self.too_long()

    def put_and_read(self):
        """Puts some lines and reads some replies. None is read before the server has told that the producer's lines are
        these. It is asked each second, since a connection that was lost between two calls may be made anew and not told
        of."""
        if not self.is_sent or time.monotonic() - self.asked > AGAIN:
            self.is_sent, self.asked = self.producer.send(), time.monotonic()
        for partition, name, number, reply in self.replies.read(100 if self.is_sent else 1):
            if name == self.producer.name.encode():
                self.found[partition, number] = reply

    def too_long(self):
        """The fault where no reply came for too long: which partitions owe replies, and which of these have no
        worker."""
        if self.gone:
            return self.gone
        owed = collections.Counter(at for at, number in self.places[self.at :] if (at, number) not in self.found)
        with self.told():
            alone = [at for at in sorted(owed) if self.producer.alone(at)]
        owing = ", ".join(f"partition {at} owes {owed[at]}" for at in sorted(owed))
        who = "each has a worker: see recallctl status"
        if alone:
            who = f"no worker has partition {', '.join(map(str, alone))}: start one"
        return Fault(6, f"no reply for {self.timeout} s: {owing}; {who}")


def put(producer, replies, lines, **words):
    """Puts these lines, and gives their replies in order."""
    exchange = Exchange(producer, replies, **words)
    exchange.give(lines)
    while not exchange.is_done():
        yield from exchange.turn()


class Following:
    """A file of lines that grows, and a file of the replies to the first of them."""

    def __init__(self, lines, replies):
        self.lines, self.rest = open(lines, "rb"), b""
        self.replies = open(replies, "a+b")
        try:
            fcntl.flock(self.replies, fcntl.LOCK_EX | fcntl.LOCK_NB)
        except BlockingIOError:
            raise Fault(1, f"another put.py writes {replies}: wait for its end, or end it")
        self.left, self.last = self.whole()

    def whole(self):
        """Cuts off a reply that isn't whole; gives the count of the others, and the last of them."""
        count, size, last = 0, 0, None
        self.replies.seek(0)
        for line in self.replies:
            if line.endswith(b"\n"):
                count, size, last = count + 1, size + len(line), line
        self.replies.truncate(size)
        return count, last

    def more(self):
        """The lines that came since."""
        if os.fstat(self.lines.fileno()).st_size < self.lines.tell():
            raise Fault(1, f"{self.lines.name} was cut: a producer's lines are only added to")
        *lines, self.rest = (self.rest + self.lines.read()).split(b"\n")
        return lines

    def follow(self, exchange):
        """Puts each line that comes, and writes each reply that isn't there, for ever."""
        while True:
            exchange.give(self.more())
            for reply in exchange.turn():
                self.write(reply + b"\n")
            self.replies.flush()

    def write(self, line):
        """Writes a reply that isn't there. The last of those that are must be the same one."""
        if not self.left:
            self.replies.write(line)
            return
        self.left -= 1
        if not self.left and line != self.last:
            there = f"{self.replies.name} has {self.last[:100]} where {line[:100]} is the reply"
            raise Fault(1, f"{there}: delete it, to have all anew")


def words_of(page, server, address):
    """The words of a `put.py`, whose server is named by `--server`."""
    reader = argparse.ArgumentParser(description=page, formatter_class=argparse.RawDescriptionHelpFormatter)
    reader.add_argument("partitions", type=int)
    reader.add_argument(f"--{server}", dest="server", default=address)
    reader.add_argument("--name", default="recall")
    reader.add_argument("--producer", required=True)
    reader.add_argument("--timeout", type=int, default=60)
    reader.add_argument("--follow", nargs=2, metavar=("LINES", "REPLIES"))
    return reader.parse_args()


def serve(words, exchange):
    """Puts the lines of the words' file, or of standard input."""
    try:
        if words.follow:
            Following(*words.follow).follow(exchange)
        exchange.give([line.removesuffix(b"\n") for line in sys.stdin.buffer])
        while not exchange.is_done():
            for reply in exchange.turn():
                sys.stdout.buffer.write(reply + b"\n")
            sys.stdout.buffer.flush()
    except BrokenPipeError:
        raise
    except OSError as fault:
        raise Fault(1, f"{fault.filename or 'the output'}: {fault.strerror}")
