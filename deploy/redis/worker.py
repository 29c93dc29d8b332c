#!/usr/bin/python3 -B
"""A worker of one partition: feeds its steps to a `recall run`, in order, and records each reply.

    worker.py PROGRAM PARTITION [--redis URL] [--name NAME] [--lease MILLISECONDS] [--snapshot STEPS]

It waits for the partition's lease, starts PROGRAM, and gives it the steps of the epoch behind the snapshot that the
server has, or from the first one. Those replies that the stream of replies has are dropped; those behind them are
appended. Where it is asked for, a snapshot is kept behind each so many steps, in a folder of the worker's and then in
the server, once the replies before it are recorded. Each write carries the lease with its
fencing number, and the server refuses it where that is over (recall.lua). Whatever goes wrong ends the worker: start it
anew.

The lease is renewed each third of its time by a thread of its own, however long a reply is written or appended. Where
the program has steps in its hands and wrote nothing for the lease's time, the worker ends, and another one goes on.
Replies are appended up to 8 MB at a time, unless one alone has more: the longest has 25 MB (1,024 outputs of 4,096
bytes, each of which takes six in JSON). A server that takes no words of 32 MB is a fault, before any step is read.

PROGRAM is the file of the program itself. A script is refused, such as `./recall`: what it runs may change between two
workers of an epoch. URL is RECALL_REDIS of the environment where it isn't said: a password in it isn't seen by other
users there.

Status 0: ended by SIGTERM, and the lease given back. 1: a fault. 2: bad words. 3: fenced: a write was refused. 4: the
server can't be reached. 5: the program ended. A fault is noted in the server, if that can be reached: `recallctl
status` shows it.
"""

import os
import re
import secrets
import socket

import redis

import reaching  # (this finds the modules of the folder above)
import running
from running import PAUSE, Fault
from snapshots import MOST, Snapshots
import working
from working import BATCH, WORD, Step


class Partition:
    """The keys of one partition, and the functions that write to it."""

    def __init__(self, server, name, number):
        self.server, self.tag = server, "{%s:%d}" % (name, number)

    def key(self, *words):
        return ":".join([self.tag, *map(str, words)])

    def epoch(self):
        return int(self.server.get(self.key("epoch")) or 0)

    def call(self, function, keys, *words):
        return self.server.fcall("recall_" + function, len(keys), *keys, *words)

    @reaching.told()
    def note(self, status, why):
        """Notes why a worker ended, in a server that can be reached and has the functions."""
        if status != 4 and why != reaching.NO_FUNCTIONS:
            keys = [self.key("fault"), self.key("faults")]
            self.call("fault", keys, socket.gethostname(), os.getpid(), status, why.encode(errors="replace")[:1000])


def look_at_limits(server):
    """Raises a fault where the server says that it takes no word as long as the longest reply: it would end the
    connection once there is one, and each worker after this one would end there too. A server that doesn't say is taken
    at its best."""
    for limit in ("proto-max-bulk-len", "client-query-buffer-limit"):
        try:
            most = int(server.config_get(limit).get(limit, WORD))
        except redis.ResponseError:
            return
        if most < WORD:
            raise Fault(1, f"the server's {limit} is {most}, and a reply may need {WORD}")


def step_of(at, words):
    """An entry of the stream of steps. Its number is the producer's, or nothing: what came into the stream otherwise
    may have any word there."""
    number = words.get(b"number", b"")
    is_number = re.fullmatch(rb"0|[1-9][0-9]{0,14}", number)
    return Step(at, words.get(b"line", b""), words.get(b"from", b""), number if is_number else b"")


class Lease:
    """The right to write to a partition, as long as it is renewed. The server's clock alone counts."""

    def __init__(self, partition, length):
        self.partition, self.key, self.length, self.keeping = partition, partition.key("lease"), length, None

    def take(self):
        """Takes it, if nobody has it, and renews it from now on."""
        keys = [self.key, *map(self.partition.key, ("fence", "holder"))]
        self.held = self.partition.call(
            "take", keys, secrets.token_hex(8), self.length, socket.gethostname(), os.getpid()
        )
        if self.held is not None:
            self.keeping = working.Keeping(self.length / 1000, running.NoRun, self.renew)
        return self.held is not None

    def run(self, program, words=()):
        """Starts a run of the program with these words: where it is stuck, the lease is renewed no more."""
        run = self.keeping.run_of_program = running.Run(program, self.check, words)
        return run

    @reaching.told()
    def renew(self):
        self.partition.call("renew", [self.key], self.held, self.length)

    def check(self):
        self.keeping.check()

    def append(self, streams, count, steps, replies):
        """Appends these replies to these steps behind the first `count`, all at once."""
        words = [(step.at, step.sender, step.number, reply) for step, reply in zip(steps, replies)]
        self.partition.call("append", [self.key, *streams], self.held, self.length, count, *sum(words, ()))

    def keep(self, keys, snapshot, at):
        """Has the server keep a snapshot whose last step has this place."""
        lines, about, data = snapshot
        self.partition.call("keep", [self.key, *keys], self.held, self.length, lines, at, about, data)

    def give_back(self):
        """Gives it back, if it is still there to be given."""
        if self.keeping:
            self.keeping.is_over.set()
        self.partition.call("give_back", [self.key], self.held)


class Worker(working.Worker):
    """A worker of two streams, and of snapshots where these are kept."""

    def __init__(self, partition, lease, program, each):
        epoch = partition.epoch()
        self.server, self.lease = partition.server, lease
        self.streams = [partition.key(stream, epoch) for stream in ("steps", "replies")]
        self.snapshots = Snapshots(self.server, partition.key("snapshot", epoch), each) if each else None
        self.behind, self.first = self.snapshots.begin(program) if each else (0, b"0")
        self.places = {}
        last = [(at, words[b"reply"]) for at, words in self.server.xrevrange(self.streams[1], count=1)]
        run = lease.run(program, self.snapshots.words() if each else ())
        super().__init__(run, self.server.xlen(self.streams[1]), *(last or [None]), self.behind)

    def steps(self):
        last, count = self.first, self.behind
        while True:
            for _, entries in self.server.xread({self.streams[0]: last}, count=BATCH, block=1000):
                # Places first: a snapshot behind these steps may be there as soon as they are given.
                if self.snapshots:
                    self.places.update((count + more, at) for more, (at, _) in enumerate(entries, 1))
                count, last = count + len(entries), entries[-1][0]
                yield [step_of(at, words) for at, words in entries]

    def append(self, steps, replies):
        self.lease.append(self.streams, self.count, steps, replies)

    def keep(self):
        """Has the server keep the snapshot that the program wrote last, where there is a newer one."""
        snapshot = self.snapshots and self.snapshots.newer(self.count)
        if not snapshot:
            return
        lines, _, data = snapshot
        if len(data) <= MOST:
            self.lease.keep([self.streams[1], self.snapshots.key], snapshot, self.places[lines])
        for count in list(self.places):
            if count < lines:
                del self.places[count]

    def check(self):
        self.lease.check()
        self.keep()

    def is_full(self):
        """Whether the worker should end, for the next one to begin with an empty folder."""
        return self.snapshots is not None and self.snapshots.is_full()


@reaching.told()
def reach(words):
    """The partition that the words name. Where the server knows how many there are, it must be one of them."""
    server = reaching.connect(words.server)
    running.check_partition(words.name, words.partition, int(server.get(f"{words.name}:partitions") or 0))
    return Partition(server, words.name, words.partition)


@reaching.told()
def serve(partition, program, words, stopping, say):
    """Waits for the lease, works until it is told to stop or something fails, and gives the lease back."""
    lease, worker = Lease(partition, words.lease), None
    look_at_limits(partition.server)
    while not lease.take():
        if stopping.wait(PAUSE):
            return
    try:
        worker = Worker(partition, lease, program, words.snapshot)
        begun = f", begun behind {worker.behind}" if worker.behind else ""
        pid = worker.run.process.pid
        say(f"lease {lease.held.decode()}, {worker.streams[1]} has {worker.count}{begun}, program {pid}")
        worker.work(stopping)
    finally:
        if worker:
            worker.run.kill()
        lease.give_back()


if __name__ == "__main__":
    working.main(working.words_of(__doc__, "redis", reaching.URL, True), reach, serve)
