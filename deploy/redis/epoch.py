#!/usr/bin/python3 -B
"""Begins a partition's next epoch where all its tenants are quiet: the replay of the next worker is short then.

    epoch.py PROGRAM PARTITION [--redis URL] [--name NAME] [--lease MILLISECONDS]

The partition's worker must be stopped, since this takes the lease. The steps of the epoch are replayed in a run of its
own, which then is asked: each unit must be up, know all restarts and have nothing unlogged or held, and each letter
must have been taken, or be void. None of what it asks is put into a stream. Status 0: the epoch has begun. 1: it can't
begin; what is not quiet is told, and nothing has changed. 2: bad words. 4: the server can't be reached.
"""

import json
import time

from reaching import URL, connect, told  # (this finds the modules of the folder above)
import running
from running import Fault
import worker
import working


class Copy:
    """A replayed copy of a partition, and what its tenants have: units, and letters ever made."""

    def __init__(self, program, lease):
        self.run, self.lease = lease.run(program), lease
        self.units, self.letters, self.count = {}, {}, 0

    def replay(self, steps):
        """Replays these entries of the stream of steps."""
        self.lease.check()
        self.run.give([step.get(b"line", b"") for _, step in steps])
        for _, step in steps:
            self.count += 1
            reply = json.loads(self.run.reply())
            if "no" in reply:
                continue
            line = json.loads(step[b"line"])
            tenant = line["tenant"]
            if reply["ok"] in ("open", "join"):
                self.units[tenant] = reply.get("units") or reply["unit"] + 1
            for letter in reply.get("letters", []):
                self.letters[tenant] = letter + 1

    def ask(self, do, tenant, **keys):
        self.lease.check()
        line = json.dumps({"do": do, "tenant": tenant, **keys}, sort_keys=True, separators=(",", ":")).encode()
        self.run.give([line])
        return json.loads(self.run.reply())

    def unrest(self):
        """What is not quiet, in words. The copy is of no use after it: letters that can be taken are."""
        for tenant, units in self.units.items():
            for unit in range(units):
                status = self.ask("status", tenant, unit=unit)
                if not status["up"] or status["volatile"] or status["held"] or status["known"] != status["rows"]:
                    yield f"tenant {tenant}, unit {unit}: {json.dumps(status)}"
            for letter in range(self.letters.get(tenant, 0)):
                if self.ask("deliver", tenant, letter=letter).get("no") not in ("repeat", "orphan"):
                    yield f"tenant {tenant}: letter {letter} was not taken"


def take(lease):
    """Takes the lease, and gives up after twice its time."""
    until = time.monotonic() + lease.length / 500
    while not lease.take():
        if time.monotonic() > until:
            raise Fault(1, "the partition has a worker: stop it first")
        time.sleep(running.PAUSE)


def replayed(server, stream, copy):
    """The copy, with all steps of the stream replayed."""
    last = b"0"
    while steps := server.xrange(stream, b"(" + last, count=working.BATCH):
        copy.replay(steps)
        last = steps[-1][0]
    return copy


def begin(words, program, partition, lease):
    """Begins the next epoch, if all is quiet."""
    streams = [partition.key(stream, partition.epoch()) for stream in ("steps", "replies")]
    copy = replayed(partition.server, streams[0], Copy(program, lease))
    if unrest := list(copy.unrest()):
        raise Fault(1, "\nepoch: ".join(f"not quiet: {what}" for what in unrest))
    number = partition.call("begin", [lease.key, partition.key("epoch"), *streams], lease.held, copy.count)
    print(f"epoch {number} of {words.name}:{words.partition} has begun; {' and '.join(streams)} are as they were")


@told()
def work(words):
    """Takes the lease, begins the epoch, and gives the lease back."""
    program = running.program_file(words.program)
    partition = worker.Partition(connect(words.server), words.name, words.partition)
    lease = worker.Lease(partition, words.lease)
    take(lease)
    try:
        begin(words, program, partition, lease)
    finally:
        lease.give_back()


def main():
    words = working.words_of(__doc__, "redis", URL)
    running.end("epoch", lambda: work(words))


if __name__ == "__main__":
    main()
