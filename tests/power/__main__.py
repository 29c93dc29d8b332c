"""Power cuts over a journal: python3 tests/power PROGRAM [SEED]

A shim keeps beside the journal what the disk has of it (`disk.c`). A run is given lines, a few at a time, and the power
is cut at one of its writes or syncs; in every third run a sync fails before. What is left is what the disk has, and of
what was not synced nothing, a beginning, or a page of zeros before its end. The next run goes on from there. Each reply
that was seen must stand to a line that is on the disk, and what is collected in the end is what one run without a cut
writes. The last line is `N passed, M failed`."""

import os
import random
import subprocess
import sys
import tempfile

HERE = os.path.dirname(os.path.abspath(__file__))
sys.path.append(os.path.join(HERE, "..", "journal"))
from inputs import small_input

INPUTS, CUTS, SECONDS = 8, 20, 30


class Machine:
    """The program on a machine whose power is cut."""

    def __init__(self, program, room, seed):
        self.program, self.room, self.chance = program, room, random.Random(seed)
        self.journal = os.path.join(room, "journal")
        self.lines = small_input(seed)
        self.wanted = subprocess.run(
            [program, "run"], input=b"".join(self.lines), capture_output=True, timeout=SECONDS
        ).stdout
        self.collected = b""

    def environment(self, **words):
        own = {"LD_PRELOAD": os.path.join(self.room, "..", "disk.so"), "RECALL_FILE": self.journal}
        return {**own, **{f"RECALL_{key.upper()}": str(value) for key, value in words.items()}}

    def on_disk(self):
        return self.contents(self.journal + ".disk")

    def contents(self, path):
        try:
            with open(path, "rb") as file:
                return file.read()
        except FileNotFoundError:
            return b""

    def run(self, given, **words):
        """A run that has these lines more, block by block; what it wrote is added to what was collected."""
        seen = self.collected.count(b"\n")
        running = subprocess.Popen(
            [self.program, "run", "-q", "--journal", self.journal, "--from", str(seen)],
            stdin=subprocess.PIPE,
            stdout=subprocess.PIPE,
            stderr=subprocess.PIPE,
            env=self.environment(**words),
            bufsize=0,
        )
        written = self.feed(running, given)
        said = running.stderr.read()
        status = running.wait(SECONDS)
        running.stdout.close()
        running.stderr.close()
        self.collected += written[: written.rfind(b"\n") + 1]
        return status, said

    def feed(self, running, given):
        """Gives the lines, some at a time, each after the replies to those before; ends the input behind them."""
        written = b""
        try:
            while given:
                count = self.chance.choice((1, 1, 2, 5, 20))
                running.stdin.write(b"".join(given[:count]))
                wanted, given = written.count(b"\n") + min(count, len(given)), given[count:]
                while written.count(b"\n") < wanted:
                    more = running.stdout.read(65536)
                    if not more:
                        return written
                    written += more
        except OSError:
            pass
        try:
            running.stdin.close()
        except OSError:
            pass
        return written + (running.stdout.read() or b"")

    def cut(self):
        """What stands in the file after the cut: what the disk has, and a part of the rest."""
        memory, disk = self.contents(self.journal), self.on_disk()
        kind = (
            self.chance.choice(("nothing", "beginning", "zeros"))
            if memory.startswith(disk) and len(memory) > len(disk)
            else "nothing"
        )
        left = disk
        if kind == "beginning":
            left = memory[: self.chance.randrange(len(disk), len(memory) + 1)]
        elif kind == "zeros":
            hole = self.chance.randrange(len(disk), len(memory))
            left = memory[:hole] + bytes(min(512, len(memory) - hole)) + memory[hole + 512 :]
        for path in (self.journal, self.journal + ".disk"):
            with open(path, "wb") as file:
                file.write(left)

    def stands(self):
        """Whether each reply that was seen is to a line that the disk has."""
        return self.on_disk().count(b"\n") >= self.collected.count(b"\n")


def count(text):
    return text.count(b"\n")


def durable(machine):
    """The lines of the journal that the next run takes."""
    whole = machine.contents(machine.journal).partition(b"\0")[0]
    return whole[: whole.rfind(b"\n") + 1].count(b"\n")


def cuts(program, room, seed):
    """What is wrong with runs that are cut; None where nothing is."""
    machine = Machine(program, room, seed)
    for number in range(CUTS):
        lose = {"lose": machine.chance.randrange(1, 12)} if number % 3 == 2 else {}
        given = machine.lines[durable(machine) :][: machine.chance.randrange(2, 30)]
        status, said = machine.run(given, cut=machine.chance.randrange(2, 40), **lose)
        if status not in (0, 1, 137):
            return f"cut {number}: status {status}, {said!r}"
        if not machine.stands():
            return f"cut {number}: {count(machine.collected)} replies, and {count(machine.on_disk())} lines on the disk"
        # In every other turn no power is cut after a sync that failed: the next run meets what memory has.
        if status == 137 or number % 2:
            machine.cut()
    status, said = machine.run(machine.lines[durable(machine) :])
    if status or machine.collected != machine.wanted:
        return f"the end: status {status}, {said!r}, {count(machine.collected)} replies of {count(machine.wanted)}"
    return None


def failed_sync(program, room):
    """A sync that fails once, a restart that reads what memory has, and a power cut: no line that was answered is
    gone."""
    for lose in range(1, 12):
        for name in ("journal", "journal.disk", "journal.about"):
            if os.path.exists(os.path.join(room, name)):
                os.remove(os.path.join(room, name))
        machine = Machine(program, room, 5)
        machine.run(machine.lines[:40], lose=lose)
        machine.run(machine.lines[durable(machine) : 80])
        seen, disk = machine.collected.count(b"\n"), machine.on_disk().count(b"\n")
        if disk < seen:
            return f"sync {lose}: {seen} replies stand where {disk} lines do"
    return None


def main():
    if len(sys.argv) not in (2, 3):
        sys.exit(__doc__)
    program, first = os.path.abspath(sys.argv[1]), int(sys.argv[2]) if len(sys.argv) == 3 else 0
    passed = failed = 0
    with tempfile.TemporaryDirectory() as room:
        shim = os.path.join(room, "disk.so")
        subprocess.run(["cc", "-O1", "-fPIC", "-shared", "-o", shim, os.path.join(HERE, "disk.c"), "-ldl"], check=True)
        checks = [
            (f"input {seed}", lambda own, seed=seed: cuts(program, own, seed)) for seed in range(first, first + INPUTS)
        ]
        for name, check in [("a sync that fails", lambda own: failed_sync(program, own))] + checks:
            with tempfile.TemporaryDirectory(dir=room) as own:
                wrong = check(own)
            passed, failed = passed + (wrong is None), failed + (wrong is not None)
            if wrong is not None:
                print(f"power: {name}: {wrong}", flush=True)
    print(f"{passed} passed, {failed} failed")
    return 1 if failed else 0


sys.exit(main())
