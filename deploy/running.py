"""What the scripts on any engine stand on: how one ends, the run of the program, and the partition of a line.

A script that fails says why in one line, and ends with one of these statuses. 1: a fault. 2: bad words. 3: fenced, a
write was refused. 4: the server can't be reached. 5: the program ended. 6: no reply for so long.
"""

import collections
import json
import os
import select
import subprocess
import sys
import time
import zlib

PIECE, LONGEST = 1 << 16, 65_537  # (bytes: read at once; of a line, enough for it to be too long)
PAUSE = 0.1  # (seconds between two looks)


class Fault(Exception):
    """What ends a script: its status, and why."""


class Away(Fault):
    """A server that can't be reached now, and may come back."""

    def __init__(self, why):
        super().__init__(4, why)


def count_of(count):
    """How many partitions there are to be: the words of an operator."""
    if not 0 < count <= 16_384:
        raise Fault(1, f"{count} partitions can't be: there are 1 to 16,384")
    return count


def check_partition(name, number, count):
    """Raises a fault where there is no partition of this number. A count of 0 isn't known yet."""
    if number < 0 or count and number >= count:
        raise Fault(2, f"{name} has no partition {number}" + (f": they are 0 to {count - 1}" if count else ""))


def end(name, work):
    """Does the work, and ends the script with the status that it gives, if any; where it fails, with the fault's and
    one line that says why."""
    try:
        status = work() or 0
    except Fault as fault:
        status, why = fault.args
        print(f"{name}: {why}", file=sys.stderr)
    except BrokenPipeError:
        os.dup2(os.open(os.devnull, os.O_WRONLY), sys.stdout.fileno())  # (what is still in hand has nowhere to go)
        status = 1
        print(f"{name}: nobody reads the output any more", file=sys.stderr)
    except KeyboardInterrupt:
        status = 130
    sys.exit(status)


def program_file(path):
    """The whole path of a program. What isn't one is refused: what a script runs may be another program a moment later,
    and one epoch has one."""
    try:
        with open(path, "rb") as file:
            is_program = file.read(4) == b"\x7fELF"
    except OSError as fault:
        raise Fault(2, f"the program {path} can't be read: {fault.strerror}")
    if not is_program:
        where = "name the program itself, as ./install puts it at lib/recall/recall"
        raise Fault(2, f"{path} is a script, or no program at all: {where}")
    if not os.access(path, os.X_OK):
        raise Fault(2, f"this user may not run {path}: see its mode")
    return os.path.abspath(path)


class Run:
    """One run of the program, with these words more, on one core: on several, replies come a block of lines at a time,
    and long ones would leave it silent. While a reply is waited for, `meanwhile` is asked, which may raise why to
    end."""

    def __init__(self, program, meanwhile=lambda: None, words=()):
        self.meanwhile = meanwhile
        try:
            command = [program, "run", "--cores", "1", *words]
            self.process = subprocess.Popen(command, stdin=subprocess.PIPE, stdout=subprocess.PIPE)
        except OSError as fault:
            raise Fault(2, f"the program {program} can't be run: {fault.strerror}")
        self.pieces, self.lines, self.waits_since = [], collections.deque(), None

    def give(self, lines):
        """Gives it these lines. One with a line feed in it would be answered twice: it is given as a blank one."""
        try:
            self.process.stdin.write(b"".join((b"" if b"\n" in line else line) + b"\n" for line in lines))
            self.process.stdin.flush()
        except BrokenPipeError:
            raise self.ended()

    def ended(self):
        return Fault(5, f"the program ended with status {self.process.wait()}")

    def is_stuck(self, seconds):
        """Whether a reply is waited for, and nothing of it came for so long."""
        since = self.waits_since
        return since is not None and time.monotonic() - since > seconds

    def read(self):
        """Waits for the next bytes of replies."""
        self.waits_since = time.monotonic()
        while not select.select([self.process.stdout], [], [], PAUSE)[0]:
            self.meanwhile()
        piece = os.read(self.process.stdout.fileno(), PIECE)
        self.waits_since = None
        if not piece:
            raise self.ended()
        self.pieces.append(piece)
        if b"\n" in piece:
            *lines, rest = b"".join(self.pieces).split(b"\n")
            self.lines += lines
            self.pieces = [rest]

    def reply(self):
        """The next reply. One that tells of this run's machine, and not of the steps, is none to record."""
        while not self.lines:
            self.read()
        line = self.lines.popleft()
        if line.endswith((b'"no":"memory"}', b'"no":"store"}')):
            raise Fault(1, f"the program answered {line.decode()}")
        return line

    def kill(self):
        """Ends it, and waits for that."""
        self.process.kill()
        self.process.wait()


class NoRun:
    """What a lease is renewed for before there is a run: nothing that could be stuck."""

    @staticmethod
    def is_stuck(seconds):
        return False


def partition_of(line, partitions):
    """The partition of a line: by the hash of its tenant."""
    try:
        step = json.loads(line)
    except (ValueError, RecursionError):
        step = None
    tenant = step.get("tenant") if isinstance(step, dict) else None
    return zlib.crc32(tenant.encode(errors="surrogatepass")) % partitions if isinstance(tenant, str) else 0
