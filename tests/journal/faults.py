"""Each write and each sync of a journal failing in turn, each request for memory refused in turn, and the words.

After a fault the run ends with status 1, what it wrote is a beginning of what a plain run writes, with no reply
`memory`, and each reply is to a line that stands in the journal. A run that goes on gives the rest.
"""

import json
import os
import re
import stat
import subprocess

from crashes import first_difference, plain, whole_lines
from inputs import small_input

REASON = re.compile(rb"recall: line \d+: .*\n")
NAMED = re.compile(rb"(?:give those from line|the journal, which has|the journal has) (\d+)")
SEED = 77
LINES = 24


class Journal:
    """Runs on one new journal after the other."""

    def __init__(self, program, room):
        self.program, self.room, self.count = program, room, 0
        self.lines = small_input(SEED)[:LINES]
        self.wanted = plain(program.path, self.lines)

    def new(self, name):
        self.count += 1
        return os.path.join(self.room, f"{name}-{self.count}")

    def rest(self, journal, seen):
        """What a run without faults gives to whoever has seen so many replies, and what was wrong."""
        durable = whole_lines(journal)
        given = b"".join(self.lines[durable:])
        out, said, status = self.program.run(given, "run", "--journal", journal, "--from", str(seen))
        return out, None if status == 0 else f"going on has status {status}: {said.decode()}"

    def misled(self, journal, said):
        """What is wrong with the line that a message names to go on from: it is how many whole lines the file has."""
        named, has = NAMED.search(said), whole_lines(journal)
        told = self.program.run(b"", "journal", "--json", journal)[0] if os.path.exists(journal) else b""
        if named and int(named[1]) != has:
            return f"line {int(named[1])} is named, and the journal has {has}: {said.decode(errors='replace')}"
        if told and json.loads(told)["lines"] != has:
            return f"{told.decode()} is told, and the journal has {has}"
        return None

    def with_fault(self, name, **faults):
        """A run of all lines, one read for each, with these faults, and one that goes on: whether the fault came, and
        what was wrong."""
        journal = self.new(name)
        out, said, status = self.program.run(b"".join(self.lines), "run", "--journal", journal, lines=1, **faults)
        seen = out[: out.rfind(b"\n") + 1]
        if status == 0:
            return False, None if out == self.wanted else "no fault, and other replies"
        if status != 1 or not said:
            return True, f"status {status}: {said.decode(errors='replace')}"
        if not self.wanted.startswith(seen):
            return True, "before the fault: " + first_difference(seen, self.wanted)
        if whole_lines(journal) < seen.count(b"\n"):
            return True, "a line was answered that isn't in the journal"
        if wrong := self.misled(journal, said):
            return True, wrong
        out, wrong = self.rest(journal, seen.count(b"\n"))
        if wrong is None and seen + out != self.wanted:
            wrong = "after the fault: " + first_difference(seen + out, self.wanted)
        return True, wrong


def each_in_turn(own, name, word, values):
    """The fault at each value, as long as it comes."""
    runs = 0
    for value in values:
        came, wrong = own.with_fault(name, **{word: value})
        runs += 1
        if wrong:
            return runs, f"{word} {value}: {wrong}"
        if not came:
            return runs, None if runs > 1 else f"{word} {value}: no fault came"
    return runs, None


def syncs(own):
    # The third is that of the folder, whose failure is told and ends nothing.
    return each_in_turn(own, "syncs", "sync", [1, 2, *range(4, 1000)])


def writes(own):
    return each_in_turn(own, "writes", "append", range(0, 100_000, 7))


def memory(own):
    requests = own.program.count(b"".join(own.lines), "run", "--journal", own.new("count"))
    for number in range(1, requests + 1):
        wrong = own.with_fault("memory", refuse=number)[1]
        if wrong:
            return number, f"request {number}: {wrong}"
    return requests, None if requests else "no request was counted"


def interrupted(own):
    came, wrong = own.with_fault("interrupted", interrupt=1)
    return 1, wrong or ("the run ended early" if came else None)


def first_run(own, given, journal):
    """Whether a first run answers all, and tells nothing but the reasons of refusals, and those by a book alone."""
    out, said, status = own.program.run(given, "run", "--journal", journal)
    reasons = REASON.findall(said) if own.program.by_book else []
    return (out, said, status) == (own.wanted, b"".join(reasons), 0) and own.program.by_book == bool(reasons)


def words(own):
    """The words that go with a journal, its mode, its lock, and what a second run is told."""
    journal = own.new("words")
    given = b"".join(own.lines)
    run = ("run", "--journal", journal)
    if not first_run(own, given, journal):
        return 1, "a first run"
    if stat.S_IMODE(os.stat(journal).st_mode) != 0o600 or open(journal, "rb").read() != given:
        return 1, "the file and its mode"
    tells = f'recall: the journal "{journal}" has {LINES} lines: give those from line {LINES} on (from 0)\n'.encode()
    if own.program.run(b"", *run) != (b"", tells, 0):
        return 1, "going on with nothing"
    tail = b"".join(own.wanted.splitlines(True)[20:])
    if own.program.run(b"", *run, "--from", "20") != (tail, tells, 0):
        return 1, "going on from 20"
    past = f'recall: the journal "{journal}" has {LINES} lines: there is no line {LINES + 1} to go on from\n'.encode()
    if own.program.run(b"", *run, "--from", str(LINES + 1)) != (b"", past, 2):
        return 1, "going on from past the end"
    if (
        own.program.run(b"", *run, "--log", own.new("log"))[2] != 2
        or own.program.run(b"", "run", "--from", "1")[2] != 2
    ):
        return 1, "--log, or --from alone"
    audited = own.program.run(b"", *run, "--from", str(LINES), "--audit")
    if audited[2] != 0 or audited[0].count(b'{"audit":"ok","tenant":') != 4:
        return 1, "an audit of the whole"
    if own.program.run(given, "draw")[0] != own.program.run(open(journal, "rb").read(), "draw")[0]:
        return 1, "a drawing"
    return 1, locked(own, journal) or torn(own)


def locked(own, journal):
    """A second run, while one has the journal."""
    talk = own.program.talk("run", "--journal", journal)
    talk.ask(b"{}")
    out, said, status = own.program.run(b"", "run", "--journal", journal)
    talk.end()
    wanted = (b"", f'recall: another run has the journal "{journal}"\n'.encode(), 1)
    return None if (out, said, status) == wanted else "a second run at once"


def torn(own):
    """A last line that isn't whole is cut off, and one without a line feed at the end of the input is none of these."""
    journal = own.new("torn")
    with open(journal, "wb") as file:
        file.write(own.lines[0] + own.lines[1][:-1])
    said = own.program.run(b"", "run", "--journal", journal, "--adopt")[1]
    if b"was not whole, and is cut off: it has 1 line," not in said or open(journal, "rb").read() != own.lines[0]:
        return "a torn line"
    journal = own.new("open")
    out = own.program.run(b"".join(own.lines)[:-1], "run", "--journal", journal)[0]
    if out != own.wanted or open(journal, "rb").read() != b"".join(own.lines):
        return "an input whose last line has no line feed"
    return None


def checks(program, room):
    """Each check's name, and what does it."""
    own = Journal(program, room)
    named = (
        ("syncs that fail", syncs),
        ("writes that fail", writes),
        ("memory that is refused", memory),
        ("calls that are interrupted", interrupted),
        ("words", words),
    )
    return [(name, lambda check=check: check(own)) for name, check in named]
