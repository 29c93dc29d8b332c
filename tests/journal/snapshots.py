"""Snapshots beside a journal: a run that goes on from one gives what a run of all lines gives, and one that can't be
gone on from costs time alone.
"""

import json
import os
import random
import shutil
import signal
import sys

sys.path.append(os.path.join(os.path.dirname(os.path.abspath(__file__)), "..", "drive"))

from crashes import crash, first_difference, plain
from inputs import line, small_input
from program import rows as worked_rows
from program import whole_lines
from scripts import script as driven_script

KILLED, SCRIPTS = 20, 120
EACH = "7"
GOES_ON = b"a snapshot stands behind %d line"
LEFT = b"is left aside: "
EARLIER = ("steps.jsonl", "replies.jsonl")


def killed_runs(program, room, seed):
    """The same runs that are killed, with a snapshot behind each seven lines."""
    return crash(program, room, seed, ("--snapshot", EACH))


class Kept:
    """A journal of some lines, and a snapshot behind all of them."""

    def __init__(self, program, room, name, lines, *words):
        self.program, self.words = program, words
        self.journal = os.path.join(room, name)
        out, said, status = self.run(b"".join(lines), "--snapshot", str(len(lines)))
        if status or not os.path.exists(self.snapshot):
            raise ValueError(f"status {status}, and no snapshot: {said.decode()}")

    @property
    def snapshot(self):
        return self.journal + ".snapshot"

    def run(self, given, *words, **faults):
        command = self.words or ("run",)
        return self.program.run(given, *command, "--journal", self.journal, *words, **faults)

    def trimmed(self):
        """How many of its lines were trimmed away."""
        return json.loads(self.program.run(b"", "journal", "--json", self.journal)[0])["trimmed"]

    def copy(self, name):
        """The same in files of another name."""
        other = Kept.__new__(Kept)
        other.program, other.words, other.journal = self.program, self.words, self.journal + name
        for end in ("", ".about", ".snapshot", ".base"):
            if os.path.exists(self.journal + end):
                shutil.copyfile(self.journal + end, other.journal + end)
        return other


def script(own, number):
    """A random script that is cut somewhere: behind the cut both give the same."""
    chance = random.Random(number)
    is_driven = number % 3 == 0
    command = ("drive",) if is_driven else ("run",)
    lines = [step + b"\n" for step in driven_script(number)] if is_driven else small_input(5000 + number)
    cut = 1 + chance.randrange(len(lines) - 1)
    wanted = own.program.run(b"".join(lines), *command)[0]
    kept = Kept(own.program, own.room, f"script-{number}", lines[:cut], *command)
    before = own.program.run(b"".join(lines[:cut]), *command)[0]
    out, said, status = kept.run(b"".join(lines[cut:]), "-v")
    if status or GOES_ON % cut not in said:
        return f"script {number}: status {status}: {said.decode()}"
    if before + out != wanted:
        return f"script {number}, cut at {cut}: {first_difference(before + out, wanted)}"
    for end in ("", ".about", ".snapshot"):
        os.remove(kept.journal + end)
    return None


def scripts(own):
    """Random scripts, stepped and driven."""
    for number in range(SCRIPTS):
        if wrong := script(own, number):
            return number, wrong
    return SCRIPTS, None


def rows(own):
    """Each worked row, with a snapshot behind each of its lines."""
    count = 0
    for name, steps, replies in worked_rows():
        lines = [step + b"\n" for step in steps]
        wanted = b"".join(reply + b"\n" for reply in replies)
        for cut in range(1, len(lines), max(1, len(lines) // 12)):
            kept = Kept(own.program, own.room, f"row-{name}-{cut}", lines[:cut])
            out, said, status = kept.run(b"".join(lines[cut:]), "-v")
            count += 1
            before = b"".join(wanted.splitlines(True)[:cut])
            if status or GOES_ON % cut not in said or before + out != wanted:
                return count, f"row {name}, cut at {cut}: {first_difference(before + out, wanted)}: {said.decode()}"
            for end in ("", ".about", ".snapshot"):
                os.remove(kept.journal + end)
    return count, None if count else "there is no row"


def small_state():
    """A few lines of one tenant, whose state has something of everything."""
    do = [
        line("open", "a", units=["tee", "count"]),
        line("post", "a", unit=0, number=0, text="x"),
        line("flush", "a", unit=0),
        line("checkpoint", "a", unit=0),
        line("post", "a", unit=0, number=1, text="y"),
        line("kill", "a", unit=1),
        line("restart", "a", unit=1),
        line("deliver", "a", letter=0),
    ]
    then = [line(step, "a", unit=unit) for unit in (0, 1) for step in ("notice", "flush", "release", "status")]
    return do, then


def changed(own):
    """Each byte of a small snapshot changed, and each beginning of it: it is left aside, and the replies are right."""
    lines, more = small_state()
    wanted = plain(own.program.path, lines + more)[len(plain(own.program.path, lines)) :]
    kept = Kept(own.program, own.room, "changed", lines)
    whole = open(kept.snapshot, "rb").read()
    spoiled = [(f"without byte {at}", whole[:at]) for at in range(len(whole))]
    for at in range(len(whole)):
        byte = (whole[at] + 1 + at % 255) % 256
        spoiled.append((f"byte {at} is {byte}", whole[:at] + bytes([byte]) + whole[at + 1 :]))
    spoiled.append(("a byte more", whole + b"\0"))
    for count, (what, bytes_now) in enumerate(spoiled):
        there = kept.copy("-now")
        with open(there.snapshot, "wb") as file:
            file.write(bytes_now)
        out, said, status = there.run(b"".join(more), "-v")
        if LEFT not in said or GOES_ON % len(lines) in said:
            return count, f"{what}: it is not left aside: {said.decode()}"
        if status or out != wanted:
            return count, f"{what}: status {status}: {first_difference(out, wanted)}"
    out, said, status = kept.run(b"".join(more), "-v")
    if status or out != wanted or GOES_ON % len(lines) not in said:
        return len(spoiled), f"unchanged: status {status}: {said.decode()}"
    return len(spoiled), None


def misfits(own):
    """Snapshots that don't fit: of another journal, of a longer one, of another handler, of a driver."""
    lines, more = small_state()
    program = own.program
    kept = Kept(program, own.room, "misfit", lines)

    def left(why, *words, snapshot=None, journal=None, first="run"):
        there = kept.copy("-there")
        there.words = (first,)
        if snapshot is not None:
            shutil.copyfile(snapshot, there.snapshot)
        if journal is not None:
            with open(there.journal, "wb") as file:
                file.write(b"".join(journal))
        out, said, status = there.run(b"".join(more), "-v", *words)
        given = b"".join((lines if journal is None else journal) + more)
        programs = tuple(word for word in words if word == "--programs")
        whole = program.run(given, first, *programs)[0]
        if status or not whole.endswith(out) or not out:
            return f"{why}: status {status}: {said.decode()}"
        if LEFT + why.encode() not in said.replace(b'"', b""):
            return f"{why} isn't told: {said.decode()}"
        return None

    other = Kept(program, own.room, "other", [line("open", "b", units=["echo"])] + lines[1:])
    longer = Kept(program, own.room, "longer", lines + more)
    os.chmod(other.snapshot, 0o600)
    cases = (
        ("it is of another journal", (), {"snapshot": other.snapshot}),
        ("it stands behind more than the journal has", (), {"snapshot": longer.snapshot}),
        ("a snapshot about another handler", (), {"first": "drive"}),
        ("a snapshot about another handler", ("--programs", "--accept-upgrade"), {}),
        ("it is of another journal", (), {"journal": [line("open", "c", units=["echo"])] + lines}),
    )
    for count, (why, words, how) in enumerate(cases):
        if wrong := left(why, *words, **how):
            return count, wrong
    wrong = unfit(kept, more) or asked_before(own, kept, lines, more) or needs_history(kept, more)
    return len(cases), wrong


def open_to_others(path):
    os.chmod(path, 0o666)


def in_place_of(make):
    """What puts another thing in a file's place."""

    def put(path):
        os.remove(path)
        make(path)

    return put


def unfit(kept, more):
    """What is no snapshot of one's own is left aside, and a pipe isn't waited for, nor in the place of the page."""
    for why, put in (
        (b"chmod go-w", open_to_others),
        (b"it is a pipe", in_place_of(os.mkfifo)),
        (b"it is a folder", in_place_of(os.mkdir)),
        (b"it is a device", in_place_of(lambda path: os.symlink("/dev/zero", path))),
    ):
        there = kept.copy("-open-" + why.decode().replace(" ", "-"))
        put(there.snapshot)
        out, said, status = there.run(b"".join(more), "-v")
        if status or LEFT not in said or why not in said:
            return f"one of which {why.decode()!r} should be told: status {status}: {said.decode()}"
    there = kept.copy("-page")
    in_place_of(os.mkfifo)(there.journal + ".about")
    out, said, status = there.run(b"".join(more), "-v")
    if status != 1 or b"it is a pipe" not in said or out:
        return f"a pipe in the place of the page: status {status}: {said.decode()}"
    return None


def asked_before(own, kept, lines, more):
    """Replies to lines before the snapshot are given all the same."""
    there = kept.copy("-from")
    wanted = plain(own.program.path, lines + more)
    tail = b"".join(wanted.splitlines(True)[3:])
    out, said, status = there.run(b"".join(more), "--from", "3")
    if status or out != tail or b"the snapshot stands behind line 3" not in said:
        return f"--from a line before it: status {status}: {said.decode()}"
    out, said, status = there.run(b"", "--from", str(len(lines)), "-v")
    if status or out != b"".join(wanted.splitlines(True)[len(lines) :]):
        return f"--from a line behind it: status {status}: {said.decode()}"
    return None


def needs_history(kept, more):
    """An audit steps from the first line."""
    there = kept.copy("-audit")
    out, said, status = there.run(b"".join(more), "--audit")
    if status or b'{"audit":"ok","tenant":"a"}' not in out or b"--audit needs the history" not in said:
        return f"--audit: status {status}: {said.decode()}"
    return None


def faults(own):
    """Each write, sync and rename fails in turn, and the run is killed at each; a snapshot is kept behind each two
    lines."""
    lines, more = small_state()
    given, wanted = lines + more, plain(own.program.path, lines + more)
    count = 0
    for word in ("append", "sync", "rename", "end"):
        steps = range(0, 100_000, 13) if word == "append" else range(1, 10_000)
        for value in steps:
            journal = os.path.join(own.room, f"fault-{word}-{value}")
            run = ("run", "--journal", journal, "--snapshot", "2")
            out, said, status = own.program.run(b"".join(given), *run, lines=1, **{word: value})
            seen = out[: out.rfind(b"\n") + 1]
            count += 1
            if status not in ((-signal.SIGKILL, 0) if word == "end" else (0, 1)) or not wanted.startswith(seen):
                return count, f"{word} {value}: status {status}: {said.decode()}"
            if status == 0 and out != wanted:
                return count, f"{word} {value}: {first_difference(out, wanted)}"
            durable = whole_lines(journal)
            rest, told, status_then = own.program.run(
                b"".join(given[durable:]), *run, "--from", str(seen.count(b"\n")), "-v"
            )
            if status_then or seen + rest != wanted:
                return count, f"{word} {value}: going on: {status_then}: {told.decode()}"
            if status == 0 and b"can't write the snapshot" not in said and b"can't be synced" not in said:
                break
    return count, None


def memory(own):
    """Each request for memory of a run that goes on from a snapshot, and keeps others, is refused in turn."""
    lines, more = small_state()
    wanted = plain(own.program.path, lines + more)[len(plain(own.program.path, lines)) :]
    kept = Kept(own.program, own.room, "memory", lines)
    counted = kept.copy("-count")
    words = ("run", "--journal", counted.journal, "--snapshot", "3")
    requests = own.program.count(b"".join(more), *words)
    for number in range(1, requests + 1):
        there = kept.copy("-now")
        out, said, status = there.run(b"".join(more), "--snapshot", "3", lines=1, refuse=number)
        seen = out[: out.rfind(b"\n") + 1]
        if status not in (0, 1) or not wanted.startswith(seen):
            return number, f"request {number}: status {status}: {said.decode()}"
        durable = whole_lines(there.journal)
        rest, said, status = there.run(
            b"".join(more[durable - len(lines) :]), "--from", str(len(lines) + seen.count(b"\n"))
        )
        if status or seen + rest != wanted:
            return number, f"request {number}: going on: {status}: {said.decode()}"
    return requests, None if requests else "no request was counted"


def trimmed(own):
    """A journal whose lines before the snapshot are taken away is gone on with, and tells what it lacks."""
    lines, more = small_state()
    program, later = own.program, [line("status", "a", unit=unit) for unit in (0, 1)]
    wanted = plain(program.path, lines + more + later).splitlines(True)
    kept = Kept(program, own.room, "trimmed", lines)
    path, count = kept.journal, len(lines)
    said = program.run(b"", "trim", path)
    if said[2] or b"%d lines trimmed away; its first one is line %d (from 0)\n" % (count, count) not in said[0]:
        return 1, f"trim: {said}"
    first, _, rest = open(path, "rb").read().partition(b"\n")
    if rest or not first.startswith(b'{"journal":%d,"tail":"' % count):
        return 1, f"the file is {first!r} and {rest!r}"
    told = json.loads(program.run(b"", "journal", "--json", path)[0])
    if (told["lines"], told["trimmed"], told["torn"]) != (count, count, 0):
        return 1, f"it is told as {told}"
    out, said, status = kept.run(b"".join(more), "-v", "--from", str(count), "--snapshot", "3")
    if status or out != b"".join(wanted[count : count + len(more)]) or GOES_ON % count not in said:
        return 1, f"going on: {status}: {said.decode()}: {first_difference(out, b''.join(wanted[count:]))}"
    refused = (
        (("--from", str(count - 1)), 2, b"and with them replies that --from asks for"),
        (("--audit",), 1, b"there is no snapshot to go on from"),
    )
    for words, status, why in refused:
        had = kept.run(b"", *words)
        if had[2] != status or why not in had[1]:
            return 1, f"{words}: {had}"
    for words in (("draw", "--journal"), ("status", "--journal"), ("why", "--tenant", "a", "--unit", "0", "--journal")):
        if words[0] != "draw" and b"trimmed away" not in program.run(b"", *words, path)[1]:
            return 1, f"{words[0]} steps lines that are gone"
    behind = count + len(more)
    out, said, status = kept.run(b"".join(later), "-v", "--from", str(count))
    if status or out != b"".join(wanted[count:]) or GOES_ON % count not in said:
        return 1, f"going on once more: {status}: {said.decode()}"
    return 1, again(own, kept, behind) or lost(own, kept)


def again(own, kept, behind):
    """It can be trimmed once more."""
    there = kept.copy("-again")
    had = own.program.run(b"", "trim", there.journal)
    told = json.loads(own.program.run(b"", "journal", "--json", there.journal)[0])
    if had[2] or not behind - 3 < told["trimmed"] <= behind or told["lines"] != behind + 2:
        return f"trimmed once more: {had}: {told}"
    out, said, status = there.run(b"", "-v")
    return f"going on behind that: {status}: {said.decode()}" if status else None


def lost(own, kept):
    """Without its snapshot a trimmed journal is gone on with from its base, and without that, or its page, it is
    refused, and isn't changed."""
    there = kept.copy("-lost")
    os.remove(there.snapshot)
    had = there.run(b"", "-v")
    if had[2] or GOES_ON % there.trimmed() not in had[1]:
        return f"without its snapshot: {had}"
    os.remove(there.journal + ".base")
    had = there.run(b"")
    if had[2] != 1 or b"there is no snapshot to go on from" not in had[1]:
        return f"without its base: {had}"
    os.remove(there.journal + ".about")
    had = there.run(b"", "--adopt")
    if had[2] != 1 or b"it can't be taken over" not in had[1]:
        return f"without its page: {had}"
    had = own.program.run(b"", "trim", there.journal)
    if had[2] != 1 or b"there is no snapshot" not in had[1]:
        return f"trimmed without a snapshot: {had}"
    if open(there.journal, "rb").read() != open(kept.journal, "rb").read():
        return "a journal that is refused is changed"
    return None


def trims_that_fail(own):
    """Each write, sync and rename of a trim fails in turn, and it is killed at each: the journal is gone on with."""
    lines, more = small_state()
    wanted = plain(own.program.path, lines + more)[len(plain(own.program.path, lines)) :]
    kept, count = Kept(own.program, own.room, "untrimmed", lines), 0
    for word in ("append", "sync", "rename", "end"):
        for value in range(0, 1000, 7) if word == "append" else range(1, 100):
            there = kept.copy(f"-{word}-{value}")
            had = own.program.run(b"", "trim", there.journal, **{word: value})
            count += 1
            if had[2] not in (0, 1, -signal.SIGKILL):
                return count, f"{word} {value}: {had}"
            out, said, status = there.run(b"".join(more), "--from", str(len(lines)), "-v")
            if status or out != wanted:
                return count, f"{word} {value}: going on: {status}: {said.decode()}"
            if had[2] == 0:
                break
    return count, None


def earlier_form(own, name, gone, kept):
    """A trimmed journal whose snapshot has an earlier form (0.7.1 made the first, 0.8.0 the second), behind so many
    lines, with so many of them in the journal: a run goes on from it, and the next one from the snapshot that the first
    left, which has the form of now."""
    folder = os.path.join(os.path.dirname(os.path.abspath(__file__)), "..", "earlier-forms", name)
    steps, replies = (open(os.path.join(folder, part), "rb").read().splitlines(True) for part in EARLIER)
    old = Kept.__new__(Kept)
    old.program, old.words, old.journal = own.program, (), os.path.join(own.room, f"{name}-form")
    for end in ("", ".about", ".snapshot", ".base"):
        shutil.copyfile(os.path.join(folder, "journal" + end), old.journal + end)
    before = open(old.snapshot, "rb").read()
    half = len(steps) // 2
    for count, (start, end, behind) in enumerate(((0, half, gone), (half, len(steps), gone + kept + half))):
        out, said, status = old.run(b"".join(steps[start:end]), "-v", "--snapshot", "1")
        if GOES_ON % behind not in said:
            return count, f"it does not go on behind {behind} lines: {said.decode()}"
        if status or out != b"".join(replies[start:end]):
            return count, f"status {status}: {first_difference(out, b''.join(replies[start:end]))}"
    if open(old.snapshot, "rb").read() == before:
        return 2, "the snapshot is the one that was there"
    return 2, None


class Room:
    def __init__(self, program, room):
        self.program, self.room = program, room


def checks(program, room):
    """Each check's name, and what does it."""
    own = Room(program, room)
    # A run that stores its history goes on from no snapshot.
    gone_on_from = () if program.by_book else (
        ("random scripts behind a snapshot", scripts),
        ("rows behind a snapshot", rows),
        ("snapshots that are changed", changed),
        ("snapshots that don't fit", misfits),
        ("journals that are trimmed", trimmed),
        ("trims that fail", trims_that_fail),
        ("a snapshot of the first form", lambda own: earlier_form(own, "first", 35, 3)),
        ("a snapshot of the second form", lambda own: earlier_form(own, "second", 347, 0)),
    )
    kept = (
        ("snapshots that can't be written", faults),
        ("memory of a snapshot that is refused", memory),
    )
    killed = [
        (f"kills with snapshots of input {seed}", lambda seed=seed: killed_runs(program, room, seed))
        for seed in range(KILLED)
    ]
    return killed + [(name, lambda check=check: check(own)) for name, check in (*gone_on_from, *kept)]
