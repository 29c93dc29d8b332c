"""Each text that the program writes to standard error, seen in a run.

The texts are read off the sources. Each must be seen in one of the runs here, but for those that are named with the
reason why no run shows them.
"""

import glob
import os
import re
import struct
import subprocess
import tempfile

from program import HERE, SECONDS

CRATES = os.path.join(HERE, "..", "..", "crates")
TEXT = re.compile(r'(?:error|warn|info)!\((?:[\w&.]+); "((?:[^"\\]|\\.)*)"')

# Texts that come within one of those: a file that is read whole finds no memory.
WITHIN = {"can't be loaded: there is no memory for it", "is left aside: there is no memory for it"}

# Texts that no run here shows: of what can't come to be, or is shown elsewhere.
UNSEEN = {
    "a tenant has no name: it is not audited": "each open tenant has one",
    "the history is not that of the feeds: no reply is written": "threads that keep to the code never come to it",
    "a standard stream is closed, and nothing can stand in its place: {error}": "the null device is there",
    "can't lock the journal {path:?}: {error}": "the system's locks don't fail",
    "the journal {path:?} was replaced while it was opened": "it takes a moment that can't be met",
    "waiting for step lines from the terminal, up to Ctrl-D: `{name} {command} --help` lists them":
        "tests/words has a terminal",
    "there are too many feeds: name at most {MAX_FEEDS} files": "the words take no more",
}

# Texts that no run by a book shows besides.
BY_A_HOST = {
    "a snapshot stands behind {} of the journal": "a run that stores its history begins with the first line",
    "the snapshot stands behind line {from}: the lines of the journal are stepped from the first": "so it does",
    "{} refused": "each refusal is told there, with its reason",
}

OPEN = b'{"do":"open","tenant":"a","units":["echo"]}\n'
POST = b'{"do":"post","number":0,"tenant":"a","text":"a text of more than sixteen bytes","unit":0}\n'
FLUSH = b'{"do":"flush","tenant":"a","unit":0}\n'
IMAGE = b"RV1\1" + bytes(4000)
# An ELF file for RISC-V whose one segment is that image.
ELF = (
    b"\x7fELF\1\1\1"
    + bytes(9)
    + struct.pack("<HHIIIIIHHHHHH", 2, 243, 1, 4, 52, 0, 0, 52, 32, 1, 0, 0, 0)
    + struct.pack("<8I", 1, 84, 0, 0, len(IMAGE), len(IMAGE), 7, 4)
    + IMAGE
)
LINES = OPEN + POST + FLUSH + b'{"do":"release","tenant":"a","unit":0}\n'
WHY = ("why", "--tenant", "a", "--unit", "0")


def texts():
    """The format texts of all messages."""
    found = set()
    for path in glob.glob(f"{CRATES}/*/src/*.rt"):
        with open(path, encoding="utf-8") as file:
            found.update(TEXT.findall(file.read()))
    return found


def matcher(text):
    """What a message of this text reads like."""
    return re.compile(
        "".join(
            ".*" if part.startswith("{") else re.escape(part)
            for part in re.split(r"(\{[^{}]*\})", text.replace('\\"', '"'))
        ),
        re.S,
    )


class Runs:
    """Runs in a folder of their own, and all that they said."""

    def __init__(self, program, room):
        self.program, self.room, self.said, self.count = program, room, [], 0

    def file(self, name, data=b"", mode=0o600):
        path = os.path.join(self.room, name)
        with open(path, "wb") as file:
            file.write(data)
        os.chmod(path, mode)
        return path

    def run(self, given, *words, out=subprocess.PIPE, **faults):
        own = self.file("given", given)
        with open(own, "rb") as stream:
            ran = subprocess.run(
                self.program.command(*words),
                stdin=stream,
                stdout=out,
                stderr=subprocess.PIPE,
                timeout=SECONDS,
                cwd=self.room,
                env=self.program.environment(**faults),
            )
        self.count += 1
        self.said += ran.stderr.decode(errors="replace").splitlines()
        return ran.returncode

    def refused(self, given, *words, fresh=()):
        """The same run with each request for memory refused in turn, up to the first that isn't made."""
        requests = self.counted(given, *words)
        for n in range(1, requests + 1):
            for name in fresh:
                for each in (name, name + ".about"):
                    if os.path.exists(os.path.join(self.room, each)):
                        os.remove(os.path.join(self.room, each))
            self.run(given, *words, refuse=n)

    def counted(self, given, *words):
        """How many requests for memory such a run makes."""
        path = self.file("count", bytes(8))
        self.run(given, *words, count=path)
        with open(path, "rb") as file:
            return int.from_bytes(file.read(8), "little")


def files(runs):
    """Files that can't be opened, made, read or trusted."""
    room = runs.room
    runs.run(b"", "run", "--journal", "none/journal")
    runs.run(b"", "run", "--log", "none/log")
    runs.run(b"", "draw", "--to", "none/picture")
    runs.run(b"", "journal", "none")
    runs.run(b"", "feeds", "none")
    os.mkdir(os.path.join(room, "folder"))
    os.mkfifo(os.path.join(room, "pipe"))
    runs.run(OPEN, "run", "--journal", "folder")
    runs.run(OPEN, "run", "--log", "folder")
    runs.run(b"", "feeds", "folder")
    runs.file("notes", b"milk\n")
    runs.run(OPEN, "run", "--journal", "notes")
    runs.run(LINES, "run", "--journal", "journal")
    runs.run(POST, "run", "--journal", "journal")
    runs.run(b"", "run", "--journal", "journal", "--from", "99")
    runs.file("journal.about", b'{"handler":"other"}')
    runs.run(b"", "run", "--journal", "journal")
    runs.file("journal.about", b"{")
    runs.run(b"", "run", "--journal", "journal")
    os.mkdir(os.path.join(room, "new.about"))
    runs.run(LINES, "run", "--journal", "new")
    runs.file("large", b"")
    os.truncate(os.path.join(room, "large"), 300 << 20)
    runs.run(b"", "feeds", "large")
    runs.run(b"", "feeds", *["given"] * 65)
    reader = subprocess.Popen(["cat", os.path.join(room, "pipe")], stdout=subprocess.DEVNULL)
    runs.run(LINES, "run", "--log", "pipe")
    reader.wait(SECONDS)


def journals(runs):
    """A journal that fails, that another has, or that somebody changes."""
    for words in ({"append": 0}, {"append": 60}, {"sync": 1}, {"sync": 2}, {"sync": 3}, {"sync": 4}, {"sync": 5}):
        for lines in (0, 1):
            runs.run(LINES, "run", "--journal", f"fails-{len(runs.said)}-{lines}", lines=lines, **words)
    runs.run(LINES, "run", "--journal", "whole")
    with open(os.path.join(runs.room, "whole"), "ab") as file:
        file.write(b"{")
    runs.run(POST, "run", "--journal", "whole")
    runs.run(LINES, "run", "--journal", "read", read=len(OPEN), lines=1)
    runs.run(LINES, "run", "--journal", "written", write=5)
    for room in range(100, 260, 15):
        runs.run(LINES, "run", "--journal", f"stays-{room}", append=room, cut=1, lines=1)
    for n in range(1, 8):
        runs.run(POST, "run", "--journal", "whole", fetch=n)
    for change in ("remove", "grow"):
        held(runs, change)


def held(runs, change):
    """A run whose journal is asked for by another, and then changed."""
    path, pipe = os.path.join(runs.room, change), subprocess.PIPE
    words = runs.program.command("run", "--journal", change)
    talk = subprocess.Popen(words, stdin=pipe, stdout=pipe, stderr=pipe, cwd=runs.room, bufsize=0)
    talk.stdin.write(OPEN)
    talk.stdout.readline()
    runs.run(b"", "run", "--journal", change)
    if change == "remove":
        os.remove(path)
    else:
        with open(path, "ab") as file:
            file.write(b"{}\n")
    _, said = talk.communicate(POST, SECONDS)
    runs.said += said.decode().splitlines()


def snapshots(runs):
    """Snapshots that are gone on from, left aside, or can't be written, and journals that are trimmed."""
    kept = ("run", "--journal", "kept")
    runs.run(LINES, *kept, "--snapshot", "4", "--cores", "2")
    whole = open(os.path.join(runs.room, "kept.snapshot"), "rb").read()
    runs.run(b"", *kept, "--verbose")
    runs.run(b"", *kept, "--audit")
    runs.run(b"", *kept, "--from", "1")
    runs.run(LINES, "run", "--journal", "unwritten", "--snapshot", "2", rename=2)
    runs.run(b"", "trim", "none")
    runs.run(b"", "trim", "kept", rename=2)
    runs.refused(b"", "trim", "kept")
    runs.run(b"", *kept, "--from", "1")
    runs.run(b"", "trim", "--drive", "kept")
    runs.run(b"", "trim", "kept", write=0)
    runs.file("kept.snapshot", whole[:-1])
    os.remove(os.path.join(runs.room, "kept.base"))
    runs.run(b"", *kept)
    runs.file("kept.snapshot", whole[:9])
    runs.run(b"", "trim", "kept")
    os.remove(os.path.join(runs.room, "kept.about"))
    runs.run(b"", *kept, "--adopt")
    os.remove(os.path.join(runs.room, "kept.snapshot"))


def streams(runs):
    """Input and output that fail."""
    for words in (["run"], ["draw"], ["feeds", "given"], ["run", "--audit"], ["status"], WHY):
        runs.run(LINES, *words, read=10)
        runs.run(LINES, *words, write=0)
    tenants = b"".join(b'{"do":"open","tenant":"t%d","units":["echo"]}\n' % each for each in range(3000))
    runs.run(tenants, "run", "--audit", write=100_000)
    runs.run(tenants, "run", "--audit", write=150_000)
    runs.run(b"", "journal", "whole", write=0)
    runs.run(LINES, "run", "--log", "/dev/full")
    runs.run(LINES, "run", "--strict")
    runs.run(LINES + LINES, "run", "--strict", "--explain")
    runs.run(LINES, "run", "--verbose")
    runs.run(LINES, "run", "--journal", "told", "--verbose")
    runs.run(LINES, "feeds", "-v", "given")
    runs.run(LINES, "draw", "--tenant", "nobody")
    runs.run(LINES, b"run", b"\xff")
    runs.run(LINES, "feeds", "given", threads=1)
    runs.run(LINES, "run", "--report", "1", threads=1)
    runs.run(LINES, "run", "--audit", "--cores", "2")


def driven(runs):
    """Letters that wait, and a journal that gives less than is asked for."""
    waits = OPEN.replace(b'["echo"]', b'["relay","echo"]') + b'{"do":"kill","tenant":"a","unit":1}\n' + POST
    runs.run(waits, "drive", "--verbose", "--explain")
    runs.run(waits, "drive", "--journal", "driven")
    runs.run(b"", "drive", "--journal", "driven", "--from", "99")


def views(runs):
    """What can't be told of units."""
    runs.run(b"", "status", "--journal", "none")
    runs.run(LINES, "why", "--tenant", "nobody", "--unit", "0")
    runs.run(LINES, "why", "--tenant", "a", "--unit", "1")


def images(runs):
    """Images that can't be loaded, and words that name no unit."""
    unit = ("--tenant", "a", "--unit", "0")
    runs.run(b"", "load", "/dev/zero", *unit)
    runs.run(b"", "load", "none", *unit)
    runs.run(b"milk\n", "load", "given", *unit)
    runs.run(IMAGE, "load", "given", *unit, write=0)
    runs.run(IMAGE, "load", "given", "--tenant", "A", "--unit", "0")
    runs.run(IMAGE, "load", "given", "--tenant", "a", "--unit", "256")
    runs.run(IMAGE, "load", "given", *unit, "--number", "4294967295")


def memory(runs):
    """Each request for memory refused in turn."""
    runs.refused(LINES, "run")
    runs.refused(LINES, "run", "--cores", "1")
    runs.refused(LINES, "run", "--audit", "--verbose")
    runs.refused(LINES, "draw")
    runs.refused(LINES, "draw", "--html")
    runs.refused(LINES, "feeds", "--audit", "-v", "given")
    runs.refused(LINES, "run", "--journal", "small", fresh=("small",))
    runs.refused(LINES, "drive", "--journal", "other", fresh=("other",))
    runs.refused(b"", "journal", "whole")
    runs.refused(OPEN + POST, "status", "--json")
    runs.refused(OPEN + POST, *WHY)
    runs.refused(IMAGE, "load", "given", "--tenant", "a", "--unit", "0")
    runs.file("program", ELF)
    runs.refused(b"", "load", "program", "--tenant", "a", "--unit", "0")
    runs.run(LINES, "run", "--journal", "again", "--snapshot", "4")
    runs.refused(b"", "run", "--journal", "again")


def each_text(program):
    """Whether each text was seen."""
    with tempfile.TemporaryDirectory(dir=program.room) as room:
        runs = Runs(program, room)
        for scene in (files, journals, snapshots, streams, driven, views, images, memory):
            scene(runs)
    wanted, unseen = texts() | WITHIN, UNSEEN | (BY_A_HOST if program.by_book else {})
    wrong = [f"{text!r} is no text of the sources" for text in unseen if text not in wanted]
    for text in sorted(wanted):
        is_seen = any(map(matcher(text).search, runs.said))
        if is_seen == (text in unseen):
            wrong.append(f"{'a run' if is_seen else 'no run'} said {text!r}")
    return runs.count, wrong


def checks():
    yield "each text on standard error", each_text
