"""Snapshots of a partition: the program keeps them beside a journal in a folder of the worker's, and the server has the
last one, from which the next worker goes on."""

import json
import os
import subprocess
import tempfile

MARK, DIGEST = b"RECALLSJ\1", 32  # (what a snapshot begins with; the bytes of a digest)
MOST = 24 << 20  # (bytes: a larger snapshot stays with its worker)
LARGEST = 1 << 30  # (bytes of a journal, with which its worker ends: the next one begins with an empty one)


def number_in(data, at):
    """A number of a snapshot, and where it ends."""
    return (data[at], at + 1) if data[at] < 255 else (int.from_bytes(data[at + 1 : at + 9], "little"), at + 9)


def stand_of(data):
    """How many lines a snapshot stands behind, and the digest of the last of them; nothing where it is no snapshot."""
    if not data.startswith(MARK):
        return None
    at = len(MARK) + DIGEST
    _, at = number_in(data, at)
    lines, at = number_in(data, at)
    for _ in ("bytes", "written"):
        _, at = number_in(data, at)
    size, at = number_in(data, at)
    return lines, data[at : at + size].hex()


class Snapshots:
    """The folder of a worker, and where its partition's snapshot is in the server."""

    def __init__(self, server, key, each):
        self.server, self.key, self.each = server, key, each
        self.folder = tempfile.TemporaryDirectory(prefix="recall-")
        self.journal = os.path.join(self.folder.name, "journal")
        self.seen = None

    def words(self):
        """The words of a run that goes on from the journal, and keeps snapshots."""
        return ["--quiet", "--journal", self.journal, "--snapshot", str(self.each)]

    def begin(self, program):
        """Lays the files out by what the server has: how many steps they stand behind, and the place of the last.
        Nothing where it has none, or where the program can't go on from it."""
        kept = self.server.hgetall(self.key)
        if not kept:
            return 0, b"0"
        try:
            lines = self.lay_out(kept[b"about"], kept[b"bytes"])
        except (IndexError, KeyError, TypeError, ValueError):
            return 0, b"0"  # (it is no snapshot)
        if self.goes_on(program):
            self.seen = self.look()
            return lines, kept[b"at"]
        for end in ("", ".about", ".snapshot"):
            os.remove(self.journal + end)
        return 0, b"0"

    def lay_out(self, page, data):
        """Writes the files of a journal whose lines up to the snapshot are gone: how many these are."""
        lines, tail = stand_of(data)
        first = json.dumps({"journal": lines, "tail": tail}, separators=(",", ":")) + "\n"
        about = json.dumps({**json.loads(page), "trimmed": lines})
        for end, words in (("", first.encode()), (".about", about.encode()), (".snapshot", data)):
            self.write(end, words)
        return lines

    def write(self, end, data):
        with open(self.journal + end, "wb", opener=lambda path, flags: os.open(path, flags, 0o600)) as file:
            file.write(data)

    def goes_on(self, program):
        """Whether a run goes on from the files."""
        words = [program, "run", *self.words()]
        nothing = subprocess.DEVNULL
        return subprocess.run(words, stdin=nothing, stdout=nothing).returncode == 0

    def look(self):
        """Which file the snapshot is now."""
        try:
            found = os.stat(self.journal + ".snapshot")
        except FileNotFoundError:
            return None
        return found.st_ino, found.st_mtime_ns

    def newer(self, count):
        """The snapshot that the program wrote since it was looked at, where no more replies than are recorded were
        written before it: how many steps it stands behind, its page, and its bytes."""
        found = self.look()
        if found == self.seen:
            return None
        with open(self.journal + ".snapshot", "rb") as file:
            data = file.read()
        lines, _ = stand_of(data)
        if lines > count:
            return None
        self.seen = found
        with open(self.journal + ".about", "rb") as file:
            return lines, file.read(), data

    def is_full(self):
        """Whether the journal is as large as one may be."""
        try:
            return os.path.getsize(self.journal) > LARGEST
        except FileNotFoundError:
            return False
