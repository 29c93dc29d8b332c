"""The program under test: started with faults planted in its libraries' calls, and talked to line by line."""

import json
import os
import subprocess
import sys
import tempfile

HERE = os.path.dirname(os.path.abspath(__file__))
ROWS = os.path.join(HERE, "..", "..", "crates", "rows", "data")
# The rows' own program, as `rt ci` builds it.
ROWS_PROGRAM = os.path.join(HERE, "..", "..", "crates", "rows", "out", "rows")
SECONDS = 60
# The word by which a run stores its history: a book answers it then, and a host else.
BY_BOOK = "--explain"


class Program:
    """Where the program is, the shim that plants its faults, and whether a book answers its runs."""

    by_book = False

    def __init__(self, path, room, by_book=False):
        self.path = os.path.abspath(path)
        self.room = room
        self.by_book = by_book
        self.shim = os.path.join(room, "faults.so")
        subprocess.run(
            ["cc", "-O1", "-fPIC", "-shared", "-o", self.shim, os.path.join(HERE, "faults.c"), "-ldl"], check=True
        )

    def command(self, *words):
        """The program with these words, or with `run` alone. By a book each `run` has one word more."""
        words = words or ("run",)
        more = [BY_BOOK] if self.by_book and words[0] == "run" else []
        return [self.path, words[0], *more, *words[1:]]

    def environment(self, **faults):
        """The environment in which these faults come: RECALL_REFUSE and its kin, without the prefix and in lower
        case."""
        own = {
            "PATH": os.environ.get("PATH", ""),
            "LD_PRELOAD": self.shim,
            "RECALL_ONLY": os.environ.get("RECALL_ONLY", os.path.basename(self.path)),
        }
        return {**own, **{"RECALL_" + name.upper(): str(value) for name, value in faults.items()}}

    def run(self, given, *words, **faults):
        """Runs it on these bytes to the end: what it wrote, what it complained of, and its status."""
        with tempfile.TemporaryFile(dir=self.room) as file:
            file.write(given)
            file.seek(0)
            ran = subprocess.run(
                self.command(*words),
                stdin=file,
                capture_output=True,
                timeout=SECONDS,
                env=self.environment(**faults),
            )
        return ran.stdout, ran.stderr, ran.returncode

    def count(self, given, *words):
        """How many requests for memory such a run makes, where each line comes alone."""
        return self.counted(lambda name: self.run(given, *words, count=name, lines=1))

    def run_row(self, line, **faults):
        """Gives the rows' own program a line: what it wrote, and its status."""
        environment = {**self.environment(**faults), "RECALL_ONLY": os.path.basename(ROWS_PROGRAM)}
        ran = subprocess.run(
            [ROWS_PROGRAM], input=line.encode() + b"\n", capture_output=True, timeout=SECONDS, env=environment, cwd=ROWS
        )
        return ran.stdout, ran.returncode

    def counted(self, run):
        """How many requests for memory a run makes that counts in the file that it is told."""
        with tempfile.NamedTemporaryFile(dir=self.room) as file:
            file.write(bytes(8))
            file.flush()
            run(file.name)
            with open(file.name, "rb") as counted:
                return int.from_bytes(counted.read(8), sys.byteorder)

    def talk(self, *words, **faults):
        return Talk(self.command(*words), self.environment(**faults))


class Talk:
    """A run that is given a line at a time, and asked for its reply before the next."""

    def __init__(self, words, environment):
        pipe = subprocess.PIPE
        self.process = subprocess.Popen(words, stdin=pipe, stdout=pipe, stderr=pipe, env=environment, bufsize=0)
        self.replies = self.process.stdout

    def ask(self, line):
        """The reply to a line without its line feed, or None where the program ended before it was out."""
        try:
            self.process.stdin.write(line + b"\n")
        except BrokenPipeError:
            return None
        reply = bytearray()
        while not reply.endswith(b"\n"):
            got = self.replies.read(65536)
            if not got:
                self.rest = bytes(reply)
                return None
            reply += got
        return bytes(reply[:-1])

    rest = b""

    def end(self):
        """Ends the input: what was still written, and the status."""
        try:
            self.process.stdin.close()
        except BrokenPipeError:
            pass
        rest = self.replies.read()
        self.process.stderr.read()
        status = self.process.wait(SECONDS)
        self.replies.close()
        self.process.stderr.close()
        return rest, status


def rows():
    """The worked rows that need no store that fails and no turn that is worked elsewhere: name, step lines, reply
    lines."""
    found = []
    for file in sorted(os.listdir(ROWS)):
        name, kind = os.path.splitext(file)
        if kind == ".steps" and not name.startswith(
            ("audited-", "certified-", "driven-", "fails-", "kept-", "told-", "turns-")
        ):
            steps = open(os.path.join(ROWS, file), "rb").read().splitlines()
            replies = open(os.path.join(ROWS, name + ".replies"), "rb").read().splitlines()
            found.append((name, steps, replies))
    return found


def whole_lines(journal):
    """How many whole lines the journal has: none where it isn't there."""
    try:
        with open(journal, "rb") as file:
            return file.read().count(b"\n")
    except FileNotFoundError:
        return 0


def joined(lines):
    return b"".join(line + b"\n" for line in lines)


def object_of(line):
    """The object that a line holds, or an empty one."""
    try:
        value = json.loads(line)
    except ValueError:
        return {}
    return value if isinstance(value, dict) else {}
