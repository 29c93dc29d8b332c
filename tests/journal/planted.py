"""Sees that the runs that are killed fail where what they look for is there: python3 tests/journal/planted.py PROGRAM

Each fault is planted by a proxy between the test and the program. The last line is `N passed, M failed`, where a fault
that was not found counts as failed.
"""

import os
import subprocess
import sys
import tempfile

HERE = os.path.dirname(os.path.abspath(__file__))

HEAD = """#!/usr/bin/env python3
import ctypes, os, signal, subprocess, sys, time
REAL = {real!r}
words = sys.argv[1:]
if "--journal" not in words:
    os.execv(REAL, [REAL, *words])
journal, seen = words[words.index("--journal") + 1], int(words[words.index("--from") + 1])
"""

# A line is kept once its reply is out.
KEPT_AFTER_THE_STEP = """
def end_with_me():
    ctypes.CDLL(None).prctl(1, signal.SIGKILL)
real = subprocess.Popen([REAL, "run"], stdin=subprocess.PIPE, stdout=subprocess.PIPE, bufsize=0, preexec_fn=end_with_me)
def ask(line):
    real.stdin.write(line)
    return real.stdout.readline()
with open(journal, "a+b", buffering=0) as file:
    file.seek(0)
    kept = [line for line in file.read().splitlines(True) if line.endswith(b"\\n")]
    for at, line in enumerate(kept):
        reply = ask(line)
        if at >= seen:
            os.write(1, reply)
    while line := sys.stdin.buffer.readline():
        os.write(1, ask(line))
        time.sleep(0.001)
        file.write(line)
"""

# Who goes on misses a reply.
REPLY_DROPPED = """
with open(journal, "a+b") as file:
    file.seek(0)
    more = 0 < seen < file.read().count(b"\\n")
words[words.index("--from") + 1] = str(seen + more)
os.execv(REAL, [REAL, *words])
"""

# A line that a crash cut off stays as a line.
TORN_LINE_KEPT = """
with open(journal, "a+b") as file:
    file.seek(0)
    kept = file.read()
    if kept and not kept.endswith(b"\\n"):
        file.write(b"\\n")
os.execv(REAL, [REAL, *words])
"""

FAULTS = [
    ("a line that is kept after its step", KEPT_AFTER_THE_STEP),
    ("a reply that is dropped", REPLY_DROPPED),
    ("a torn line that is kept", TORN_LINE_KEPT),
]


def is_found(real, body, room):
    """Whether some of the runs that are killed fail over the proxy, and none without it."""
    proxy = os.path.join(room, "proxy")
    with open(proxy, "w") as file:
        file.write((HEAD + body).format(real=real))
    os.chmod(proxy, 0o755)
    return [
        subprocess.run([sys.executable, "-B", HERE, program, "kills of input 7"], capture_output=True).returncode
        for program in (real, proxy)
    ] == [0, 1]


def main():
    if len(sys.argv) != 2:
        sys.exit(__doc__)
    found = 0
    with tempfile.TemporaryDirectory() as room:
        for what, body in FAULTS:
            seen = is_found(os.path.abspath(sys.argv[1]), body, room)
            found += seen
            print(f"planted: {what}: {'found' if seen else 'NOT FOUND'}", flush=True)
    print(f"{found} passed, {len(FAULTS) - found} failed")
    return 0 if found == len(FAULTS) else 1


sys.exit(main())
