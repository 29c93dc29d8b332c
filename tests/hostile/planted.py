"""Sees that the hostile tests fail where what they look for is there: python3 tests/hostile/planted.py PROGRAM

Each fault is planted by a proxy between a test and the program. The last line is `N passed, M failed`, where a fault
that no check found counts as failed.
"""

import os
import subprocess
import sys
import tempfile

HERE = os.path.dirname(os.path.abspath(__file__))

HEAD = """#!/usr/bin/env python3
import json, subprocess, sys
REAL = {real!r}
words = [REAL, *sys.argv[1:]]
"""

# A step that is answered `memory` is done all the same.
DONE_ALL_THE_SAME = """
real = subprocess.Popen(words, stdin=subprocess.PIPE, stdout=subprocess.PIPE, bufsize=0)
for line in sys.stdin.buffer:
    real.stdin.write(line)
    reply = real.stdout.readline()
    if b'"no":"memory"' in reply:
        real.stdin.write(line)
        real.stdout.readline()
    if not reply:
        break
    sys.stdout.buffer.write(reply)
    sys.stdout.buffer.flush()
real.stdin.close()
sys.exit(real.wait())
"""

# After a fault the last line that was answered is lost.
ANSWER_LOST = """
ran = subprocess.run(words, stdout=subprocess.PIPE)
lines = ran.stdout.splitlines(True)
sys.stdout.buffer.write(b"".join(lines[:-1] if ran.returncode else lines))
sys.exit(ran.returncode)
"""

# After a fault the status is that of a good end.
FAULT_UNTOLD = """
ran = subprocess.run(words, stdout=subprocess.PIPE)
sys.stdout.buffer.write(ran.stdout)
"""

# A kill makes the unit's last released outputs leave once more.
RELEASED_TWICE = """
given = sys.stdin.buffer.read()
ran = subprocess.run(words, input=given, stdout=subprocess.PIPE)
last, again = {{}}, {{}}
for line, out in zip(given.splitlines(), ran.stdout.splitlines()):
    step, reply = json.loads(line), json.loads(out)
    who = step["tenant"], step.get("unit")
    if "outputs" in reply:
        reply["outputs"] = again.pop(who, []) + reply["outputs"]
        last[who] = reply["outputs"] or last.get(who, [])
    if "lost" in reply:
        again[who] = last.get(who, [])
    print(json.dumps(reply, separators=(",", ":"), sort_keys=True))
for out in ran.stdout.splitlines()[len(given.splitlines()):]:
    print(out.decode())
sys.exit(ran.returncode)
"""

# A line that is too long is read as if it were not.
LENGTH_IGNORED = """
given = b"".join(line.rstrip() + b"\\n" for line in sys.stdin.buffer)
sys.exit(subprocess.run(words, input=given).returncode)
"""

# What goes through is kept eight times.
HOARDED = """
hoard = []
real = subprocess.Popen(words, stdin=subprocess.PIPE, stdout=subprocess.PIPE)
for line in sys.stdin.buffer:
    hoard.extend(bytes(bytearray(line)) for _ in range(8))
    real.stdin.write(line)
    real.stdin.flush()
    sys.stdout.buffer.write(real.stdout.readline())
    sys.stdout.buffer.flush()
real.stdin.close()
sys.exit(real.wait())
"""

FAULTS = [
    ("a step answered memory that was done", DONE_ALL_THE_SAME, "allocations of echo"),
    ("a reader's fault that loses an answered line", ANSWER_LOST, "input of echo"),
    ("a writer's fault that is not told", FAULT_UNTOLD, "output of echo"),
    ("an output that a kill lets leave twice", RELEASED_TWICE, "kills everywhere of tees"),
    ("a line that is too long, but read", LENGTH_IGNORED, "line: a status line of 65,537"),
    ("texts that are kept eight times", HOARDED, "texts are kept once"),
    ("lines that are kept beside their records", HOARDED, "records are small"),
]


def is_found(real, body, word, room):
    """Whether the checks with this word in their names fail over the proxy, and pass without it."""
    proxy = os.path.join(room, "proxy")
    with open(proxy, "w") as file:
        file.write((HEAD + body).format(real=real))
    os.chmod(proxy, 0o755)
    statuses = []
    for program in (real, proxy):
        environment = {**os.environ, "RECALL_ONLY": os.path.basename(real)}
        ran = subprocess.run([sys.executable, "-B", HERE, program, word], capture_output=True, env=environment)
        statuses.append(ran.returncode)
    return statuses == [0, 1]


def main():
    if len(sys.argv) != 2:
        sys.exit(__doc__)
    found = 0
    with tempfile.TemporaryDirectory() as room:
        for what, body, word in FAULTS:
            seen = is_found(os.path.abspath(sys.argv[1]), body, word, room)
            found += seen
            print(f"planted: {what}: {'found' if seen else 'NOT FOUND'}", flush=True)
    print(f"{found} passed, {len(FAULTS) - found} failed")
    return 0 if found == len(FAULTS) else 1


sys.exit(main())
