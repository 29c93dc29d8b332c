"""Hostile use of the built program: python3 tests/hostile [--book] PROGRAM [WORD]

Each check prints a line where it fails; the last line is `N passed, M failed`. With WORD, only the checks whose names
have it. With --book each run stores its history, so that a book answers it, and not a host.
"""

import os
import sys
import tempfile
import time
from multiprocessing import Pool

import allocations
import bad_lines
import ends
import footprint
import kept
import kills
import messages
from program import Program

SUITES = (
    ("memory", allocations),
    ("what is kept", kept),
    ("input and output", ends),
    ("kills", kills),
    ("lines", bad_lines),
    ("footprint", footprint),
    ("messages", messages),
)


def named(word):
    """Each check whose name has this word, with the suite that it is of."""
    return [(suite, name) for suite, module in SUITES for name, _ in module.checks() if word in name]


def begin(made):
    global program
    program = made


def work(task):
    """Does one check: its suite, its name, how many runs, and what was wrong."""
    suite, name = task
    check = dict(dict(SUITES)[suite].checks())[name]
    try:
        runs, wrong = check(program)
    except Exception as error:
        runs, wrong = 0, [f"{type(error).__name__}: {error}"]
    return suite, name, runs, wrong


def main():
    words = [word for word in sys.argv[1:] if word != "--book"]
    if len(words) not in (1, 2):
        sys.exit(__doc__)
    tasks, begun = named(words[1] if len(words) == 2 else ""), time.time()
    passed, failed, runs_of = 0, 0, {}
    with tempfile.TemporaryDirectory() as room:
        made = Program(words[0], room, "--book" in sys.argv)
        with Pool(os.cpu_count(), begin, (made,)) as pool:
            for suite, name, runs, wrong in pool.imap_unordered(work, tasks):
                runs_of[suite] = runs_of.get(suite, 0) + runs
                passed, failed = passed + (not wrong), failed + bool(wrong)
                for what in wrong[:3]:
                    print(f"hostile: {name}: {what[:500]}", flush=True)
    said = ", ".join(f"{suite} {runs}" for suite, runs in runs_of.items())
    print(f"hostile: runs of the program: {said}; {time.time() - begun:.0f} seconds")
    print(f"{passed} passed, {failed} failed")
    return 1 if failed or not passed else 0


sys.exit(main())
