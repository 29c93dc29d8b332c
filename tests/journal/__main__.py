"""Runs with a journal that are ended in their midst, and go on: python3 tests/journal [--book] PROGRAM [WORD]

Each check prints a line where it fails; the last line is `N passed, M failed`. With WORD, only the checks whose names
have it. With --book each run stores its history, so that a book answers it, and not a host; it goes on from no
snapshot then, so that the checks that ask for that are left out.
"""

import os
import sys
import tempfile
import time

sys.path.append(os.path.join(os.path.dirname(os.path.abspath(__file__)), "..", "hostile"))

import crashes
import faults
import snapshots
from program import Program


# Where a sync costs nothing, for the many runs that meet a fault.
QUICK = "/dev/shm" if os.access("/dev/shm", os.W_OK) else None


def main():
    words = [word for word in sys.argv[1:] if word != "--book"]
    if len(words) not in (1, 2):
        sys.exit(__doc__)
    word, begun = words[1] if len(words) == 2 else "", time.time()
    passed, failed, counts = 0, 0, 0
    with tempfile.TemporaryDirectory() as room, tempfile.TemporaryDirectory(dir=QUICK) as quick:
        program = Program(words[0], room, "--book" in sys.argv)
        checks = crashes.checks(program, room) + faults.checks(program, quick) + snapshots.checks(program, quick)
        for name, check in checks:
            if word not in name:
                continue
            try:
                count, wrong = check()
            except Exception as error:
                count, wrong = 0, f"{type(error).__name__}: {error}"
            counts, passed, failed = counts + count, passed + (wrong is None), failed + (wrong is not None)
            if wrong is not None:
                print(f"journal: {name}: {wrong}", flush=True)
    print(f"journal: runs that were ended: {counts}; {time.time() - begun:.0f} seconds")
    print(f"{passed} passed, {failed} failed")
    return 1 if failed or not passed else 0


sys.exit(main())
