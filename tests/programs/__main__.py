"""Units that run programs, in the built program: python3 tests/programs PROGRAM [WORD]

Each check prints a line where it fails or is skipped; the last line is `N passed, M failed`, in which those that are
skipped don't count. With WORD, only the checks whose names have it.
"""

import signal
import sys

import examples
import flows
import hostile
import instructions
import load
import own_code
import page
import reload
import turns
from host import Host

SUITES = (instructions, turns, own_code, reload, flows, hostile, load, examples, page)


SECONDS = 300  # (of a check)


def result_of(check, host):
    signal.alarm(SECONDS)
    try:
        return check(host)
    except Exception as error:
        return f"{type(error).__name__}: {error}"
    finally:
        signal.alarm(0)


def too_long(*_):
    raise TimeoutError(f"not done after {SECONDS} seconds")


def main():
    if len(sys.argv) not in (2, 3):
        sys.exit(__doc__)
    host, word = Host(sys.argv[1]), sys.argv[2] if len(sys.argv) == 3 else ""
    passed = failed = 0
    for suite in SUITES:
        for name, check in suite.checks():
            if word not in name:
                continue
            wrong = result_of(check, host)
            is_skipped = wrong is not None and wrong.startswith("skipped: ")
            passed, failed = passed + (wrong is None), failed + (wrong is not None and not is_skipped)
            if wrong is not None:
                print(f"programs: {name}: {wrong[:600]}", flush=True)
    print(f"{passed} passed, {failed} failed")
    return 1 if failed or not passed else 0


signal.signal(signal.SIGALRM, too_long)
sys.exit(main())
