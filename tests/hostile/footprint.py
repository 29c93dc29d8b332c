"""How much memory the program takes for what it keeps.

Long texts go down a chain of units that put them out and send them on. The run may take three times their bytes at its
peak: kept once, they and all else take less than that, and eight times as much where each unit keeps its own.

Short posts are all logged. Each may take 290 bytes for its record, its interval, its letter and its place in the log.
They take more where each record has a name of its own for its tenant, and by a book, which stores its history: there
a post may take the bytes of an entry besides.
"""

import json
import re

UNITS = ["tee", "tee", "tee", "echo"]
TEXTS, BATCH, BYTES = 4000, 100, 4096
FIRST, POSTS, POST_BYTES, ENTRY_BYTES = 10000, 50000, 290, 184


def line(**members):
    return json.dumps({"tenant": "a", **members}, separators=(",", ":"), sort_keys=True).encode()


def long_texts():
    """The lines of such a run: each post goes down the whole chain, and its outputs leave."""
    yield line(do="open", units=UNITS)
    letters = 0
    for number in range(TEXTS):
        yield line(do="post", unit=0, number=number, text=f"{number:04}" + "x" * (BYTES - 4))
        for _ in UNITS[1:]:
            yield line(do="deliver", letter=letters)
            letters += 1
        if (number + 1) % BATCH == 0:
            yield from (line(do="flush", unit=unit) for unit in range(len(UNITS)))
            yield from (line(do="release", unit=unit) for unit in range(len(UNITS)))


def short_posts(numbers):
    """The lines of these posts, which are flushed in batches."""
    for number in numbers:
        yield line(do="post", unit=0, number=number, text="x")
        if (number + 1) % BATCH == 0:
            yield line(do="flush", unit=0)


def peak(process):
    """How many bytes of memory it had at most so far. What began it doesn't count."""
    with open(f"/proc/{process.pid}/status") as status:
        return 1024 * int(re.search(r"VmHWM:\s*(\d+) kB", status.read())[1])


def texts_kept_once(program):
    """How many runs that were, and what was wrong."""
    talk = program.talk()
    left = sum(len(json.loads(talk.ask(it) or "{}").get("outputs", [])) for it in long_texts())
    most = peak(talk.process)
    _, status = talk.end()
    wrong = []
    if status or left != TEXTS * len(UNITS):
        wrong.append(f"status {status}, and {left} outputs left")
    if most > 3 * TEXTS * BYTES:
        wrong.append(f"{TEXTS} texts of {BYTES} bytes took {most} bytes")
    return 1, wrong


def taken(talk, lines):
    """How many of these lines are no refusals."""
    return sum('"no"' not in (talk.ask(it) or b'"no"').decode() for it in lines)


def small_records(program):
    """How many runs that were, and what was wrong."""
    talk = program.talk()
    done = taken(talk, [line(do="open", units=["relay"])]) + taken(talk, short_posts(range(FIRST)))
    before = peak(talk.process)
    done += taken(talk, short_posts(range(FIRST, FIRST + POSTS)))
    each = (peak(talk.process) - before) / POSTS
    _, status = talk.end()
    wrong = []
    if status or done != 1 + (FIRST + POSTS) * (BATCH + 1) // BATCH:
        wrong.append(f"status {status}, and {done} steps were done")
    if each > POST_BYTES + program.by_book * ENTRY_BYTES:
        wrong.append(f"a post took {each:.0f} bytes")
    return 1, wrong


def checks():
    """Each check: its name, and what does it."""
    yield "texts are kept once", texts_kept_once
    yield "records are small", small_records
