"""Runs that are ended by SIGKILL at random moments, and go on.

The producer sends from the line that the run tells, and the consumer asks for the replies from the count that he has
on. What he collected in the end is what one plain run of all lines writes.
"""

import os
import random
import re
import signal
import subprocess
import threading
import time

from inputs import small_input
from program import BY_BOOK, whole_lines

INPUTS = 20
KILLS = 10
MOST_REPLIES = 16
SECONDS = 30
SILENCE = 15
GIVE = re.compile(rb"give those from line (\d+) on")


def plain(program, lines):
    return subprocess.run([program, "run"], input=b"".join(lines), stdout=subprocess.PIPE, timeout=SECONDS).stdout


def pieces(chance, given):
    """The bytes in pieces of any length."""
    while given:
        length = min(len(given), chance.choice((1, 20, 60, 60, 200, 1000, 5000)))
        yield given[:length]
        given = given[length:]


def feed(process, given, chance, is_last):
    """Gives the bytes, with pauses, until all are given or the program is gone. Only the last run is given an end."""
    try:
        for piece in pieces(chance, given):
            process.stdin.write(piece)
            if chance.random() < 0.5:
                time.sleep(chance.random() * 0.002)
        if is_last:
            process.stdin.close()
    except OSError:
        pass


def run_once(program, journal, lines, seen, chance, is_last, more=()):
    """One run, which is killed at a random moment, or comes to its end where it is the last: what was seen of what it
    wrote (each second time its reader is lost with it, and with that a random part), whether it was killed, and what
    was wrong."""
    durable = whole_lines(journal)
    wanted = len(lines) if is_last else min(seen + chance.randrange(MOST_REPLIES), len(lines))
    words = [program, "run", "--journal", journal, "--from", str(seen), *more]
    pipe = subprocess.PIPE
    process = subprocess.Popen(words, stdin=pipe, stdout=pipe, stderr=pipe, bufsize=0)
    feeder = threading.Thread(target=feed, args=(process, b"".join(lines[durable:wanted]), chance, is_last))
    feeder.start()
    watcher = kill_in(process, SILENCE)
    if is_last:
        written = process.stdout.read()
    else:
        written = read_until_killed(
            process, wanted - seen, b"".join(lines[max(durable, wanted) :][:MOST_REPLIES]), chance
        )
    said = process.stderr.read()
    status = process.wait(SECONDS)
    is_silent = not watcher.is_alive()
    watcher.cancel()
    feeder.join()
    for end in (process.stdin, process.stdout, process.stderr):
        try:
            end.close()
        except OSError:
            pass
    if not is_last and chance.random() < 0.5:
        written = written[: chance.randrange(len(written) + 1)]
    wrong = f"it was silent for {SILENCE} seconds" if is_silent else wrong_in(said, status, durable, is_last)
    return written, status != 0, wrong


def read_until_killed(process, replies, more, chance):
    """What a run writes that is given some more bytes once it wrote so many replies, and is killed while it has
    them."""
    written = bytearray()
    while written.count(b"\n") < replies and (got := process.stdout.read(65536)):
        written += got
    try:
        process.stdin.write(more[: chance.randrange(len(more) + 1)])
    except OSError:
        pass
    killer = kill_in(process, chance.random() * (0.002 if replies else 0.05))
    while got := process.stdout.read(65536):
        written += got
    killer.join()
    return bytes(written)


def kill_in(process, seconds):
    killer = threading.Timer(seconds, process.send_signal, (signal.SIGKILL,))
    killer.start()
    return killer


def wrong_in(said, status, durable, is_last):
    """What is wrong with a run by what it complained of, and by its status."""
    told = GIVE.search(said)
    if status not in ((0,) if is_last else (0, -signal.SIGKILL)):
        return f"status {status}: {said.decode(errors='replace')}"
    if told and int(told[1]) != durable:
        return f"it asks for line {int(told[1])}, and the journal has {durable}"
    return None


def crash(program, room, seed, words=()):
    """An input whose runs, with these words more, are killed so often, and that then comes to its end: how many runs
    were killed, and what was wrong."""
    lines, chance = small_input(seed), random.Random(seed + 1000)
    journal = os.path.join(room, "-".join(("journal", str(seed), *words)))
    wanted, collected, killed = plain(program.path, lines), b"", 0
    more = (BY_BOOK, *words) if program.by_book else words
    for count in range(KILLS + 1):
        seen = collected.count(b"\n")
        written, was_killed, wrong = run_once(program.path, journal, lines, seen, chance, count == KILLS, more)
        if wrong:
            return killed, wrong
        collected += written[: written.rfind(b"\n") + 1]
        killed += was_killed
    if collected != wanted:
        return killed, f"what was collected differs from a plain run: {first_difference(collected, wanted)}"
    if killed != KILLS:
        return killed, f"{killed} of {KILLS} runs were killed before they came to their end"
    return killed, None


def first_difference(collected, wanted):
    for at, (one, other) in enumerate(zip(collected.splitlines() + [b"nothing"], wanted.splitlines() + [b"nothing"])):
        if one != other:
            return f"line {at} is {one.decode()}, and not {other.decode()}"
    return "the lengths"


def checks(program, room):
    """Each check's name, and what does it."""
    return [(f"kills of input {seed}", lambda seed=seed: crash(program, room, seed)) for seed in range(INPUTS)]
