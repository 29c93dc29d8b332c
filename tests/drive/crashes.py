"""Runs of `drive` with a journal that are ended by SIGKILL at random moments, and go on.

What was collected in the end is what one plain run of all lines writes. Whoever goes on gives the lines that the
journal hasn't, and asks for what is written from the count of whole lines that he has.
"""

import os
import random
import signal
import subprocess
import threading
import time

from program import whole_lines

SECONDS = 60


def plain(program, lines):
    words, given = [program, "drive", "-q"], b"".join(lines)
    return subprocess.run(words, input=given, capture_output=True, timeout=SECONDS, check=True).stdout


def give(process, lines, chance):
    """Gives the lines a few at a time, with pauses; the input ends behind the last."""
    try:
        while lines:
            some = chance.randrange(1, 6)
            process.stdin.write(b"".join(lines[:some]))
            lines = lines[some:]
            time.sleep(chance.random() * 0.004)
        process.stdin.close()
    except OSError:
        pass


def run_once(program, journal, lines, seen, chance, is_last):
    """One run, which is killed at a random moment where it isn't the last: what it wrote, and its status."""
    words = [program, "drive", "-q", "--journal", journal, "--from", str(seen)]
    pipe = subprocess.PIPE
    process = subprocess.Popen(words, stdin=pipe, stdout=pipe, stderr=pipe, bufsize=0)
    giver = threading.Thread(target=give, args=(process, lines[whole_lines(journal) :], chance))
    giver.start()
    if not is_last:
        time.sleep(chance.random() * 0.02)
        process.send_signal(signal.SIGKILL)
    written, said = process.stdout.read(), process.stderr.read()
    status = process.wait(SECONDS)
    giver.join()
    for end in (process.stdin, process.stdout, process.stderr):
        try:
            end.close()
        except OSError:
            pass
    return written, status, said


def crash(program, room, lines, seed, kills):
    """How many runs on these lines were killed, and what was wrong in the end."""
    chance = random.Random(seed)
    journal, wanted, collected, killed = os.path.join(room, f"drive-{seed}"), plain(program, lines), b"", 0
    for count in range(kills + 1):
        is_last = count == kills
        written, status, said = run_once(program, journal, lines, collected.count(b"\n"), chance, is_last)
        if status not in ((0,) if is_last else (0, -signal.SIGKILL)):
            return killed, f"status {status}: {said.decode(errors='replace')}"
        killed += status != 0
        if not is_last:
            # The reader was lost too, and with it what it hadn't kept.
            written = written[: chance.randrange(len(written) + 1)]
        collected += written[: written.rfind(b"\n") + 1]
    if collected != wanted:
        return killed, f"{len(collected)} bytes were collected, and one run writes {len(wanted)}"
    return killed, None
