"""Standard input that fails before each line in turn, and standard output that fails after each byte in turn.

Each line that was read has its reply, and the status is 1. Where each second read and write is interrupted, and each
write is short, nothing changes.
"""

from program import joined, rows


def reader(program, name, steps, replies):
    """Fails the input before each line, and at its end."""
    given, wrong, at = joined(steps), [], 0
    for n in range(len(steps) + 1):
        for by_line in (0, 1):
            out, _, status = program.run(given, read=at, lines=by_line)
            if (out, status) != (joined(replies[:n]), 1):
                wrong.append(f"before line {n + 1}: status {status}, {len(out.splitlines())} replies")
        at += len(steps[n]) + 1 if n < len(steps) else 0
    return 2 * (len(steps) + 1), wrong


def writer(program, name, steps, replies):
    """Fails the output after each byte."""
    given, want, wrong = joined(steps), joined(replies), []
    for n in range(len(want)):
        out, _, status = program.run(given, write=n, lines=n % 2)
        if (out, status) != (want[:n], 1):
            wrong.append(f"after byte {n}: status {status}, {len(out)} bytes")
    return len(want), wrong


def interrupted(program, name, steps, replies):
    """Interrupts each second read and write."""
    given, wrong = joined(steps), []
    for by_line in (0, 1):
        out, _, status = program.run(given, interrupt=1, lines=by_line)
        if (out, status) != (joined(replies), 0):
            wrong.append(f"status {status}, {len(out.splitlines())} replies")
    return 2, wrong


def checks():
    for name, steps, replies in rows():
        yield f"input of {name}", lambda program, row_of=(name, steps, replies): reader(program, *row_of)
        yield f"output of {name}", lambda program, row_of=(name, steps, replies): writer(program, *row_of)
        yield f"interrupted {name}", lambda program, row_of=(name, steps, replies): interrupted(program, *row_of)
