"""Each request for memory of a driven flow refused in turn.

Either the run goes on and a line is answered `memory`, with all before it as it must be; or the program ends with
status 1, and what it wrote is a beginning of what it must be. No unit puts out what nobody posted, or a text twice,
where units pass on what they receive.
"""

import json

import scripts

MEMORY = b'{"no":"memory"}'
# The kinds of units that pass texts on as they are.
PASS_ON = {"echo", "tee", "relay"}


def texts_of(lines):
    """The texts that may come out: those that are posted, where units pass them on as they are, and else None."""
    steps = [json.loads(line) for line in lines if line.startswith(b'{"')]
    kinds = {kind for step in steps if step["do"] == "open" for kind in step["units"]}
    return {step["text"] for step in steps if step["do"] == "post"} if kinds <= PASS_ON else None


def wrong_with(lines_given, got, wanted, status):
    """What is wrong with what a run wrote of whose requests one was refused."""
    lines, due = got.splitlines(), wanted.splitlines()
    before = lines.index(MEMORY) if MEMORY in lines else len(lines)
    if lines[:before] != due[:before]:
        return f"a reply is another: {lines[:before]}"
    if MEMORY not in lines and (got != wanted if status == 0 else not wanted.startswith(got)):
        return f"status {status}, and it wrote {lines}"
    posted = texts_of(lines_given)
    for unit, outputs in scripts.outputs_of(got).items() if posted is not None else ():
        if not set(outputs) <= posted or len(set(outputs)) != len(outputs):
            return f"unit {unit} put out {outputs}"
    return None if status in (0, 1) else f"status {status}"


def wrong_in(lines, wanted, runs, places):
    """What is wrong with one of the runs of these lines of which each has one of these requests refused."""
    for n in places:
        got, status = runs(n)
        if status == 1:
            # The last line may be cut.
            got = got[: got.rfind(b"\n") + 1]
        wrong = wrong_with(lines, got, wanted, status)
        if wrong:
            return f"request {n}: {wrong}"
    return None if places else "it asked for no memory"


def wrong_in_program(program, lines, wanted, most=None):
    """The same of the program, of each request or of so many of them, spread over all."""
    given = b"".join(line + b"\n" for line in lines)
    count = program.count(given, "drive", "-q")

    def run(n):
        got, _, status = program.run(given, "drive", "-q", refuse=n, lines=1)
        return got, status

    return wrong_in(lines, wanted, run, range(1, count + 1, max(count // most, 1) if most else 1))


def wrong_in_row(program, line, steps, wanted):
    """The same of a row over a store that fails, by the rows' own program."""
    count = program.counted(lambda name: program.run_row(line, count=name))
    return wrong_in(steps, wanted, lambda n: program.run_row(line, refuse=n), range(1, count + 1))
