"""How much is kept of the past, and what is certified and audited, with each request for memory refused in turn.

The rows' own program does the steps of such a row. Of a row of what is kept, the step where a request fell is refused
for want of memory and given again, and all that is kept is as the row says. Of a row of certificates or audits a step
or an audit that found no memory says so, so that the row differs; the program never says anything else. Where the
row's text or a reply found no memory the program ends with status 1 and says nothing.
"""

import os

from program import ROWS

WELL = "what is kept is as it must be, and each step found memory"
WANTING = "what is kept is as it must be, and a step found no memory"
# What the program says of the other rows: where all found memory, and where something found none.
SAID = {
    "certified-": ("seats, moves and audits are as they must be", "seats, moves or audits differ"),
    "audited-": ("the audits are as they must be", "the audits differ"),
}


def names(beginning):
    """The rows whose names begin so."""
    rows = map(os.path.splitext, os.listdir(ROWS))
    return sorted(name for name, kind in rows if kind == ".steps" and name.startswith(beginning))


def run(program, name, **faults):
    """Does the steps of a row: what the rows' program said of it, and its status."""
    said, status = program.run_row(name, **faults)
    return said.decode().removeprefix(f"{name}: ").rstrip("\n"), status


def row(program, name, well, wanting):
    """Refuses each request of a row in turn: how many runs that were, and what was wrong."""
    requests = program.counted(lambda file: run(program, name, count=file))
    wrong, seen = [], set()
    for n in range(1, requests + 1):
        said, status = run(program, name, refuse=n)
        seen.add(said)
        if (said, status) not in ((well, 0), (wanting, 0), ("", 1)):
            wrong.append(f"request {n}: status {status}, {said!r}")
    if wanting not in seen:
        wrong.append(f"no run ever said {wanting!r}")
    if run(program, name, refuse=10 * requests + 1000) != (well, 0):
        wrong.append("a request that is never made was refused")
    return requests, wrong


def checks():
    """Each check: its name, and what does it."""
    for name in names("kept-"):
        yield f"allocations of {name}", lambda program, row_of=name: row(program, f"once {row_of}", WELL, WANTING)
    for beginning, said in SAID.items():
        for name in names(beginning):
            yield f"allocations of {name}", lambda program, row_of=name, words=said: row(program, row_of, *words)
