"""Each request for memory refused in turn.

The step where it fell is answered `memory`, with every unit's status as it was before; given again it has the reply
that it must have, and so have all lines after it. A flush that had logged k records is answered with that count, and
the next one logs the rest. Where a buffer or a reply found no memory the program ends with status 1, and what it wrote
is a beginning of what it must be.
"""

import json
import os

from program import joined, object_of, rows

FIRST = b"""{"do":"open","tenant":"a","units":["echo"]}
{
{"do":"post","number":0,"tenant":"a","text":"x","unit":0}
"""
SECOND = b"""{"do":"open","tenant":"b","units":["echo"]}
{"do":"post","number":0,"tenant":"b","text":"x","unit":0}
{"do":"post","number":0,"tenant":"b","text":"x","unit":0}
"""
UNMATCHED = b"the history is not that of the feeds"

# Rows that end with an audit too, and how a run of one may end: audited, without memory for that, or without a word of
# it.
AUDITED = ("output-waits-for-sender", "wait-then-notice", "cascade")
AUDITS = {(b'{"audit":"ok","tenant":"a"}\n', 0), (b'{"audit":"memory","tenant":"a"}\n', 1), (b"", 1)}


def long_feed(name, count):
    """The lines of a feed of so many steps, of a tenant of its own: how far the logger is shows in none of their
    replies."""
    post = '{"do":"post","number":%d,"tenant":"%s","text":"a text of more than sixteen bytes","unit":0}\n'
    return (
        '{"do":"open","tenant":"%s","units":["echo"]}\n' % name
        + "".join(post % (number, name) for number in range(count - 1))
    ).encode()


LONG = long_feed("a", 100), long_feed("b", 100)


def places(steps):
    """The tenants of these lines, each with how many units it has at most."""
    found = {}
    for step in map(object_of, steps):
        name = step.get("tenant")
        if step.get("do") == "open" and isinstance(step.get("units"), list):
            found[name] = max(found.get(name, 0), min(len(step["units"]), 17))
        elif step.get("do") == "join" and name in found:
            found[name] += 1
    return found


def status_lines(steps):
    """A line that asks for the status of each unit."""
    ask = {"do": "status"}
    return [
        json.dumps({**ask, "tenant": name, "unit": unit}).encode()
        for name, units in places(steps).items()
        for unit in range(units)
    ]


def statuses_before(program, steps, asked):
    """What each status line is answered before each step, in a run that lacks nothing."""
    talk = program.talk()
    found = []
    for step in steps:
        found.append([talk.ask(line) for line in asked])
        talk.ask(step)
    talk.end()
    return found


def rest_of(want, logged):
    """The reply to a flush that is given again, where so many records were logged by the first."""
    reply = object_of(want)
    if logged and "count" in reply:
        reply["count"] -= logged
        return json.dumps(reply, separators=(",", ":"), sort_keys=True).encode()
    return want


def refuse(program, steps, replies, asked, before, n, words=("run",), ends=frozenset({(b"", 0)})):
    """How a run of a row comes out whose n-th request is refused: 'memory', 'ended' or 'nothing', or what was wrong."""
    talk = program.talk(*words, refuse=n)
    what = "nothing"
    for at, (step, want) in enumerate(zip(steps, replies)):
        got = talk.ask(step)
        refusal = object_of(got or b"")
        if got is not None and got != want and refusal.get("no") == "memory" and what == "nothing":
            what, logged = "memory", refusal.get("count", 0)
            if not logged and [talk.ask(line) for line in asked] != before[at]:
                talk.end()
                return f"line {at + 1}: a step answered memory changed a status"
            want = rest_of(want, logged)
            got = talk.ask(step)
        if got is None:
            _, status = talk.end()
            is_well = what == "nothing" and status == 1 and want.startswith(talk.rest)
            return "ended" if is_well else f"line {at + 1}: the program ended with status {status} after {talk.rest!r}"
        if got != want:
            talk.end()
            return f"line {at + 1}: {got!r} in place of {want!r}"
    rest, status = talk.end()
    if (rest, status) not in ends and (what, rest, status) != ("nothing", b"", 1):
        return f"at the end: status {status}, {rest!r}"
    return "ended" if status else what


def row(program, name, steps, replies, words=("run",), ends=frozenset({(b"", 0)})):
    """Refuses each request of a row in turn: how many runs that were, and what was wrong."""
    asked = status_lines(steps)
    before = statuses_before(program, steps, asked)
    count = program.count(joined(steps), *words)
    wrong, seen = [], set()
    for n in range(1, count + 1):
        what = refuse(program, steps, replies, asked, before, n, words, ends)
        seen.add(what)
        if what not in ("memory", "ended", "nothing"):
            wrong.append(f"request {n}: {what}")
    if "memory" not in seen:
        wrong.append("no step was ever answered memory")
    if refuse(program, steps, replies, asked, before, 10 * count + 1000, words, ends) != "nothing":
        wrong.append("a request that is never made was refused")
    return count, wrong


def expected_of_feed(program, lines, missing):
    """The replies to a feed's lines, where the line of this place, if any, found no memory to be read."""
    kept = [line for at, line in enumerate(lines) if at != missing]
    replies = program.run(joined(kept))[0].splitlines()
    return replies if missing is None else replies[:missing] + [b'{"no":"memory"}'] + replies[missing:]


def feeds(program, contents, name):
    """Refuses each request of a run of two feeds in turn: it ends by its replies, or with status 1 and none of them."""
    files = []
    for at, content in enumerate(contents):
        files.append(os.path.join(program.room, f"{name}{at}"))
        with open(files[-1], "wb") as file:
            file.write(content)
    whole = [expected_of_feed(program, content.splitlines(), None) for content in contents]
    wants = {joined(whole[0] + whole[1])}
    for at in (0, 1):
        for missing in range(len(contents[at].splitlines())):
            other = expected_of_feed(program, contents[at].splitlines(), missing)
            wants.add(joined(other + whole[1] if at == 0 else whole[0] + other))
    count, wrong = program.count(b"", "feeds", *files), []
    for n in range(1, count + 20):
        out, said, status = program.run(b"", "feeds", *files, refuse=n)
        is_whole = status == 0 and out in wants
        is_ended = status == 1 and any(want.startswith(out) for want in wants)
        if not (is_whole or is_ended) or UNMATCHED in said:
            wrong.append(f"request {n}: status {status}, {out[:200]!r}, {said!r}")
    return count + 19, wrong


def checks():
    """Each check: its name, and what does it."""
    for name, steps, replies in rows():
        yield f"allocations of {name}", lambda program, row_of=(name, steps, replies): row(program, *row_of)
    for name, steps, replies in rows():
        if name in AUDITED:
            yield f"allocations of {name} with an audit", lambda program, row_of=(name, steps, replies): row(
                program, *row_of, ("run", "--audit"), AUDITS
            )
    yield "allocations of two feeds", lambda program: feeds(program, (FIRST, SECOND), "feed")
    yield "allocations of two feeds of 100 steps", lambda program: feeds(program, LONG, "long")
