"""A kill, a restart and a notice of all units after each line of a flow, for each unit.

Every run ends with a notice, a flush and a release of all units. Its audit says yes, what each unit released is in the
order of the posts and comes once, and the tenant's replies are the same beside a busy tenant.
"""

import json

from program import joined, object_of, rows

NOISE = [
    b'{"do":"open","tenant":"noise","units":["relay","echo"]}',
    b'{"do":"post","number":0,"tenant":"noise","text":"n","unit":0}',
    b'{"do":"deliver","letter":0,"tenant":"noise"}',
    b'{"do":"flush","tenant":"noise","unit":1}',
    b'{"do":"kill","tenant":"noise","unit":0}',
    b'{"do":"restart","tenant":"noise","unit":0}',
    b'{"do":"notice","tenant":"noise","unit":1}',
]


def line(do, **keys):
    return json.dumps({"do": do, "tenant": "a", **keys}).encode()


def of_all(do, units):
    return [line(do, unit=unit) for unit in range(units)]


def tees():
    """Two tees and an echo: twenty posts, each carried through, with a flush and a release of all after each fifth."""
    lines = [line("open", units=["tee", "tee", "echo"])]
    for post in range(20):
        lines.append(line("post", unit=0, number=post, text=str(post)))
        lines += [line("deliver", letter=2 * post), line("deliver", letter=2 * post + 1)]
        if post % 5 == 4:
            lines += of_all("flush", 3) + of_all("release", 3)
    return lines, 3


def ring():
    """A text that goes forty times round three relays, with a flush of all after each tenth."""
    lines = [line("open", units=["relay", "relay", "relay"]), line("post", unit=0, number=0, text="r")]
    for letter in range(40):
        lines.append(line("deliver", letter=letter))
        if letter % 10 == 9:
            lines += of_all("flush", 3)
    return lines, 3


def waiting():
    """The worked row of a letter that waits for a notice."""
    return next(steps for name, steps, _ in rows() if name == "wait-then-notice"), 2


def beside(lines):
    """These lines, each behind those of a busy tenant."""
    return [each for own in lines for each in [*NOISE, own]]


def own_replies(replies):
    return [reply for at, reply in enumerate(replies) if at % (len(NOISE) + 1) == len(NOISE)]


def out_of_order(lines, replies):
    """The unit, if any, that released a text twice or before one that was posted earlier."""
    last = {}
    for step, reply in zip(map(object_of, lines), map(object_of, replies)):
        for text in reply.get("outputs", []):
            unit = step["unit"]
            if text.isdigit():
                if int(text) <= last.get(unit, -1):
                    return unit
                last[unit] = int(text)
            elif text in last.setdefault(f"texts {unit}", []):
                return unit
            else:
                last[f"texts {unit}"].append(text)
    return None


def is_down(lines, unit):
    """Whether the flow itself left the unit down."""
    said = [step.get("do") for step in map(object_of, lines) if step.get("unit") == unit]
    return next((do for do in reversed(said) if do in ("kill", "restart")), "restart") == "kill"


def killed(program, lines, units, at, unit):
    """What is wrong with the flow where this unit is killed after so many lines, if anything."""
    hit = [line("kill", unit=unit), line("restart", unit=unit), *of_all("notice", units)]
    close = of_all("notice", units) + of_all("flush", units) + of_all("release", units)
    given = lines[:at] + hit + lines[at:] + close
    out, _, status = program.run(joined(given), "run", "--audit")
    *replies, audit = out.splitlines()
    if status != 0 or audit != b'{"audit":"ok","tenant":"a"}':
        return f"status {status}, {audit!r}"
    is_killed = replies[at].startswith(b'{"lost":') or (replies[at] == b'{"no":"down"}' and is_down(lines[:at], unit))
    if not is_killed or not replies[at + 1].startswith(b'{"ok":"restart"'):
        return f"the kill and the restart are answered {replies[at : at + 2]!r}"
    unit_out = out_of_order(given, replies)
    if unit_out is not None:
        return f"unit {unit_out} released a text twice, or out of order"
    crowd = program.run(joined(beside(given)))[0].splitlines()
    return None if own_replies(crowd) == replies else "the replies differ beside a busy tenant"


def flow(program, make):
    lines, units = make()
    wrong, runs = [], 0
    for at in range(1, len(lines) + 1):
        for unit in range(units):
            runs += 1
            what = killed(program, lines, units, at, unit)
            if what:
                wrong.append(f"unit {unit} after line {at}: {what}")
    return runs, wrong


def checks():
    for make, name in ((tees, "tees"), (ring, "a ring"), (waiting, "a letter that waits")):
        yield f"kills everywhere of {name}", lambda program, make=make: flow(program, make)
