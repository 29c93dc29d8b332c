"""Random scripts of posts, kills and restarts."""

import json
import random


def encoded(step):
    return json.dumps(step, sort_keys=True, separators=(",", ":")).encode()


def is_up(down, tenant, unit):
    return (tenant, unit) not in down


def units_of(chance, is_chain):
    """The kinds of a tenant's units. A relay at the end would send round for ever."""
    some = ("tee", "relay") if is_chain else ("echo", "tee", "count", "relay")
    kinds = [chance.choice(some) for _ in range(chance.randrange(4))]
    return kinds + [chance.choice(("echo", "count", "tee"))]


def opening(chance, name, kinds):
    """The line that opens a tenant, perhaps with little room."""
    step = {"do": "open", "tenant": name, "units": kinds}
    if chance.random() < 0.3:
        step["optimism"] = chance.randrange(3)
    if chance.random() < 0.3:
        step["quota"] = {"held": chance.randrange(1, 4), "letters": 1000, "volatile": chance.randrange(1, 4)}
    return encoded(step)


def script(seed, length=40, fails=True, is_chain=False):
    """Lines of one or two tenants. Where `fails` is not said, the same posts stand there without kills and restarts.
    In a chain each unit receives from the one before it alone, so that the order of what it receives is the same."""
    chance = random.Random(seed)
    tenants = {name: units_of(chance, is_chain) for name in "ab"[: chance.randrange(1, 3)]}
    lines, numbers, down = [opening(chance, name, kinds) for name, kinds in tenants.items()], {}, set()
    for _ in range(length):
        name = chance.choice(sorted(tenants))
        unit, do = chance.randrange(len(tenants[name])), chance.random()
        if do < 0.6 and is_chain:
            unit = 0
        if do < 0.6:
            number = numbers.get((name, unit), 0)
            if is_up(down, name, unit):
                numbers[name, unit] = number + 1
                text = f"{name}{unit}.{number}"
                lines.append(encoded({"do": "post", "number": number, "tenant": name, "text": text, "unit": unit}))
        elif is_up(down, name, unit):
            down.add((name, unit))
            if fails:
                lines.append(encoded({"do": "kill", "tenant": name, "unit": unit}))
        else:
            down.discard((name, unit))
            if fails:
                lines.append(encoded({"do": "restart", "tenant": name, "unit": unit}))
    return lines


def outputs_of(written):
    """What left each unit, in order."""
    found = {}
    for line in written.splitlines():
        told = json.loads(line)
        if "output" in told:
            found.setdefault((told["tenant"], told["unit"]), []).append(told["output"])
    return found
