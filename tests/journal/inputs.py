"""Small inputs of four tenants, with kills and restarts among the steps."""

import json
import random

TENANTS = ("a", "b", "c", "d")
KINDS = (["count", "relay", "echo"], ["tee", "tee", "count"], ["relay", "relay"], ["adder", "echo"])
LENGTH = 160


def line(do, tenant, **keys):
    return json.dumps({"do": do, "tenant": tenant, **keys}, separators=(",", ":")).encode() + b"\n"


def any_step(chance, tenant, units, posted):
    """One step of the tenant: most are taken, and some are refused."""
    unit = chance.randrange(units)
    do = chance.choices(
        ("post", "deliver", "flush", "kill", "restart", "notice", "release", "checkpoint", "status", "bad"),
        (30, 25, 12, 5, 8, 6, 8, 3, 2, 1),
    )[0]
    if do == "bad":
        return b'{"do":"post","tenant":"' + tenant.encode() + b'"}\n'
    if do == "post":
        posted[unit] = posted.get(unit, -1) + 1
        return line("post", tenant, unit=unit, number=posted[unit], text=str(chance.randrange(1000)))
    if do == "deliver":
        return line("deliver", tenant, letter=chance.randrange(12))
    if do == "kill" and unit in posted:
        posted[unit] = max(-1, posted[unit] - chance.randrange(3))
    return line(do, tenant, unit=unit)


def small_input(seed):
    """The lines of one input."""
    chance = random.Random(seed)
    units = dict(zip(TENANTS, chance.sample(KINDS, len(KINDS))))
    lines = [line("open", tenant, units=kinds) for tenant, kinds in units.items()]
    posted = {tenant: {} for tenant in TENANTS}
    for _ in range(LENGTH):
        tenant = chance.choice(TENANTS)
        lines.append(any_step(chance, tenant, len(units[tenant]), posted[tenant]))
    for tenant, kinds in units.items():
        for do in ("restart", "notice", "flush", "release", "status"):
            lines += [line(do, tenant, unit=unit) for unit in range(len(kinds))]
    return lines
