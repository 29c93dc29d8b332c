"""What depends on what in a flow of step lines, by the lines and their replies alone.

It follows the definitions and nothing of the program's code: an interval's past is the least set that holds it and,
with each of its intervals, the one before it on its unit's path and the sender of its letter. Units are of the sample
handler's kinds.
"""

import json


class Interval:
    """One interval: its unit, mark, event and line, the interval before it, the sender of its letter, and what became
    of it."""

    def __init__(self, unit, mark, event, line, before=None, sender=None, letter=None, text=None):
        self.unit, self.mark, self.event, self.line = unit, tuple(mark), event, line
        self.before, self.sender, self.letter, self.text = before, sender, letter, text
        self.logged = self.lost = self.cut = self.released = None
        self.outputs = []

    @property
    def id(self):
        return f"i{self.unit}-{self.mark[0]}-{self.mark[1]}"

    def past(self):
        """All that the interval depends on, itself among it."""
        found, left = set(), [self]
        while left:
            one = left.pop()
            if one is not None and one not in found:
                found.add(one)
                left += [one.before, one.sender]
        return found

    def is_stable(self, event):
        """Whether it is logged, and on its path, once this event has happened."""
        return self.logged is not None and self.logged <= event and not self.is_gone(event)

    def is_gone(self, event):
        return any(at is not None and at <= event for at in (self.lost, self.cut))

    def status(self, event):
        if self.lost is not None and self.lost <= event:
            return "lost"
        if self.cut is not None and self.cut <= event:
            return "cut"
        if not self.is_stable(event):
            return "volatile"
        return "firm" if all(one.is_stable(event) for one in self.past()) else "stable"


class Unit:
    def __init__(self, kind, number, home):
        self.kind, self.number, self.home = kind, number, home
        self.path, self.stable, self.released, self.known, self.is_up = [], 1, 0, 0, True


class Flow:
    """What a tenant did: `intervals` in order, `letters` by number (sender, receiver, text), `events` (line, what)."""

    def __init__(self, tenant, lines, replies):
        self.units, self.intervals, self.letters, self.events = [], [], {}, []
        self.rows, self.tenant = 0, tenant
        for place, (line, reply) in enumerate(zip(lines, replies), 1):
            self.enter(place, line, reply)

    def enter(self, place, line, reply):
        try:
            step, reply = json.loads(line), json.loads(reply)
        except ValueError:
            return
        if isinstance(step, dict) and step.get("tenant") == self.tenant and "ok" in reply:
            self.follow(place, step, reply)

    def follow(self, line, step, reply):
        said = reply["ok"]
        if said == "open":
            for number, kind in enumerate(step["units"]):
                self.begin(line, kind, number, len(step["units"]))
            self.events.append((line, "open"))
        elif said == "join":
            self.begin(line, step["kind"], reply["unit"], reply["unit"] + 1)
            self.events.append((line, "join"))
        elif said == "accepted":
            self.receive(line, step, reply)
            self.events.append((line, "accepted"))
        elif self.recover(said, step.get("unit"), reply):
            self.events.append((line, said))

    def begin(self, line, kind, number, home):
        unit = Unit(kind, number, home)
        self.units.append(unit)
        one = Interval(number, (0, 0), len(self.events), line)
        one.logged = one.event
        self.add(unit, one)

    def add(self, unit, one):
        unit.path.append(one)
        self.intervals.append(one)

    def receive(self, line, step, reply):
        if step["do"] == "deliver":
            sender, receiver, text = self.letters[step["letter"]]
            letter = step["letter"]
        else:
            sender, receiver, text, letter = None, step["unit"], step["text"], None
        unit = self.units[receiver]
        one = Interval(receiver, reply["at"], len(self.events), line, unit.path[-1], sender, letter, text)
        held = sum(len(each.outputs) for each in unit.path) - unit.released
        one.outputs = [None] * (reply["held"] - held)
        self.add(unit, one)
        for number in reply["letters"]:
            to = (receiver + 1) % unit.home if unit.kind == "relay" else receiver + 1
            self.letters[number] = (one, to, text)

    def recover(self, said, number, reply):
        """Whether a step of recovery, a flush, a release or a checkpoint changed something or is to be seen."""
        unit, event = self.units[number], len(self.events)
        if said == "flush":
            for one in unit.path[unit.stable : unit.stable + reply["count"]]:
                one.logged = event
            unit.stable += reply["count"]
            return reply["count"] > 0
        if said == "released":
            self.release(unit, event, reply["outputs"])
            return bool(reply["outputs"])
        if said == "kill":
            self.cut(unit, len(unit.path) - reply["lost"], "lost", event)
            unit.is_up = False
            return True
        if said == "restart" or (said == "notice" and reply["row"]):
            self.cut(unit, reply["row"][1], "cut", event)
            self.rows += 1
            unit.known, unit.is_up = self.rows, True
            return True
        if said == "notice":
            told, unit.known = self.rows - unit.known, self.rows
            return told > 0
        return said == "checkpoint"

    def release(self, unit, event, texts):
        every = [(one, place) for one in unit.path for place in range(len(one.outputs))]
        for (one, place), text in zip(every[unit.released :], texts):
            one.outputs[place], one.released = text, event
        unit.released += len(texts)

    @staticmethod
    def cut(unit, length, what, event):
        for one in unit.path[length:]:
            setattr(one, what, event)
        del unit.path[length:]
        unit.stable = min(unit.stable, length)


def tenants_of(lines, replies):
    found = []
    for line, reply in zip(lines, replies):
        try:
            step, reply = json.loads(line), json.loads(reply)
        except ValueError:
            continue
        if reply.get("ok") == "open":
            found.append(step["tenant"])
    return found
