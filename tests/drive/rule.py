"""The driver's rule, worked out over `run`: what `drive` must write for some lines.

Each step is given to a run and answered before the next. Which unit a letter is to is told by the kinds of the sample
handler: a relay sends to the next unit round the ring of those that were there when it was made, a tee to the next.
"""

import json
import subprocess

MOST_DELIVERIES = 65_536


class Run:
    """A run that is given one line at a time."""

    def __init__(self, program):
        pipe = subprocess.PIPE
        self.process = subprocess.Popen([program, "run"], stdin=pipe, stdout=pipe, stderr=subprocess.DEVNULL)
        self.steps = 0

    def ask(self, line):
        self.process.stdin.write(line + b"\n")
        self.process.stdin.flush()
        self.steps += 1
        return self.process.stdout.readline()

    def close(self):
        self.process.stdin.close()
        self.process.stdout.close()
        self.process.wait()


class Tenant:
    def __init__(self, kinds):
        self.units = [{"kind": kind, "home": len(kinds), "up": True, "took": False, "held": 0} for kind in kinds]
        self.letters = []  # (number and receiver, in the order of the numbers)

    def receiver(self, unit):
        kind, home = self.units[unit]["kind"], self.units[unit]["home"]
        return (unit + 1) % home if kind == "relay" else unit + 1


class Driver:
    """Drives one run by the rule."""

    def __init__(self, program):
        self.run, self.tenants, self.out, self.receivers = Run(program), {}, [], {}

    def line(self, line):
        """Answers a line, and carries on."""
        reply = self.run.ask(line)
        self.out.append(reply)
        step, told = parsed(line), json.loads(reply)
        if not isinstance(step, dict) or told.get("no") in ("bad-line", "no-tenant"):
            return
        name = step["tenant"]
        if told.get("ok") == "open":
            self.tenants[name] = Tenant(step["units"])
        if name not in self.tenants:
            return
        tenant = self.tenants[name]
        if told.get("ok") == "join":
            home = len(tenant.units) + 1
            tenant.units.append({"kind": step["kind"], "home": home, "up": True, "took": False, "held": 0})
        unit = self.receivers.get((name, step["letter"])) if step["do"] == "deliver" else step.get("unit")
        self.hear(name, step["do"], unit, told)
        self.carry_on(name, unit if told.get("ok") == "restart" else None)

    def hear(self, name, do, unit, told):
        tenant = self.tenants[name]
        if told.get("ok") == "accepted":
            tenant.units[unit]["took"], tenant.units[unit]["held"] = True, told["held"]
            for letter in told["letters"]:
                self.receivers[name, letter] = tenant.receiver(unit)
                tenant.letters.append((letter, tenant.receiver(unit)))
        elif told.get("ok") == "flush":
            tenant.units[unit]["took"] = False
        elif told.get("ok") == "released":
            tenant.units[unit]["held"] -= len(told["outputs"])
        elif told.get("ok") in ("kill", "restart"):
            tenant.units[unit]["up"] = told["ok"] == "restart"

    def give(self, name, do, **words):
        """Gives a step of its own, and tells the refusal, if there is one."""
        told = json.loads(self.run.ask(encoded({"do": do, "tenant": name, **words})))
        unit = self.receivers[name, words["letter"]] if do == "deliver" else words["unit"]
        for text in told.get("outputs", []):
            self.out.append(encoded({"output": text, "tenant": name, "unit": unit}) + b"\n")
        self.hear(name, do, unit, told)
        return told.get("no")

    def carry_on(self, name, restarted):
        units = self.tenants[name].units
        if restarted is not None:
            for other, unit in enumerate(units):
                if other != restarted and unit["up"]:
                    self.give(name, "notice", unit=other)
        self.deliver(name)
        self.flush(name)
        for place, unit in enumerate(units):
            if unit["up"] and unit["held"]:
                self.give(name, "release", unit=place)

    def flush(self, name):
        for place, unit in enumerate(self.tenants[name].units):
            if unit["up"] and unit["took"]:
                self.give(name, "flush", unit=place)

    def deliver(self, name):
        tenant, kept, left = self.tenants[name], [], MOST_DELIVERIES
        while tenant.letters and left:
            letter, unit = tenant.letters.pop(0)
            refusal = self.attempt(name, letter, unit)
            left -= refusal is None
            if refusal not in (None, "repeat", "orphan"):
                kept.append((letter, unit))
        tenant.letters = kept + tenant.letters

    def attempt(self, name, letter, unit):
        refusal = self.give(name, "deliver", letter=letter)
        if refusal == "wait":
            self.give(name, "notice", unit=unit)
        elif refusal in ("pending", "quota"):
            self.flush(name)
            if refusal == "quota":
                self.give(name, "release", unit=unit)
        else:
            return refusal
        return self.give(name, "deliver", letter=letter)


def parsed(line):
    try:
        return json.loads(line)
    except ValueError:
        return None


def encoded(step):
    return json.dumps(step, sort_keys=True, separators=(",", ":"), ensure_ascii=False).encode()


def driven(program, lines):
    """What `drive` must write for these lines, and how many steps that takes."""
    driver = Driver(program)
    for line in lines:
        driver.line(line)
    driver.run.close()
    return b"".join(driver.out), driver.run.steps
