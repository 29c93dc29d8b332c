"""Flows of step lines at random, made beside a run of the program, so that most of their lines are accepted."""

import json
import random
import subprocess

from happened import Flow

KINDS = ["relay", "echo", "tee", "count", "adder"]
STEPS = ["post", "deliver", "flush", "release", "kill", "restart", "notice", "checkpoint", "join", "bad"]
OFTEN = [8, 14, 4, 4, 1, 3, 2, 1, 0.2, 0.3]


def line_of(do, **keys):
    return json.dumps({"do": do, "tenant": "a", **keys})


def next_line(rng, flow):
    """A line of a step that may well be accepted, or of another tenant, or none."""
    do = rng.choices(STEPS, OFTEN)[0]
    unit = rng.choice(flow.units)
    if do == "bad":
        return rng.choice(["", "{}", "x", line_of("open", units=["echo"]), '{"do":"flush","tenant":"b","unit":0}'])
    if do == "join":
        return line_of(do, kind=rng.choice(KINDS))
    if do == "post":
        taken = sum(one.before is not None and one.sender is None for one in unit.path)
        return line_of(do, number=taken, text=str(rng.randrange(100)), unit=unit.number)
    if do == "deliver":
        numbers = sorted(flow.letters)
        return line_of(do, letter=rng.choice(numbers[-12:]) if numbers else 0)
    if do == "restart":
        unit = next((each for each in flow.units if not each.is_up), unit)
    return line_of(do, unit=unit.number)


def make_flow(program, seed, count):
    """A flow of so many lines, as (lines, replies, flow)."""
    rng = random.Random(seed)
    run = subprocess.Popen([program, "run"], stdin=subprocess.PIPE, stdout=subprocess.PIPE, bufsize=0)
    flow = Flow("a", [], [])
    lines, replies = [], []
    wanted = line_of("open", units=[rng.choice(KINDS[:3]) for _ in range(rng.randrange(1, 5))])
    for _ in range(count):
        lines.append(wanted)
        run.stdin.write(wanted.encode() + b"\n")
        replies.append(run.stdout.readline().decode().rstrip("\n"))
        flow.enter(len(lines), lines[-1], replies[-1])
        wanted = next_line(rng, flow)
    run.stdin.close()
    run.wait()
    return lines, replies, flow
