"""What the program draws of step lines."""

import glob
import json
import os
import subprocess

from happened import Flow, tenants_of

TOP = os.path.dirname(os.path.dirname(os.path.dirname(os.path.abspath(__file__))))
TOURS = sorted(glob.glob(os.path.join(TOP, "examples", "tour", "*.jsonl")))


def run(program, lines, *words):
    given = "".join(f"{line}\n" for line in lines).encode(errors="surrogatepass")
    return subprocess.run([program, *words], input=given, capture_output=True, timeout=300)


def replies_of(program, lines):
    return run(program, lines, "run").stdout.decode().splitlines()


def page_of(program, lines, *words):
    """The page, as text; None where the program fails."""
    ran = run(program, lines, "draw", "--html", *words)
    return ran.stdout.decode() if ran.returncode == 0 and not ran.stderr else None


def tours():
    """Each tenant of each flow of the tour: (name, lines, tenant)."""
    for path in TOURS:
        with open(path, encoding="utf-8") as file:
            lines = file.read().splitlines()
        with open(path.replace(".jsonl", ".replies"), encoding="utf-8") as file:
            for tenant in tenants_of(lines, file.read().splitlines()):
                yield f"{os.path.basename(path)[:-6]}-{tenant}", lines, tenant


def flow_of(program, lines, tenant):
    return Flow(tenant, lines, replies_of(program, lines))


def step(do, **keys):
    return json.dumps({"do": do, "tenant": "a", **keys})


def texts_flow(text):
    """A flow in which one text comes from outside, is put out and sent, and put out again; one output is released."""
    opened = [step("open", units=["tee", "echo"]), step("post", unit=0, number=0, text=text), step("deliver", letter=0)]
    return [*opened, step("flush", unit=0), step("release", unit=0)]
