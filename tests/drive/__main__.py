"""`drive`, against its rule: python3 tests/drive PROGRAM [WORD]

Each check prints a line where it fails; the last line is `N passed, M failed`. With WORD, only the checks whose names
have it.
"""

import os
import subprocess
import sys
import tempfile
import time
from multiprocessing import Pool

HERE = os.path.dirname(os.path.abspath(__file__))
sys.path.append(os.path.join(HERE, "..", "hostile"))

import crashes
import flows
import memory
import rule
import scripts
from program import ROWS, ROWS_PROGRAM, Program, whole_lines

SCRIPTS = 200
# Each script's run is ended once at a random moment, and those of the first ones more often.
OFTEN, KILLS = 20, 10
# How many requests for memory of the large ring are refused.
PLACES = 400
EXAMPLES = os.path.join(HERE, "..", "..", "examples", "drive")


def drive(program, lines, *words):
    """What `drive` writes for these lines, what it complains of, and its status."""
    given = b"".join(line + b"\n" for line in lines)
    ran = subprocess.run([program, "drive", *words], input=given, capture_output=True, timeout=60)
    return ran.stdout, ran.stderr, ran.returncode


def differs(got, wanted):
    """Where two outputs differ, if they do."""
    for at, (one, other) in enumerate(zip(got.splitlines() + [b"nothing"], wanted.splitlines() + [b"nothing"])):
        if one != other:
            return f"line {at + 1} is {one.decode(errors='replace')}, and not {other.decode(errors='replace')}"
    return None if got == wanted else "one ends before the other"


def as_due(program, lines, wanted):
    """By a host, and by a book, which audits at the end and tells why letters wait."""
    got, _, status = drive(program, lines)
    if status or got != wanted:
        return f"status {status}: {differs(got, wanted)}"
    got, _, status = drive(program, lines, "--audit", "--explain")
    audits = b"".join(line + b"\n" for line in got.splitlines() if line.startswith(b'{"audit":'))
    if status or not got.endswith(audits) or b'"no"' in audits:
        return f"with an audit: status {status}, {audits.decode()}"
    return differs(got[: len(got) - len(audits)], wanted)


def flow(program, name, room):
    rows = dict(flows.FLOWS)[name]
    return as_due(program, flows.lines_of(rows), flows.written(rows))


def example_of(name):
    """An example's lines, and what is due."""
    path = os.path.join(EXAMPLES, name)
    with open(path + ".jsonl", "rb") as given, open(path + ".lines", "rb") as due:
        return given.read().splitlines(), due.read()


def example(program, name, room):
    return as_due(program, *example_of(name))


def memory_refused_of_example(program, name, room):
    return memory.wrong_in_program(Program(program, room), *example_of(name))


def follows_the_rule(program, seed, room):
    lines = scripts.script(seed)
    wanted, _ = rule.driven(program, lines)
    return as_due(program, lines, wanted)


def begins_a_run_without_failures(program, seed, room):
    """Each unit's outputs begin those of the same posts without a kill."""
    whole = scripts.outputs_of(drive(program, scripts.script(seed, fails=False, is_chain=True))[0])
    for unit, outputs in scripts.outputs_of(drive(program, scripts.script(seed, is_chain=True))[0]).items():
        if outputs != whole.get(unit, [])[: len(outputs)]:
            return f"unit {unit} put out {outputs}, and without failures {whole.get(unit)}"
    return None


def killed(program, seed, room):
    lines = [line + b"\n" for line in scripts.script(seed, 80)]
    is_often = seed < OFTEN
    count, wrong = crashes.crash(program, room, lines, seed, KILLS if is_often else 1)
    return wrong or ("no run was killed" if is_often and not count else None)


def memory_refused(program, name, room):
    rows = dict(flows.FLOWS)[name]
    return memory.wrong_in_program(Program(program, room), flows.lines_of(rows), flows.written(rows))


def memory_refused_of_row(program, name, room):
    """Of a flow over a store that fails: only there a letter has to wait for a notice, or is an orphan."""
    if not os.path.isfile(ROWS_PROGRAM):
        return "the rows' own program isn't there: `rt ci` builds it"
    with open(os.path.join(ROWS, name + ".steps"), "rb") as steps, open(
        os.path.join(ROWS, name + ".replies"), "rb"
    ) as due:
        lines, wanted = steps.read().splitlines(), due.read()
    for host in ("book", "host"):
        wrong = memory.wrong_in_row(Program(program, room), f"{host} {name}", lines, wanted)
        if wrong:
            return f"by a {host}: {wrong}"
    return None


def large_ring(program, _, room):
    """As many deliveries for a line as there are at most, and the rest behind the next lines."""
    return as_due(program, flows.lines_of(flows.LARGE_RING), flows.written(flows.LARGE_RING))


def memory_refused_of_large_ring(program, _, room):
    """Some of its requests, spread over all: there are a hundred thousand."""
    rows = flows.LARGE_RING
    return memory.wrong_in_program(Program(program, room), flows.lines_of(rows), flows.written(rows), PLACES)


def output_fails(program, _, room):
    """Output that takes each number of bytes in turn has just those, and the run ends with status 1."""
    rows, own = dict(flows.FLOWS)["a letter goes through, and each unit's output leaves"], Program(program, room)
    given, wanted = b"".join(line + b"\n" for line in flows.lines_of(rows)), flows.written(rows)
    for count in range(len(wanted)):
        got, said, status = own.run(given, "drive", "-q", write=count)
        if (got, status) != (wanted[:count], 1) or b"the output can't be written" not in said:
            return f"{count} bytes: status {status}, {got!r}, {said!r}"
    return None


def journal_fails(program, _, room):
    """A journal whose writing or syncing fails at each place in turn: what another run writes that goes on is what is
    missing."""
    rows, own = dict(flows.FLOWS)["a letter goes through, and each unit's output leaves"], Program(program, room)
    lines, wanted = [line + b"\n" for line in flows.lines_of(rows)], flows.written(rows)
    appends = [{"append": count} for count in range(len(b"".join(lines)))]
    for fault in appends + [{"sync": count} for count in range(1, 6)]:
        journal = os.path.join(room, "-".join(f"{name}-{count}" for name, count in fault.items()))
        first, _, status = own.run(b"".join(lines), "drive", "-q", "--journal", journal, lines=1, **fault)
        seen = str(first.count(b"\n"))
        rest = b"".join(lines[whole_lines(journal) :])
        second, said, ended = own.run(rest, "drive", "-q", "--adopt", "--journal", journal, "--from", seen)
        if status not in (0, 1) or ended or first + second != wanted:
            return f"{fault}: status {status} and {ended}, {first!r}, {second!r}, {said!r}"
    return None


def asks_too_much(program, _, room):
    """`--from` past what the journal's lines give is told, and nothing of the input is read."""
    journal, rows = os.path.join(room, "short"), flows.FLOWS[0][1]
    drive(program, flows.lines_of(rows), "--journal", journal)
    got, said, status = drive(program, [b"{"], "--journal", journal, "--from", "4")
    if (got, status) != (b"", 1) or b"gives 1 line fewer" not in said:
        return f"status {status}: {said.decode()}"
    got, _, status = drive(program, [], "--journal", journal, "--from", "1")
    return f"status {status}" if status else differs(got, b"".join(flows.written(rows).splitlines(True)[1:]))


def waits_are_told(program, _, room):
    """A letter that waits is told of with what would help, with --explain once, and at the end."""
    steps = flows.open_line("relay", "echo"), flows.of("kill", 1), flows.post(0, 0), flows.of("status", 0)
    lines = [step.encode() for step in steps]
    told = b"letter 0 to unit 1 waits: unit 1 is down: restart it"
    _, said, _ = drive(program, lines)
    _, explained, _ = drive(program, lines, "--explain")
    _, verbose, _ = drive(program, lines, "-v")
    if said.count(told) != 1 or explained.count(told) != 2:
        return f"told {said.decode()} and {explained.decode()}"
    gave = b"the driver gave: deliver 0, flush 1, notice 0, release 0; 0 outputs left"
    return None if gave in verbose else verbose.decode()


def tasks():
    """Each check: its name, what does it, and of what."""
    for name, _ in flows.FLOWS:
        yield f"flow: {name}", flow, name
        yield f"memory: {name}", memory_refused, name
    for name in sorted(file.removesuffix(".steps") for file in os.listdir(ROWS) if file.endswith(".steps")):
        if name.startswith("driven-"):
            yield f"memory: {name}", memory_refused_of_row, name
    yield "flow: a large ring", large_ring, None
    yield "memory: a large ring", memory_refused_of_large_ring, None
    for file in sorted(os.listdir(EXAMPLES)):
        if file.endswith(".jsonl"):
            yield f"example: {file}", example, file.removesuffix(".jsonl")
            yield f"memory: example {file}", memory_refused_of_example, file.removesuffix(".jsonl")
    for seed in range(SCRIPTS):
        yield f"rule: script {seed}", follows_the_rule, seed
        yield f"failures: script {seed}", begins_a_run_without_failures, seed
        yield f"killed: script {seed}", killed, seed
    yield "output that fails", output_fails, None
    yield "journal that fails", journal_fails, None
    yield "journal: --from past the end", asks_too_much, None
    yield "letters that wait are told of", waits_are_told, None


def work(task):
    path, (name, check, of), room = task
    try:
        return name, check(path, of, tempfile.mkdtemp(dir=room))
    except Exception as error:
        return name, f"{type(error).__name__}: {error}"


def main():
    if len(sys.argv) not in (2, 3):
        sys.exit(__doc__)
    word, begun = sys.argv[2] if len(sys.argv) == 3 else "", time.time()
    passed, failed = 0, 0
    with tempfile.TemporaryDirectory() as room, Pool(os.cpu_count()) as pool:
        chosen = [(os.path.abspath(sys.argv[1]), task, room) for task in tasks() if word in task[0]]
        for name, wrong in pool.imap_unordered(work, chosen):
            passed, failed = passed + (wrong is None), failed + (wrong is not None)
            if wrong is not None:
                print(f"drive: {name}: {wrong[:500]}", flush=True)
    print(f"drive: {time.time() - begun:.0f} seconds")
    print(f"{passed} passed, {failed} failed")
    return 1 if failed or not passed else 0


if __name__ == "__main__":
    sys.exit(main())
