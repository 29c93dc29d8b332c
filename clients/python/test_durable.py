#!/usr/bin/env python3
"""Tests of recall_durable: python3 clients/python/test_durable.py PROGRAM

200 flows and 200 hosts whose program and whose client are killed at random moments: what the client did is what one
plain run puts out. The last line is `N passed, M failed`.
"""

import asyncio
import contextlib
import json
import os
import random
import resource
import signal
import sqlite3
import subprocess
import sys
import tempfile
import time
from multiprocessing import Pool

HERE = os.path.dirname(os.path.abspath(__file__))
sys.path.insert(0, HERE)

import recall
from recall_durable import AsyncDurableHost, DurableFlow, DurableHost

FLOWS, KILLS, SECONDS = 200, 4, 60
DONE = "CREATE TABLE IF NOT EXISTS done (place INTEGER PRIMARY KEY, tenant TEXT, unit INTEGER, text TEXT)"


def steps_of(seed):
    """Posts down a chain, with kills and restarts of its units."""
    chance = random.Random(seed)
    steps = [{"do": "open", "tenant": "a", "units": ["tee", "relay", "tee", "echo"]}]
    down, number = None, 0
    for _ in range(chance.randrange(20, 120)):
        if down is None and chance.random() < 0.1:
            down = chance.randrange(1, 4)
            steps.append({"do": "kill", "tenant": "a", "unit": down})
        elif down is not None and chance.random() < 0.3:
            steps.append({"do": "restart", "tenant": "a", "unit": down})
            down = None
        else:
            steps.append({"do": "post", "tenant": "a", "unit": 0, "number": number, "text": f"text {number}"})
            number += 1
    return steps


def slowly(steps, chance):
    """The steps, some of them behind a pause."""
    for step in steps:
        if chance.random() < 0.1:
            time.sleep(chance.random() * 0.01)
        yield step


def plain(program, seed):
    """The outputs of one plain run."""
    given = b"".join(recall._line_of(step) for step in steps_of(seed))
    ran = subprocess.run([program, "drive", "-q"], input=given, capture_output=True, timeout=SECONDS, check=True)
    told = [json.loads(line) for line in ran.stdout.splitlines()]
    return [(it["tenant"], it["unit"], it["output"]) for it in told if "output" in it]


def act(program, room, seed):
    """The client: it notes each output, in the transaction of its batch."""
    chance = random.Random()
    with DurableFlow(program, os.path.join(room, "journal"), os.path.join(room, "seen.db")) as flow:
        flow.db.execute(DONE)
        flow.give(slowly(steps_of(seed), chance))
        for output in flow:
            flow.db.execute("INSERT INTO done (tenant, unit, text) VALUES (?, ?, ?)", output)
            if chance.random() < 0.05:
                time.sleep(chance.random() * 0.01)


def host_steps(seed):
    """Steps by hand, some of which are refused."""
    chance = random.Random(seed)
    steps = [{"do": "open", "tenant": "a", "units": ["tee", "echo"]}]
    for number in range(chance.randrange(20, 60)):
        steps.append({"do": "post", "tenant": "a", "unit": 0, "number": number, "text": f"text {number}"})
        for _ in range(chance.randrange(6)):
            do = chance.choice(
                ["deliver", "flush", "flush", "release", "release", "checkpoint", "kill", "restart", "notice"]
            )
            of = {"letter": number} if do == "deliver" else {"unit": chance.randrange(2)}
            steps.append({"do": do, "tenant": "a", **of})
    return steps


def act_steps(program, room, seed):
    """The client that has all steps: it notes each output, in the transaction of its group."""
    chance = random.Random()
    with own_host(program, room) as host:
        host.db.execute(DONE)
        for step, reply in host.run(slowly(host_steps(seed), chance), chance.choice([1, 7, 100])):
            for text in reply.get("outputs", ()):
                host.db.execute("INSERT INTO done (tenant, unit, text) VALUES (?, ?, ?)", ["a", step["unit"], text])


def act_asking(program, room, seed):
    """The client that asks step by step: it finds out from its own tables where it was."""
    with own_host(program, room) as host:
        host.db.execute(DONE)
        host.db.execute("CREATE TABLE IF NOT EXISTS posted (number INTEGER)")
        for step, reply in host.missed():
            note(host.db, step, reply)
        if not host.db.execute("SELECT 1 FROM posted").fetchone():
            with host.transaction():
                ask(host, {"do": "open", "tenant": "a", "units": ["echo"]})
                host.db.execute("INSERT INTO posted VALUES (-1)")
        for number in range(host.db.execute("SELECT max(number) FROM posted").fetchone()[0] + 1, 40 + seed % 20):
            with host.transaction():
                ask(host, {"do": "post", "tenant": "a", "unit": 0, "number": number, "text": f"text {number}"})
            with host.transaction():
                host.tenant("a").flush(0)
                ask(host, {"do": "release", "tenant": "a", "unit": 0})
        with host.transaction():
            ask(host, {"do": "flush", "tenant": "a", "unit": 0})
            ask(host, {"do": "release", "tenant": "a", "unit": 0})


def ask(host, step):
    """Asks, and notes the reply in the transaction that is under way."""
    try:
        reply = host.ask(step)
    except recall.Refused as refused:
        if refused.name not in ("already-open", "repeat"):
            raise
        reply = refused.reply
    note(host.db, step, reply)


def note(db, step, reply):
    """What is kept of a reply."""
    if step["do"] == "post":
        db.execute("INSERT INTO posted VALUES (?)", [step["number"]])
    for text in reply.get("outputs", ()):
        db.execute("INSERT INTO done (tenant, unit, text) VALUES (?, ?, ?)", ["a", step["unit"], text])


def plain_steps(program, seed):
    """The outputs of one plain run of all steps."""
    steps = host_steps(seed)
    given = b"".join(recall._line_of(step) for step in steps)
    ran = subprocess.run([program, "run", "-q"], input=given, capture_output=True, timeout=SECONDS, check=True)
    told = zip(steps, map(json.loads, ran.stdout.splitlines()))
    return [("a", step["unit"], text) for step, reply in told for text in reply.get("outputs", ())]


def plain_asking(_, seed):
    return [("a", 0, f"text {number}") for number in range(40 + seed % 20)]


def done_in(room):
    with sqlite3.connect(os.path.join(room, "seen.db")) as db:
        return list(db.execute("SELECT tenant, unit, text FROM done ORDER BY place"))


def children_of(process):
    try:
        with open(f"/proc/{process}/task/{process}/children", encoding="ascii") as file:
            return [int(word) for word in file.read().split()]
    except OSError:
        return []


def killed_once(words, chance):
    """Runs the client, and kills its program once or more, and then the client itself, unless it came to its end
    before. Gives its status, what it complained of, and how often something was killed."""
    client, count = subprocess.Popen(words, stdout=subprocess.DEVNULL, stderr=subprocess.PIPE), 0
    for _ in range(chance.randrange(3)):
        time.sleep(0.05 + chance.random() * 0.1)
        for child in children_of(client.pid):
            with contextlib.suppress(ProcessLookupError):  # (it has just ended)
                os.kill(child, signal.SIGKILL)
                count += 1
    time.sleep(chance.random() * 0.05)
    if client.poll() is None:
        client.send_signal(signal.SIGKILL)
        count += 1
    said = client.stderr.read().decode(errors="replace")
    client.stderr.close()
    return client.wait(SECONDS), said, count


def survives(program, client, seed, room):
    """A client that is killed several times and comes to its end. Gives how often, and what is wrong, if anything
    is."""
    chance, kills = random.Random(seed + 1000), 0
    words = [sys.executable, "-B", __file__, client, program, room, str(seed)]
    for _ in range(KILLS):
        status, said, count = killed_once(words, chance)
        kills += count
        if status not in (0, -signal.SIGKILL):
            return kills, f"status {status}: {said[-300:]}"
    ran = subprocess.run(words, capture_output=True, timeout=SECONDS)
    if ran.returncode:
        return kills, f"at the end: status {ran.returncode}: {ran.stderr.decode(errors='replace')[-300:]}"
    got, wanted = done_in(room), CLIENTS[client][1](program, seed)
    return kills, None if got == wanted else f"{len(got)} outputs were acted on, and {len(wanted)} are due"


# What a client that is killed does, and what is due of it.
CLIENTS = {"flow": (act, plain), "steps": (act_steps, plain_steps), "asking": (act_asking, plain_asking)}


def own_flow(program, room, count, refused=None, name=None):
    journal = os.path.join(room, "journal") if name is None else name
    flow = DurableFlow(program, journal, os.path.join(room, f"{len(name or '')}.db"), refused=refused)
    opening = {"do": "open", "tenant": "a", "units": ["echo"]}
    flow.give([opening] + [{"do": "post", "tenant": "a", "unit": 0, "number": n, "text": str(n)} for n in range(count)])
    return flow


def each_comes_once(program, room):
    for count, due in ((3, ["0", "1", "2"]), (3, []), (5, ["3", "4"])):
        with own_flow(program, room, count) as flow:
            got = [output.text for output in flow]
        if got != due:
            return f"of {count} posts came {got}"
    return None


def a_journal_of_any_name_is_taken(program, room):
    """One that looks like a word of the command line, and one with an escape and a line feed in it."""
    before = os.getcwd()
    os.chdir(room)
    try:
        for name in ("-j", "a\x1b[31m\nb"):
            with own_flow(program, room, 1, name=name) as flow:
                if [output.text for output in flow] != ["0"] or not os.path.exists(name):
                    return f"{name!r} is not taken"
    finally:
        os.chdir(before)
    return None


def what_is_no_step_or_no_file_is_told(program, room):
    """A step that isn't JSON, and a count that is kept in what is no database: nothing is written to either."""
    with DurableFlow(program, os.path.join(room, "journal"), os.path.join(room, "seen.db")) as flow:
        flow.give([{"do": "open", "tenant": "a", "units": ["echo"]}, {"do": object()}])
        try:
            list(flow)
            return "what isn't JSON was given"
        except TypeError:
            pass
    text = os.path.join(room, "text")
    with open(text, "w", encoding="utf-8") as file:
        file.write("no database" * 100)
    try:
        DurableFlow(program, os.path.join(room, "other"), text)
        return "a text was taken for a database"
    except sqlite3.DatabaseError:
        pass
    with open(text, encoding="utf-8") as file:
        return None if file.read() == "no database" * 100 else "the text was written to"


def a_loop_that_is_left_did_nothing(program, room):
    with own_flow(program, room, 3) as flow:
        flow.db.execute("CREATE TABLE done (text TEXT)")
        for output in flow:
            flow.db.execute("INSERT INTO done VALUES (?)", [output.text])
            break
        try:
            list(flow)
            return "it goes on behind a loop that was left"
        except ValueError:
            pass
    with own_flow(program, room, 3) as flow:
        for output in flow:
            flow.db.execute("INSERT INTO done VALUES (?)", [output.text])
        done = [text for text, in flow.db.execute("SELECT text FROM done")]
    return None if done == ["0", "1", "2"] else f"{done}"


def other_steps_are_told(program, room):
    with own_flow(program, room, 3) as flow:
        list(flow)
    with own_flow(program, room, 3) as flow:
        flow.give([{"do": "open", "tenant": "b", "units": ["echo"]}])
        try:
            list(flow)
        except ValueError as why:
            return None if "line 1 of the journal" in str(why) else str(why)
    return "other steps than the journal's were taken"


def refusals_are_told(program, room):
    told = []
    with own_flow(program, room, 1, refused=lambda step, reply: told.append((step["number"], reply["no"]))) as flow:
        flow.give(
            [
                {"do": "open", "tenant": "a", "units": ["echo"]},
                {"do": "post", "tenant": "a", "unit": 0, "number": 7, "text": "x"},
            ]
        )
        list(flow)
    return None if told == [(7, "gap")] else str(told)


def an_event_loop_has_them_too(program, room):
    async def collect(count):
        got = []
        with own_flow(program, room, count) as flow:
            async for output in flow:
                await asyncio.sleep(0)
                got.append(output.text)
        return got

    async def is_left():
        with own_flow(program, room, 6) as flow:
            async for output in flow:
                return output.text

    first, left, rest = asyncio.run(collect(3)), asyncio.run(is_left()), asyncio.run(collect(6))
    return None if (first, left, rest) == (["0", "1", "2"], "3", ["3", "4", "5"]) else f"{first}, {left} and {rest}"


def its_own_words_are_refused(program, room):
    for word in ("--from", "--audit", "--from=3"):
        try:
            DurableFlow(program, os.path.join(room, "journal"), os.path.join(room, "seen.db"), [word])
            return f"{word} was taken"
        except ValueError:
            pass
    return None


def an_error_is_raised(program, room):
    os.mkdir(os.path.join(room, "journal"))
    with DurableFlow(program, os.path.join(room, "journal", "none", "j"), os.path.join(room, "seen.db")) as flow:
        flow.give([])
        try:
            list(flow)
        except recall.Ended as ended:
            return None if ended.status == 1 and ended.complaint else str(ended)
    return "a journal that can't be is no error"


def pip_installs_it(_, room):
    """From the folder alone, without a network."""
    words = [
        sys.executable,
        "-m",
        "pip",
        "install",
        "-q",
        "--no-index",
        "--disable-pip-version-check",
        "--target",
        room,
        HERE,
    ]
    ran = subprocess.run(
        words, capture_output=True, timeout=SECONDS, env={**os.environ, "PYTHONDONTWRITEBYTECODE": "1"}
    )
    if b"No module named pip" in ran.stderr:
        return None
    found = {name for name in os.listdir(room) if name.endswith((".py", ".dist-info"))}
    due = {"recall.py", "recall_durable.py", "recall_client-0.9.12.dist-info"}
    return None if found == due else f"{found}: {ran.stderr.decode(errors='replace')[-300:]}"


def own_host(program, room):
    return recall.Host(program, journal=os.path.join(room, "journal"), outputs=os.path.join(room, "seen.db"))


def a_transaction_that_is_left_did_nothing(program, room):
    """Its replies are missed, and no call comes before they are taken; a call that fails within one undoes it."""
    with own_host(program, room) as host:
        tenant = host.open("a", ["echo"])
        host.db.execute("CREATE TABLE done (text TEXT)")
        try:
            with host.transaction():
                tenant.post(0, "x", 0)
                host.db.execute("INSERT INTO done VALUES ('x')")
                raise KeyError
        except KeyError:
            pass
        try:
            tenant.status(0)
            return "a call came before what was missed"
        except ValueError:
            pass
        missed = [(step["do"], reply["ok"]) for step, reply in host.missed()]
        if missed != [("post", "accepted")] or host.db.execute("SELECT * FROM done").fetchall():
            return f"{missed} was missed, or something was done"
        try:
            with host.transaction():
                with host.transaction():
                    return "a transaction within another"
        except ValueError:
            pass
        return None if tenant.status(0)["volatile"] == 1 else "the post was lost"


def steps_of_another_run_are_told(program, room):
    opening = {"do": "open", "tenant": "a", "units": ["echo"]}
    with own_host(program, room) as host:
        list(host.run([opening]))
    for steps in ([{**opening, "tenant": "b"}], []):
        with own_host(program, room) as host:
            try:
                return f"{list(host.run(steps))} of {steps}"
            except ValueError as why:
                if "line 0 of the journal" not in str(why):
                    return str(why)
    return None


def a_program_that_fails_is_an_error(program, room):
    with DurableHost(program, journal=os.path.join(room, "none", "j"), outputs=os.path.join(room, "seen.db")) as host:
        try:
            host.open("a", ["echo"])
            return "a journal that can't be is no error"
        except recall.Ended as ended:
            return None if ended.status == 1 and "none" in ended.complaint else str(ended)


def an_event_loop_has_hosts_too(program, room):
    async def go():
        async with AsyncDurableHost(
            program, journal=os.path.join(room, "journal"), outputs=os.path.join(room, "seen.db")
        ) as host:
            tenant = await host.open("a", ["echo"])
            try:
                async with host.transaction():
                    await tenant.post(0, "x", 0)
                    raise KeyError
            except KeyError:
                pass
            missed = [step["text"] async for step, _ in host.missed()]
            async with host.transaction():
                await tenant.flush(0)
                texts = await tenant.release(0)
            return missed, texts, await host.execute("SELECT count FROM recall_replies")

    found = asyncio.run(go())
    return None if found == (["x"], ["x"], [(4,)]) else str(found)


def fill(host, _):
    """The database has no page left."""
    host.db.execute("PRAGMA max_page_count = %d" % host.db.execute("PRAGMA page_count").fetchone()[0])
    host.db.execute("INSERT INTO done VALUES (?)", ["x" * 100_000])


def limit(host, _):
    """The file may not grow once all is to be kept."""
    host.db.execute("INSERT INTO done VALUES (?)", ["x" * 100_000])
    resource.setrlimit(resource.RLIMIT_FSIZE, (4096, resource.RLIM_INFINITY))


def read_meanwhile(host, other):
    """Somebody reads the database while all is to be kept: the commit fails, and SQLite leaves the transaction open."""
    host.db.execute("INSERT INTO done VALUES ('x')")
    host.db.execute("PRAGMA busy_timeout = 10")
    other.execute("BEGIN")
    other.execute("SELECT * FROM done").fetchall()


def what_can_not_be_kept_was_not_done(program, room):
    """Three faults of the file: the replies are missed, and come once it can be written again."""
    with own_host(program, room) as host, contextlib.closing(sqlite3.connect(os.path.join(room, "seen.db"))) as other:
        tenant = host.open("a", ["echo"])
        host.db.execute("CREATE TABLE done (text TEXT)")
        for number, fault in enumerate((fill, limit, read_meanwhile)):
            try:
                with host.transaction():
                    tenant.post(0, "x", number)
                    fault(host, other)
                return f"{fault.__name__}: it was kept"
            except sqlite3.OperationalError:
                resource.setrlimit(resource.RLIMIT_FSIZE, (resource.RLIM_INFINITY, resource.RLIM_INFINITY))
                host.db.execute("PRAGMA max_page_count = 1000000")
                other.rollback()
            missed = [(step.get("number"), reply["ok"]) for step, reply in host.missed()]
            if missed != [(number, "accepted")] or host.db.execute("SELECT 1 FROM done").fetchall():
                return f"{fault.__name__}: {missed} was missed, or something was done"
        return None if tenant.status(0)["volatile"] == 3 else "a post was lost"


CHECKS = (
    what_can_not_be_kept_was_not_done,
    a_transaction_that_is_left_did_nothing,
    steps_of_another_run_are_told,
    a_program_that_fails_is_an_error,
    an_event_loop_has_hosts_too,
    pip_installs_it,
    each_comes_once,
    a_journal_of_any_name_is_taken,
    what_is_no_step_or_no_file_is_told,
    a_loop_that_is_left_did_nothing,
    an_event_loop_has_them_too,
    other_steps_are_told,
    refusals_are_told,
    its_own_words_are_refused,
    an_error_is_raised,
)


def work(task):
    program, which, room = task
    own = tempfile.mkdtemp(dir=room)
    try:
        if isinstance(which, tuple):
            kills, wrong = survives(program, *which, own)
            return f"{which}", kills, wrong
        return which.__name__, 0, which(program, own)
    except Exception as error:
        return str(which), 0, f"{type(error).__name__}: {error}"


def main():
    if len(sys.argv) == 5 and sys.argv[1] in CLIENTS:
        return CLIENTS[sys.argv[1]][0](sys.argv[2], sys.argv[3], int(sys.argv[4]))
    if len(sys.argv) != 2:
        sys.exit(__doc__)
    passed = failed = kills = 0
    clients = [(client, seed) for seed in range(FLOWS) for client in ("flow", ("steps", "asking")[seed % 2])]
    with tempfile.TemporaryDirectory() as room, Pool(os.cpu_count()) as pool:
        tasks = [(os.path.abspath(sys.argv[1]), which, room) for which in [*CHECKS, *clients]]
        for name, count, wrong in pool.imap_unordered(work, tasks):
            passed, failed, kills = passed + (wrong is None), failed + (wrong is not None), kills + count
            if wrong is not None:
                print(f"durable: {name}: {wrong}", flush=True)
    print(f"durable: {kills} kills of programs and clients")
    failed += kills < len(clients)
    print(f"{passed} passed, {failed} failed")
    return 1 if failed else 0


if __name__ == "__main__":
    sys.exit(main())
