"""The attacks of `try`: what a tenant, a producer or a slow link can do to a partition. Each is a function of the place
where it is tried; it raises `Wrong` where the recipe gives way, and else gives what it saw, in words."""

import contextlib
import json
import os
import signal
import subprocess
import time

import redis

import put  # (this finds the modules of the folder above)
import putting
import running
from trials import ANSWERS, LEASE, LONG, TEXTS, Held, Link, Wrong, free_port, line, must
from trials import one_long_reply, outcome, plain_run, slow_program, until

RATE = 8_000_000  # (bytes a second of a slow program, and of a slow link: a reply of 25 MB takes three leases)
EACH = 4  # (steps behind which a snapshot is kept, where that is tried)
CLIENTS = 128 << 20  # (bytes that a server lets its clients have in hand, where many long replies are made at once)


class Place:
    """Where an attack is tried: the program, a server with the functions of a folder of scripts and nothing else, a
    folder, and how many tenants make long replies at once."""

    def __init__(self, program, server, scripts, room, tenants):
        self.program, self.server, self.scripts, self.room, self.tenants = program, server, scripts, room, tenants
        self.client = server.client
        self.partitions = put.partitions_of(server.client, "recall", 1)
        self.steps, self.replies = (self.partitions[0].key(stream, 0) for stream in ("steps", "replies"))

    def held(self, program, url, lease=LEASE, each=0):
        """A worker's process, with a snapshot behind each so many steps."""
        words = [program, "0", "--redis", url, "--lease", str(lease), "--snapshot", str(each)]
        return Held([os.path.join(self.scripts, "worker.py"), *words], 0)

    @contextlib.contextmanager
    def worker(self, program=None, url=None, each=0):
        """A worker of the partition, which must not have ended by itself when it is told to stop."""
        held = self.held(program or self.program, url or self.server.url, each=each)

        def watch():
            if held.process.poll() is not None:
                raise Wrong(f"the worker ended with status {held.end()[0]}: {held.said[-1][:300] if held.said else ''}")

        until.watch = watch
        try:
            until("the lease", held.has_lease)
            yield held
            watch()
        finally:
            until.watch = lambda: None
            held.process.terminate()
            try:
                held.process.wait(10)
            except subprocess.TimeoutExpired:
                held.process.kill()
                held.process.wait()

    def give(self, name, lines):
        """Puts lines in by a producer of this name."""
        producer = put.Producer(self.client, self.partitions, name)
        for each in lines:
            producer.add(each)
        while not producer.send():
            pass

    def answered(self, count):
        """Waits until so many steps have their replies."""
        until(f"{count} replies", lambda: self.client.xlen(self.replies) >= count)

    def compare(self, *puts):
        """Sees that the recorded replies are those of one plain run of what was put, each a producer's name and its
        lines, one by one: all of them may be too many to hold. Gives their bytes."""
        given, taken = (os.path.join(self.room, name) for name in ("given", "taken"))
        with open(given, "wb") as file:
            file.writelines(each + b"\n" for _, lines in puts for each in lines)
        with open(given, "rb") as file, open(taken, "wb") as replies:
            subprocess.run([self.program, "run"], stdin=file, stdout=replies, check=True)
        wanted = [(name.encode(), number) for name, lines in puts for number in range(len(lines))]
        reader, count = put.Replies(self.client, self.partitions), 0
        with open(taken, "rb") as replies:
            while count < len(wanted):
                for _, name, number, reply in reader.read(1000):
                    if (name, number) != wanted[count] or reply + b"\n" != replies.readline():
                        raise Wrong(f"the reply to line {number} of {name} is {reply[:100]}..")
                    count += 1
            return replies.tell()


# A reply that is written, and appended, more slowly than a lease lasts.


def hang(place):
    """A program that takes steps and answers none doesn't keep the lease: its worker ends, and the next one has it."""
    hung = place.held(place.program, place.server.url)
    try:
        until("the lease of the worker whose program hangs", hung.has_lease)
        os.kill(hung.begun()[1], signal.SIGSTOP)
        place.give("hang", [line("status")])
        begun = time.monotonic()
        with place.worker():
            place.answered(1)
        if (seconds := time.monotonic() - begun) > ANSWERS:
            raise Wrong(f"a program that hangs kept its partition for {seconds:.0f} s")
        with contextlib.suppress(subprocess.TimeoutExpired):  # (then it has no status)
            hung.process.wait(3)
        if hung.process.poll() is None or hung.end()[0] != 5 or "wrote nothing for 1 s" not in hung.said[-1]:
            raise Wrong(f"the worker of a program that hangs: status {hung.process.poll()}, {hung.said[-1]}")
    finally:
        with contextlib.suppress(ProcessLookupError):
            os.kill(hung.begun()[1], signal.SIGKILL)
        hung.end()
    place.client.flushall()
    place.partitions = put.partitions_of(place.client, "recall", 1)


def slow_replies(place):
    hang(place)
    lines, link = one_long_reply("a"), Link(place.server.port, RATE)
    url = f"redis://127.0.0.1:{link.port}"
    place.give("slow", lines)
    seconds = []
    try:
        with place.worker(slow_program(place.program, RATE, place.room), url):
            begun = time.monotonic()
            place.answered(len(lines) - 1)
            seconds.append(time.monotonic() - begun)
            begun = time.monotonic()
            place.answered(len(lines))
            seconds.append(time.monotonic() - begun)
        more = [line("status", unit=0)]
        place.give("more", more)
        # It replays: the reply is written once more, and dropped.
        with place.worker(slow_program(place.program, RATE, place.room), url):
            place.answered(len(lines) + 1)
    finally:
        link.close()
    bytes = place.compare(("slow", lines), ("more", more))
    what = f"{bytes / 1e6:.0f} MB of replies, the last of which took {seconds[-1]:.1f} s"
    return f"{what}, were recorded under one lease of {LEASE / 1000} s"


# Lines that make many long replies at once.


def many_long_replies(tenant):
    """Lines of a tenant of sixteen units, each of which puts out what the first one was given: 26 MB, answered by
    403."""
    yield line("open", tenant, units=["tee"] * 15 + ["echo"])
    for number in range(TEXTS):
        yield line("post", tenant, unit=0, number=number, text=LONG)
    yield line("flush", tenant, unit=0)
    for unit in range(1, 16):
        for letter in range(TEXTS):
            yield line("deliver", tenant, letter=(unit - 1) * TEXTS + letter)
        yield line("flush", tenant, unit=unit)


@contextlib.contextmanager
def limit(place, name, value):
    """The server has this limit meanwhile."""
    was = place.client.config_get(name)[name]
    place.client.config_set(name, value)
    try:
        yield
    finally:
        place.client.config_set(name, was)


def refuse_limits(place):
    """A server that takes no long words is a fault before any step is read."""
    for name in ("proto-max-bulk-len", "client-query-buffer-limit"):
        with limit(place, name, 1 << 20):
            command = [os.path.join(place.scripts, "worker.py"), place.program, "0", "--redis", place.server.url]
            done = subprocess.run(command, capture_output=True, timeout=ANSWERS)
            if done.returncode != 1 or name.encode() not in done.stderr:
                raise Wrong(f"a server with a small {name}: {done}")


def long_replies(place):
    with limit(place, "maxmemory-clients", CLIENTS):
        said = answer_long_replies(place)
    refuse_limits(place)
    return said


def answer_long_replies(place):
    names = [f"large-{number}" for number in range(place.tenants)]
    lines = [each for name in names for each in many_long_replies(name)]
    lines += [line("release", name, unit=unit) for name in names for unit in range(16)]
    other = [line("open", "other", units=["echo"]), line("post", "other", unit=0, number=0, text="x")]
    place.give("large", lines)
    place.give("other", other)
    with place.worker():
        place.answered(len(lines) + len(other))
    more = [line("status", "other", unit=0)]
    place.give("more", more)
    with place.worker():  # (it replays, and drops all of them)
        place.answered(len(lines) + len(other) + len(more))
    size = sum(map(len, lines))
    bytes = place.compare(("large", lines), ("other", other), ("more", more))
    return f"{size / 1e6:.0f} MB of lines were answered by {bytes / 1e6:.0f} MB, and so was another tenant behind them"


# A producer's name that begins anew with other lines.


def other_lines(place):
    words = ["1", "--redis", place.server.url, "--producer", "one"]
    first = [line("open", units=["echo"]), *(line("post", unit=0, number=number, text="x") for number in range(3))]
    others = {
        "another line first": [line("open", "b", units=["echo"]), *first[1:], first[3], first[3]],
        "another line last": [*first[:3], line("status", unit=0)],
        "another line last, and more": [*first[:3], line("status", unit=0), first[3]],
        "fewer lines": first[:2],
        "another line of as many bytes": [first[0], first[1].replace(b'"x"', b'"y"'), *first[2:]],
    }
    run = lambda lines, words=words: subprocess.run(
        [os.path.join(place.scripts, "put.py"), *words],
        input=b"".join(each + b"\n" for each in lines),
        capture_output=True,
        timeout=ANSWERS,
    )
    with place.worker():
        wanted = plain_run(place.program, first)
        for _ in range(2):
            if (done := run(first)).stdout.splitlines() != wanted or done.returncode:
                raise Wrong(f"a producer's lines: {done}")
        for what, lines in others.items():
            done = run(lines)
            if done.stdout or done.returncode != 1 or b"the producer one has 4 steps" not in done.stderr:
                raise Wrong(f"{what}: status {done.returncode}, {done.stdout[:200]}, {done.stderr[-200:]}")
            if place.client.xlen(place.steps) != len(first):
                raise Wrong(f"{what}: {place.client.xlen(place.steps)} steps are there, not {len(first)}")
        more = [*first, line("status", unit=0)]
        if (done := run(more)).stdout.splitlines() != plain_run(place.program, more):
            raise Wrong(f"the same lines and one more: {done}")
        if (done := run(first, words[:3])).returncode != 2 or b"--producer" not in done.stderr:
            raise Wrong(f"no name: {done}")
    return f"{len(others)} lists of other lines under a producer's name were told, and none put in or answered"


# Numbers that are no numbers.


NUMBERS = [
    "0x0",
    "0.0",
    "",
    " ",
    "0e0",
    "00",
    "-0",
    "+0",
    " 0",
    "0 ",
    "0\n",
    "\0",
    "-1",
    "nan",
    "inf",
    "1" * 16,
    "9" * 400,
    "zero",
    "٠",
]


def no_numbers(place):
    keys = [place.partitions[0].key(*words) for words in (("epoch",), ("steps", 0), ("producers",))]
    lease = [place.partitions[0].key(word) for word in ("lease", "fence", "holder")]
    calls = {
        "a put": lambda number: place.client.fcall("recall_put", 3, *keys, 0, "bad", number, "", line("status")),
        "a lease": lambda number: place.client.fcall("recall_take", 3, *lease, "word", number, "host", 1),
        "a process": lambda number: place.client.fcall("recall_take", 3, *lease, "word", 1000, "host", number),
    }
    for what, call in calls.items():
        for number in NUMBERS:
            try:
                raise Wrong(f"{what} of the number {number!r} was answered {call(number)}")
            except redis.ResponseError as refused:
                if not str(refused).startswith("NUMBER"):
                    raise Wrong(f"{what} of the number {number!r}: {refused}")
            if found := [key for key in place.client.keys() if key != b"recall:partitions"]:
                raise Wrong(f"{what} of the number {number!r} wrote {found}")
    append_no_numbers(place, lease)
    partition_no_numbers(place)
    with place.worker():
        for number in NUMBERS:
            place.client.xadd(place.steps, {"from": "bad", "number": number, "line": "", "more": "words"})
        place.client.xadd(place.steps, {"word": "alone"})
        lines = [line("open", units=["echo"])]
        replies = putting.put(
            put.Producer(place.client, place.partitions, "good"), put.Replies(place.client, place.partitions), lines
        )
        if list(replies) != plain_run(place.program, lines):
            raise Wrong("a step after the refused ones has another reply")
    return f"{len(NUMBERS)} numbers that are none were refused in each place, before anything was written"


def append_no_numbers(place, keys):
    """An append whose second reply has no number, or an id out of place, leaves the first one out too."""
    held = place.client.fcall("recall_take", 3, *keys, "word", 60_000, "host", 1)
    steps = [place.client.xadd(place.steps, {"from": "bad", "number": number, "line": ""}) for number in range(2)]
    first = (steps[0], "bad", 0, "reply")
    words = [(60_000, 0, *first, steps[1], "bad", number, "reply") for number in NUMBERS if number]
    words += [(number, 0, *first) for number in NUMBERS] + [(60_000, number, *first) for number in NUMBERS]
    words += [(60_000, 0, *first, id, "bad", 1, "reply") for id in (steps[0], "1-1", "x", "*", "9" * 30, "")]
    for each in words:
        try:
            told = place.client.fcall("recall_append", 3, keys[0], place.steps, place.replies, held, *each)
            raise Wrong(f"an append of {each} was answered {told}")
        except redis.ResponseError as refused:
            if place.client.xlen(place.replies):
                raise Wrong(f"an append of {each} was refused ({refused}), and wrote all the same")
    place.client.delete(place.steps, *keys)


def partition_no_numbers(place):
    """A count of partitions that can't be isn't fixed for those who come later."""
    for count in ("0", "-1", "16385", "0x1", "1.0"):
        words = [f"--redis={place.server.url}", "--name=none", "--producer=one", "--", count]
        done = subprocess.run(
            [os.path.join(place.scripts, "put.py"), *words], input=b"{}", capture_output=True, timeout=ANSWERS
        )
        if done.returncode not in (1, 2) or done.stdout or place.client.exists("none:partitions"):
            raise Wrong(f"{count} partitions: {done}")


# A server that is down, refuses a password, or goes away.


def script(place, name, *words, url=None, given=b"{}\n"):
    """What a script does with these words at this address."""
    return outcome([os.path.join(place.scripts, name), *words, "--redis", url or place.server.url], given)


def scripts_of(place):
    """Each script with words that are good."""
    return {
        "worker.py": [place.program, "0"],
        "epoch.py": [place.program, "0"],
        "put.py": ["1", "--producer", "one", "--timeout", "1"],
        "recallctl": ["status"],
    }


def server_gone(place):
    nobody = f"redis://127.0.0.1:{free_port()}"
    for name, words in scripts_of(place).items():
        must(f"{name} with no server", script(place, name, *words, url=nobody), 4, "can't be reached")
        must(f"{name} with a bad address", script(place, name, *words, url="nothing"), 2, "address")
    place.client.config_set("requirepass", "secret")
    wrong = place.server.url.replace("//", "//:wrong@")
    for name, words in scripts_of(place).items():
        must(f"{name} with no password", script(place, name, *words), 4, "password")
        must(f"{name} with a wrong password", script(place, name, *words, url=wrong), 4, "password")
    place.client.auth("secret")
    place.client.config_set("requirepass", "")
    go_in_the_middle(place)
    no_functions(place)
    no_programs(place)
    return "each script ends with one line and a status where the server is down, refuses it, lacks functions or goes"


def go_in_the_middle(place):
    """A server that is ended while scripts use it, and one that is a replica."""
    worker = place.held(place.program, place.server.url)
    until("the lease", worker.has_lease)
    waiting = place.held(place.program, place.server.url)
    command = [
        os.path.join(place.scripts, "put.py"),
        "1",
        "--producer",
        "one",
        "--timeout",
        "2",
        "--redis",
        place.server.url,
    ]
    os.kill(worker.begun()[1], signal.SIGSTOP)
    producer = subprocess.Popen(command, stdin=subprocess.PIPE, stdout=subprocess.PIPE, stderr=subprocess.PIPE)
    producer.stdin.write(b"{}\n")
    producer.stdin.close()
    until("a step", lambda: place.client.xlen(place.steps))
    place.server.kill()
    for what, held in {"a worker": worker, "a waiting worker": waiting}.items():
        status, _ = held.end()
        lines = [said for said in held.said if ": lease " not in said]
        must(f"{what} whose server goes", (status, "", "\n".join([*lines, ""])), 4, "can't be reached")
    must("put.py whose server goes", (producer.wait(), "", producer.stderr.read().decode()), 4, "can't be reached")
    place.server.start()
    place.client.execute_command("REPLICAOF", "127.0.0.1", free_port())
    for name in ("worker.py", "put.py", "epoch.py"):
        must(f"{name} on a replica", script(place, name, *scripts_of(place)[name]), 4, "replica")
    status, said, _ = script(place, "recallctl", "status")
    if status != 1 or "a replica whose link is down" not in said:
        raise Wrong(f"a replica's status: {status}, {said}")
    place.client.execute_command("REPLICAOF", "NO", "ONE")


def no_functions(place):
    """A server without the functions is told."""
    place.client.flushall()
    place.client.execute_command("FUNCTION", "FLUSH")
    for name in ("worker.py", "put.py", "epoch.py"):
        must(f"{name} without functions", script(place, name, *scripts_of(place)[name]), 1, "FUNCTION LOAD")
    status, said, _ = script(place, "recallctl", "status")
    if status != 1 or "FUNCTION LOAD" not in said:
        raise Wrong(f"the status without functions: {status}, {said}")
    place.server.load()


def no_programs(place):
    """What isn't a program is refused: a script is named in the place of the program."""
    path = os.path.join(place.room, "script")
    with open(path, "w") as file:
        file.write(f"#!/bin/sh\nexec {place.program} run\n")
    os.chmod(path, 0o700)
    for name in ("worker.py", "epoch.py"):
        must(f"{name} with a script", script(place, name, path, "0"), 2, "script")
        must(f"{name} with no file", script(place, name, path + "-none", "0"), 2, "can't be read")
    must(
        "worker.py with a partition that isn't there",
        script(place, "worker.py", place.program, "1"),
        2,
        "no partition 1",
    )


# What is stuck, and how it is told.


def status_of(place, *words):
    """What `recallctl` tells, and its status."""
    status, said, why = script(place, "recallctl", "status", "--json", *words)
    if not said:
        raise Wrong(f"recallctl: status {status}, {why[-900:]}")
    return status, {part["partition"]: part for part in json.loads(said)["partitions"]}


def see(what, told, status, **wanted):
    """Partition 0 is told so."""
    got, parts = told
    other = {word: parts[0][word] for word in wanted if parts[0][word] != wanted[word]}
    if got != status or other:
        raise Wrong(f"{what}: status {got}, and not {status}; {other} and not {wanted}")
    return parts[0]


def stuck(place):
    """Two partitions, the second of which has a worker all the time."""
    place.client.flushall()
    partitions = put.partitions_of(place.client, "recall", 2)
    producer = put.Producer(place.client, partitions, "one")
    tenants = {running.partition_of(line("status", name), 2): name for name in "abcdefgh"}
    lines = [line("status", tenants[0], unit=0), line("status", tenants[1], unit=0)] * 2
    see(
        "before a step",
        status_of(place),
        0,
        lag=0,
        steps=0,
        replies=0,
        lease=None,
        holder=None,
        fault=None,
        faults=0,
        oldest=None,
    )
    other = Held([os.path.join(place.scripts, "worker.py"), place.program, "1", "--redis", place.server.url], 1)
    try:
        for each in lines:
            producer.add(each)
        while not producer.send():
            pass
        until("the other partition's replies", lambda: place.client.xlen(partitions[1].key("replies", 0)) == 2)
        no_worker(place, lines)
        bad_worker(place)
        program_that_hangs(place)
    finally:
        other.process.terminate()
        other.end()
    return "a partition without a worker, with one that fails and one that hangs was told, and who had its lease"


def no_worker(place, lines):
    """Steps wait and nobody has the lease: `recallctl` and `put.py` tell of the partition, and of no other one."""
    time.sleep(1)
    part = see("no worker", status_of(place), 1, lag=2, steps=2, replies=0, lease=None, holder=None)
    if not 1 <= part["oldest"] < ANSWERS or "no worker" not in part["stuck"]:
        raise Wrong(f"no worker: {part}")
    status, said, _ = script(place, "recallctl", "status")
    rows = [row.split()[0] for row in said.splitlines()[2:4]]
    if (
        status != 1
        or rows != ["0", "1"]
        or "stuck: partition 0: 2 steps wait" not in said
        or "stuck: partition 1" in said
    ):
        raise Wrong(f"no worker: {status}, {said}")
    if status_of(place, "1")[0] != 0:
        raise Wrong("the other partition is told to be stuck")
    given = b"".join(each + b"\n" for each in lines)
    told = script(place, "put.py", "2", "--producer", "one", "--timeout", "1", given=given)
    must("put.py without a worker", told, 6, "partition 0 owes 2;", "no worker has partition 0:")


def bad_worker(place):
    """A worker whose program ends leaves a fault, and that it had the lease."""
    held = place.held(place.program, place.server.url)
    until("its lease", held.has_lease)
    os.kill(held.begun()[1], signal.SIGKILL)
    held.end()
    pid = held.process.pid
    part = see("a fault", status_of(place), 0 if place.client.xlen(place.replies) == 2 else 1, lease=None, faults=1)
    fault, holder = part["fault"], part["holder"]
    if (
        (fault["status"], fault["pid"], holder["pid"]) != (5, pid, pid)
        or not 0 <= fault["ago"] < ANSWERS
        or "-9" not in fault["why"]
    ):
        raise Wrong(f"a fault: {part}")


def program_that_hangs(place):
    """A worker whose program hangs has the lease, and the oldest step waits too long."""
    held = place.held(place.program, place.server.url, 60_000)
    try:
        until("its lease", held.has_lease)
        until("its replies", lambda: place.client.xlen(place.replies) == 2)
        part = see("a worker", status_of(place), 0, lag=0, steps=2, replies=2, oldest=None, stuck=None)
        if (
            part["holder"]["pid"] != held.process.pid
            or not 0 < part["lease"]["lasts"] <= 60
            or part["lease"]["number"] < 2
        ):
            raise Wrong(f"a worker: {part}")
        os.kill(held.begun()[1], signal.SIGSTOP)
        place.client.xadd(place.steps, {"from": "x", "number": "0", "line": "{}"})
        time.sleep(0.5)
        see("a program that hangs, for a moment", status_of(place), 0, lag=1)
        part = see("a program that hangs", status_of(place, "--stuck", "0.3"), 1, lag=1)
        if str(held.process.pid) not in part["stuck"]:
            raise Wrong(f"a program that hangs: {part}")
    finally:
        os.kill(held.begun()[1], signal.SIGKILL)
        held.end()


# A file of lines that is followed.


class Follower:
    """A producer that follows a file of lines, as a service does."""

    def __init__(self, place, lines):
        self.place, self.rest, self.producer = place, list(lines), None
        self.given, self.taken = (os.path.join(place.room, name) for name in ("lines", "replies"))
        open(self.given, "wb").close()
        words = ["1", "--producer", "one", "--redis", place.server.url, "--follow", self.given, self.taken]
        self.command = [os.path.join(place.scripts, "put.py"), *words]

    def start(self):
        return subprocess.Popen(self.command, stderr=subprocess.PIPE)

    def add(self, count):
        """Adds so many lines to the file."""
        with open(self.given, "ab") as file:
            file.writelines(each + b"\n" for each in self.rest[:count])
        del self.rest[:count]

    def has(self):
        """What the file of replies has."""
        with contextlib.suppress(FileNotFoundError), open(self.taken, "rb") as file:
            return file.read()
        return b""

    @contextlib.contextmanager
    def following(self):
        """The producer runs meanwhile, and is ended by SIGKILL."""
        self.producer = self.start()
        try:
            yield
        finally:
            self.producer.kill()
            self.producer.wait()

    def ends(self, what, *words):
        """Another one ends with a fault."""
        producer = self.start()
        must(what, (producer.wait(ANSWERS), "", producer.stderr.read().decode()), 1, *words)


def followed(place):
    """Lines come into a file, and the producer that follows it is ended again and again: each reply is written once."""
    lines = [line("open", units=["echo"]), *(line("post", unit=0, number=number, text="x") for number in range(400))]
    wanted = b"".join(reply + b"\n" for reply in plain_run(place.program, lines))
    follower = Follower(place, lines)
    with place.worker():
        while follower.rest:
            with follower.following():
                before = len(follower.has())
                follower.add(50)
                until("a reply", lambda: len(follower.has()) > before)
            with open(follower.taken, "ab") as file:
                file.write(b"torn")
    with follower.following():
        with place.worker():
            until("all replies", lambda: follower.has() == wanted)
            follower.ends("a second one", "another put.py writes")
        place.client.flushall()
        with place.worker():  # (a server that forgot all while nothing was owed has all lines again)
            place.answered(len(lines))
            time.sleep(1)
            if follower.producer.poll() is not None or follower.has() != wanted:
                raise Wrong(f"a file of replies to lines that were put again: status {follower.producer.poll()}")
    with open(follower.taken, "r+b") as file:
        file.write(b"?")
        file.truncate(wanted.index(b"\n") + 1)
    follower.ends("another file of replies", "delete it")
    return f"{len(lines)} lines that came into a file have their replies in another, each once"


# A snapshot that can't be gone on from.


def begun_behind(held):
    """How many steps the worker's snapshot stands behind; 0 where it began with the first step."""
    words = next(said for said in held.said if ": lease " in said).replace(",", "").split()
    return int(words[words.index("behind") + 1]) if "behind" in words else 0


def refused_snapshots(place, key, kept):
    """A snapshot of a lease that is over, of steps without replies, or with words that are none, isn't kept."""
    keys = [place.partitions[0].key("lease"), place.replies, key]
    lease = [keys[0], *map(place.partitions[0].key, ("fence", "holder"))]
    held = place.client.fcall("recall_take", 3, *lease, "word", 60_000, "host", 1)
    at, count = kept[b"at"], int(kept[b"lines"])
    calls = [
        (("1:other", 60_000, count, at, "{}", "new"), "FENCED"),
        ((held, 60_000, place.client.xlen(place.replies) + 1, at, "{}", "new"), "FENCED"),
        ((held, 60_000, count, "1-1", "{}", "new"), "FENCED"),
        ((held, 60_000, count, at, "{}"), "WORDS"),
        *(((held, 60_000, number, at, "{}", "new"), "NUMBER") for number in NUMBERS),
        *(((held, number, count, at, "{}", "new"), "NUMBER") for number in NUMBERS),
    ]
    for words, why in calls:
        try:
            raise Wrong(f"a snapshot of {words} was answered {place.client.fcall('recall_keep', 3, *keys, *words)}")
        except redis.ResponseError as refused:
            if why not in str(refused) or place.client.hgetall(key) != kept:
                raise Wrong(f"a snapshot of {words}: {refused}")
    place.client.delete(keys[0])


def snapshots(place):
    """The next worker begins behind the snapshot; where that is spoilt, of another program, or gone, it begins with the
    first step. Whichever it is, the replies are those of one plain run."""
    lines = [line("open", units=["count"]), *(line("post", unit=0, number=number, text="x") for number in range(39))]
    key, seen = place.partitions[0].key("snapshot", 0), []
    place.give("first", lines[:20])
    with place.worker(each=EACH):
        place.answered(20)
        until("a snapshot", lambda: place.client.hget(key, "lines") == b"20")
    kept = place.client.hgetall(key)
    refused_snapshots(place, key, kept)
    spoils = (
        ("as it is", {}, 20),
        ("a byte of it changed", {"bytes": kept[b"bytes"][:-1] + b"?"}, 0),
        ("cut short", {"bytes": kept[b"bytes"][:50]}, 0),
        ("of another handler", {"about": json.dumps({**json.loads(kept[b"about"]), "handler": "other"})}, 0),
        ("gone", None, 0),
    )
    for at, (what, spoilt, behind) in enumerate(spoils):
        place.client.delete(key)
        if spoilt is not None:
            place.client.hset(key, mapping={**kept, **spoilt})
        with place.worker(each=EACH) as held:
            seen.append(begun_behind(held))
            place.give("first", lines[: 22 + 2 * at])
            place.answered(22 + 2 * at)
        if seen[-1] != behind:
            raise Wrong(f"a snapshot {what}: the worker began behind {seen[-1]} steps")
    with place.worker(each=EACH):
        place.give("first", lines)
        place.answered(len(lines))
    place.compare(("first", lines))
    return f"behind a snapshot, and behind {len(spoils) - 1} that can't be gone on from, the replies are the same"


ATTACKS = {
    "slow-replies": slow_replies,
    "long-replies": long_replies,
    "other-lines": other_lines,
    "no-numbers": no_numbers,
    "server-gone": server_gone,
    "stuck": stuck,
    "followed": followed,
    "snapshots": snapshots,
}
