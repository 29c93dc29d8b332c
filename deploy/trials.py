"""What the tries of all engines stand on: waits, workers whose words are kept, a link that can be slow, cut and
switched, and the steps that are tried."""

import argparse
import contextlib
import json
import os
import random
import shutil
import signal
import socket
import subprocess
import sys
import tempfile
import threading
import time

from running import Away

HERE = os.path.dirname(os.path.abspath(__file__))
PARTITIONS, TENANTS, STEPS, KILLS = 4, 200, 20_000, 20
SECONDS, LEASE, ANSWERS = 60, 1000, 15  # (over which the steps come; milliseconds; in which a script must end)
TEXTS, LONG = 1024, "\x01" * 4096  # (held outputs of a unit at most; a text of the most bytes: each takes six in JSON)


class Wrong(Exception):
    """What isn't as it must be."""


def until(what, holds):
    """Waits until it holds; a trial in which a part has a fault has failed."""
    while not (found := holds()):
        until.what = what
        until.watch()
        time.sleep(0.02)
    return found


until.watch, until.what = lambda: None, None


@contextlib.contextmanager
def limited(seconds):
    """Gives up what is tried here once it took so long."""

    def give_up(*_):
        raise Wrong(f"{seconds} seconds were not enough, and the last wait was for {until.what}")

    signal.signal(signal.SIGALRM, give_up)
    signal.alarm(seconds)
    try:
        yield
    finally:
        signal.alarm(0)
        until.watch = lambda: None


def free_port():
    """A port of the loopback that nobody has."""
    with socket.socket() as free:
        free.bind(("127.0.0.1", 0))
        return free.getsockname()[1]


class Link(threading.Thread):
    """A link to a server: a port of the loopback, each of whose connections is carried on to the server's port, where a
    rate is given at so many bytes a second. It can be cut, while connections last and nothing gets through, and
    switched to another server, when they end."""

    def __init__(self, port, rate=None):
        super().__init__(daemon=True)
        self.to, self.rate, self.is_cut, self.ends = port, rate, False, []
        self.door = socket.create_server(("127.0.0.1", 0))
        self.port = self.door.getsockname()[1]
        self.start()

    def run(self):
        with contextlib.suppress(OSError):  # (the door's end)
            while True:
                near, _ = self.door.accept()
                self.join_ends(near)

    def join_ends(self, near):
        """Carries a connection on, if the server takes one."""
        try:
            far = socket.create_connection(("127.0.0.1", self.to))
        except ConnectionRefusedError:
            near.close()
            return
        for end in (near, far):
            end.setsockopt(socket.IPPROTO_TCP, socket.TCP_NODELAY, 1)
        self.ends += [near, far]
        for ends in ((near, far), (far, near)):
            threading.Thread(target=self.carry, args=ends, daemon=True).start()

    def carry(self, source, target):
        with contextlib.suppress(OSError):  # (its end, however it comes)
            while (piece := source.recv(1 << 16)) and not self.is_cut:
                if self.rate:
                    time.sleep(len(piece) / self.rate)
                target.sendall(piece)
        for end in () if self.is_cut else (source, target):
            with contextlib.suppress(OSError):  # (it has ended)
                end.shutdown(socket.SHUT_RDWR)

    def cut(self):
        """Lets nothing through from now on, and tells neither side."""
        self.is_cut = True

    def switch(self, port):
        """Leads to another server from now on, and ends all connections."""
        self.to, ends, self.ends = port, self.ends, []
        for end in ends:
            with contextlib.suppress(OSError):  # (it has ended)
                end.shutdown(socket.SHUT_RDWR)
            end.close()

    def close(self):
        self.door.close()
        self.switch(None)


class Held:
    """A worker's process, and what it said."""

    def __init__(self, command, partition):
        self.partition, self.said = partition, []
        self.process = subprocess.Popen(command, stderr=subprocess.PIPE, text=True)
        self.listener = threading.Thread(target=self.listen, daemon=True)
        self.listener.start()

    def listen(self):
        for line in self.process.stderr:
            self.said.append(line.strip())

    def has_lease(self):
        return any(": lease " in line for line in self.said)

    def begun(self):
        """How many replies there were when it took the lease, and the process of its `recall run`."""
        words = next(line for line in self.said if ": lease " in line).split()
        return int(words[words.index("has") + 1].strip(",")), int(words[-1])

    def fault(self):
        """Why it ended by itself, if it did: not by a kill, a lost lease, or the end of the server or of its
        program."""
        if self.process.poll() not in (None, 0, 3, 4, 5, -signal.SIGKILL):
            return f"a worker ended with status {self.process.returncode}: {self.said[-1:]}"

    def end(self):
        """Waits for its end, and gives its status and its last words."""
        until(f"a worker of partition {self.partition}", lambda: self.process.poll() is not None)
        self.listener.join(1)
        return self.process.returncode, self.said[-1] if self.said else ""


def plain_run(program, lines):
    """The replies of one plain run to these lines."""
    given = b"".join(line + b"\n" for line in lines)
    return subprocess.run([program, "run"], input=given, stdout=subprocess.PIPE, check=True).stdout.splitlines()


def other_replies(places, owned, wanted, replies):
    """The names of tenants whose replies aren't those of the plain run, each once, and all names. `places` has for each
    line where it is, `owned` whose it is, `wanted` its reply, and `replies` those that were given to the place."""
    plain, got = {}, {}
    for place, (name, _), reply in zip(places, owned, wanted, strict=True):
        plain.setdefault(name, []).append([reply])
        got.setdefault(name, []).append(replies.get(place, []))
    return [name for name in plain if plain[name] != got[name]], list(plain)


class Source(threading.Thread):
    """Puts the steps in over some time, whatever happens to the server, and puts in again what was lost."""

    def __init__(self, producer, lines, told=contextlib.nullcontext):
        super().__init__(daemon=True)
        self.producer, self.told, self.lines, self.places, self.fault = producer, told, lines, [], None
        self.has_all, self.is_open = False, True

    def run(self):
        begun = time.monotonic()
        try:
            while self.is_open:
                due = int(len(self.lines) * (time.monotonic() - begun) / SECONDS)
                self.places += [self.producer.add(line) for line in self.lines[len(self.places) : due]]
                try:
                    with self.told():
                        self.has_all = self.producer.send() and len(self.places) == len(self.lines)
                except Away:
                    self.has_all = False
                time.sleep(0.05)
        except Exception as fault:
            self.fault = fault


class Sink(threading.Thread):
    """Reads the replies on the way: what it has got has left, and can't be taken back."""

    def __init__(self, replies, told=contextlib.nullcontext):
        super().__init__(daemon=True)
        self.replies, self.told = replies, told
        self.got, self.fault, self.is_open = {}, None, True

    def run(self):
        try:
            while self.is_open:
                try:
                    with self.told():
                        for partition, _, number, reply in self.replies.read(100):
                            self.got.setdefault((partition, number), []).append(reply)
                except Away:
                    time.sleep(0.1)
        except Exception as fault:
            self.fault = fault


class Trial:
    """One trial, with what was seen of it: steps that come, workers that record replies, a reader, and what happens to
    them. What an engine adds: how many entries a stream has, what happens beside kills, and what is recorded at the
    end."""

    def __init__(self, program, chance, owned, source, sink, fleet):
        self.chance, self.owned, self.source, self.sink, self.fleet = chance, owned, source, sink, fleet
        self.wanted = plain_run(program, source.lines)
        self.kills, self.wrong = {"worker": 0, "program": 0}, []
        until.watch = self.watch

    def length(self, stream, partition):
        """How many steps or replies a partition has."""
        raise NotImplementedError

    def events(self):
        """What happens once each beside kills. One that gives `False` could not be had, and is tried again."""
        return [self.pause, self.move]

    def close(self):
        """Ends what the engine has open."""

    def recorded(self):
        """All recorded replies, by partition and number."""
        raise NotImplementedError

    def watch(self):
        """Ends the trial where a part of it has a fault."""
        faults = [held.fault() for held in self.fleet.all] + [self.source.fault, self.sink.fault]
        for fault in filter(None, faults):
            raise Wrong(fault)

    def say(self, what):
        print(f"try: {what}", flush=True)

    def kill(self):
        """Ends a worker or its program, and sees it ended."""
        whom, held = self.chance.choice(list(self.kills)), self.fleet.at_work(self.chance.randrange(PARTITIONS))
        if whom == "worker":
            held.process.kill()
            is_killed = held.end()[0] == -signal.SIGKILL
        else:
            with contextlib.suppress(ProcessLookupError):
                os.kill(held.begun()[1], signal.SIGKILL)
            is_killed = held.end() == (5, f"worker of recall:{held.partition}: the program ended with status -9")
        self.kills[whom] += is_killed
        return is_killed

    def stop(self, held):
        """Stops a worker past its replay that has steps in its hands, whose replies wait in the pipe. It is not to be
        had where the worker ended before, as it does where the server did."""
        count, program = held.begun()
        until("replies of the worker to be paused", lambda: self.length("replies", held.partition) > count)
        with contextlib.suppress(ProcessLookupError):
            os.kill(program, signal.SIGSTOP)
            before = self.length("steps", held.partition)
            until("steps to be answered", lambda: self.length("steps", held.partition) > before + 5)
            time.sleep(0.3)
            held.process.send_signal(signal.SIGSTOP)
            os.kill(program, signal.SIGCONT)
        return held.process.poll() is None

    def pause(self):
        """Pauses a worker past its lease while it waits for replies, and sees them refused."""
        partition = self.chance.randrange(PARTITIONS)
        held = self.fleet.at_work(partition)
        if not self.stop(held):
            return False
        before = self.length("replies", partition)
        _, new = self.fleet.replace(partition)
        until("a lease past the paused one", new.has_lease)
        until("replies of the next worker", lambda: self.length("replies", partition) > before)
        held.process.send_signal(signal.SIGCONT)
        try:
            status, last = held.process.wait(5), held.end()[1]
        except subprocess.TimeoutExpired:
            status, last = "none, it goes on", ""
        if status == 4:
            return False  # (its server had ended before it was paused)
        if status == 3 and "FENCED an append: the lease" in last:
            self.say(f"paused past its lease: {last}")
        else:
            self.wrong.append(f"the paused worker's replies were not refused for its lease: status {status}, {last}")
        return True

    def move(self):
        """Moves a partition: another worker waits for its lease, and the first one is told to stop."""
        partition = self.chance.randrange(PARTITIONS)
        self.fleet.at_work(partition)
        old, new = self.fleet.replace(partition)
        time.sleep(0.3)
        if new.has_lease() and old.process.poll() is None:
            raise Wrong("two workers have the lease of one partition")
        old.process.terminate()
        status, last = old.end()
        begun = time.monotonic()
        until("the lease of the next worker", new.has_lease)
        if status == 4:
            return False  # (it ended before, as it does where the server did)
        if status != 0:
            raise Wrong(f"a worker that was told to stop: status {status}, {last}")
        self.say(f"moved: the next worker had the lease {time.monotonic() - begun:.1f} s after the first one's end")
        return True

    def happen(self):
        """All that happens, at random moments while the steps come."""
        begun, rest = time.monotonic(), self.events()
        self.chance.shuffle(rest)
        events = [self.kill] * KILLS
        for event in rest:
            events.insert(self.chance.randrange(2, KILLS - 4), event)  # (while steps still come)
        moments = sorted(self.chance.uniform(1, SECONDS - 2) for _ in events)
        for event, moment in zip(events, moments):
            time.sleep(max(0, begun + moment - time.monotonic()))
            while event() is False:
                pass

    def go(self):
        self.source.start()
        self.sink.start()
        try:
            self.happen()
            until("all steps", lambda: self.source.has_all)
            until("all replies", self.is_answered)
        finally:
            self.fleet.close()
            self.source.is_open = self.sink.is_open = False
            self.source.join()
            self.sink.join()
            self.close()

    def is_answered(self):
        return sum(self.length("replies", each) for each in range(PARTITIONS)) >= STEPS and len(self.sink.got) >= STEPS

    def check(self):
        """Everything that must be so at the end."""
        self.watch()
        if sum(self.kills.values()) != KILLS:
            self.wrong.append(f"kills: {self.kills}")
        self.check_replies("recorded", self.recorded())
        self.check_replies("read on the way", self.sink.got)
        self.check_replies("seen by the reader", {place: list(seen) for place, seen in self.sink.replies.seen.items()})
        if self.wrong:
            raise Wrong("; ".join(self.wrong))

    def tell(self):
        """Tells what was seen."""
        self.say(f"{STEPS} steps of {TENANTS} tenants have the replies of one plain run, each once")
        kills = ", ".join(f"{count} of {whom}s" for whom, count in self.kills.items())
        self.say(f"kills: {kills}; workers in all: {len(self.fleet.all)}")

    def check_replies(self, how, replies):
        """Each step has one reply, and each tenant's, and those to lines without one, are the plain run's."""
        other, names = other_replies(self.source.places, self.owned, self.wanted, replies)
        if other or len(replies) != STEPS:
            differ = f"those of {len(other)} of {len(names)} tenants differ"
            self.wrong.append(f"{how}: {len(replies)} steps have replies, and {differ}")


# Scripts that are run, and programs.


def outcome(command, given=b"{}\n"):
    """What a script does: its status, what it wrote, and its words on standard error."""
    try:
        done = subprocess.run(command, input=given, capture_output=True, timeout=ANSWERS)
    except subprocess.TimeoutExpired:
        raise Wrong(f"{os.path.basename(command[0])} didn't end in {ANSWERS} s")
    return done.returncode, done.stdout.decode(), done.stderr.decode()


def must(what, told, status, *words):
    """The script ended with this status, and one line that has these words."""
    got, _, line = told
    if got != status or line.count("\n") != 1 or not all(word in line for word in words):
        raise Wrong(f"{what}: status {got}, and not {status} and a line with {words}: {line[-400:]!r}")


def slow_program(program, rate, room):
    """A program that passes on what the program writes, slowly."""
    path = os.path.join(room, "slow")
    words = ["-DPROGRAM=" + json.dumps(program), f"-DRATE={rate}", "-o", path, os.path.join(HERE, "slow.c")]
    subprocess.run(["cc", "-O2", *words], check=True)
    return path


# The steps.


def line(do, tenant="a", **keys):
    return json.dumps({"do": do, "tenant": tenant, **keys}, sort_keys=True, separators=(",", ":")).encode()


def one_long_reply(tenant):
    """Lines of a tenant whose last one is answered by 25 MB."""
    posts = [line("post", tenant, unit=0, number=number, text=LONG) for number in range(TEXTS)]
    return [
        line("open", tenant, units=["echo"]),
        *posts,
        line("flush", tenant, unit=0),
        line("release", tenant, unit=0),
    ]


def tenant_lines(name, chance):
    """The steps of one tenant without an end: texts go down a few units, with kills, restarts, and what is refused."""
    kinds = chance.choice([["tee", "tee", "echo"], ["relay", "relay", "count"], ["relay", "adder"], ["tee", "echo"]])
    line = lambda do, **keys: json.dumps({"do": do, "tenant": name, **keys}, separators=(",", ":")).encode()
    yield line("open", units=kinds)
    post = logged = letter = 0
    while True:
        for _ in range(chance.randrange(1, 4)):
            number = post if chance.random() < 0.95 else chance.randrange(9)
            yield line("post", unit=0, number=number, text=str(chance.randrange(999)))
            post += 1
            for _ in kinds[1:]:
                yield line("deliver", letter=letter if chance.random() < 0.95 else chance.randrange(letter + 2))
                letter += 1
        if chance.random() < 0.7:
            for do in ("flush", "release"):
                for unit in range(len(kinds)):
                    yield line(do, unit=unit)
            logged = post
        if chance.random() < 0.4:
            unit = chance.randrange(len(kinds))
            yield line("kill", unit=unit)
            yield line("restart", unit=unit)
            for other in range(len(kinds)):
                yield line("notice", unit=other)
            post = logged if unit == 0 else post
        yield line(chance.choice(["checkpoint", "status", "release"]), unit=chance.randrange(len(kinds) + 1))


def steps(chance):
    """All steps, with whose each is: 99 of each tenant, and as many lines as tenants that have none."""
    bad = [
        b"",
        b"{",
        b"\xff",
        b'{"do":"status","unit":0}',
        b'{"do":"open","tenant":"No!","units":[]}',
        b"x" * 70_000,
        b"[" * 5000,
    ]
    own = {name: tenant_lines(name, random.Random(chance.random())) for name in (f"tenant-{n}" for n in range(TENANTS))}
    order = [name for name in own for _ in range(STEPS // TENANTS - 1)] + [None] * TENANTS
    chance.shuffle(order)
    return [(name, next(own[name]) if name else chance.choice(bad)) for name in order]


class Fleet:
    """Keeps a worker for each partition: where one ended, it starts the next one."""

    def __init__(self, command, words):
        self.command, self.words = command, words
        self.all, self.lock, self.is_open = [], threading.Lock(), True
        self.now = {partition: self.start(partition) for partition in range(PARTITIONS)}
        self.tender = threading.Thread(target=self.tend, daemon=True)
        self.tender.start()

    def start(self, partition):
        held = Held([*self.command, str(partition), *self.words], partition)
        self.all.append(held)
        return held

    def tend(self):
        while self.is_open:
            with self.lock:
                for partition, held in self.now.items():
                    if held.process.poll() is not None:
                        self.now[partition] = self.start(partition)
            time.sleep(0.1)

    def at_work(self, partition):
        """The partition's worker, once it has the lease: not one that was ended and has no successor yet."""
        is_at_work = lambda held: held.has_lease() and held.process.poll() is None
        return until(f"a lease of partition {partition}", lambda: is_at_work(held := self.now[partition]) and held)

    def replace(self, partition):
        """Starts another worker beside the partition's own, and gives both."""
        with self.lock:
            old, self.now[partition] = self.now[partition], self.start(partition)
            return old, self.now[partition]

    def close(self):
        self.is_open = False
        self.tender.join()
        for held in self.all:
            if held.process.poll() is None:
                if held.has_lease():
                    with contextlib.suppress(ProcessLookupError):
                        os.kill(held.begun()[1], signal.SIGKILL)
                held.process.kill()
                held.process.wait()


def plant(scripts, folder, faults):
    """Copies all scripts, with these faults in those of an engine: each a file, and what is put for what in it."""
    shutil.copytree(HERE, scripts)
    for file, old, new in faults:
        path = os.path.join(scripts, folder, file)
        with open(path) as script:
            text = script.read()
        if text.count(old) != 1:
            sys.exit(f"try: {file} doesn't have {old!r} once")
        with open(path, "w") as changed:
            changed.write(text.replace(old, new))


def try_planted(folder, faults, given):
    """Tries a copy of the scripts with these faults in them, by these words; gives its status."""
    with tempfile.TemporaryDirectory(prefix="recall-planted-") as room:
        scripts = os.path.join(room, "scripts")
        plant(scripts, folder, faults)
        process = subprocess.Popen([os.path.join(scripts, folder, "try"), *given])
        try:
            return process.wait()
        finally:
            process.terminate()
            process.wait()


def reader_of(page, plants, parts):
    """The reader of the words of a try."""
    reader = argparse.ArgumentParser(description=page, formatter_class=argparse.RawDescriptionHelpFormatter)
    reader.add_argument("program", type=os.path.abspath)
    reader.add_argument("--seed", type=int, default=random.randrange(10**6))
    reader.add_argument("--plant", choices=plants)
    reader.add_argument("--only", choices=parts)
    reader.add_argument("--keep", action="store_true")
    return reader


def main(reader, folder, plants, attempt):
    """Tries what the words of the command line ask for: `attempt` takes them, and a folder. Where a fault is to be
    planted, a copy with it is tried."""
    signal.signal(signal.SIGTERM, lambda *_: sys.exit("try: told to end"))
    words = reader.parse_args()
    if words.plant:
        given = sys.argv[1:]
        at = next(at for at, word in enumerate(given) if word.startswith("--plant"))
        del given[at : at + 1 + ("=" not in given[at])]
        sys.exit(try_planted(folder, plants[words.plant], given))
    print(f"try: seed {words.seed}", flush=True)
    begun = time.monotonic()
    room = tempfile.mkdtemp(prefix="recall-try-")
    try:
        attempt(words, room)
    except Wrong as wrong:
        sys.exit(f"try: FAILED: {wrong} (seed {words.seed})")
    finally:
        if words.keep:
            print(f"try: its folder is {room}", flush=True)
        else:
            shutil.rmtree(room)
    print(f"try: as it must be, in {time.monotonic() - begun:.0f} seconds")
