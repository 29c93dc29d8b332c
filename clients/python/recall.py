"""A client of recall, the host of message programs that must survive failures, over Python's standard library alone.

    import recall

    with recall.Host("path/to/recall") as host:
        tenant = host.open("a", ["echo"])
        tenant.post(0, "x")
        tenant.flush(0)
        print(tenant.release(0))        # ['x']

`Host` starts `recall run` and talks to it in lines of JSON. A reply is a dict of what the line says. Each call below
may raise one of these:

- `Refused`: the step was refused, and changed nothing. Its `name` says why (docs/FORMATS.md lists the names).
- `Ended`: the program has ended. It carries its status, what it wrote to standard error, and the replies that the call
  had read; a step of the call that has no reply may have been done or not.
- `Broken`: a call before this one was interrupted (by Ctrl-C, by a signal's handler, by a time limit) after it had
  begun to write and before it had read its replies. What the host would read next is the reply to that call, so it does
  no call any more: close it, and start another. What the interrupted call asked for may have been done or not.
- `TypeError`, `ValueError` or `RecursionError`: a step that isn't JSON. Nothing was written, and the host is as it was.

The outputs of a `release` that was interrupted have left, and aren't given again. Who can't lose any runs a journal
(docs/CRASHES.md), and reads the replies that he misses by `recall run --journal FILE --from N`.

Steps can be sent ahead of their replies: `Host.ask_all` takes any number of them. Neither a `Host` nor a `Tenant` is to
be used by two threads at once.

Who has inputs and wants outputs takes a `Flow`, which delivers, logs and releases by itself (`recall drive`):

    with recall.Flow("path/to/recall") as flow:
        flow.open("a", ["tee", "echo"])
        flow.post("a", 0, "x")
    for output in flow:
        print(output.unit, output.text)  # 0 x, then 1 x
"""

import collections
import json
import os
import select
import subprocess
import threading
from typing import NamedTuple

PIECE = 1 << 16  # (bytes that are read at once, at most)
INTERRUPTED = "a call of it was interrupted before it had read its replies (or is under way in another thread)"
CHANGES_NUMBERS = (
    "post",
    "kill",
    "restart",
    "notice",
)  # (the steps that can change which number a unit's next post has)


class Refused(Exception):
    """The host refused a step: `name` is the refusal's name, `step` what was asked, `reply` the whole reply."""

    def __init__(self, step, reply):
        super().__init__(f"{step.get('do') if isinstance(step, dict) else step} is refused: {reply['no']}")
        self.step, self.reply, self.name = step, reply, reply["no"]


class Ended(Exception):
    """The host's program has ended: `status` is its exit status, `complaint` what it wrote to standard error. `replies`
    are those that the call had read, to its first steps, and `count` is how many; `total` is how many the host has read
    since it was started, these among them."""

    def __init__(self, status, complaint, replies=(), total=0):
        super().__init__(f"recall ended with status {status}: {complaint.strip() or 'it said nothing'}")
        self.status, self.complaint = status, complaint
        self.replies, self.count, self.total = list(replies), len(replies), total


class Broken(Exception):
    """The host can't tell any more which reply is whose, and does no call: `why` says what came before. `replies` are
    those that the interrupted call had read, to its first steps, and `count` is how many; `total` is how many the host
    has read since it was started, these among them."""

    def __init__(self, why, replies=(), total=0):
        super().__init__(f"the host is broken: {why}: close it, and start another")
        self.why, self.replies, self.count, self.total = why, list(replies), len(replies), total


_encode = json.JSONEncoder(sort_keys=True, separators=(",", ":"), allow_nan=False).encode


def _line_of(step):
    """The line of a step, or the error of one that isn't JSON. NaN and the infinities are none."""
    return _encode(step).encode() + b"\n"


class Host:
    """One run of the program, from `program` with the words `run` and `words` (as `["--log", "file"]`). `--from` is
    none of them (`ValueError`): it has replies written that no call asked for.

    With `journal`, and `outputs`, a SQLite file, it is a host that survives: a `recall_durable.DurableHost`."""

    def __new__(cls, program="recall", words=(), journal=None, outputs=None):
        if cls is Host and journal is not None:
            from recall_durable import DurableHost as cls
        return super().__new__(cls)

    def __init__(self, program="recall", words=()):
        words = list(words)
        if any(str(word).split("=")[0] == "--from" for word in words):
            raise ValueError(
                "a host takes no --from, since no call asks for those replies: read them by a run of their own"
            )
        self._free, self._why = threading.Lock(), INTERRUPTED
        self._told = (
            0,
            [],
        )  # (how many replies earlier calls have read, and those of this one: set at once, or not at all)
        self._numbers = {}  # (by tenant and unit: the number of the next post, where it is known)
        self._start([program, "run", *words])

    def _start(self, words):
        """Starts the program."""
        pipe = subprocess.PIPE
        self._process = subprocess.Popen(words, stdin=pipe, stdout=pipe, stderr=pipe)
        os.set_blocking(self._process.stdin.fileno(), False)  # (else a long write would wait for a reply to be read)
        self._pieces, self._complaint = [], []
        self._listener = threading.Thread(target=self._listen, daemon=True)
        self._listener.start()

    def _listen(self):
        for line in self._process.stderr:
            self._complaint.append(line.decode(errors="replace"))

    def __enter__(self):
        return self

    def __exit__(self, *_):
        self.close()

    def close(self):
        """Ends the input, waits for the program's end, and gives its exit status. What it still wrote is let go. A host
        that is broken is closed in the same way; where the program may never end, kill it."""
        process = self._process
        if not process.stdout.closed:
            try:
                process.stdin.close()
            except BrokenPipeError:
                pass
            while os.read(process.stdout.fileno(), PIECE):
                pass
            process.wait()
            self._listener.join()
            process.stderr.close()
            process.stdout.close()
        return process.returncode

    def _ended(self, replies):
        before, _ = self._told
        return Ended(self.close(), "".join(self._complaint), replies, before + len(replies))

    def _broken(self):
        before, replies = self._told
        return Broken(self._why, replies, before + len(replies))

    def _exchange(self, steps):
        """The replies to these steps. While the first byte may be written and the last reply isn't read the host is not
        free. An interrupt leaves it so: nothing here sets it free but the last reply, or the program's end."""
        lines = [_line_of(step) for step in steps]
        if not self._free.acquire(blocking=False):
            raise self._broken()
        self._forget_numbers(steps)
        try:
            if self._process.stdin.closed:
                raise self._ended([])
            replies = self._talk(lines, len(lines))
        except Ended as ended:
            self._told = ended.total, []
            self._free.release()
            raise
        self._told = self._told[0] + len(replies), []
        self._free.release()
        return replies

    def _talk(self, lines, count):
        """Writes the lines, and reads so many replies meanwhile: the program reads no further while nobody reads from
        it."""
        unsent, (_, replies) = memoryview(b"".join(lines)), self._told
        while len(replies) < count:
            unsent = self._write(unsent)
            if self._can_read(unsent):
                self._read(replies)
        if len(replies) > count or any(self._pieces):
            self._fail("the program wrote more than was asked for")
        return replies

    def _write(self, unsent):
        """Writes as much of these bytes as the pipe takes, and gives the rest."""
        try:
            return unsent[os.write(self._process.stdin.fileno(), unsent) :] if unsent else unsent
        except BlockingIOError:
            return unsent
        except BrokenPipeError:
            return unsent[:0]  # (the replies that are missing tell of it)

    def _can_read(self, unsent):
        """Whether to read now. Where bytes are unsent it waits for either pipe, and tells whether it is the
        replies'."""
        if not unsent:
            return True
        pipes, out = select.poll(), self._process.stdout.fileno()
        pipes.register(out, select.POLLIN)
        pipes.register(self._process.stdin.fileno(), select.POLLOUT)
        return any(pipe == out for pipe, _ in pipes.poll())

    def _read(self, replies):
        """Reads what has come, or waits for some, and adds the replies that are whole. A beginning of one is kept."""
        piece = os.read(self._process.stdout.fileno(), PIECE)
        if not piece:
            raise self._ended(replies)
        self._pieces.append(piece)
        if b"\n" in piece:
            *whole, rest = b"".join(self._pieces).split(b"\n")
            self._pieces = [rest]
            for line in whole:
                replies.append(self._reply_of(line))

    def _reply_of(self, line):
        try:
            reply = json.loads(line)
        except ValueError:
            reply = None
        if not isinstance(reply, dict):
            self._fail(f"the program wrote what is no reply, {line[:80]}")
        return reply

    def _fail(self, why):
        self._why = why
        raise self._broken()

    def _forget_numbers(self, steps):
        """Lets go of the numbers that these steps may change, before any of them is written: so a step that is
        interrupted or refused leaves none that isn't so, and the next post asks."""
        for step in steps:
            if isinstance(step, dict) and step.get("do") in CHANGES_NUMBERS:
                tenant, unit = step.get("tenant"), step.get("unit")
                if isinstance(tenant, str) and isinstance(unit, int):
                    self._numbers.pop((tenant, unit), None)

    def _known_number(self, tenant, unit):
        """The number of the unit's next post, or None where it must be asked for. A host that does no call knows
        none."""
        return None if self._free.locked() or self._process.stdin.closed else self._numbers.get((tenant, unit))

    def ask(self, step):
        """The reply to one step, a dict with the keys of its line; `Refused` where it was refused."""
        [reply] = self._exchange([step])
        if "no" in reply:
            raise Refused(step, reply)
        return reply

    def ask_all(self, steps):
        """The replies to these steps, in order, where all are sent at once. None is raised: a reply that has the key
        `no` is a refusal, and the steps behind it were done all the same. Where the program ends in the midst of them,
        the replies that were read are in the `Ended` that is raised. Where one isn't JSON, none is written."""
        return self._exchange(list(steps))

    def open(self, name, kinds, quota=None, optimism=None):
        """Opens a tenant with a unit of each of these kinds, unit 0 first. `quota` is a dict of `held`, `letters` and
        `volatile`; `optimism` is on how many units that are not stable a letter may depend."""
        limits = {"quota": quota, "optimism": optimism}
        self.ask(
            {
                "do": "open",
                "tenant": name,
                "units": list(kinds),
                **{key: value for key, value in limits.items() if value is not None},
            }
        )
        return Tenant(self, name)

    def tenant(self, name):
        """A tenant that was opened before. All of one name are one: they count its posts together."""
        return Tenant(self, name)


class Tenant:
    """An open tenant. Units are named by their numbers, from 0."""

    def __init__(self, host, name):
        self.host, self.name = host, name

    def step(self, do, **keys):
        """A step of this tenant, as `Host.ask` and `ask_all` take it."""
        return {"do": do, "tenant": self.name, **keys}

    def _ask(self, do, **keys):
        return self.host.ask(self.step(do, **keys))

    def next_number(self, unit):
        """The number that the next post to the unit must have: how many posts are on its path. After a kill, a restart
        or a notice it may be lower than before: the posts from it on were lost, and are to be given again. The host is
        asked where it isn't known, as it is after a post that was refused."""
        number = self.host._known_number(self.name, unit)
        if number is None:
            number = self.host._numbers[self.name, unit] = self.status(unit)["outside"]
        return number

    def post(self, unit, text, number=None):
        """Gives the unit a text from outside. Without `number` it is the next one. The reply has `at`, `held` and
        `letters`, the numbers of the letters that the unit sent upon it."""
        number = self.next_number(unit) if number is None else number
        reply = self._ask("post", unit=unit, number=number, text=text)
        self.host._numbers[self.name, unit] = number + 1
        return reply

    def deliver(self, letter):
        """Delivers a letter to the unit that it was sent to."""
        return self._ask("deliver", letter=letter)

    def flush(self, unit):
        """Logs what the unit took and hasn't logged; gives how many records that were."""
        return self._ask("flush", unit=unit)["count"]

    def checkpoint(self, unit):
        """Keeps the unit's state, so that a restart replays from there; all that it took must be logged. The reply has
        `at`."""
        return self._ask("checkpoint", unit=unit)

    def kill(self, unit):
        """Takes the unit down, as a crash would; gives how many intervals were lost."""
        return self._ask("kill", unit=unit)["lost"]

    def restart(self, unit):
        """Brings the unit up again; gives the row of its new incarnation, [incarnation, start]."""
        return self._ask("restart", unit=unit)["row"]

    def notice(self, unit):
        """Tells the unit of all restarts; it rolls back what depends on something lost. Gives its new row, or None."""
        return self._ask("notice", unit=unit)["row"]

    def release(self, unit):
        """The outputs of the unit that can leave now, in order. None of them is ever given again, or taken back."""
        return self._ask("release", unit=unit)["outputs"]

    def status(self, unit):
        """How the unit stands: the reply to `status`, whose keys docs/FORMATS.md tells."""
        return self._ask("status", unit=unit)

    def join(self, kind):
        """Adds a unit of this kind; gives its number."""
        return self._ask("join", kind=kind)["unit"]


class Output(NamedTuple):
    """A text that left. It is never taken back, nor given again by the same run."""

    tenant: str
    unit: int
    text: str


class Flow:
    """A flow that runs itself: one run of the program, from `program` with the words `drive` and `words` (as
    `["--journal", "file"]`; `--from` is none of them, as of `Host`). Its calls raise what those of a `Host` raise, and
    may be made by several threads. It is iterated for the outputs: by one thread, which waits for the next one, up to
    the end."""

    def __init__(self, program="recall", words=()):
        words, pipe = list(words), subprocess.PIPE
        if any(str(word).split("=")[0] == "--from" for word in words):
            raise ValueError("a flow takes no --from: read what was missed by a run of its own")
        self._process = subprocess.Popen([program, "drive", *words], stdin=pipe, stdout=pipe, stderr=pipe)
        self._writing, self._news = threading.Lock(), threading.Condition()
        self._asked, self._answered, self._replies = 0, 0, {}  # (the replies that nobody took yet, by their number)
        self._outputs, self._is_over = collections.deque(), False
        self._numbers = {}  # (by tenant and unit: the number of the next post, where it is known)
        self._complaint = []
        self._threads = [threading.Thread(target=work, daemon=True) for work in (self._read, self._listen)]
        for thread in self._threads:
            thread.start()

    def _listen(self):
        for line in self._process.stderr:
            self._complaint.append(line.decode(errors="replace"))

    def _read(self):
        for line in self._process.stdout:
            told = json.loads(line) if line.endswith(b"\n") else {}
            with self._news:
                if "output" in told:
                    self._outputs.append(Output(told["tenant"], told["unit"], told["output"]))
                elif told and "audit" not in told:
                    self._replies[self._answered] = told
                    self._answered += 1
                self._news.notify_all()
        with self._news:
            self._is_over = True
            self._news.notify_all()

    def __enter__(self):
        return self

    def __exit__(self, *_):
        self.close()

    def close(self):
        """Ends the input, waits for the program's end, and gives its exit status. Outputs that nobody took stay
        there."""
        with self._writing:
            if not self._process.stdin.closed:
                try:
                    self._process.stdin.close()
                except BrokenPipeError:
                    pass
        self._process.wait()
        for thread in self._threads:
            thread.join()
        return self._process.returncode

    def __iter__(self):
        return self

    def __next__(self):
        with self._news:
            self._news.wait_for(lambda: self._outputs or self._is_over)
            if self._outputs:
                return self._outputs.popleft()
        raise StopIteration

    def ask(self, step):
        """The reply to one step, a dict with the keys of its line; `Refused` where it was refused. A call that is
        interrupted leaves the flow as it is: the step may have been done."""
        number = self._send(_line_of(step))
        with self._news:
            self._news.wait_for(lambda: number in self._replies or self._is_over)
            reply = self._replies.pop(number, None)
        if reply is None:
            raise Ended(self.close(), "".join(self._complaint), total=self._answered)
        if "no" in reply:
            raise Refused(step, reply)
        return reply

    def _send(self, line):
        """Writes a line, and gives the number of its reply."""
        with self._writing:
            number, self._asked = self._asked, self._asked + 1
            try:
                self._process.stdin.write(line)
                self._process.stdin.flush()
            except (BrokenPipeError, ValueError):
                pass  # (the reply that is missing tells of it)
            return number

    def open(self, tenant, kinds, quota=None, optimism=None):
        """Opens a tenant with a unit of each of these kinds, unit 0 first, as `Host.open` does."""
        limits = {"quota": quota, "optimism": optimism}
        return self.ask(
            {
                "do": "open",
                "tenant": tenant,
                "units": list(kinds),
                **{key: value for key, value in limits.items() if value is not None},
            }
        )

    def post(self, tenant, unit, text, number=None):
        """Gives the unit a text from outside. Without `number` it is the next one, which is asked for where it isn't
        known."""
        if number is None:
            number = self._numbers.get((tenant, unit))
        if number is None:
            number = self.status(tenant, unit)["outside"]
        self._numbers.pop((tenant, unit), None)
        reply = self.ask({"do": "post", "tenant": tenant, "unit": unit, "number": number, "text": text})
        self._numbers[tenant, unit] = number + 1
        return reply

    def kill(self, tenant, unit):
        """Takes the unit down, as a crash would. What was taken is logged already, so nothing is lost."""
        return self._do("kill", tenant, unit)["lost"]

    def restart(self, tenant, unit):
        """Brings the unit up again; what waited for it is delivered."""
        return self._do("restart", tenant, unit)["row"]

    def status(self, tenant, unit):
        """How the unit stands: the reply to `status`, whose keys docs/FORMATS.md tells."""
        return self._do("status", tenant, unit)

    def _do(self, do, tenant, unit):
        return self.ask({"do": do, "tenant": tenant, "unit": unit})
