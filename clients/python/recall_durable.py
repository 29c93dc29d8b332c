"""A flow that survives, over Python's standard library alone. The program, the machine and this process may be killed
at any moment, and each output is still acted on once.

    from recall_durable import DurableFlow

    with DurableFlow("path/to/recall", journal="flow.journal", seen="seen.db") as flow:
        flow.give(steps)
        for output in flow:
            flow.db.execute("INSERT INTO sent (text) VALUES (?)", [output.text])

`steps` are all steps of the flow, from the first on, as dicts (docs/FORMATS.md): the same ones in the same order
whenever it is run again. Those that the journal has are passed over, and the others are given to `recall drive`, ahead
of their replies. How many lines of its output were seen stands in the SQLite file `seen`.

Outputs come in batches, of what the program wrote at once. What the loop does by `flow.db` is one transaction with the
count of that batch's lines. So it is done once for each output, whoever dies: where this process does, or the loop is
left, nothing of its last batch was done, and a later run gives those outputs again. Whoever acts elsewhere acts at
least once for each: he tells the act's key from the output, or notes in `flow.db` what is to be done and does it behind
the loop.

`async for output in flow` does the same where an event loop runs. What its body awaits is within the transaction too.

Who gives each step by hand takes a `DurableHost`, a `recall.Host` that survives in the same way:

    with recall.Host("path/to/recall", journal="flow.journal", outputs="seen.db") as host:
        for step, reply in host.run(steps):
            act(host.db, reply)

or, where the next step depends on what came before,

        for step, reply in host.missed():
            act(host.db, reply)
        with host.transaction():
            act(host.db, host.ask(step))

A program that was killed is started again. One that ends with an error several times in a row raises `recall.Ended`,
and `ValueError` is raised where the journal has other lines than the steps. A step that is refused is told to
`refused`, a function of the step and its reply, if there is one.
"""

import asyncio
import collections
import concurrent.futures
import contextlib
import functools
import itertools
import json
import os
import sqlite3
import subprocess
import tempfile
import threading
import time

from recall import PIECE, Ended, Host, Output, _line_of

TRIES = 50  # (how often in a row a program may end with an error before it wrote a line)
PAUSE = 0.1  # (seconds before the next try)
AHEAD = 1000  # (steps of a host that are given before the reply to the first is read, at most)


def lines_of(journal):
    """The whole lines of a journal; none where it isn't there."""
    try:
        with open(journal, "rb") as file:
            for line in file:
                if line.endswith(b"\n"):
                    yield line
    except FileNotFoundError:
        return


def open_seen(path, table, *columns):
    """The database that has what was seen, with a table of one row of counts."""
    # (a generator that is let go of ends its transaction in whichever thread that is)
    db = sqlite3.connect(path, isolation_level=None, check_same_thread=False)
    db.execute(f"CREATE TABLE IF NOT EXISTS {table} ({', '.join(f'{column} INTEGER NOT NULL' for column in columns)})")
    with transaction_of(db):
        if not db.execute(f"SELECT 1 FROM {table}").fetchone():
            db.execute(f"INSERT INTO {table} VALUES ({', '.join('0' for _ in columns)})")
    return db


@contextlib.contextmanager
def transaction_of(db):
    """One transaction, which is undone where what is within it is left by an exception, or where it can't be kept."""
    db.execute("BEGIN IMMEDIATE")
    try:
        yield
        db.execute("COMMIT")
    except BaseException:
        with contextlib.suppress(sqlite3.Error):  # (one that a fault has undone, or whose file was closed meanwhile)
            db.execute("ROLLBACK")
        raise


class DurableFlow:
    """A flow of the program `program`, with `drive`, this journal, and `words`. It is iterated for its outputs, by one
    thread."""

    def __init__(self, program, journal, seen, words=(), refused=None):
        words = list(words)
        if any(str(word).split("=")[0] in ("--from", "--audit") for word in words):
            raise ValueError("a durable flow counts the lines itself, and takes neither --from nor --audit")
        self._words = [program, "drive", "-q", f"--journal={journal}", *words]
        self._journal, self._refused = journal, refused
        # What the loop does by this is kept with the count of the lines that it has seen.
        self.db = open_seen(seen, "recall_seen", "lines", "replies")
        self._lines, self._replies = self.db.execute("SELECT lines, replies FROM recall_seen").fetchone()
        self._steps, self._given, self._is_given = None, 0, False
        self._unanswered = collections.deque()  # (the lines of steps that were given, and whose replies aren't seen)
        self._process, self._rest, self._complaint = None, b"", None
        self._is_left = False  # (whether a loop is within a batch, or waits for one)
        # Who has it may write to the program: lines are given in one order.
        self._writing, self._into = threading.Lock(), None
        self._feeder, self._fault = threading.Thread(target=self._feed, daemon=True), None

    def __enter__(self):
        return self

    def __exit__(self, *_):
        self.close()

    def close(self):
        """Ends the program and lets go of the files. What was given stands in the journal, or is given by a later
        run."""
        if self._process:
            self._process.kill()
            self._end()
        self.db.close()

    def give(self, steps):
        """All steps of the flow, from the first on: any iterable, which may wait for what comes. Without them the flow
        gives the outputs of what the journal has."""
        self._steps = iter(steps)

    def __iter__(self):
        self._begin()
        while (batch := self._batch()) is not None:
            yield from self._outputs_of(batch)
            self._is_left = False

    async def __aiter__(self):
        """The same for `async for`: what it waits for is waited for in another thread."""
        self._begin()
        while (batch := await asyncio.get_running_loop().run_in_executor(None, self._batch)) is not None:
            for output in self._outputs_of(batch):
                yield output
            self._is_left = False

    def _begin(self):
        if self._is_left:
            raise ValueError("a loop of this flow was left: what it was at was not done, and a new flow gives it again")

    def _outputs_of(self, batch):
        """The outputs of a batch, in one transaction with its count."""
        with transaction_of(self.db):
            for told in batch:
                if "output" in told:
                    yield Output(told["tenant"], told["unit"], told["output"])
                else:
                    self._hear(told)
            self._lines += len(batch)
            self.db.execute("UPDATE recall_seen SET lines = ?, replies = ?", [self._lines, self._replies])

    def _hear(self, reply):
        """Takes the reply to the first step that has none."""
        line = self._unanswered.popleft()
        self._replies += 1
        if "no" in reply and self._refused:
            self._refused(json.loads(line), reply)

    def _batch(self):
        """The lines that the program wrote at once, as dicts; nothing behind the last."""
        failures, self._is_left = 0, True
        while True:
            if not self._process:
                self._start()
            if batch := self._read():
                return batch
            status, complaint = self._end()
            if self._fault:
                raise self._fault
            if status == 0 and self._is_given:
                self._is_left = False
                return None
            failures += status > 0
            if failures >= TRIES:
                raise Ended(status, complaint, total=self._replies)
            time.sleep(PAUSE if status > 0 else 0)

    def _read(self):
        """The whole lines that come next, at the end none. A beginning of one is kept for the next call."""
        while piece := os.read(self._process.stdout.fileno(), PIECE):
            whole, newline, self._rest = (self._rest + piece).rpartition(b"\n")
            if newline:
                return [json.loads(line) for line in whole.splitlines()]
        return []

    def _start(self):
        """Starts the program behind the lines that were seen, and gives it what the journal hasn't."""
        in_journal = self._pass_over()
        self._complaint, pipe = tempfile.TemporaryFile(), subprocess.PIPE
        words = [*self._words, "--from", str(self._lines)]
        self._process = subprocess.Popen(words, stdin=pipe, stdout=pipe, stderr=self._complaint, bufsize=0)
        self._writing.acquire()
        self._into = self._process.stdin
        missing = list(self._unanswered)[in_journal - self._replies :]
        threading.Thread(target=self._resume, args=[missing], daemon=True).start()
        if not self._feeder.ident:
            self._feeder.start()

    def _pass_over(self):
        """Takes the steps that the journal has and that weren't given by this process. Gives how many the journal
        has."""
        count = 0
        for line in lines_of(self._journal):
            count += 1
            if count > self._given:
                self._take(count, line)
        return count

    def _take(self, count, line):
        """Takes the step that the journal has at this place."""
        own = line if self._steps is None else next(map(_line_of, self._steps), None)
        if own != line:
            raise ValueError(f"line {count} of the journal is {line[:80]!r}, and not the step {own!r}")
        self._given = count
        if count > self._replies:
            self._unanswered.append(line)

    def _resume(self, missing):
        """Gives a new program what the journal lacks. It begins with the right to write, which it hands on."""
        for line in missing:
            self._write(line)
        if self._is_given:
            self._into.close()
        self._writing.release()

    def _feed(self):
        """Gives the steps as they come."""
        try:
            for line in map(_line_of, self._steps or ()):
                with self._writing:
                    self._unanswered.append(line)
                    self._given += 1
                    self._write(line)
        except Exception as fault:  # (of the steps: it is raised where the flow is iterated)
            self._fault = fault
        with self._writing:
            self._is_given = True
            if self._into:
                self._into.close()

    def _write(self, line):
        """Gives the program a line. Where it is gone, the next one is given it."""
        with contextlib.suppress(OSError, ValueError, AttributeError):
            while line:
                line = line[self._into.write(line) :]

    def _end(self):
        """Waits for the program's end: its status, and what it complained of."""
        process, self._process, self._rest = self._process, None, b""
        status = process.wait()
        with self._writing:
            self._into = None
        self._complaint.seek(0)
        complaint = self._complaint.read().decode(errors="replace")
        for end in (process.stdin, process.stdout, self._complaint):
            with contextlib.suppress(OSError):
                end.close()
        return status, complaint


class DurableHost(Host):
    """A `recall.Host` over this journal, with its calls: each step by hand, of `program` with `run` and `words`.

    Each reply is counted in the SQLite file `outputs`. Those of the calls within `with host.transaction()` are counted
    at its end, together with what was done by `host.db`; of any other call at its return. Where the program ends, it is
    started again, and what the journal hasn't is given again: the call doesn't notice. Where this process ends, or a
    transaction is left by an exception, the replies that weren't counted are given by `missed`, before any other
    call."""

    def __init__(self, program="recall", words=(), journal=None, outputs=None):
        words = list(words)
        if any(str(word).split("=")[0] in ("--from", "--audit") for word in words):
            raise ValueError("a durable host counts the replies itself, and takes neither --from nor --audit")
        self._words = [program, "run", "-q", f"--journal={journal}", *words]
        self._journal, self._process, self._numbers = journal, None, {}
        self._told, self._why = (0, []), "the program wrote what no call asked for"
        self.db = open_seen(outputs, "recall_replies", "count")
        self._is_within = False  # (whether a transaction is under way)
        self._return()

    def _return(self):
        """Goes back to what was counted: the replies behind it are missed."""
        self._stop()
        self._numbers.clear()
        self._fault = None  # (that of a call of the transaction that is under way)
        [self._seen] = self.db.execute("SELECT count FROM recall_replies").fetchone()
        self._unseen = list(itertools.islice(lines_of(self._journal), self._seen, None))

    def _stop(self):
        """Ends the program where it stands: what it took is in the journal, or was never answered."""
        process, self._process = self._process, None
        if process:
            process.kill()
            process.wait()
            for end in (process.stdin, process.stdout, process.stderr):
                with contextlib.suppress(OSError):
                    end.close()

    def close(self):
        """Ends the program and lets go of the files."""
        self._stop()
        self.db.close()

    def _known_number(self, tenant, unit):
        return self._numbers.get((tenant, unit))

    def _exchange(self, steps):
        if self._unseen:
            raise ValueError(f"{len(self._unseen)} replies were missed: take them by `missed` before any other call")
        if self._fault:
            raise ValueError("a call of this transaction failed: nothing of it is done")
        lines = [_line_of(step) for step in steps]
        self._forget_numbers(steps)
        try:
            replies = self._answers(lines)
            if self._is_within:
                self._seen += len(replies)
                return replies
            with transaction_of(self.db):
                self._count(len(replies))
            return replies
        except BaseException as fault:
            self._fault = fault
            if not self._is_within:
                self._return()
            raise

    def _count(self, more):
        self._seen += more
        self.db.execute("UPDATE recall_replies SET count = ?", [self._seen])

    def _answers(self, lines):
        """The replies to these lines, the next ones of the journal, whoever ends meanwhile."""
        replies, failures = [], 0
        while len(replies) < len(lines):
            try:
                given = self._begin(len(replies))
                self._told = 0, []
                replies += self._talk(lines[given:], len(lines) - len(replies))
            except Ended as ended:
                self._process = None
                failures = 0 if ended.replies else failures + 1
                replies += ended.replies
                if failures >= TRIES:
                    raise
                time.sleep(PAUSE if ended.status > 0 else 0)
        return replies

    def _begin(self, answered):
        """Sees that the program runs, behind as many replies as were seen and answered. Gives how many of the lines
        that come next it has in the journal already."""
        if self._process:
            return answered
        self._start([*self._words, "--from", str(self._seen + answered)])
        return sum(1 for _ in lines_of(self._journal)) - self._seen

    def _ended(self, replies):
        process = self._process
        status = process.wait()
        self._listener.join()
        for end in (process.stdin, process.stdout, process.stderr):
            with contextlib.suppress(OSError):
                end.close()
        return Ended(status, "".join(self._complaint), replies, self._seen + len(replies))

    def run(self, steps, ahead=AHEAD):
        """Each of these steps that wasn't counted, with its reply. `steps` are all of the host, from the first on, as
        dicts: the same ones in the same order whenever it is run again; `ValueError` where the journal has others. They
        are given `ahead` at a time, which share a sync; what the loop does by `db` for as many is one transaction with
        their count."""
        lines = map(_line_of, steps)
        for number, line in enumerate(itertools.islice(lines_of(self._journal), self._seen)):
            self._pass_over(number, line, next(lines, None))
        while self._unseen or (group := list(itertools.islice(lines, ahead))):
            if self._unseen:
                # (the program, once it is started, writes all of these replies)
                group, self._unseen = self._unseen, []
                for number, line in enumerate(group, self._seen):
                    self._pass_over(number, line, next(lines, None))
            with self.transaction():
                for line, reply in zip(group, self._answers(group)):
                    yield json.loads(line), reply
                self._seen += len(group)

    def _pass_over(self, number, line, own):
        if line != own:
            raise ValueError(f"line {number} of the journal is {line[:80]!r}, and not the step {own!r}")

    def missed(self):
        """Each step that was given before and whose reply wasn't counted, with its reply, in order. What the loop does
        by `db` for one is one transaction with its count."""
        lines, self._unseen = self._unseen, []
        try:
            for line, reply in zip(lines, self._answers(lines)):
                with self.transaction():
                    yield json.loads(line), reply
                    self._seen += 1
        except BaseException:
            self._return()
            raise

    @contextlib.contextmanager
    def transaction(self):
        """What is done within it by `db` is one transaction with the count of the replies of its calls. Where it is
        left by an exception nothing of it was done, and `missed` gives the replies again."""
        if self._is_within:
            raise ValueError("a transaction of this host is under way")
        self._is_within = True
        try:
            with transaction_of(self.db):
                yield self
                if self._fault:
                    raise self._fault
                self._count(0)
        except BaseException:
            self._return()
            raise
        finally:
            self._is_within = False


class AsyncDurableHost:
    """The same where an event loop runs: each call is awaited, `async with host.transaction()`, `async for step, reply
    in host.missed()`. All is done in one thread of its own, in the order of the calls; what is done by the database
    goes through `execute`. A call that is cancelled may have been done."""

    def __init__(self, program="recall", words=(), journal=None, outputs=None):
        self._thread = concurrent.futures.ThreadPoolExecutor(1)
        self._host = self._thread.submit(DurableHost, program, words, journal, outputs).result()

    async def __aenter__(self):
        return self

    async def __aexit__(self, *_):
        await self.close()

    async def _do(self, call, *words, **keys):
        return await asyncio.get_running_loop().run_in_executor(self._thread, functools.partial(call, *words, **keys))

    async def close(self):
        """Ends the program and lets go of the files and the thread."""
        await self._do(self._host.close)
        self._thread.shutdown()

    async def ask(self, step):
        return await self._do(self._host.ask, step)

    async def ask_all(self, steps):
        return await self._do(self._host.ask_all, list(steps))

    async def open(self, name, kinds, quota=None, optimism=None):
        await self._do(self._host.open, name, kinds, quota, optimism)
        return self.tenant(name)

    def tenant(self, name):
        return AsyncTenant(self, self._host.tenant(name))

    async def execute(self, words, values=()):
        """The rows that the database answers."""
        return await self._do(lambda: self._host.db.execute(words, values).fetchall())

    @contextlib.asynccontextmanager
    async def transaction(self):
        own = self._host.transaction()
        await self._do(own.__enter__)
        try:
            yield self
        except BaseException as fault:
            await self._do(own.__exit__, type(fault), fault, fault.__traceback__)
            raise
        await self._do(own.__exit__, None, None, None)

    async def missed(self):
        own = self._host.missed()
        try:
            while (told := await self._do(next, own, None)) is not None:
                yield told
        finally:
            await self._do(own.close)


class AsyncTenant:
    """A tenant of an `AsyncDurableHost`: the calls of a `recall.Tenant`, each of which is awaited."""

    def __init__(self, host, tenant):
        self._host, self._tenant = host, tenant

    def __getattr__(self, name):
        return functools.partial(self._host._do, getattr(self._tenant, name))
