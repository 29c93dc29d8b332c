"""Tests of the client with a built program: python3 test_recall.py PROGRAM. The last line is `N passed, M failed`."""

import contextlib
import fcntl
import os
import shlex
import signal
import subprocess
import sys
import tempfile
import termios
import threading
import time
import unittest

import pipeline
import recall

PROGRAM = sys.argv.pop() if len(sys.argv) > 1 else "recall"
LIMIT = 20  # (seconds: a call that takes longer hangs)


class Hangs(Exception):
    """A call that took longer than the limit."""


def hang(*_):
    raise Hangs


@contextlib.contextmanager
def alarms(handler, seconds, again=0.0):
    """Calls the handler after so many seconds, and again and again after so many more, in the midst of what is done
    here."""
    before = signal.signal(signal.SIGALRM, handler)
    signal.setitimer(signal.ITIMER_REAL, seconds, again)
    try:
        yield
    finally:
        signal.setitimer(signal.ITIMER_REAL, 0)
        signal.signal(signal.SIGALRM, before)


def interrupt(*_):
    """Interrupts what is done, once: what doesn't end upon it hangs."""
    signal.signal(signal.SIGALRM, hang)
    signal.setitimer(signal.ITIMER_REAL, LIMIT)
    raise KeyboardInterrupt


def within(seconds):
    """Raises `Hangs` where what is done here takes longer."""
    return alarms(hang, seconds)


def is_stopped(process):
    with open(f"/proc/{process}/stat") as words:
        return words.read().rsplit(") ", 1)[1].startswith("T")


@contextlib.contextmanager
def stopped(host):
    """The host's program is stopped: what is written to it stays in the pipe."""
    process = host._process.pid
    os.kill(process, signal.SIGSTOP)
    try:
        while not is_stopped(process):
            time.sleep(0.001)
        yield
    finally:
        os.kill(process, signal.SIGCONT)


def has_written(host):
    """Whether something is in the pipe to the host's program."""
    return fcntl.ioctl(host._process.stdin, termios.FIONREAD, bytes(4)) != bytes(4)


@contextlib.contextmanager
def interrupted(host):
    """Interrupts what is done here once it has written to the host's program, which is stopped: it waits for a
    reply."""
    with stopped(host), alarms(lambda *_: has_written(host) and interrupt(), 0.02, 0.02):
        yield


@contextlib.contextmanager
def program_of_lines(count, then=":"):
    """The program as one whose input ends behind so many lines, once this shell command is done."""
    with tempfile.TemporaryDirectory() as room:
        path = os.path.join(room, "program")
        lines = f'for n in $(seq {count}); do IFS= read -r line; printf "%s\\n" "$line"; done'
        with open(path, "w") as file:
            file.write(f"#!/bin/sh\n{{ {lines}; {then}; }} | {shlex.quote(os.path.abspath(PROGRAM))} run\n")
        os.chmod(path, 0o700)
        yield path


class Steps(unittest.TestCase):
    def setUp(self):
        self.host = recall.Host(PROGRAM)
        self.addCleanup(self.host.close)

    def test_an_output_leaves_once_it_is_logged(self):
        tenant = self.host.open("a", ["echo"])
        self.assertEqual(tenant.post(0, "x"), {"at": [0, 1], "held": 1, "letters": [], "ok": "accepted"})
        self.assertEqual(tenant.release(0), [])
        self.assertEqual(tenant.flush(0), 1)
        self.assertEqual(tenant.release(0), ["x"])
        self.assertEqual(tenant.release(0), [])

    def test_every_step_has_a_call(self):
        tenant = self.host.open("a", ["relay", "echo"], quota={"held": 4, "letters": 4, "volatile": 4}, optimism=2)
        self.assertEqual(tenant.post(0, "x")["letters"], [0])
        self.assertEqual(tenant.deliver(0)["at"], [0, 1])
        self.assertEqual([tenant.flush(0), tenant.flush(1)], [1, 1])
        self.assertEqual(tenant.checkpoint(1)["at"], [0, 1])
        self.assertEqual(tenant.kill(0), 0)
        self.assertEqual(tenant.restart(0), [1, 2])
        self.assertIsNone(tenant.notice(1))
        self.assertEqual(tenant.release(1), ["x"])
        self.assertEqual(tenant.join("count"), 2)
        self.assertEqual(self.host.tenant("a").status(0)["outside"], 1)

    def test_a_refusal_has_its_name(self):
        tenant = self.host.open("a", ["echo"])
        with self.assertRaises(recall.Refused) as refused:
            tenant.post(0, "x", number=7)
        self.assertEqual((refused.exception.name, refused.exception.step["number"]), ("gap", 7))
        with self.assertRaises(recall.Refused) as refused:
            self.host.open("a", ["echo"])
        self.assertEqual(refused.exception.name, "already-open")
        self.assertEqual(tenant.post(0, "x")["at"], [0, 1])

    def test_the_next_number_goes_back_with_what_was_lost(self):
        tenant = self.host.open("a", ["echo"])
        tenant.post(0, "x")
        tenant.flush(0)
        tenant.post(0, "y")
        self.assertEqual(tenant.next_number(0), 2)
        self.assertEqual(tenant.kill(0), 1)
        tenant.restart(0)
        self.assertEqual(tenant.next_number(0), 1)
        self.assertEqual(tenant.post(0, "z")["at"], [1, 2])

    def test_texts_of_any_characters_come_back(self):
        tenant = self.host.open("a", ["echo"])
        text = 'quote " backslash \\ line\nfeed \0 é 😀'
        tenant.post(0, text)
        tenant.flush(0)
        self.assertEqual(tenant.release(0), [text])

    def test_steps_are_sent_ahead(self):
        tenant = self.host.open("a", ["echo"])
        posts = [tenant.step("post", unit=0, number=n // 2, text="x" * 500) for n in range(2000)]
        replies = self.host.ask_all(posts)
        self.assertEqual([reply.get("ok") or reply["no"] for reply in replies], ["accepted", "repeat"] * 1000)


class Numbers(unittest.TestCase):
    """Which number the next post has, whatever came before it."""

    def setUp(self):
        self.host = recall.Host(PROGRAM)
        self.addCleanup(self.host.close)
        self.tenant = self.host.open("a", ["echo", "echo"])

    def test_tenants_of_one_name_count_together(self):
        second = self.host.tenant("a")
        for number, tenant in enumerate([self.tenant, second, second, self.tenant, second]):
            self.assertEqual(tenant.next_number(0), number)
            self.assertEqual(tenant.post(0, "x")["at"], [0, number + 1])
        self.tenant.flush(0)
        self.tenant.post(0, "lost")
        self.assertEqual(second.kill(0), 1)
        self.tenant.restart(0)
        self.assertEqual([each.next_number(0) for each in (self.tenant, second)], [5, 5])
        self.assertEqual(self.tenant.post(0, "again")["ok"], "accepted")
        self.assertEqual(second.post(1, "y")["at"], [0, 1])

    def test_a_refused_post_is_not_counted(self):
        tenants = [self.tenant, self.host.tenant("a")]
        for text, number, name in [
            ("x" * 5000, None, "too-much"),
            ("x", 9, "gap"),
            ("x", 2**32, "bad-line"),
            ("x", -1, "bad-line"),
        ]:
            with self.assertRaises(recall.Refused) as refused:
                self.tenant.post(0, text, number=number)
            self.assertEqual(refused.exception.name, name)
            self.assertEqual([each.next_number(0) for each in tenants], [0, 0])
        self.assertEqual(self.tenant.post(0, "x")["ok"], "accepted")
        self.assertEqual([each.next_number(0) for each in tenants], [1, 1])

    def test_a_post_that_is_no_json_is_not_counted(self):
        circle = []
        circle.append(circle)
        for value, error in [({"x"}, TypeError), (circle, ValueError), (10**5000, ValueError)]:
            with within(LIMIT), self.assertRaises(error):
                self.tenant.post(0, value)
        self.assertEqual(self.tenant.post(0, "x")["at"], [0, 1])

    def test_steps_that_are_asked_for_themselves_are_counted(self):
        self.tenant.post(0, "x")
        self.host.ask(self.tenant.step("post", unit=0, number=1, text="y"))
        self.host.ask_all([self.tenant.step("post", unit=0, number=n, text="z") for n in (2, 3)])
        self.assertEqual(self.tenant.post(0, "w")["at"], [0, 5])
        self.host.ask_all([self.tenant.step(do, unit=0) for do in ("kill", "restart")])
        self.assertEqual(self.tenant.post(0, "x")["at"], [1, 1])


class NoSteps(unittest.TestCase):
    """What isn't JSON raises before anything is written."""

    def setUp(self):
        self.host = recall.Host(PROGRAM)
        self.addCleanup(self.host.close)
        self.tenant = self.host.open("a", ["echo"])

    def bad_values(self):
        circle, deep = [], []
        circle.append(circle)
        for _ in range(100_000):
            deep = [deep]
        return [{"a set"}, object(), b"bytes", circle, 10**5000, float("nan"), float("inf"), {("a", "pair"): 0}, deep]

    def test_each_raises_and_the_host_goes_on(self):
        good = self.tenant.step("status", unit=0)
        for value in self.bad_values():
            bad = self.tenant.step("post", unit=0, number=0, text=value)
            calls = [
                lambda: self.host.ask(bad),
                lambda: self.host.ask_all([bad]),
                lambda: self.host.ask_all([good, bad, good]),
            ]
            for call in calls:
                with within(LIMIT), self.assertRaises((TypeError, ValueError, RecursionError)):
                    call()
            with within(LIMIT):
                self.assertEqual(self.tenant.status(0)["outside"], 0)
        self.assertEqual(self.tenant.post(0, "x")["at"], [0, 1])

    def test_what_is_json_and_no_step_is_refused(self):
        for step in [None, 7, "x", [], {}, {"do": []}, {"do": "post", "tenant": [], "unit": {}}]:
            with within(LIMIT), self.assertRaises(recall.Refused) as refused:
                self.host.ask(step)
            self.assertEqual((refused.exception.name, refused.exception.step), ("bad-line", step))

    def test_words_that_write_what_no_call_asked_for_are_none(self):
        for words in (["--from", "0"], ["--from=0"]):
            with self.assertRaises(ValueError):
                recall.Host(PROGRAM, ["--journal", os.devnull, *words]).close()


# Each call, with what is asked of tenant `a`, whose unit 3 is down.
CALLS = {
    "ask": lambda host, a: host.ask(a.step("status", unit=0)),
    "ask_all": lambda host, a: host.ask_all([a.step("status", unit=unit) for unit in range(3)]),
    "checkpoint": lambda host, a: a.checkpoint(1),
    "deliver": lambda host, a: a.deliver(0),
    "flush": lambda host, a: a.flush(0),
    "join": lambda host, a: a.join("echo"),
    "kill": lambda host, a: a.kill(0),
    "next_number": lambda host, a: a.next_number(1),
    "notice": lambda host, a: a.notice(0),
    "open": lambda host, a: host.open("c", ["echo"]),
    "post": lambda host, a: a.post(0, "y"),
    "refused": lambda host, a: a.post(0, "y", number=7),
    "release": lambda host, a: a.release(2),
    "restart": lambda host, a: a.restart(3),
    "status": lambda host, a: a.status(0),
}


class Interrupts(unittest.TestCase):
    """Calls that are interrupted. Tenant `b` has what must never come out of a call of another's."""

    def host(self):
        host = recall.Host(PROGRAM)
        self.addCleanup(host.close)
        a, b = host.open("a", ["relay", "echo", "echo", "echo"]), host.open("b", ["echo"])
        a.post(0, "x")
        a.post(2, "a's output")
        b.post(0, "b's output")
        a.flush(2)
        b.flush(0)
        a.kill(3)
        return host, a, b

    def go_on(self, host, a, b):
        """Later calls, each with the reply that is its own."""
        posts = lambda: 0 if a.status(0)["up"] and a.post(0, "z") else 0
        ahead = lambda: [reply.get("outside", reply) for reply in host.ask_all([b.step("status", unit=0)] * 2)]
        return [
            (lambda: b.release(0), ["b's output"]),
            (lambda: b.status(0)["released"], 1),
            (lambda: b.next_number(0), 1),
            (ahead, [1, 1]),
            (lambda: host.open("d", ["echo"]).post(0, "d")["at"], [0, 1]),
            (posts, 0),
            (lambda: b.release(0), []),
        ]

    def look(self, host, a, b):
        """Whether the host is broken: all later calls raise it then, and else each has its own reply."""
        broken = []
        for call, wanted in self.go_on(host, a, b):
            try:
                self.assertEqual(call(), wanted)
                broken.append(False)
            except recall.Broken as why:
                self.assertIn("the host is broken", str(why))
                self.assertIn(
                    why.total - why.count, [11] if why.count else [11, 12, 14]
                )  # (`host` reads 11, a call 1 or 3)
                broken.append(True)
        self.assertEqual(len(set(broken)), 1, broken)
        return broken[0]

    def place(self, call, number, by):
        """Whether the call ended before it was interrupted at this place of the client: a line, or an instruction."""
        left = number

        def trace(frame, event, _):
            nonlocal left
            if frame.f_code.co_filename != recall.__file__:
                return None
            frame.f_trace_opcodes = by == "opcode"
            left -= event == by
            if event == by and left == 0:
                raise KeyboardInterrupt
            return trace

        sys._getframe().f_trace_opcodes = by == "opcode"  # (Python 3.12 looks at it before it begins to trace)
        sys.settrace(trace)
        try:
            call()
        except KeyboardInterrupt:
            return False
        except recall.Refused:
            pass
        finally:
            sys.settrace(None)
        return True

    def everywhere(self, name, by):
        """Interrupts a call at each place, and gives of how many the host was broken, and of how many not."""
        found, number = {True: 0, False: 0}, 1
        while True:
            host, a, b = self.host()
            with within(LIMIT):
                is_whole = self.place(lambda: CALLS[name](host, a), number, by)
                is_broken = self.look(host, a, b)
                host.close()
            if is_whole:
                self.assertFalse(is_broken, name)
                return found
            found[is_broken] += 1
            number += 1

    def test_each_call_at_each_line(self):
        for name in CALLS:
            found = self.everywhere(name, "line")
            self.assertGreater(min(found[True], found[False]), 3, (name, found))

    def test_some_calls_at_each_instruction(self):
        for name in ("ask_all", "post", "release"):
            found = self.everywhere(name, "opcode")
            self.assertGreater(min(found[True], found[False]), 20, (name, found))

    def test_each_call_that_waits_for_its_reply(self):
        for name, call in CALLS.items():
            host, a, b = self.host()
            with self.assertRaises(KeyboardInterrupt), interrupted(host):
                call(host, a)
            with within(LIMIT):
                self.assertTrue(self.look(host, a, b), name)
                self.assertEqual(host.close(), 0)
                self.assertTrue(self.look(host, a, b), name)

    def test_steps_that_are_sent_ahead_by_the_megabyte(self):
        host, a, b = self.host()
        posts = [a.step("post", unit=1, number=n // 2, text="x" * 4000) for n in range(1000)]
        with self.assertRaises(KeyboardInterrupt), interrupted(host):
            host.ask_all(posts)
        with within(LIMIT):
            self.assertTrue(self.look(host, a, b))
            self.assertEqual(host.close(), 0)

    def test_what_was_read_before_the_interrupt_is_told(self):
        with program_of_lines(6, "sleep 3") as program, recall.Host(program) as host:
            a = host.open("a", ["echo"])
            a.post(0, "x")
            steps = [a.step(do, unit=0) for do in ("flush", "release", "status", "kill", "restart")]
            with self.assertRaises(KeyboardInterrupt), alarms(interrupt, 1.5):
                host.ask_all(steps)
            with self.assertRaises(recall.Broken) as broken:
                a.status(0)
        told = broken.exception
        self.assertEqual((told.count, told.total), (3, 6))
        self.assertEqual([reply["ok"] for reply in told.replies], ["flush", "released", "status"])
        self.assertEqual(told.replies[1]["outputs"], ["x"])

    def test_what_an_interrupted_call_missed_is_in_the_journal(self):
        with tempfile.TemporaryDirectory() as room:
            journal = os.path.join(room, "journal")
            with recall.Host(PROGRAM, ["--journal", journal]) as host:
                a = host.open("a", ["echo"])
                a.post(0, "x", number=0)
                a.flush(0)
                with self.assertRaises(KeyboardInterrupt), interrupted(host):
                    a.release(0)
                with self.assertRaises(recall.Broken) as broken:
                    a.release(0)
            words = [PROGRAM, "run", "--journal", journal, "--from", str(broken.exception.total)]
            missed = subprocess.run(words, stdin=subprocess.DEVNULL, capture_output=True, check=True).stdout
            self.assertEqual(missed, b'{"ok":"released","outputs":["x"]}\n')
            with recall.Host(PROGRAM, ["--journal", journal]) as host:
                self.assertEqual(host.tenant("a").release(0), [])
                self.assertEqual(host.tenant("a").post(0, "y")["at"], [0, 2])

    def test_a_call_within_a_call_is_none(self):
        host, a, b = self.host()
        told = []

        def call_within(*_):
            if has_written(host) and not told:
                try:
                    told.append(b.release(0))
                except recall.Broken as broken:
                    told.append(str(broken))
                os.kill(host._process.pid, signal.SIGCONT)

        with stopped(host), alarms(call_within, 0.02, 0.02):
            self.assertEqual(a.release(2), ["a's output"])
        self.assertEqual(len(told), 1)
        self.assertIn("the host is broken", told[0])
        self.assertFalse(self.look(host, a, b))


class Ends(unittest.TestCase):
    def test_the_replies_before_the_end_are_told(self):
        with program_of_lines(4) as program, recall.Host(program) as host:
            tenant = host.open("a", ["echo"])
            with within(LIMIT), self.assertRaises(recall.Ended) as ended:
                host.ask_all([tenant.step("post", unit=0, number=n, text="x") for n in range(1000)])
            with self.assertRaises(recall.Ended) as later:
                tenant.status(0)
        self.assertEqual([reply["at"] for reply in ended.exception.replies], [[0, 1], [0, 2], [0, 3]])
        self.assertEqual((ended.exception.count, ended.exception.total), (3, 4))
        self.assertEqual((later.exception.replies, later.exception.count, later.exception.total), ([], 0, 4))

    def test_the_end_is_told(self):
        with recall.Host(PROGRAM) as host:
            tenant = host.open("a", ["echo"])
        self.assertRaises(recall.Ended, tenant.flush, 0)

    def test_a_killed_program_is_told(self):
        host = recall.Host(PROGRAM)
        self.addCleanup(host.close)
        tenant = host.open("a", ["echo"])
        os.kill(host._process.pid, signal.SIGKILL)
        with self.assertRaises(recall.Ended) as ended:
            tenant.post(0, "x", number=0)
        self.assertEqual(ended.exception.status, -signal.SIGKILL)

    def test_bad_words_are_told(self):
        with recall.Host(PROGRAM, ["--no-such-word"]) as host:
            with self.assertRaises(recall.Ended) as ended:
                host.open("a", ["echo"])
        self.assertEqual(ended.exception.status, 2)
        self.assertIn("--no-such-word", ended.exception.complaint)


class Flows(unittest.TestCase):
    def flow(self, *words):
        flow = recall.Flow(PROGRAM, words)
        self.addCleanup(flow.close)
        return flow

    def test_outputs_come_in_order(self):
        with self.flow() as flow:
            flow.open("a", ["tee", "echo"])
            self.assertEqual(flow.post("a", 0, "x")["letters"], [0])
            self.assertEqual([next(flow), next(flow)], [("a", 0, "x"), ("a", 1, "x")])
            flow.post("a", 0, "y")
        self.assertEqual(list(flow), [("a", 0, "y"), ("a", 1, "y")])

    def test_an_output_comes_while_the_flow_goes_on(self):
        flow = self.flow()
        flow.open("a", ["echo"])
        for number in range(100):
            flow.post("a", 0, str(number))
            self.assertEqual(next(flow).text, str(number))

    def test_a_letter_waits_for_a_restart(self):
        with self.flow() as flow:
            flow.open("a", ["relay", "echo"])
            self.assertEqual(flow.kill("a", 1), 0)
            flow.post("a", 0, "x")
            flow.restart("a", 1)
        self.assertEqual([output.text for output in flow], ["x"])

    def test_a_refusal_is_raised_and_leaves_the_next_number(self):
        flow = self.flow()
        flow.open("a", ["echo"])
        flow.post("a", 0, "x")
        flow.kill("a", 0)
        with self.assertRaises(recall.Refused) as refused:
            flow.post("a", 0, "y")
        self.assertEqual(refused.exception.name, "down")
        flow.restart("a", 0)
        flow.post("a", 0, "y")
        self.assertEqual([next(flow).text, next(flow).text], ["x", "y"])

    def test_two_threads_have_their_own_replies(self):
        flow, wrong = self.flow(), []
        for name in "ab":
            flow.open(name, ["echo"])

        def give(name, first):
            for number in range(first, first + 200):
                if flow.post(name, 0, "x", number - first)["at"] != [0, number - first + 1]:
                    wrong.append((name, number))

        threads = [threading.Thread(target=give, args=("a", 0)), threading.Thread(target=give, args=("b", 7))]
        for thread in threads:
            thread.start()
        for thread in threads:
            thread.join()
        flow.close()
        self.assertEqual((wrong, len(list(flow))), ([], 400))

    def test_the_end_is_told(self):
        flow = self.flow()
        flow.open("a", ["echo"])
        os.kill(flow._process.pid, signal.SIGKILL)
        with self.assertRaises(recall.Ended) as ended:
            flow.post("a", 0, "x", number=0)
        self.assertEqual(ended.exception.status, -signal.SIGKILL)
        self.assertEqual(list(flow), [])
        self.assertRaises(recall.Ended, flow.status, "a", 0)

    def test_bad_words_are_told(self):
        flow = self.flow("--no-such-word")
        with self.assertRaises(recall.Ended) as ended:
            flow.open("a", ["echo"])
        self.assertEqual(ended.exception.status, 2)
        self.assertIn("--no-such-word", ended.exception.complaint)
        self.assertRaises(ValueError, recall.Flow, PROGRAM, ["--from=3"])

    def test_a_journal_is_gone_on_with(self):
        with tempfile.TemporaryDirectory() as room:
            words = ["--journal", os.path.join(room, "journal")]
            with self.flow(*words) as flow:
                flow.open("a", ["echo"])
                flow.post("a", 0, "x")
            with self.flow(*words) as later:
                later.post("a", 0, "y")
            self.assertEqual([list(flow), list(later)], [[("a", 0, "x")], [("a", 0, "y")]])


class Example(unittest.TestCase):
    def test_a_pipeline_survives_kills(self):
        for seed in range(5):
            self.assertEqual(pipeline.main(PROGRAM, seed), 100)


if __name__ == "__main__":
    result = unittest.main(exit=False).result
    wrong = len(result.failures) + len(result.errors)
    print(f"{result.testsRun - wrong} passed, {wrong} failed")
    sys.exit(1 if wrong or not result.testsRun else 0)
