"""A worker of one partition, whatever the engine: it feeds the partition's steps to a run of the program, in order, and
has each reply recorded that isn't. What an engine adds: how steps are read, how replies are appended, and what a lease
is there."""

import argparse
import collections
import queue
import signal
import sys
import threading

import running
from running import PAUSE, Fault

BATCH, AHEAD = 100, 4  # (steps read at once, and such batches that may wait for their replies)
MOST, WORD = 8 << 20, 32 << 20  # (bytes: appended at once; of a message that a server must take)

# A step: where it stands among the steps, its line, the name of who put it, and the number that it has there.
Step = collections.namedtuple("Step", "at line sender number")


def words_of(page, server, address, has_snapshots=False):
    """The words of a script that works on one partition of a server of this kind, which may keep snapshots."""
    reader = argparse.ArgumentParser(description=page, formatter_class=argparse.RawDescriptionHelpFormatter)
    reader.add_argument("program")
    reader.add_argument("partition", type=int)
    reader.add_argument(f"--{server}", dest="server", default=address)
    reader.add_argument("--name", default="recall")
    reader.add_argument("--lease", type=int, default=5000)
    if has_snapshots:
        reader.add_argument("--snapshot", type=int, default=0)
    return reader.parse_args()


class Keeping(threading.Thread):
    """Renews a lease each third of its time, on a connection of its own, whatever the worker waits for; but no more
    once the run is stuck for as long as it lasts. `renew` raises a fault where the lease is lost."""

    def __init__(self, seconds, run, renew):
        super().__init__(daemon=True)
        self.seconds, self.run_of_program, self.renew = seconds, run, renew
        self.is_over, self.fault = threading.Event(), None
        self.start()

    def run(self):
        try:
            while not self.is_over.wait(self.seconds / 3):
                if self.run_of_program.is_stuck(self.seconds):
                    raise Fault(5, f"the program has steps in its hands, and wrote nothing for {self.seconds:.0f} s")
                self.renew()
        except Fault as fault:
            self.fault = fault

    def check(self):
        """Raises what stopped the renewals, if anything did."""
        if self.fault:
            raise self.fault


class Worker:
    """What a worker has while it holds its lease: the run, how many replies are recorded, and the last of these with
    its step's place. The run may stand behind some of the steps already: so many replies fewer are dropped."""

    def __init__(self, run, count, last, behind=0):
        self.run, self.count, self.drop, self.last = run, count, count - behind, last
        self.batches = queue.Queue(AHEAD)

    def steps(self):
        """Gives the steps from the first one on, batch by batch, for ever."""
        raise NotImplementedError

    def append(self, steps, replies):
        """Has these replies recorded, behind the first `count`, or raises a fault."""
        raise NotImplementedError

    def check(self):
        """Raises why to end, if there is anything; asked again and again."""
        raise NotImplementedError

    def is_full(self):
        """Whether the worker should end, and another one go on."""
        return False

    def feed(self):
        """Gives the run the steps. A fault is passed on as a batch."""
        try:
            for steps in self.steps():
                self.batches.put(steps)
                self.run.give([step.line for step in steps])
        except Exception as fault:
            self.batches.put(fault)

    def is_recorded(self, at, reply):
        """Whether the reply to this step is recorded. The last that is must be the recorded one, to the byte."""
        if not self.drop:
            return False
        self.drop -= 1
        if self.drop == 0:
            was_at, was = self.last
            if (at, reply) != (was_at, was):
                raise Fault(1, f"the reply to step {at} is {reply[:1000]}, and recorded is {was_at} {was[:1000]}")
        return True

    def append_some(self, steps, replies):
        if replies:
            self.append(steps, replies)
            self.count += len(replies)

    def record(self, steps):
        """Takes the replies to these steps, and appends those that are new: no more at once than a server takes
        well."""
        those, replies, size = [], [], 0
        for step in steps:
            reply = self.run.reply()
            if self.is_recorded(step.at, reply):
                continue
            if size + len(reply) > MOST:
                self.append_some(those, replies)
                those, replies, size = [], [], 0
            those.append(step)
            replies.append(reply)
            size += len(reply)
        self.append_some(those, replies)

    def work(self, stopping):
        """Records replies until it is told to stop."""
        threading.Thread(target=self.feed, daemon=True).start()
        while not stopping.is_set() and not self.is_full():
            self.check()
            try:
                batch = self.batches.get(timeout=PAUSE)
            except queue.Empty:
                if self.run.process.poll() is not None:
                    self.run.reply()  # (it has none, and that is the fault)
                continue
            if isinstance(batch, Exception):
                raise batch
            self.record(batch)


def main(words, reach, serve):
    """Runs a worker of these words until it is told to stop. `reach` gives the partition. `serve` takes it, the
    program's file, the words, the event of being told, and what says a line; `note` of the partition takes the status
    and the line of a fault."""
    stopping, name = threading.Event(), f"worker of {words.name}:{words.partition}"
    say = lambda what: print(f"{name}: {what}", file=sys.stderr, flush=True)
    for number in (signal.SIGTERM, signal.SIGINT):
        signal.signal(number, lambda *_: stopping.set())

    def work():
        program = running.program_file(words.program)
        partition = reach(words)
        try:
            serve(partition, program, words, stopping, say)
        except Fault as fault:
            try:
                partition.note(*fault.args)
            except Fault as more:
                say(f"what follows can't be noted in the server: {more.args[1]}")
            raise
        say("ended")

    running.end(name, work)
