"""Power cuts at the level of the disk's blocks, by hand and as root: python3 tests/power/device.py PROGRAM [CUTS]

A journal lies in an ext4 file system of its own, on a loop device. A cut copies the device's bytes as they are at that
moment, with the program stopped, and the file system goes on from the copy: what was not written to the device is gone.
Each reply that was seen must stand to a line of the journal that is left, and what is collected in the end is what one
run without a cut writes. Prints how many cuts there were."""

import os
import random
import shutil
import signal
import subprocess
import sys
import tempfile
import time

HERE = os.path.dirname(os.path.abspath(__file__))
sys.path.append(os.path.join(HERE, "..", "journal"))
from inputs import small_input

MEGABYTES, SECONDS = 24, 30


def do(*words):
    subprocess.run(words, check=True, capture_output=True, timeout=SECONDS)


class Disk:
    """An image with a file system, mounted."""

    def __init__(self, room):
        self.image, self.at = os.path.join(room, "image"), os.path.join(room, "mounted")
        os.mkdir(self.at)
        with open(self.image, "wb") as file:
            file.truncate(MEGABYTES << 20)
        do("mkfs.ext4", "-q", self.image)
        self.mount()

    def mount(self):
        do("mount", "-o", "loop", self.image, self.at)

    def unmount(self):
        do("umount", self.at)

    def copied(self):
        """The device's bytes as they are now."""
        copy = self.image + ".copy"
        shutil.copyfile(self.image, copy)
        return copy

    def go_on_from(self, copy):
        self.unmount()
        os.replace(copy, self.image)
        self.mount()


def lines_of(path):
    try:
        with open(path, "rb") as file:
            whole = file.read().partition(b"\0")[0]
        return whole[: whole.rfind(b"\n") + 1].count(b"\n")
    except FileNotFoundError:
        return 0


def read_some(running, seconds):
    """What it wrote for so long."""
    os.set_blocking(running.stdout.fileno(), False)
    written, end = b"", time.time() + seconds
    while time.time() < end:
        more = running.stdout.read(65536)
        if more:
            written += more
        elif more == b"" and running.poll() is not None:
            break
        time.sleep(0.001)
    return written


def cut(program, disk, lines, collected, chance):
    """A run that is cut at a random moment: what was collected, and what is wrong."""
    journal, seen = os.path.join(disk.at, "journal"), collected.count(b"\n")
    given = lines[lines_of(journal) :][: chance.randrange(1, 60)]
    running = subprocess.Popen(
        [program, "run", "-q", "--journal", journal, "--from", str(seen)],
        stdin=subprocess.PIPE,
        stdout=subprocess.PIPE,
        stderr=subprocess.PIPE,
        bufsize=0,
    )
    for begin in range(0, len(given), step := chance.choice((1, 3, 20))):
        running.stdin.write(b"".join(given[begin : begin + step]))
    written = read_some(running, chance.random() * 0.05)
    running.send_signal(signal.SIGSTOP)
    time.sleep(0.002)
    written += read_some(running, 0.005)
    copy = disk.copied()
    running.kill()
    _, said = running.communicate(timeout=SECONDS)
    collected += written[: written.rfind(b"\n") + 1]
    disk.go_on_from(copy)
    left = lines_of(journal)
    if left < collected.count(b"\n"):
        return collected, f"{collected.count(10)} replies were seen, and {left} lines are left; {said!r}"
    return collected, None


def main():
    if len(sys.argv) not in (2, 3) or os.geteuid() != 0:
        sys.exit(__doc__)
    program, cuts, done = os.path.abspath(sys.argv[1]), int(sys.argv[2]) if len(sys.argv) == 3 else 100, 0
    with tempfile.TemporaryDirectory() as room:
        disk, seed = Disk(room), 0
        try:
            while done < cuts:
                lines, chance, collected = small_input(seed), random.Random(seed), b""
                wanted = subprocess.run(
                    [program, "run"], input=b"".join(lines), capture_output=True, timeout=SECONDS
                ).stdout
                for _ in range(min(10, cuts - done)):
                    collected, wrong = cut(program, disk, lines, collected, chance)
                    done += 1
                    if wrong:
                        sys.exit(f"device: input {seed}, cut {done}: {wrong}")
                journal = os.path.join(disk.at, "journal")
                ran = subprocess.run(
                    [program, "run", "-q", "--journal", journal, "--from", str(collected.count(b"\n"))],
                    input=b"".join(lines[lines_of(journal) :]),
                    capture_output=True,
                    timeout=SECONDS,
                )
                if ran.returncode or collected + ran.stdout != wanted:
                    sys.exit(
                        f"device: input {seed}: the end: status {ran.returncode}, {ran.stderr!r}, "
                        f"{(collected + ran.stdout).count(10)} replies"
                    )
                for name in os.listdir(disk.at):
                    if name.startswith("journal"):
                        os.remove(os.path.join(disk.at, name))
                seed += 1
        finally:
            disk.unmount()
    print(f"device: {done} cuts over {seed} inputs, and no line that was answered is gone")


main()
