"""How the toolchain is called for a crate of this repository, what a crate stands on, and of which sources it is."""

import functools
import hashlib
import os
import shutil
import sys

TOP = os.path.dirname(os.path.dirname(os.path.abspath(__file__)))
RT = shutil.which("rt") or sys.exit("rt, the command of the toolchain, is not on the path")
KIT = os.path.dirname(os.path.dirname(os.path.realpath(RT)))
# What proves a crate, and builds it.
RATTLE = f"{KIT}/bin/rattle"
# What a check takes of memory at most, in bytes.
MOST = 2_500_000_000


def needs():
    """The libraries that each crate names, by crates.txt."""
    found = {}
    with open(os.path.join(TOP, "crates.txt"), encoding="utf-8") as lines:
        for line in lines:
            head, colon, rest = line.partition(":")
            if colon and not line.startswith("#"):
                found[head.split()[0]] = rest.split()
    return found


NEEDS = needs()


@functools.cache
def below(crate):
    """The crate's libraries of this repository, and theirs, each behind those that it stands on."""
    found = {}
    for each in NEEDS[crate]:
        if each in NEEDS:
            found.update(dict.fromkeys([*below(each), each]))
    return tuple(found)


def is_program(crate):
    return os.path.exists(f"{TOP}/crates/{crate}/src/main.rt")


def words(crate, folder_of):
    """The words that name a crate to the toolchain, which is called in the crate's folder or in a copy of it. What was
    built of a library of this repository lies in the folder that `folder_of` gives."""
    found = ["--crate-name", crate, f"src/{'main' if is_program(crate) else 'lib'}.rt"]
    found += ["--extern", f"std={KIT}/rlibs/std.rlib", "-L", f"dependency={KIT}/rlibs"]
    for each in NEEDS[crate]:
        place = folder_of(each) if each in NEEDS else f"{KIT}/rlibs"
        found += ["--extern", f"{each}={place}/{each}.rlib"]
    for each in below(crate):
        found += ["-L", f"dependency={folder_of(each)}"]
    return [*found, "--antt-project", f"{KIT}/rattle/logic/antt-project.json", "--logic-built", f"{KIT}/logic_built"]


@functools.cache
def own_digest(crate):
    """The digest of a crate's line of crates.txt and of its sources, without those of the crates below it."""
    found = hashlib.sha256(" ".join([crate, *NEEDS[crate], "\n"]).encode())
    for part in ("src", "specs", "proofs"):
        for at, folders, files in os.walk(f"{TOP}/crates/{crate}/{part}"):
            folders.sort()
            for file in sorted(files):
                with open(os.path.join(at, file), "rb") as it:
                    found.update(f"{os.path.relpath(it.name, TOP)}\n".encode() + hashlib.sha256(it.read()).digest())
    return found.digest()


def is_changed(crate):
    """Whether the crate's own sources are others than when its digest was taken."""
    return own_digest.__wrapped__(crate) != own_digest(crate)


def digest(crate, *more):
    """The digest of all that a check of the crate reads: the crate, those below it, the kit; and of these bytes."""
    found = hashlib.sha256(b"".join(map(own_digest, [crate, *below(crate)])))
    with open(f"{KIT}/KIT-ID", "rb") as it:
        found.update(it.read())
    for each in more:
        found.update(each)
    return found.hexdigest()


def lanes():
    """How many checks there may be at once, by memory alone."""
    with open("/proc/meminfo", encoding="utf-8") as lines:
        free = next(int(line.split()[1]) * 1024 for line in lines if line.startswith("MemAvailable:"))
    return max(free // MOST, 1)


def cores():
    return len(os.sched_getaffinity(0))
