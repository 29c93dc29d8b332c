"""The examples: their native tests, and that their images are what their sources give. What needs a tool that isn't
there is skipped, and says which package has it."""

import base64
import os
import re
import shutil
import signal
import subprocess
import tempfile

from host import EXAMPLES, HERE, SECONDS, TOP, image_of

NAMES = ("ledger", "card", "ratelimit")
SDK = os.path.join(TOP, "sdk")


def done(words, seconds=SECONDS, **others):
    """A command, done in so many seconds: it and all that it started are ended where they take longer."""
    pipe = subprocess.PIPE
    with subprocess.Popen(
        words, stdin=subprocess.DEVNULL, stdout=pipe, stderr=pipe, start_new_session=True, **others
    ) as running:
        try:
            out, said = running.communicate(timeout=seconds)
        except BaseException:
            os.killpg(running.pid, signal.SIGKILL)
            raise
    return subprocess.CompletedProcess(words, running.returncode, out, said)


def made(words, **others):
    """A command that must not fail."""
    if (ran := done(words, **others)).returncode:
        raise ValueError(f"{' '.join(words)[:200]}: {ran.stderr.decode()[:500]}")
    return ran.stdout.decode()


def missing(*tools):
    """Why a check is skipped, or None: pairs of a tool and where it is from."""
    lacking = [f"{tool} is missing: it is in {package}" for tool, package in tools if not shutil.which(tool)]
    return "skipped: " + "; ".join(lacking) if lacking else None


CLANG = (
    ("clang", "Debian's package clang"),
    ("ld.lld", "Debian's package lld"),
    ("llvm-objcopy", "Debian's package llvm"),
)
GCC = (("riscv64-unknown-elf-gcc", "Debian's package gcc-riscv64-unknown-elf"),)


def native(name):
    """The tests of a program in C, built for this machine."""

    def check(_):
        if lacking := missing(("cc", "Debian's package gcc")):
            return lacking
        own = os.path.join(EXAMPLES, "c")
        with tempfile.TemporaryDirectory() as room:
            test = os.path.join(room, "test")
            made(
                [
                    "cc",
                    "-DNATIVE",
                    "-O1",
                    "-Wall",
                    "-Wextra",
                    "-Wno-unused-parameter",
                    "-Werror",
                    "-I",
                    os.path.join(SDK, "c"),
                    "-o",
                    test,
                    f"{own}/{name}.c",
                    f"{own}/{name}_test.c",
                ]
            )
            ran = done([test])
        return (
            None
            if ran.returncode == 0 and re.search(rb"\A[1-9]\d* passed, 0 failed\n\Z", ran.stdout)
            else f"status {ran.returncode}, {ran.stdout.decode()[:500]}"
        )

    return check


def harness(_):
    """The native harness itself: it tells what a turn does, undoes what is refused, and finds a test that is wrong."""
    if lacking := missing(("cc", "Debian's package gcc")):
        return lacking
    with tempfile.TemporaryDirectory() as room:
        test = os.path.join(room, "test")
        made(["cc", "-DNATIVE", "-I", os.path.join(SDK, "c"), "-o", test, os.path.join(HERE, "harness.c")])
        ran = done([test])
    return (
        None
        if ran.returncode == 1 and ran.stdout.endswith(b"\n8 passed, 1 failed\n") and b'upon "wrong"' in ran.stdout
        else f"status {ran.returncode}, {ran.stdout.decode()}"
    )


def support(_):
    """What stands in for a C library where clang builds alone: runs of bytes, and division of 64 bits, beside this
    machine's."""
    if lacking := missing(("cc", "Debian's package gcc")):
        return lacking
    with tempfile.TemporaryDirectory() as room:
        test = os.path.join(room, "test")
        made(
            [
                "cc",
                "-O1",
                "-fno-builtin",
                "-I",
                os.path.join(SDK, "c"),
                "-o",
                test,
                os.path.join(HERE, "support_test.c"),
            ]
        )
        ran = done([test])
    return None if ran.returncode == 0 and ran.stdout == b"0 0\n" else f"status {ran.returncode}, {ran.stdout!r}"


def compiler_of(language):
    """The compiler that made the committed images, as `examples/programs/COMPILERS` has it."""
    with open(os.path.join(EXAMPLES, "COMPILERS"), encoding="utf-8") as file:
        return dict(line.rstrip("\n").split(": ", 1) for line in file)[language]


def built(name):
    """The image that clang makes of the source is the committed one, where it is the compiler that made that; where it
    is another one, that it makes an image."""

    def check(host):
        if lacking := missing(*CLANG):
            return lacking
        version = made(["clang", "--version"]).splitlines()[0]
        with tempfile.TemporaryDirectory() as room:
            made([os.path.join(SDK, "c", "build.sh"), os.path.join(EXAMPLES, "c", name + ".c")], cwd=room)
            with open(os.path.join(room, name + ".img"), "rb") as file:
                image = file.read()
            loaded = host.ran(["load", os.path.join(room, name + ".elf"), "--tenant", "a", "--unit", "0"])
        if (
            b"".join(
                base64.b64decode(line.split(b'"text":"')[1].split(b'"')[0][1:]) for line in loaded.stdout.splitlines()
            )
            != image
        ):
            return "`recall load` makes another image of the ELF file than objcopy does"
        if version == compiler_of("c") and image != image_of(f"c/{name}"):
            return "the committed image is of another source: examples/programs/build makes it anew"
        return None if image.startswith(b"RV1\x01") and len(image) < 16384 else f"{len(image)} bytes"

    return check


def in_rust(_):
    """The tests of the crate and of its programs, built for this machine."""
    if lacking := missing(("cargo", "what rustup installs, and Debian's package cargo-web")):
        return lacking
    with tempfile.TemporaryDirectory() as room:
        for folder, least in ((os.path.join(SDK, "rust"), 1), (os.path.join(EXAMPLES, "rust"), 6)):
            ran = done(
                ["cargo", "test", "--quiet", "--offline", "--manifest-path", os.path.join(folder, "Cargo.toml")],
                2 * SECONDS,
                env={**os.environ, "CARGO_TARGET_DIR": room},
            )
            passed = sum(map(int, re.findall(rb"(\d+) passed; 0 failed", ran.stdout)))
            if ran.returncode or passed < least:
                return f"{folder}: {passed} passed, {(ran.stdout + ran.stderr).decode()[-500:]}"
    return None


def built_in_rust(host):
    """As for C, where the compiler has `core` for the target."""
    if lacking := missing(
        ("cargo", "what rustup installs, and Debian's package cargo-web"),
        ("rustc", "what rustup installs, and Debian's package rustc-web"),
        *CLANG[2:],
    ):
        return lacking
    sysroot, version = (made(["rustc", *words]).strip() for words in (["--print", "sysroot"], ["--version"]))
    target = "riscv32im-unknown-none-elf"
    if not os.path.isdir(os.path.join(sysroot, "lib", "rustlib", target)):
        return (
            f"skipped: the target is missing: rustup target add {target} (examples/programs/build makes it of Debian's "
            "package rust-web-src, in a minute)"
        )
    with tempfile.TemporaryDirectory() as room:
        made([os.path.join(SDK, "rust", "build.sh"), os.path.join(EXAMPLES, "rust"), room])
        for name in NAMES:
            with open(os.path.join(room, name + ".img"), "rb") as file:
                image = file.read()
            if version == compiler_of("rust") and image != image_of(f"rust/{name}"):
                return f"the committed image of {name} is of another source: examples/programs/build makes it anew"
            if host.upon(image, "x") != [["not understood: x"]]:
                return f"{name}: {host.upon(image, 'x')}"
    return None


def with_a_library(host):
    """A program with malloc, snprintf, division of 64 bits and errno, by gcc and picolibc."""
    if lacking := missing(*GCC):
        return lacking
    with tempfile.TemporaryDirectory() as room:
        ran = done([os.path.join(SDK, "c", "build-libc.sh"), os.path.join(EXAMPLES, "c", "words.c")], cwd=room)
        if ran.returncode:
            return (
                "skipped: " + ran.stderr.decode().strip() if b"is missing" in ran.stderr else ran.stderr.decode()[:500]
            )
        with open(os.path.join(room, "words.img"), "rb") as file:
            image = file.read()
    told = host.upon(image, "one two one", "two", "a\u00e4 one", "99999999999999999999 one")
    wanted = [
        ["one: 2", "two: 1"],
        ["two: 2"],
        ["a\u00e4: 1", "one: 3"],
        ["99999999999999999999: 1, too great", "one: 4"],
    ]
    return None if told == wanted else f"{told}"


def checks():
    return [
        *[(f"native tests of {name}", native(name)) for name in NAMES],
        ("the native harness", harness),
        ("support", support),
        *[(f"the image of {name}", built(name)) for name in NAMES],
        ("a program with a C library", with_a_library),
        ("tests in Rust", in_rust),
        ("the images in Rust", built_in_rust),
    ]
