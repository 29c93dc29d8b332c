"""`recall load`: an image as the post lines that load it."""

import base64
import json
import os
import struct
import subprocess
import tempfile

from assembler import HEADER, MOST, ZERO, Code
from host import KIND, SECONDS, image_of, loading_texts, step

FLAT = Code().output("text", 5).ret().label("text").data(b"hello").image()
WORDS = ["--tenant", "shop", "--unit", "0"]
LOADABLE, NOTE = 1, 4


def elf(segments, machine=243, bits=1, order=1, kind=2, entry=4, flags=0):
    """An ELF file of 32 bits with these segments: (type, address, bytes, size in memory)."""
    headers, bodies, at = b"", b"", 52 + 32 * len(segments)
    for what, address, data, size in segments:
        headers += struct.pack("<8I", what, at + len(bodies), address, address, len(data), size, 7, 4)
        bodies += data
    ident = b"\x7fELF" + bytes([bits, order, 1]) + bytes(9)
    return (
        ident
        + struct.pack(
            "<HHIIIIIHHHHHH", kind, machine, 1, entry, 52 if segments else 0, 0, flags, 52, 32, len(segments), 0, 0, 0
        )
        + headers
        + bodies
    )


def wide_elf(machine=243):
    """One of 64 bits."""
    ident = b"\x7fELF\x02\x01\x01" + bytes(9)
    return (
        ident
        + struct.pack("<HHIQQQIHHHHHH", 2, machine, 1, 4, 64, 0, 0, 64, 56, 1, 0, 0, 0)
        + struct.pack("<IIQQQQQQ", LOADABLE, 7, 120, 0, 0, len(FLAT), len(FLAT), 4)
        + FLAT
    )


# What a file has, and the image that is loaded.
IMAGES = [
    ("a flat image", FLAT, FLAT),
    ("a long flat image", FLAT + bytes(range(256)) * 100, FLAT + bytes(range(256)) * 100),
    ("an image of the most bytes", FLAT + bytes(MOST - len(FLAT)), FLAT + bytes(MOST - len(FLAT))),
    ("an image of the header alone", HEADER, HEADER),
    ("one segment", elf([(LOADABLE, 0, FLAT, len(FLAT))]), FLAT),
    ("a segment that goes on in memory", elf([(LOADABLE, 0, FLAT, 0x20000)]), FLAT),
    (
        "two segments with a gap",
        elf([(LOADABLE, 0, FLAT[:8], 8), (LOADABLE, 0x100, b"data", 64)]),
        FLAT[:8] + bytes(0x100 - 8) + b"data",
    ),
    ("segments in another order", elf([(LOADABLE, 8, FLAT[8:], len(FLAT) - 8), (LOADABLE, 0, FLAT[:8], 8)]), FLAT),
    (
        "a segment that isn't loaded",
        elf([(NOTE, 0, b"a note of some bytes", 20), (LOADABLE, 0, FLAT, len(FLAT))]),
        FLAT,
    ),
    ("a segment of variables alone", elf([(LOADABLE, 0, FLAT, len(FLAT)), (LOADABLE, 0x8000, b"", 0x4000)]), FLAT),
]

WHOLE = elf([(LOADABLE, 0, FLAT, len(FLAT))])

# What a file has that is none. The status is 1, the message names the file, and nothing is written.
FAULTS = [
    ("an empty file", b""),
    ("a file of text", b"hello, this is no image\n"),
    ("another version of the header", b"RV1\x02" + FLAT[4:]),
    ("an image that is too large", FLAT + bytes(MOST - len(FLAT) + 1)),
    ("another machine", elf([(LOADABLE, 0, FLAT, len(FLAT))], machine=62)),
    ("64 bits", wide_elf()),
    ("64 bits of another machine", wide_elf(62)),
    ("big-endian", elf([(LOADABLE, 0, FLAT, len(FLAT))], order=2)),
    ("an object file", elf([(LOADABLE, 0, FLAT, len(FLAT))], kind=1)),
    ("a library", elf([(LOADABLE, 0, FLAT, len(FLAT))], kind=3)),
    ("no segment", elf([])),
    ("no segment that is loaded", elf([(NOTE, 0, FLAT, len(FLAT))])),
    ("a segment where Linux programs are", elf([(LOADABLE, 0x10000, FLAT, len(FLAT))])),
    ("a segment above memory", elf([(LOADABLE, 0, FLAT, len(FLAT)), (LOADABLE, 0x80000000, b"data", 4)])),
    ("a segment that ends above the image", elf([(LOADABLE, 0, FLAT, len(FLAT)), (LOADABLE, MOST - 2, b"data", 4)])),
    ("a segment that wraps", elf([(LOADABLE, 0, FLAT, len(FLAT)), (LOADABLE, 0xFFFFFFFE, b"data", 4)])),
    ("a header that is torn", WHOLE[:40]),
    ("headers of segments that are torn", WHOLE[:60]),
    ("a segment that is torn", WHOLE[:-1]),
    ("an ELF file without the header", elf([(LOADABLE, 0, b"abcd" + FLAT[4:], len(FLAT))])),
]

# Words that are none. The status is 2.
BAD_WORDS = [
    ("no file", [*WORDS]),
    ("no tenant", ["image", "--unit", "0"]),
    ("no unit", ["image", "--tenant", "shop"]),
    ("two files", ["image", "image", *WORDS]),
    ("a tenant in capitals", ["image", "--tenant", "SHOP", "--unit", "0"]),
    ("a tenant of no letters", ["image", "--tenant", "", "--unit", "0"]),
    ("a long tenant", ["image", "--tenant", "a" * 33, "--unit", "0"]),
    ("unit 256", ["image", "--tenant", "shop", "--unit", "256"]),
    ("a unit that is no number", ["image", "--tenant", "shop", "--unit", "x"]),
    ("a number below zero", ["image", *WORDS, "--number=-1"]),
    ("a number that is too great", ["image", *WORDS, "--number", "4294967296"]),
    ("another option", ["image", *WORDS, "--walk"]),
]


def write(room, name, data):
    path = os.path.join(room, name)
    with open(path, "wb") as file:
        file.write(data)
    return path


def posts(out, unit, first):
    """The image that these lines load, or what is wrong with them."""
    texts = []
    for number, line in enumerate(out.decode().splitlines()):
        it = json.loads(line)
        if (
            it != {"do": "post", "number": first + number, "tenant": "shop", "text": it.get("text"), "unit": unit}
            or len(it["text"]) > 4096
        ):
            raise ValueError(line[:200])
        # The layout that is read fastest: keys in byte order, no blanks.
        if line != json.dumps(it, sort_keys=True, separators=(",", ":")):
            raise ValueError(f"layout: {line[:200]}")
        texts.append(it["text"])
    if [text[:1] for text in texts] != ["+"] * (len(texts) - 1) + ["="] or not out.endswith(b"\n"):
        raise ValueError(f"{[text[:1] for text in texts]}")
    return b"".join(base64.b64decode(text[1:], validate=True) for text in texts)


def loaded(data, wanted):
    def check(host):
        with tempfile.TemporaryDirectory() as room:
            ran = host.ran(["load", write(room, "image", data), *WORDS])
        if ran.returncode or ran.stderr:
            return f"status {ran.returncode}, {ran.stderr!r}"
        image = posts(ran.stdout, 0, 0)
        return None if image == wanted else f"{len(image)} bytes for {len(wanted)}"

    return check


def refused(data):
    def check(host):
        with tempfile.TemporaryDirectory() as room:
            write(room, "some-image", data)
            ran = host.ran(["load", "some-image", *WORDS], cwd=room)
        if (
            ran.returncode != 1
            or ran.stdout
            or not ran.stderr.startswith(b"recall: ")
            or b'"some-image"' not in ran.stderr
            or ran.stderr.count(b"\n") != 1
        ):
            return f"status {ran.returncode}, {ran.stdout[:100]!r}, {ran.stderr!r}"
        return None

    return check


def numbers_and_units(host):
    """The lines go on from `--number`, and are another unit's."""
    with tempfile.TemporaryDirectory() as room:
        path = write(room, "image", FLAT * 200)
        for unit, number in ((0, 0), (15, 7), (255, 4294967000)):
            ran = host.ran(["load", path, "--tenant", "shop", "--unit", str(unit), "--number", str(number)])
            if ran.returncode or posts(ran.stdout, unit, number) != FLAT * 200:
                return f"unit {unit}, number {number}: status {ran.returncode}, {ran.stderr!r}"
    return None


def files(host):
    """A file that isn't there, a folder, and one that may not be read."""
    with tempfile.TemporaryDirectory() as room:
        write(room, "image", FLAT)
        for name in ("nofile", ".", "image/x"):
            ran = host.ran(["load", name, *WORDS], cwd=room)
            if (
                ran.returncode != 1
                or ran.stdout
                or not ran.stderr.startswith(b"recall: ")
                or b'"%s"' % name.encode() not in ran.stderr
            ):
                return f"{name}: status {ran.returncode}, {ran.stderr!r}"
    return None


def bad_words(host):
    with tempfile.TemporaryDirectory() as room:
        write(room, "image", FLAT)
        for name, words in BAD_WORDS:
            ran = host.ran(["load", *words], cwd=room)
            if ran.returncode != 2 or ran.stdout or not ran.stderr:
                return f"{name}: status {ran.returncode}, {ran.stdout[:100]!r}, {ran.stderr!r}"
    return None


def full_disk(host):
    with tempfile.TemporaryDirectory() as room, open("/dev/full", "wb") as full:
        path = write(room, "image", FLAT)
        ran = subprocess.run([host.path, "load", path, *WORDS], stdout=full, stderr=subprocess.PIPE, timeout=SECONDS)
    return (
        None
        if ran.returncode == 1 and ran.stderr.startswith(b"recall: the output can't be written")
        else f"status {ran.returncode}, {ran.stderr!r}"
    )


def piped(host):
    """What one types: the lines of `load`, then steps."""
    rows = [
        ("flat", FLAT),
        ("elf", elf([(LOADABLE, 0, FLAT[:8], 8), (LOADABLE, 8, FLAT[8:], 0x9000)])),
        ("the ledger", image_of("c/ledger")),
    ]
    with tempfile.TemporaryDirectory() as room:
        for name, data in rows:
            lines = host.ran(["load", write(room, "image", data), *WORDS]).stdout
            count = lines.count(b"\n")
            rest = [
                step("post", "shop", unit=0, number=count, text="charge alice 5"),
                step("flush", "shop", unit=0),
                step("release", "shop", unit=0),
                step("status", "shop", unit=0),
            ]
            given = (
                step("open", "shop", units=[KIND, "echo"]).encode()
                + b"\n"
                + lines
                + "".join(line + "\n" for line in rest).encode()
            )
            ran = host.ran(["run", "--programs", "--strict"], given)
            last = [json.loads(line) for line in ran.stdout.splitlines()][-4:]
            wanted = ([], [0]) if name == "the ledger" else (["hello"], [])
            if ran.returncode or (last[2]["outputs"], last[0]["letters"]) != wanted or last[3]["outside"] != count + 1:
                return f"{name}: status {ran.returncode}, {last}, {ran.stderr!r}"
    return None


def same_as_by_hand(host):
    """What is loaded by `load` does what is loaded by other texts: they differ in nothing but how many there are."""
    image = Code().put("jal", ZERO, 0).image()
    with tempfile.TemporaryDirectory() as room:
        out = host.ran(["load", write(room, "image", image), *WORDS]).stdout
    texts = [json.loads(line)["text"] for line in out.splitlines()]
    one, other = host.outputs([[*texts, "x"], [*loading_texts(image, 3), "x"]])
    return None if one[-1] == other[-1] == ["trap: budget spent at 4"] else f"{one}, {other}"


def checks():
    return [
        *[(f"load {name}", loaded(data, wanted)) for name, data, wanted in IMAGES],
        *[(f"load {name}", refused(data)) for name, data in FAULTS],
        ("load: numbers and units", numbers_and_units),
        ("load: files", files),
        ("load: bad words", bad_words),
        ("load: a full disk", full_disk),
        ("load: piped into a run", piped),
        ("load: as by hand", same_as_by_hand),
    ]
