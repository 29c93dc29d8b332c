"""Programs that nobody meant: a seeded thousand of random images, random programs of real instructions, and what a host
with them must still do. Where there is a C compiler they are also run by the plain interpreter in tests/oracle, which
was written apart."""

import json
import os
import random
import shutil
import subprocess
import tempfile

from assembler import (
    A0,
    A1,
    A2,
    A3,
    BRANCHES,
    HEADER,
    IMMEDIATES,
    LOADS,
    OPERATIONS,
    RA,
    S0,
    S1,
    S2,
    S3,
    S4,
    SHIFTS,
    STORES,
    TEXT_AT,
    ZERO,
    Code,
)
from host import KIND, SECONDS, TOP, loading_texts, step

SEED = 20260101
TEXT = "a text of some bytes"


def random_images():
    """Up to 64 random bytes behind the header, or in its place too."""
    chance = random.Random(SEED)
    images = []
    for number in range(1000):
        data = chance.randbytes(chance.randrange(65))
        images.append(data if number % 10 == 0 else HEADER + data)
    return images


DATA = 0x20000


def random_instruction(code, chance):
    """One of any sort, most of which do no harm, or a call."""
    pick, kind = lambda: chance.choice(
        [register for register in range(32) if register not in (RA, S0, S1)]
    ), chance.randrange(100)
    if kind < 35:
        code.put(chance.choice([*OPERATIONS]), pick(), pick(), pick())
    elif kind < 50:
        code.put(chance.choice([*IMMEDIATES]), pick(), pick(), chance.randrange(-2048, 2048))
    elif kind < 56:
        code.put(chance.choice([*SHIFTS]), pick(), pick(), chance.randrange(32))
    elif kind < 68:  # (one in fifty may be misaligned)
        code.put(
            chance.choice([*LOADS, *STORES]),
            pick(),
            chance.randrange(-512, 512) & ~(3 if chance.random() < 0.98 else 0),
            S0,
        )
    elif kind < 76:
        code.put(chance.choice([*BRANCHES]), pick(), pick(), 4 * chance.randrange(1, 4))
    elif kind < 80:
        code.put(chance.choice(["lui", "auipc"]), pick(), chance.getrandbits(20))
    elif kind < 97:
        code.li(A0, DATA - 16 + chance.randrange(600)).li(A1, chance.randrange(24)).call(1)
    elif kind < 98:
        code.li(A1, TEXT_AT).li(A2, chance.randrange(24)).li(A0, chance.choice((0, 0, 1, 255))).call(2)
        if chance.random() < 0.2:
            code.li(A0, TEXT_AT).li(A1, chance.randrange(24)).call(3)
    elif kind < 99:
        code.put("jal", pick(), 4 * chance.randrange(-2, 4))
    else:
        code.word(chance.getrandbits(32))


def random_program(chance):
    """Its loads and stores go to data, or, in one of four, to its own code."""
    code = (
        Code()
        .li(S0, DATA + 4 * chance.randrange(64) if chance.random() < 0.75 else 512 + 4 * chance.randrange(4, 64))
        .put("addi", S1, RA, 0)
    )
    for _ in range(chance.randrange(5, 60)):
        random_instruction(code, chance)
    return code.put("jalr", ZERO, 0, S1).image()


def random_programs():
    chance = random.Random(SEED + 1)
    return [random_program(chance) for _ in range(300)]


def texts_of(images):
    return [[*loading_texts(image), TEXT, TEXT + " again"] for image in images]


def every_reply(host):
    """A reply to each line, and nothing is lost: each post is accepted, and puts out what is held and then released."""
    images = random_images()
    lines, held = [], 0
    for number, texts in enumerate(texts_of(images)):
        tenant = f"t{number}"
        lines.append(step("open", tenant, units=[KIND]))
        lines += [step("post", tenant, unit=0, number=at, text=text) for at, text in enumerate(texts)]
        lines += [
            step("flush", tenant, unit=0),
            step("kill", tenant, unit=0),
            step("restart", tenant, unit=0),
            step("release", tenant, unit=0),
        ]
    replies = host.replies(lines, "--audit")
    audits = replies[len(lines) :]
    if len(audits) != len(images) or any(reply != {"audit": "ok", "tenant": reply["tenant"]} for reply in audits):
        return f"{len(audits)} audits, {[it for it in audits if it['audit'] != 'ok'][:2]}"
    for line, reply in zip(lines, replies):
        if "ok" not in reply:
            return f"{line[:200]} is answered {reply}"
        if reply["ok"] == "accepted":
            held = reply["held"]
        if reply["ok"] == "released" and len(reply["outputs"]) != held:
            return f"{line} gives {reply} where {held} were held"
    return None


def again_and_replayed(host):
    """The same images put out the same in another process, and where each unit is killed and replayed after each
    text."""
    images = random_images()[::5] + random_programs()[::5]
    first = host.outputs(texts_of(images))
    if host.outputs(texts_of(images)) != first:
        return "another run puts out something else"
    lines, marks = [], []
    for number, texts in enumerate(texts_of(images)):
        tenant = f"t{number}"
        lines.append(step("open", tenant, units=[KIND]))
        for at, text in enumerate(texts):
            lines += [step(do, tenant, unit=0) for do in ("kill", "restart")]
            lines += [
                step("post", tenant, unit=0, number=at, text=text),
                step("flush", tenant, unit=0),
                step("release", tenant, unit=0),
            ]
            marks.append((number, at, len(lines) - 1))
    replies = host.replies(lines)
    for number, at, line in marks:
        if replies[line].get("outputs") != first[number][at]:
            return f"image {number}, text {at}: {replies[line]} after a restart, {first[number][at]} without"
    return None


def escaped(text):
    return text.replace("\\", "\\\\").replace("\n", "\\n")


def plain_turns(plain, image, texts, room):
    """What the plain interpreter puts out upon each text, and how many letters the unit sends itself."""
    path = os.path.join(room, "image")
    with open(path, "wb") as file:
        file.write(image)
    ran = subprocess.run(
        [plain, path],
        input="".join(escaped(text) + "\n" for text in texts).encode(),
        capture_output=True,
        timeout=SECONDS,
        check=True,
    )
    turns, lines = [], []
    for line in ran.stdout.split(b"\n")[:-1]:
        lines.append(line)
        if not line:  # (it is the end of a turn)
            turns.append(
                (
                    [text[5:].decode() for text in lines if text.startswith(b"out: ")],
                    sum(text.startswith(b"to 0: ") for text in lines),
                )
            )
            lines = []
    return turns


def as_the_plain_interpreter(host):
    """The same outputs and letters as those of an interpreter in C that was written apart, of random images and
    programs."""
    if not shutil.which("cc"):
        return "skipped: cc is missing: it is in Debian's package gcc"
    images = [image for image in random_images() if image.startswith(HEADER)][:200] + random_programs()
    with tempfile.TemporaryDirectory() as room:
        plain = os.path.join(room, "plain")
        subprocess.run(["cc", "-O2", "-o", plain, os.path.join(TOP, "tests", "oracle", "plain.c")], check=True)
        for number, (image, turns) in enumerate(zip(images, host.turns(texts_of(images)))):
            wanted = plain_turns(plain, image, [TEXT, TEXT + " again"], room)
            got = [([escaped(text) for text in outputs], letters) for outputs, letters in turns[-2:]]
            if got != wanted:
                return f"image {number}, {image.hex()[:200]}: {got}, and the plain one {wanted}"
    return None


def spends_its_budget(host):
    """A unit that spends its budget in each turn goes on, and its neighbours do: 30 turns, a kill, and the replay of
    all of them."""
    image = Code().put("jal", ZERO, 0).image()
    texts = loading_texts(image) + ["x"] * 30
    lines = [step("open", "a", units=[KIND, "count"])] + [
        step("post", "a", unit=0, number=at, text=text) for at, text in enumerate(texts)
    ]
    lines += [step("post", "a", unit=1, number=0, text="x")]
    lines += [
        step("flush", "a", unit=0),
        step("kill", "a", unit=0),
        step("restart", "a", unit=0),
        step("release", "a", unit=0),
        step("flush", "a", unit=1),
        step("release", "a", unit=1),
    ]
    replies = host.replies(lines)
    if replies[-3].get("outputs") != ["trap: budget spent at 4"] * 30 or replies[-1].get("outputs") != ["1"]:
        return f"{replies[-3:]}"
    return None


def many_letters(host):
    """Two units that send each other 64 texts in each turn: none is lost."""
    code = (
        Code().put("addi", S1, A0, 0).put("addi", S2, A1, 0).put("addi", S4, ZERO, 1).put("sub", S4, S4, A3).li(S3, 64)
    )
    code.label("again").put("addi", A0, S4, 0).put("addi", A1, S1, 0).put("addi", A2, S2, 0).call(2).put(
        "addi", S3, S3, -1
    ).put("bne", S3, ZERO, "again").ret()
    texts = loading_texts(code.image())
    lines = [step("open", "a", units=[KIND, KIND])]
    for unit in (0, 1):
        lines += [step("post", "a", unit=unit, number=at, text=text) for at, text in enumerate(texts)]
    lines += [step("post", "a", unit=0, number=len(texts), text="x")] + [
        step("deliver", "a", letter=letter) for letter in range(10)
    ]
    replies = host.replies(lines)
    letters = [number for reply in replies[-11:] for number in reply["letters"]]
    return None if letters == list(range(64 * 11)) else f"{json.dumps(replies[-2:])[:300]}"


def checks():
    return [
        ("random images", every_reply),
        ("again and replayed", again_and_replayed),
        ("as the plain interpreter", as_the_plain_interpreter),
        ("a budget spent each turn", spends_its_budget),
        ("many letters", many_letters),
    ]
