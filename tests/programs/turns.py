"""Loading, turns, and each way in which a turn ends badly. What is wanted is worked out from docs/PROGRAMS.md."""

import base64

from assembler import (
    A0,
    A1,
    A2,
    A3,
    A4,
    A7,
    BUDGET,
    HEADER,
    MEMORY,
    MOST,
    RA,
    RETURN_AT,
    S0,
    S1,
    SP,
    T0,
    T1,
    T2,
    T3,
    T6,
    TEXT_AT,
    ZERO,
    Code,
    encode,
)
from host import KIND, loading_texts, step


def lines(code, *operands):
    """A program of few instructions: (name, operands..) each."""
    for name, *words in operands:
        code.put(name, *words)
    return code


def program(*instructions):
    return lines(Code(), *instructions).image()


# ---- loading

HELLO = Code().output("text", 5).ret().label("text").data(b"hello").image()


def encoded(data):
    return base64.b64encode(data).decode()


def a_program_in_parts(host):
    for size in (1, 2, 3, 4, 7, 3069):
        texts = [*loading_texts(HELLO, size), "x", "y"]
        told = host.outputs([texts])[0]
        if any(told[:-2]) or told[-2:] != [["hello"], ["hello"]]:
            return f"{size} bytes a text: {told!r:.200}"
    return None


def upon_loading(*rows):
    """A check of rows: texts, and what is put out upon each."""

    def check(host):
        for texts, wanted in rows:
            got = host.outputs([texts])[0]
            if got != wanted:
                return f"upon {texts!r:.150}: {got!r:.200}, not {wanted!r:.150}"
        return None

    return check


LOADED = ["=" + encoded(HELLO), "x"]
WORKS = [[], ["hello"]]

no_program = upon_loading(
    (["", "x", "RV1", " =", "-AAAA", *LOADED], [["no program"]] * 5 + WORKS),
    # What is no loading text leaves what came before it.
    (["+" + encoded(HELLO[:7]), "x", "=" + encoded(HELLO[7:]), "x"], [[], ["no program"], [], ["hello"]]),
)

OTHER = Code().output("text", 5).ret().label("text").data(b"other").image()

# Where there is a program each text is a turn, whatever it looks like, but for one that begins an image with its
# header.
a_program_stays = upon_loading(
    (
        [
            *LOADED,
            "=AAAA",
            "+AAAA",
            "+",
            "=",
            "+!",
            "UlYxAQ",
            " +UlYxAQ",
            "+UlYx",
            "=ulyxaq",
            "+" + encoded(OTHER[1:]),
            "x",
        ],
        WORKS + [["hello"]] * 11,
    )
)

bad_base64 = upon_loading(
    *[
        ([sign + text, *LOADED], [["bad base64"], *WORKS])
        for sign in "+="
        for text in (
            "A",
            "AA",
            "AAA",
            "AAA=A",
            "A===",
            "AA=A",
            "=",
            "====",
            "AAAA AAAA",
            "AA-_",
            "\u00e4AAA",
            "AAAA\n",
            "#AAA",
            "AAAA=",
        )
    ],
    # The unit begins anew: what was loaded before is gone.
    (["+" + encoded(HELLO[:8]), "+!", *LOADED], [[], ["bad base64"], *WORKS]),
    (["+" + encoded(HELLO[:8]), "+!", "=" + encoded(HELLO[8:]), *LOADED], [[], ["bad base64"], ["bad image"], *WORKS]),
)

bad_image = upon_loading(
    *[
        (["=" + encoded(image), *LOADED], [["bad image"], *WORKS])
        for image in (
            b"",
            b"R",
            b"RV1",
            b"RV1\x00aaaa",
            b"RV1\x02aaaa",
            b"RV2\x01aaaa",
            b"rv1\x01aaaa",
            b"\x01RV1aaaa",
            b"\x7fELFaaaa",
            b"\0RV1\x01aaaa",
        )
    ],
    # The header is looked at in the whole image, at its end.
    (
        ["+" + encoded(b"x" * 100), "x", "+" + encoded(HELLO), "=", *LOADED],
        [[], ["no program"], [], ["bad image"], *WORKS],
    ),
    (
        ["+" + encoded(HELLO[:1]), "+" + encoded(HELLO[1:3]), "+", "+" + encoded(HELLO[3:]), "=", "x"],
        [[]] * 5 + [["hello"]],
    ),
    (["=", "+", "=", *LOADED], [["bad image"], [], ["bad image"], *WORKS]),
    # The header alone is an image: at address 4 there is a word of zeros, which is no instruction.
    (["=" + encoded(HEADER), "x"], [[], ["trap: illegal instruction at 4"]]),
)


def image_too_large(host):
    """One of the most bytes is taken. The text that brings one byte more is answered, and the unit begins anew."""
    most = HELLO + bytes(MOST - len(HELLO))
    for image, wanted, rest in ((most, [], [["hello"]]), (most + b"\0", ["image too large"], [["no program"], *WORKS])):
        texts = loading_texts(image)
        told = host.outputs([[*texts, "x", *(LOADED if wanted else [])]])[0]
        if told != [[]] * (len(texts) - 1) + [wanted] + rest:
            return f"{len(image)} bytes: {told[-4:]}"
    texts = ["+" + encoded(bytes(3069))] * 85 + LOADED
    told = host.outputs([texts])[0]
    return None if told == [[]] * 84 + [["image too large"], *WORKS] else f"85 texts: {told[-4:]}"


# ---- the beginning and the end of a turn

SHOWN = 0x39000


def registers_at_the_start(host):
    """All registers and the text, put out as a turn begins; and again in a later turn, since they don't survive."""
    # x31 has the place that the others are stored at, so it is looked at by itself.
    code = Code().put("bne", T6, ZERO, "set").put("lui", T6, SHOWN >> 12)
    for register in range(31):
        code.put("sw", register, 4 * register, T6)
    code.put("addi", S1, RA, 0).put("addi", S0, ZERO, 0).li(T3, SHOWN + 128)
    code.label("word").put("slli", T0, S0, 2).put("add", T0, T0, T6).put("lw", A0, 0, T0).put("jal", RA, "hex")
    code.put("addi", S0, S0, 1).put("addi", T0, ZERO, 31).put("blt", S0, T0, "word")
    code.li(A0, SHOWN + 128).put("sub", A1, T3, A0).call(1).li(T0, 0xAAAA).li(A3, 0xBBBB).li(T6, 0xCCCC).put(
        "jalr", ZERO, 0, S1
    )
    code.label("set").output("was", 15).ret().label("was").data(b"x31 was not zero").align()
    code.label("hex").put("addi", T0, ZERO, 28).label("digit").put("srl", T1, A0, T0).put("andi", T1, T1, 15)
    code.put("addi", T2, ZERO, 10).put("blt", T1, T2, "decimal").put("addi", T1, T1, 39).label("decimal").put(
        "addi", T1, T1, 48
    )
    code.put("sb", T1, 0, T3).put("addi", T3, T3, 1).put("addi", T0, T0, -4).put("bge", T0, ZERO, "digit").ret()
    texts = loading_texts(code.image())
    # Unit 0 is an echo's neighbour: unit 1 gets texts from outside and from the relay, which is unit 0 and sends to
    # unit 1.
    asked = [step("open", "a", units=["relay", KIND]), step("join", "a", kind=KIND)]
    for unit in (1, 2):
        asked += [
            step("post", "a", unit=unit, number=number, text=text)
            for number, text in enumerate([*texts, "x" * (5 * unit), ""])
        ]
    asked += [step("post", "a", unit=0, number=0, text="\u00e4\u00f6"), step("deliver", "a", letter=0)]
    asked += [step("flush", "a", unit=unit) for unit in range(3)] + [
        step("release", "a", unit=unit) for unit in range(3)
    ]
    told = [reply.get("outputs") for reply in host.replies(asked)[-3:]]

    def shown(length, source, unit, home):
        values = {RA: RETURN_AT, SP: TEXT_AT, A0: TEXT_AT, A1: length, A2: source, A3: unit, A4: home}
        return "".join("%08x" % values.get(register, 0) for register in range(31))

    outside = 0xFFFFFFFF
    wanted = [
        [],
        [shown(5, outside, 1, 2), shown(0, outside, 1, 2), shown(4, 0, 1, 2)],
        [shown(10, outside, 2, 3), shown(0, outside, 2, 3)],
    ]
    return None if told == wanted else f"{told} for {wanted}"


def memory_stays(host):
    """What a turn leaves in memory is there in the next one, also where the text was, on the stack and beyond the
    image."""
    places = (0x8000, 0x20004, 0x3EFFC, 0x3FFFC, TEXT_AT + 64)
    code = Code().put("addi", S1, RA, 0).li(S0, 0x30000)
    for place in places:
        code.li(T0, place).put("lw", T1, 0, T0).put("addi", T1, T1, 1).put("sw", T1, 0, T0).put("addi", T1, T1, 47).put(
            "sb", T1, 0, S0
        ).put("addi", S0, S0, 1)
    code.li(A0, 0x30000).li(A1, len(places)).call(1).put("jalr", ZERO, 0, S1)
    wanted = [["0" * 5], ["1" * 5], ["2" * 5]]
    told = host.upon(code.image(), "a", "b", "c")
    return None if told == wanted else f"{told}"


def the_text_is_put_over_the_last(host):
    """Of a shorter text the rest of a longer one stays behind it: who reads past the length reads that."""
    code = Code().li(A1, 6).call(1).ret()
    told = host.upon(code.image(), "abcdef", "xy", "")
    return None if told == [["abcdef"], ["xycdef"], ["xycdef"]] else f"{told}"


def longest_texts(host):
    """A text of 4,096 bytes comes whole, and goes out whole; in a turn there are 64 of them."""
    text = "\u00e4" * 2048
    code = (
        Code()
        .put("addi", S0, ZERO, 64)
        .label("again")
        .call(1)
        .put("addi", S0, S0, -1)
        .put("bne", S0, ZERO, "again")
        .ret()
    )
    told = host.upon(code.image(), text, "")
    return None if told == [[text] * 64, [""] * 64] else "other texts"


def sends(host):
    """Sends and outputs in the order of the calls; a send to a unit that isn't there goes nowhere."""
    code = Code()
    for number in range(6):
        code.la(A1, f"t{number}").put("addi", A2, ZERO, 2).put("addi", A0, ZERO, (0, 1, 2, 255, 1, 0)[number]).call(2)
    code.output("t5", 2).la(A1, "t0").put("addi", T1, ZERO, 0x75).put("sb", T1, 0, A1).ret()
    for number in range(6):
        code.label(f"t{number}").data(b"t%d" % number).align()
    asked = [step("open", "a", units=[KIND, "echo"])]
    texts = loading_texts(code.image())
    asked += [step("post", "a", unit=0, number=number, text=text) for number, text in enumerate([*texts, "go"])]
    replies = host.replies(asked)
    if replies[-1] != {"at": [0, len(texts) + 1], "held": 1, "letters": [0, 1, 2, 3], "ok": "accepted"}:
        return f"{replies[-1]}"
    asked += (
        [step("deliver", "a", letter=letter) for letter in (1, 2)]
        + [step("flush", "a", unit=unit) for unit in (0, 1)]
        + [step("release", "a", unit=1)]
    )
    told = host.replies(asked)[-1]
    return None if told.get("outputs") == ["t1", "t4"] else f"{told}"


# ---- turns that end badly


def counting(*end):
    """Counts its turns, puts the count out, sends to unit 0, and then ends like this."""
    code = Code().la(S0, "count").put("lbu", T0, 0, S0).put("addi", T0, T0, 1).put("sb", T0, 0, S0)
    code.put("addi", A0, S0, 0).put("addi", A1, ZERO, 1).call(1).put("addi", A1, S0, 0).put("addi", A0, ZERO, 0).put(
        "addi", A2, ZERO, 1
    ).call(2)
    # A text that begins with `x` ends badly.
    code.li(T1, TEXT_AT).put("lbu", T1, 0, T1).put("addi", T2, ZERO, ord("x")).put("beq", T1, T2, "badly").ret().label(
        "badly"
    )
    lines(code, *end)
    return code.ret().label("count").data(b"0").align()


def undone(host, end, wanted, name):
    """A turn that ends badly leaves the state, sends nothing, and its only output is this one."""
    code = counting(*end)
    texts = loading_texts(code.image())
    asked = [step("open", "a", units=[KIND])]
    asked += [
        step("post", "a", unit=0, number=number, text=text)
        for number, text in enumerate([*texts, "a", "x", "b", "xx", "c"])
    ]
    replies = host.replies([*asked, step("flush", "a", unit=0), step("release", "a", unit=0)])
    letters = [reply["letters"] for reply in replies[1 + len(texts) : -2]]
    outputs = replies[-1]["outputs"]
    if letters != [[0], [], [1], [], [2]] or outputs != ["1", wanted(code), "2", wanted(code), "3"]:
        return f"{name}: {outputs}, letters {letters}"
    return None


def a_trap_undoes_the_turn(host):
    for end, reason in (
        ([("ebreak",)], "breakpoint"),
        ([("sw", ZERO, 1, ZERO)], "store address misaligned"),
        ([("jal", ZERO, 0)], "budget spent"),
        ([("addi", A7, ZERO, 0), ("ecall",)], "unknown call"),
    ):
        wrong = undone(
            host,
            end,
            lambda code, end=end, reason=reason: f"trap: {reason} at {code.labels['badly'] + 4 * (len(end) - 1):x}",
            reason,
        )
        if wrong:
            return wrong
    return None


def a_refusal_undoes_the_turn(host):
    end = [("addi", A0, S0, 0), ("addi", A1, ZERO, 1), ("addi", A7, ZERO, 3), ("ecall",), ("ebreak",)]
    texts = [*loading_texts(counting(*end).image()), "a", "x", "b", "x", "c"]
    asked = [step("open", "a", units=[KIND])] + [
        step("post", "a", unit=0, number=number, text=text) for number, text in enumerate(texts)
    ]
    *replies, _, released = host.replies([*asked, step("flush", "a", unit=0), step("release", "a", unit=0)])
    letters = [reply["letters"] for reply in replies[-5:]]
    # The text is read where the turn left it: it is the count that is undone with the turn.
    if released["outputs"] != ["1", "2", "2", "3", "3"] or letters != [[0], [], [1], [], [2]]:
        return f"{released}, letters {letters}"
    return None


def word(instruction):
    """An image whose first instruction is this word."""
    return HEADER + instruction.to_bytes(4, "little")


def calls(number, *registers):
    """A program that makes one call, at 0x20, with these registers: a0, a1, a2."""
    code = Code()
    for register, value in zip((A0, A1, A2), (*registers, 0, 0, 0)):
        code.li(register, value)
    return code.put("addi", A7, ZERO, number).put("ecall").ret().image()


def many(number):
    """Puts out so many empty texts, by the call at 0x14."""
    code = Code().li(S0, number).put("addi", A1, ZERO, 0).put("addi", A7, ZERO, 1).label("again").put("ecall")
    return code.put("addi", S0, S0, -1).put("bne", S0, ZERO, "again").ret().image()


def stored(data):
    """A program that puts these bytes out, by the call at 0x1c."""
    code = Code().la(A0, "data").li(A1, len(data)).put("addi", A7, ZERO, 1).put("addi", ZERO, ZERO, 0).put("ecall")
    return code.ret().label("data").data(data).image()


def loop(instructions):
    """A program that makes just so many instructions, the return among them."""
    code, rounds = Code(), (instructions - 5) // 2
    code.li(S0, rounds).put("addi", S0, S0, -1).put("bne", S0, ZERO, -4)
    for _ in range(instructions - 3 - 2 * rounds):
        code.put("addi", ZERO, ZERO, 0)
    return code.ret().image()


HIGH = [("lui", T0, 0x40)]  # the end of memory
ODD = [("lui", T0, 0x40), ("addi", T0, T0, -1)]  # the last byte

# What is tried, the image, and the trap: reason and address.
TRAPS = [
    ("a jump to a half word", program(("jal", ZERO, 6)), "instruction address misaligned at 4"),
    (
        "a jump by register",
        program(("addi", T0, ZERO, 14), ("jalr", ZERO, 0, T0)),
        "instruction address misaligned at 8",
    ),
    ("a branch that is taken", program(("beq", ZERO, ZERO, 10)), "instruction address misaligned at 4"),
    ("a branch that isn't taken", program(("bne", ZERO, ZERO, 10), ("ebreak",)), "breakpoint at 8"),
    (
        "the lowest bit is cleared first",
        program(("addi", T0, ZERO, 13), ("jalr", ZERO, 0, T0), ("ebreak",)),
        "breakpoint at c",
    ),
    ("a jump past the end", program(*HIGH, ("jalr", ZERO, 0, T0)), "instruction access fault at 40000"),
    (
        "the last address",
        program(("addi", T0, ZERO, -4), ("jalr", ZERO, 0, T0)),
        "instruction access fault at fffffffc",
    ),
    (
        "running past the end",
        program(("addi", T1, ZERO, 19), *HIGH, ("sw", T1, -4, T0), ("jalr", ZERO, -4, T0)),
        "instruction access fault at 40000",
    ),
    (
        "near the return",
        program(("addi", T0, ZERO, -20), ("jalr", ZERO, 0, T0)),
        "instruction access fault at ffffffec",
    ),
    ("zeros", word(0), "illegal instruction at 4"),
    ("ones", word(0xFFFFFFFF), "illegal instruction at 4"),
    ("a compressed instruction", word(0x00018082), "illegal instruction at 4"),
    ("fence.i", word(0x0000100F), "illegal instruction at 4"),
    ("a csr", word(0xC0002573), "illegal instruction at 4"),
    ("mret", word(0x30200073), "illegal instruction at 4"),
    ("wfi", word(0x10500073), "illegal instruction at 4"),
    ("an ecall with a register", word(0x000000F3), "illegal instruction at 4"),
    ("a load of 64 bits", word(0x00003003), "illegal instruction at 4"),
    ("lwu", word(0x00006003), "illegal instruction at 4"),
    ("a store of 64 bits", word(0x00003023), "illegal instruction at 4"),
    ("a shift by 32", word(encode("slli", T0, T0, 0) | 1 << 25), "illegal instruction at 4"),
    ("an arithmetic shift to the left", word(encode("slli", T0, T0, 0) | 1 << 30), "illegal instruction at 4"),
    ("a branch of no kind", word(0x00002063), "illegal instruction at 4"),
    ("a jalr of no kind", word(0x00001067), "illegal instruction at 4"),
    ("an operation of no kind", word(encode("xor", T0, T0, T0) | 1 << 30), "illegal instruction at 4"),
    ("an atomic one", word(0x0000202F), "illegal instruction at 4"),
    ("a float", word(0x00000053), "illegal instruction at 4"),
    ("the header itself", program(("jalr", ZERO, 0, ZERO)), "illegal instruction at 0"),
    ("ebreak", program(("ebreak",)), "breakpoint at 4"),
    ("lh", program(("lh", T0, 1, ZERO)), "load address misaligned at 4"),
    ("lhu", program(("lhu", T0, 3, ZERO)), "load address misaligned at 4"),
    ("lw", program(("lw", T0, 2, ZERO)), "load address misaligned at 4"),
    ("lb past the end", program(*HIGH, ("lb", T0, 0, T0)), "load access fault at 8"),
    ("lbu before the beginning", program(("lbu", T0, -1, ZERO)), "load access fault at 4"),
    ("lw past the end", program(*HIGH, ("lw", ZERO, 0, T0)), "load access fault at 8"),
    ("sh", program(("sh", T0, 1, ZERO)), "store address misaligned at 4"),
    ("sw", program(("sw", T0, 2, ZERO)), "store address misaligned at 4"),
    ("sb past the end", program(*ODD, ("sb", ZERO, 1, T0)), "store access fault at c"),
    ("sw past the end", program(*HIGH, ("sw", ZERO, 0, T0)), "store access fault at 8"),
    (
        "a stack that never ends",
        program(("addi", SP, SP, -2048), ("sw", ZERO, 0, SP), ("jal", ZERO, -8)),
        "store access fault at 8",
    ),
    ("a loop of one", program(("jal", ZERO, 0)), "budget spent at 4"),
    ("a loop of two", program(("addi", T0, T0, 1), ("addi", ZERO, ZERO, 0), ("jal", ZERO, -4)), "budget spent at c"),
    ("more than the budget", loop(BUDGET + 1000), None),
    *[(f"call {number}", calls(number), "unknown call at 20") for number in (0, 4, 5, 64, 93, 2047, -1)],
    ("65 outputs", many(65), "too many texts at 14"),
    ("a million outputs", many(1_000_000), "too many texts at 14"),
    ("a long output", calls(1, 0, 4097), "text too long at 20"),
    ("a long send", calls(2, 0, 0, 4097), "text too long at 20"),
    ("a long refusal", calls(3, 0, 4097), "text too long at 20"),
    ("a length below zero", calls(1, 0, 0xFFFFFFFF), "text too long at 20"),
    ("an output past the end", calls(1, MEMORY - 8, 9), "text out of range at 20"),
    ("an output that wraps", calls(1, 0xFFFFFFF0, 32), "text out of range at 20"),
    ("a send past the end", calls(2, 0, MEMORY, 1), "text out of range at 20"),
    ("a refusal past the end", calls(3, MEMORY - 1, 2), "text out of range at 20"),
    *[
        (f"{data.hex()} put out", stored(data), "text not utf-8 at 1c")
        for data in (
            b"\x80",
            b"\xff",
            b"a\xc3",
            b"\xc0\x80",
            b"\xed\xa0\x80",
            b"\xf4\x90\x80\x80",
            b"\xe2\x82",
            b"ok\xf8\x88\x80\x80\x80",
        )
    ],
    ("unit 256", calls(2, 256, 0, 0), "no such unit at 20"),
    ("unit -1", calls(2, 0xFFFFFFFF, 0, 0), "no such unit at 20"),
]


def traps():
    told = {}

    def look(host, name, image, wanted):
        if not told:
            trials = [[*loading_texts(image), "go", "again"] for _, image, _ in TRAPS]
            told.update(zip((name for name, _, _ in TRAPS), host.outputs(trials)))
        got = told[name]
        if wanted is None:
            is_right = all(
                len(outputs) == 1 and outputs[0].startswith("trap: budget spent at ") for outputs in got[-2:]
            )
        else:
            is_right = got[-2:] == [["trap: " + wanted]] * 2
        return None if is_right and not any(got[:-2]) else f"{got}, not {wanted}"

    return [(f"trap {name}", lambda host, row=(name, image, wanted): look(host, *row)) for name, image, wanted in TRAPS]


def the_budget(host):
    """A turn of somewhat less than a million instructions returns, and one of somewhat more doesn't: in each turn
    anew."""
    told = host.upon(loop(BUDGET - 10), "a", "b", "c")
    if told != [[], [], []]:
        return f"{BUDGET - 10} instructions: {told}"
    told = host.upon(loop(BUDGET + 10), "a", "b")
    return (
        None
        if all(outputs[0].startswith("trap: budget spent at ") for outputs in told)
        else f"{BUDGET + 10} instructions: {told}"
    )


def texts_to_the_end_of_memory(host):
    """A text may end where memory ends; an empty one may stand there."""
    told = (
        host.upon(calls(1, MEMORY - 4096, 4096), "abc")
        + host.upon(calls(1, MEMORY, 0), "abc")
        + host.upon(calls(3, MEMORY, 0), "abc")
    )
    return None if told == [["abc" + "\0" * 4093], [""], [""]] else f"{told!r:.200}"


def returns(host):
    """Jumping to the return address ends the turn, however it is come to."""
    ways = [
        [("jal", ZERO, -20)],
        [("jal", RA, -20)],
        [("beq", ZERO, ZERO, -20)],
        [("jalr", ZERO, 1, RA)],
        [("addi", T0, ZERO, -16), ("jalr", ZERO, 0, T0)],
    ]
    for way in ways:
        if (told := host.upon(program(*way, ("ebreak",)), "a", "b")) != [[], []]:
            return f"{way}: {told}"
    return None


def over_its_own_code(host):
    """A program that writes over its own code runs what it wrote, in this turn and in the next one."""
    # The word at `here` puts out nothing at first; then it is another instruction.
    code = (
        Code()
        .la(T0, "here")
        .la(T1, "new")
        .put("lw", T2, 0, T1)
        .label("here")
        .put("jal", ZERO, "write")
        .output("text", 5)
        .ret()
    )
    code.label("write").put("sw", T2, 0, T0).put("jalr", ZERO, 0, T0).label("new").put("addi", ZERO, ZERO, 0).label(
        "text"
    ).data(b"wrote")
    told = host.upon(code.image(), "a", "b")
    if told != [["wrote"], ["wrote"]]:
        return f"{told}"
    # Zeros from address 4 on, until the store has put them over itself and is what comes next.
    wiper = (
        Code()
        .put("addi", T0, ZERO, 4)
        .label("again")
        .put("sw", ZERO, 0, T0)
        .put("addi", T0, T0, 4)
        .put("jal", ZERO, "again")
        .image()
    )
    told = host.upon(wiper, "a", "b")
    return None if told == [["trap: illegal instruction at 8"]] * 2 else f"{told}"


def over_its_own_header(host):
    """The header is read once: a program may write over it."""
    code = Code().put("sw", ZERO, 0, ZERO).output("text", 2).ret().label("text").data(b"ok")
    told = host.upon(code.image(), "a", "b")
    return None if told == [["ok"], ["ok"]] else f"{told}"


def checks():
    return [
        ("a program in parts", a_program_in_parts),
        ("no program", no_program),
        ("a program stays", a_program_stays),
        ("bad base64", bad_base64),
        ("bad image", bad_image),
        ("image too large", image_too_large),
        ("registers at the start", registers_at_the_start),
        ("memory stays", memory_stays),
        ("a text over the last", the_text_is_put_over_the_last),
        ("longest texts", longest_texts),
        ("sends", sends),
        ("a trap undoes the turn", a_trap_undoes_the_turn),
        ("a refusal undoes the turn", a_refusal_undoes_the_turn),
        *traps(),
        ("the budget", the_budget),
        ("returns", returns),
        ("texts to the end of memory", texts_to_the_end_of_memory),
        ("over its own code", over_its_own_code),
        ("over its own header", over_its_own_header),
    ]
