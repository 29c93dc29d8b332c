"""Programs that change the code they run. What a store, a text, a trap, a restart or another image leaves in memory is
what runs."""

import struct

from assembler import A0, A1, S0, S1, S2, S3, T0, T1, TEXT_AT, ZERO, Code, encode
from host import KIND, loading_texts, step

LINE = 0x30000


def show(code, count):
    """Puts out so many bytes of the line."""
    return code.li(A0, LINE).li(A1, count).call(1)


def patched(store):
    """Ten times: one instruction, of which this store has just changed a part. It gives the digits from 0 on."""
    code = Code().la(S0, "here").li(S1, 0).li(S2, LINE).li(S3, 10)
    code.label("here").put("addi", A0, ZERO, 0x30).put("add", T1, S2, S1).put("sb", A0, 0, T1).put("addi", S1, S1, 1)
    code.put("slli", T0, S1, 4).put("lbu", T1, 2, S0).put("andi", T1, T1, 0x0F).put("or", T0, T0, T1)
    if store == "sb":
        code.put("sb", T0, 2, S0)
    elif store == "sh":
        code.put("lbu", T1, 3, S0).put("slli", T1, T1, 8).put("or", T0, T0, T1).put("sh", T0, 2, S0)
    else:
        code.put("lhu", T1, 0, S0).put("slli", T0, T0, 16).put("or", T0, T0, T1).put("lbu", T1, 3, S0).put(
            "slli", T1, T1, 24
        ).put("or", T0, T0, T1).put("sw", T0, 0, S0)
    code.put("blt", S1, S3, "here")
    # The instruction is as it was for the next turn.
    return show(code.li(T0, encode("addi", A0, ZERO, 0x30)).put("sw", T0, 0, S0), 10).ret().image()


def by_each_store(host):
    for store in ("sb", "sh", "sw"):
        if (told := host.upon(patched(store), "a", "b")) != [["0123456789"]] * 2:
            return f"{store}: {told}"
    return None


def a_text_that_is_code(host):
    """The text of a turn is run where it lies. Its bytes are all below 128, so that it is a text."""
    code = Code().put("addi", S1, 1, 0).la(S2, "back").li(T0, TEXT_AT).put("jalr", ZERO, 0, T0)
    code.label("back").li(T1, LINE).put("sb", A0, 0, T1)
    show(code, 1).put("jalr", ZERO, 0, S1)
    texts = [
        struct.pack("<II", encode("addi", A0, ZERO, ord(letter)), encode("jalr", ZERO, 0, S2)).decode()
        for letter in "abcABC"
    ]
    told = host.upon(code.image(), *texts)
    return None if told == [[letter] for letter in "abcABC"] else f"{told}"


def growing():
    """Puts out the letter in an instruction, `@` at first. A text that begins with `p` or `x` adds one to that before
    it is run, and one with `x` traps then."""
    code = (
        Code()
        .la(S0, "here")
        .li(S1, TEXT_AT)
        .put("lbu", S1, 0, S1)
        .put("addi", S2, ZERO, ord("p"))
        .put("blt", S1, S2, "here")
    )
    code.put("lw", T0, 0, S0).put("lui", T1, 0x100).put("add", T0, T0, T1).put("sw", T0, 0, S0)
    code.label("here").put("addi", A0, ZERO, 0x40).li(T1, LINE).put("sb", A0, 0, T1)
    show(code, 1).put("addi", S2, ZERO, ord("x")).put("beq", S1, S2, "trap").ret()
    return code.label("trap").put("ebreak")


def a_trap_undoes_it(host):
    code = growing()
    trap = f"trap: breakpoint at {code.labels['trap']:x}"
    told = host.upon(code.image(), *"axapaxaxxa")
    return None if told == [["@"], [trap], ["@"], ["A"], ["A"], [trap], ["A"], [trap], [trap], ["A"]] else f"{told}"


def a_restart_brings_it_back(host):
    """With a checkpoint behind the second turn, or none: what was logged is replayed, what was lost is not."""
    image = growing().image()
    for checkpoint in (False, True):
        texts = [*loading_texts(image), "a", "p"]
        lines = [step("open", "a", units=[KIND])] + [
            step("post", "a", unit=0, number=at, text=text) for at, text in enumerate(texts)
        ]
        lines += [step("flush", "a", unit=0)] + checkpoint * [step("checkpoint", "a", unit=0)]
        lines += [
            step("post", "a", unit=0, number=len(texts), text="p"),
            step("flush", "a", unit=0),
            step("post", "a", unit=0, number=len(texts) + 1, text="p"),
        ]
        lines += [step(do, "a", unit=0) for do in ("kill", "restart")] + [
            step("post", "a", unit=0, number=len(texts) + 1, text="a")
        ]
        lines += [step("flush", "a", unit=0), step("release", "a", unit=0)]
        if (told := host.replies(lines)[-1]["outputs"]) != ["@", "A", "B", "B"]:
            return f"checkpoint {checkpoint}: {told}"
    return None


def units_have_their_own(host):
    """Of two units with one image each changes its own."""
    texts = loading_texts(growing().image())
    lines = [step("open", "a", units=[KIND, KIND])]
    for unit, turns in ((0, "apa"), (1, "a")):
        lines += [step("post", "a", unit=unit, number=at, text=text) for at, text in enumerate([*texts, *turns])]
    lines += [
        step("post", "a", unit=0, number=len(texts) + 3, text="p"),
        step("post", "a", unit=1, number=len(texts) + 1, text="a"),
    ]
    lines += [step("flush", "a", unit=unit) for unit in (0, 1)] + [step("release", "a", unit=unit) for unit in (0, 1)]
    told = [reply["outputs"] for reply in host.replies(lines)[-2:]]
    return None if told == [["@", "A", "A", "B"], ["@", "@"]] else f"{told}"


def far_away(host):
    """Code that is written to every page of memory in turn, run there, and written over by other code."""
    code = Code().put("addi", S1, 1, 0).li(S0, 0x2000).li(S2, LINE).li(S3, 0x3E000)
    code.label("page")
    for letter in "pq":
        code.li(T0, encode("addi", A0, ZERO, ord(letter))).put("sw", T0, 0xFC, S0).li(
            T0, encode("jalr", ZERO, 0, 1)
        ).put("sw", T0, 0x100, S0)
        code.put("jalr", 1, 0xFC, S0).put("sb", A0, 0, S2).put("addi", S2, S2, 1)
    code.put("lui", T0, 1).put("add", S0, S0, T0).put("blt", S0, S3, "page")
    code.li(T0, LINE).put("addi", A0, T0, 0).put("sub", A1, S2, T0).call(1).put("jalr", ZERO, 0, S1)
    told = host.upon(code.image(), "a", "b")
    return None if told == [["pq" * 60]] * 2 else f"{told}"


def checks():
    return [
        ("own code: by each store", by_each_store),
        ("own code: a text that is code", a_text_that_is_code),
        ("own code: a trap undoes it", a_trap_undoes_it),
        ("own code: a restart brings it back", a_restart_brings_it_back),
        ("own code: units have their own", units_have_their_own),
        ("own code: in every page", far_away),
    ]
