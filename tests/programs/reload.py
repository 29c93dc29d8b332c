"""A unit that has a program takes another one. What is wanted is worked out from docs/PROGRAMS.md."""

from assembler import A0, A1, MOST, T0, T1, Code
from host import KIND, loading_texts, step
from turns import HELLO, LOADED, OTHER, WORKS, encoded, upon_loading

# Where the programs below keep their count: behind their images.
COUNT_AT = 0x20000


def counting(first):
    """A program that counts its texts at an address behind its image, and puts out one letter: this one's successor by
    the count."""
    code = Code().li(T0, COUNT_AT).put("lw", T1, 0, T0).put("addi", T1, T1, 1).put("sw", T1, 0, T0)
    code.put("addi", T1, T1, ord(first)).put("sb", T1, 4, T0).put("addi", A0, T0, 4).put("addi", A1, 0, 1)
    return code.call(1).ret().image()


the_new_one_runs = upon_loading(
    ([*LOADED, "=" + encoded(OTHER), "x", "=" + encoded(HELLO), "x"], WORKS + [[], ["other"], [], ["hello"]]),
    # Until the image is whole the old program runs; texts with a mark are of the image.
    (
        [*LOADED, "+" + encoded(OTHER[:9]), "x", "y", "=" + encoded(OTHER[9:]), "x"],
        WORKS + [[], ["hello"], ["hello"], [], ["other"]],
    ),
    ([*LOADED, "+" + encoded(OTHER[:9]), "+", "+" + encoded(OTHER[9:]), "=", "x"], WORKS + [[], [], [], [], ["other"]]),
)

what_was_there_stays = upon_loading(
    (
        ["=" + encoded(counting("0")), "x", "x", "=" + encoded(counting("@")), "x", "x"],
        [[], ["1"], ["2"], [], ["C"], ["D"]],
    )
)

LARGE = "+" + encoded(bytes(3069))

one_that_is_refused = upon_loading(
    # The old program stays, and a text with a mark is for it again.
    (
        [*LOADED, "+" + encoded(OTHER[:9]), "+!", "x", "=" + encoded(OTHER[9:]), "x"],
        WORKS + [[], ["bad base64"], ["hello"], ["hello"], ["hello"]],
    ),
    ([*LOADED, "+UlYxA", "x"], WORKS + [["bad base64"], ["hello"]]),
    (
        [*LOADED, "+" + encoded(OTHER), *[LARGE] * (MOST // 3069), LARGE, "x"],
        WORKS + [[]] * (1 + MOST // 3069) + [["image too large"], ["hello"]],
    ),
    # An image of the header alone is one: at address 4 the old program's code stands.
    ([*LOADED, "=UlYxAQ==", "x"], WORKS + [[], ["hello"]]),
)


def a_unit_loads_no_other(host):
    """What a unit sends is for the program, or finds none."""
    for loading, wanted in (([], "no program"), (loading_texts(HELLO), "hello")):
        lines = [step("open", "a", units=["relay", KIND])]
        lines += [step("post", "a", unit=1, number=number, text=text) for number, text in enumerate(loading)]
        lines += [step("post", "a", unit=0, number=0, text="=" + encoded(OTHER)), step("deliver", "a", letter=0)]
        lines += [step("flush", "a", unit=unit) for unit in (0, 1)] + [step("release", "a", unit=1)]
        told = host.replies(lines)[-1]["outputs"]
        if told != [wanted]:
            return f"{told!r:.200}, not {wanted}"
    return None


def each_text_has_its_program(host):
    """After a kill texts before the new image are turns of the old program, and texts behind it of the new one."""
    texts = [*loading_texts(counting("0")), "x", "x", *loading_texts(counting("@")), "x"]
    lines = [step("open", "a", units=[KIND])]
    lines += [step("post", "a", unit=0, number=number, text=text) for number, text in enumerate(texts)]
    lines += [step("flush", "a", unit=0), step("kill", "a", unit=0), step("restart", "a", unit=0)]
    lines += [
        step("post", "a", unit=0, number=len(texts), text="x"),
        step("flush", "a", unit=0),
        step("release", "a", unit=0),
    ]
    replies = host.replies(lines, "--audit")
    told, audit = replies[len(lines) - 1]["outputs"], replies[len(lines)]
    return None if told == ["1", "2", "C", "D"] and audit["audit"] == "ok" else f"{told}, {audit}"


def checks():
    yield "another program: it runs once it is whole", the_new_one_runs
    yield "another program: what the old one left stays", what_was_there_stays
    yield "another program: one that can't be taken", one_that_is_refused
    yield "another program: not from a unit", a_unit_loads_no_other
    yield "another program: replay", each_text_has_its_program
