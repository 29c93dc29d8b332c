"""The billing flow by the programs `ledger` and `card` in C and in Rust: its texts are those of the crate `billing`,
which is proved, and so are its outputs. Whoever is killed, a charge that the ledger lost never leaves, and one that is
given again leaves once."""

import json
import os
import re
import signal
import subprocess
import tempfile

from host import KIND, SECONDS, TOP, image_of, loading_texts, step

BILLING = os.path.join(TOP, "crates", "billing")
LANGUAGES = ("c", "rust")


def billing_lines():
    with open(os.path.join(BILLING, "stdin"), encoding="utf-8") as steps, open(
        os.path.join(BILLING, "stdout"), encoding="utf-8"
    ) as replies:
        return [json.loads(line) for line in steps], [json.loads(line) for line in replies]


def loaded(tenant, language):
    """A tenant whose units are programs, with how many texts each was loaded by."""
    lines, counts = [step("open", tenant, units=[KIND, KIND])], []
    for unit, name in enumerate(("ledger", "card")):
        texts = loading_texts(image_of(f"{language}/{name}"))
        lines += [step("post", tenant, unit=unit, number=number, text=text) for number, text in enumerate(texts)]
        lines += [step("flush", tenant, unit=unit)]
        counts.append(len(texts))
    return lines, counts


def translated(language):
    """The steps of `crates/billing/stdin` with programs in place of its kinds, and where among them each of its steps
    stands."""
    steps, _ = billing_lines()
    lines, at, counts = [], [], {}
    for it in steps:
        at.append(len(lines))
        tenant = it["tenant"]
        if it["do"] == "open":
            if "desk" in it["units"]:
                at[-1] = None
                continue
            more, counts[tenant] = loaded(tenant, language)
            lines += more
        elif it["do"] == "post":
            lines.append(json.dumps({**it, "number": it["number"] + counts[tenant][it["unit"]]}))
        else:
            lines.append(json.dumps(it))
    return lines, at


def as_billing(language):
    """Each step is answered as the crate answers it: outputs, letters, what is held and what is refused."""

    def check(host):
        lines, at = translated(language)
        replies = host.replies(lines, "--audit")
        _, wanted = billing_lines()
        for line, reply in zip(at, wanted):
            got = replies[line] if line is not None else None
            for key in ("outputs", "letters", "held", "no", "lost", "count"):
                if got is not None and got.get(key) != reply.get(key):
                    return f"{lines[line]}: {got}, and the crate {reply}"
        audits = replies[len(lines) :]
        return None if [it["audit"] for it in audits] == ["ok"] * 3 else f"{audits}"

    return check


def lost_charge(language):
    """The ledger is killed before it logged a charge: the card's output never leaves; given again, it leaves once."""

    def check(host):
        lines, (first, _) = loaded("shop", language)
        begin = len(lines)
        charge = lambda number: step("post", "shop", unit=0, number=number, text="charge alice 500")
        on = lambda do, unit: step(do, "shop", unit=unit)
        lines += [
            charge(first),
            step("deliver", "shop", letter=0),
            on("flush", 1),
            on("release", 1),
            on("kill", 0),
            on("release", 1),
        ]
        lines += [on("restart", 0), on("release", 1), on("notice", 1), on("flush", 1), on("release", 1)]
        lines += [
            charge(first),
            step("deliver", "shop", letter=0),
            step("deliver", "shop", letter=1),
            on("flush", 1),
            on("release", 1),
            on("flush", 0),
            on("release", 1),
        ]
        lines += [on("kill", 1), on("restart", 1), on("release", 1), step("deliver", "shop", letter=1)]
        # The balance is that of one charge, whoever is killed.
        lines += [
            step("post", "shop", unit=0, number=first + 1, text="refund alice 501"),
            on("flush", 0),
            on("release", 0),
        ]
        replies = host.replies(lines, "--audit")[begin:]
        outputs = [reply["outputs"] for reply in replies if "outputs" in reply]
        refusals = [reply["no"] for reply in replies if "no" in reply]
        wanted = [[]] * 5 + [["card charge alice 500"], [], ["refused refund alice 501: the balance is 500"]]
        if outputs != wanted or refusals != ["orphan", "repeat"] or replies[-1] != {"audit": "ok", "tenant": "shop"}:
            return f"{outputs}, {refusals}, {replies[-1]}"
        return None

    return check


def driven(language):
    """A flow that runs itself: the card is down when it is charged. Once it is up each charge leaves, and one that is
    given twice leaves once."""

    def check(host):
        lines, (first, _) = loaded("shop", language)
        charge = lambda number, amount: step("post", "shop", unit=0, number=number, text=f"charge alice {amount}")
        lines += [
            charge(first, 5),
            step("kill", "shop", unit=1),
            charge(first + 1, 7),
            charge(first + 1, 7),
            step("restart", "shop", unit=1),
        ]
        ran = host.ran(["drive", "--programs", "--audit"], "".join(line + "\n" for line in lines).encode())
        told = [json.loads(line) for line in ran.stdout.splitlines()]
        outputs = [(it["unit"], it["output"]) for it in told if "output" in it]
        refusals = [it["no"] for it in told if "no" in it]
        if (
            outputs != [(1, "card charge alice 5"), (1, "card charge alice 7")]
            or refusals != ["repeat"]
            or told[-1] != {"audit": "ok", "tenant": "shop"}
        ):
            return f"{outputs}, {refusals}, {told[-1]}, {ran.stderr!r}"
        return None

    return check


def killed_at(host, lines, wanted, at, room):
    """What is wrong with a run that SIGKILL ends once so many replies were seen and one line more was given."""
    journal = os.path.join(room, f"journal-{at}")
    words = [host.path, "run", "--programs", "--journal", journal]
    running = subprocess.Popen(words, stdin=subprocess.PIPE, stdout=subprocess.PIPE, stderr=subprocess.PIPE, bufsize=0)
    try:
        running.stdin.write(b"".join(lines[: at + 1]))
        seen = b"".join(running.stdout.readline() for _ in range(at))
    finally:
        running.send_signal(signal.SIGKILL)
        running.communicate(timeout=SECONDS)
    told = host.ran(["journal", "--json", journal])
    whole = json.loads(told.stdout)["lines"]
    ran = host.ran(["run", "--programs", "--audit", "--journal", journal, "--from", str(at)], b"".join(lines[whole:]))
    audits = b"".join(b'{"audit":"ok","tenant":"%s"}\n' % tenant for tenant in (b"lost", b"replayed", b"shop"))
    if ran.returncode or seen + ran.stdout != wanted + audits:
        return f"killed at {at}: status {ran.returncode}, {ran.stderr[:300]!r}"
    return None


def process_killed(host):
    """With a journal, and SIGKILL after each reply in turn: what is seen is what a run without an end gives, and the
    audit says ok."""
    lines = [line.encode() + b"\n" for line in translated("c")[0]]
    wanted = host.ran(["run", "--programs"], b"".join(lines)).stdout
    with tempfile.TemporaryDirectory() as room:
        for at in range(1, len(lines)):
            if wrong := killed_at(host, lines, wanted, at, room):
                return wrong
    return None


def another_handler(host):
    """A journal with programs is not one of the sample handler's, nor the other way round."""
    with tempfile.TemporaryDirectory() as room:
        for made, taken in ((["--programs"], []), ([], ["--programs"])):
            journal = os.path.join(room, f"journal{len(made)}")
            host.ran(["run", *made, "--journal", journal], step("open", "a", units=["echo"]).encode() + b"\n")
            ran = host.ran(["run", *taken, "--journal", journal])
            if ran.returncode != 1 or b"handler" not in ran.stderr:
                return f"made by {made}, taken by {taken}: status {ran.returncode}, {ran.stderr!r}"
    return None


def limits(language):
    """The rate limiter: its clock comes in as texts, and is replayed with them."""

    def check(host):
        texts = loading_texts(image_of(f"{language}/ratelimit"))
        first = len(texts)
        rows = [
            ("limit 2 3", []),
            ("take a", ["granted a 2"]),
            ("take a", ["granted a 1"]),
            ("take a", ["granted a 0"]),
            ("take a", ["denied a 500"]),
            ("clock 499", []),
            ("take a", ["denied a 1"]),
            ("clock 500", []),
            ("take a", ["granted a 0"]),
            ("clock 400", ["refused: the clock is at 500"]),
            ("take b", ["granted b 2"]),
            ("give a", ["not understood: give a"]),
            ("limit 0 1", ["refused: a limit is 1 to 1000000"]),
            ("take a", ["denied a 500"]),
        ]
        lines = (
            [step("open", "a", units=[KIND])]
            + [step("post", "a", unit=0, number=at, text=text) for at, text in enumerate(texts)]
            + [step("flush", "a", unit=0)]
        )
        marks = []
        for at, (text, _) in enumerate(rows):
            lines += [
                step("kill", "a", unit=0),
                step("restart", "a", unit=0),
                step("post", "a", unit=0, number=first + at, text=text),
                step("flush", "a", unit=0),
                step("release", "a", unit=0),
            ]
            marks.append(len(lines) - 1)
        replies = host.replies(lines)
        for (text, wanted), mark in zip(rows, marks):
            if replies[mark].get("outputs") != wanted:
                return f"{text}: {replies[mark]}"
        return None

    return check


def without_the_word(host):
    """Without `--programs` the kind is unknown."""
    lines = [step("open", "a", units=[KIND]), step("open", "b", units=["echo"]), step("join", "b", kind=KIND)]
    ran = host.ran(["run", "--explain"], "".join(line + "\n" for line in lines).encode())
    replies = [json.loads(line) for line in ran.stdout.splitlines()]
    kinds = b'there is no kind "rv32-1": take one of echo, relay, count, adder, tee\n'
    if replies != [{"no": "bad-open"}, {"ok": "open", "units": 1}, {"no": "bad-open"}] or ran.stderr.count(kinds) != 2:
        return f"{replies}, {ran.stderr!r}"
    return None


def other_kinds(host):
    """With it the sample's kinds do what they always do, and an unknown kind is told what there is."""
    lines = [
        step("open", "a", units=["echo", "relay", "count", "adder", "tee", KIND]),
        step("open", "b", units=["rv32-2"]),
    ]
    lines += (
        [step("post", "a", unit=unit, number=0, text="7") for unit in range(6)]
        + [step("flush", "a", unit=unit) for unit in range(6)]
        + [step("release", "a", unit=unit) for unit in range(6)]
    )
    ran = host.ran(["run", "--programs", "--explain"], "".join(line + "\n" for line in lines).encode())
    replies = [json.loads(line) for line in ran.stdout.splitlines()]
    outputs = [reply["outputs"] for reply in replies[-6:]]
    if (
        outputs != [["7"], [], ["1"], ["7"], ["7"], ["no program"]]
        or b"take one of echo, relay, count, adder, tee, rv32-1\n" not in ran.stderr
    ):
        return f"{outputs}, {ran.stderr!r}"
    return None


def feeds_and_pictures(host):
    """`feeds --programs` and `draw --programs` run them too."""
    lines, (first, _) = loaded("shop", "c")
    lines += [
        step("post", "shop", unit=0, number=first, text="charge alice 5"),
        step("deliver", "shop", letter=0),
        *[step("flush", "shop", unit=unit) for unit in (0, 1)],
        step("release", "shop", unit=1),
    ]
    given = "".join(line + "\n" for line in lines).encode()
    with tempfile.TemporaryDirectory() as room:
        for name in ("one", "two"):
            with open(os.path.join(room, name), "wb") as file:
                file.write(given.replace(b'"shop"', b'"%s"' % name.encode()))
        fed = host.ran(["feeds", "--programs", "one", "two", "--audit"], cwd=room)
    drawn = host.ran(["draw", "--programs"], given)
    if fed.returncode or fed.stdout.count(b'"card charge alice 5"') != 2 or fed.stdout.count(b'"audit":"ok"') != 2:
        return f"feeds: status {fed.returncode}, {fed.stdout[-300:]!r}, {fed.stderr!r}"
    if drawn.returncode or not re.search(rb"card charge alice 5", drawn.stdout):
        return f"draw: status {drawn.returncode}, {drawn.stdout[:200]!r}, {drawn.stderr!r}"
    return None


def checks():
    own = []
    for language in LANGUAGES:
        own += [
            (f"as the crate billing, in {language}", as_billing(language)),
            (f"a lost charge, in {language}", lost_charge(language)),
            (f"the rate limiter, in {language}", limits(language)),
            (f"a driven flow, in {language}", driven(language)),
        ]
    return own + [
        ("the process is killed", process_killed),
        ("another handler's journal", another_handler),
        ("without the word", without_the_word),
        ("other kinds", other_kinds),
        ("feeds and pictures", feeds_and_pictures),
    ]
