"""The page without a browser."""

import base64
import hashlib
import os
import re
import subprocess

from drawn import TOP, flow_of, page_of, run, step, texts_flow, tours
from flows import make_flow
from structure import HOSTILE, Page, fact_flaws, read_back, value_flaws


def digest(text):
    return "sha256-" + base64.b64encode(hashlib.sha256(text.encode()).digest()).decode()


def read(*path):
    with open(os.path.join(TOP, *path), encoding="utf-8") as file:
        return file.read()


def try_policy(check, text):
    """The policy allows the page's own style and script, and nothing else."""
    page = Page(text)
    policies = [own["content"] for tag, own, _ in page.elements if own.get("http-equiv") == "Content-Security-Policy"]
    style, script = digest(page.text("style")), digest(page.text("script"))
    wanted = f"default-src 'none'; style-src '{style}'; script-src '{script}'; base-uri 'none'; form-action 'none'"
    check(f"the policy is {policies}", policies == [wanted])
    check("the script isn't page/page.js", page.text("script") == "\n" + read("page", "page.js"))
    check("the style isn't behind the colours", page.text("style").endswith(read("page", "page.css")))
    check("the page names something elsewhere", not re.search(r"https?:|//[a-z]|@import|url\((?!#)", text))
    check("page/make", subprocess.run([os.path.join(TOP, "page", "make"), "--check"]).returncode == 0)


def try_script(check):
    """The script makes no markup of a text."""
    script = read("page", "page.js")
    for word in (
        "innerHTML",
        "outerHTML",
        "insertAdjacent",
        "document.write",
        "eval",
        "Function(",
        "DOMParser",
        "srcdoc",
        "javascript:",
    ):
        check(f"the script says {word}", word not in script)


def try_page(check, name, text, flow, first=0):
    check(f"{name}: no page", text is not None)
    if text is None:
        return
    page = Page(text)
    for flaw in page.flaws + value_flaws(page) + fact_flaws(page, flow, first):
        check(f"{name}: {flaw}", False)
    ids = [own["id"] for _, own, _ in page.elements if "id" in own]
    check(f"{name}: two elements of one id", len(ids) == len(set(ids)))
    links = [own["data-of"] for _, own in page.of_class("output")]
    wanted = [
        one.id
        for one in sorted(flow.intervals, key=lambda one: one.unit)
        if one.event >= first
        for each in one.outputs
        if one.released is not None
    ]
    check(f"{name}: the released outputs are {links} for {wanted}", links == wanted)


def try_texts(check, program):
    """Texts change no tag and no attribute, and are read back."""
    plain = Page(page_of(program, texts_flow("plain")))
    for what, text in HOSTILE.items():
        page = Page(page_of(program, texts_flow(text)))
        check(f"{what}: {page.flaws or value_flaws(page)}", not page.flaws and not value_flaws(page))
        check(f"{what}: the page has other elements", page.skeleton() == plain.skeleton())
        said = [page.texts.get(place, "") for place, (tag, _, _) in enumerate(page.elements) if tag in ("title", "a")]
        check(
            f"{what}: {sum(read_back(text) in each for each in said)} of 5 texts",
            sum(read_back(text) in each for each in said) >= 5,
        )


def try_windows(check, program):
    lines, _, flow = make_flow(program, 7, 900)
    events = len(flow.events)
    check(f"only {events} events", events > 300)
    for count in (1, 60, 250):
        text = page_of(program, lines, "--tenant", "a", "--last", str(count))
        try_page(check, f"the last {count}", text, flow, events - count)
    text = page_of(program, lines, "--tenant", "a", "--from", "100")
    check("from 100: the slider", 'min="100" ' in (text or ""))
    for words in (["--last", "0"], ["--from", "5000"]):
        page = Page(page_of(program, lines, "--tenant", "a", *words))
        check(f"{words}: {page.flaws}", not page.flaws and not value_flaws(page))


def try_ends(check, program):
    for lines in ([], ["x"], [step("post", unit=0, number=0, text="x")]):
        text = page_of(program, lines)
        check(
            f"{lines}: no page that says so",
            text is not None and "no tenant is open" in text and "<script" not in text and not Page(text).flaws,
        )
    ran = run(program, [step("open", units=["echo"])], "draw", "--html", "--tenant", "b")
    check("a tenant that isn't open", (ran.returncode, ran.stderr) == (1, b'recall: the tenant "b" is not open\n'))


def try_lines(check, program):
    """Lines that are no steps, and those of others, are counted."""
    lines = [
        "x",
        step("open", units=["echo"]),
        '{"do":"flush","tenant":"b","unit":0}',
        "",
        step("post", unit=0, number=0, text="x"),
    ]
    page = Page(page_of(program, lines))
    found = [own["data-line"] for _, own in page.of_class("interval") if "id" in own]
    check(f"lines {found}", found == ["2", "5"])


def try_all(check, program):
    try_script(check)
    for name, lines, tenant in tours():
        text = page_of(program, lines, "--tenant", tenant)
        try_page(check, name, text, flow_of(program, lines, tenant))
        try_policy(check, text)
    for seed in range(12):
        lines, _, flow = make_flow(program, seed, 160)
        try_page(check, f"flow {seed}", page_of(program, lines, "--tenant", "a"), flow)
    try_texts(check, program)
    try_windows(check, program)
    try_ends(check, program)
    try_lines(check, program)
