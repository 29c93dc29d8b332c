"""The page in a browser."""

import json
import os
import re
import tempfile

from drawn import flow_of, page_of, replies_of, step, texts_flow, tours
from flows import make_flow
from structure import HOSTILE, read_back

LIT = "[...document.querySelectorAll('#diagram .interval%s')].map((each) => each.id).sort()"
MIDDLE = """(() => { const box = document.querySelector(%s).getBoundingClientRect();
    return [box.x + box.width / 2, box.y + box.height / 2]; })()"""
STATUSES = """Object.fromEntries(drawn.filter((each) => !isOff(each)).map((each) =>
    [each.id, STATUSES.filter((name) => each.element.classList.contains(name)).join(' ')]))"""

BADGES = """Object.fromEntries(outputs.filter((each) => !isOff(each)).map((each) =>
    [each.base.id, each.element.querySelector('.released') ? 'released' : 'held']))"""
LISTED = (
    "all('.output').filter((each) => each.getClientRects().length).map((each) => [each.dataset.of, each.textContent])"
)


class Tried:
    """A page that is open in the browser, and what is checked of it."""

    def __init__(self, check, program, browser, room):
        self.check, self.program, self.browser = check, program, browser
        self.path = os.path.join(room, "page.html")

    def open(self, name, text):
        self.name = name
        with open(self.path, "w", encoding="utf-8", newline="") as file:
            file.write(text)
        self.browser.open(self.path)

    def is_quiet(self):
        self.check(f"{self.name}: the browser says {self.browser.said}", not self.browser.said)

    def value(self, code):
        return self.browser.value(code)

    def text(self, name):
        return self.value(f"one('{name}').textContent")

    def go_to(self, event):
        self.value(f"goTo({event})")

    def middle(self, selector):
        return self.value(MIDDLE % json.dumps(selector))

    def point(self, selector):
        self.browser.point(2, 2)
        self.browser.point(*self.middle(selector))

    def is_seen(self, selector):
        """Whether it is in the window, and not behind a label."""
        x, y = self.middle(selector)
        return 90 < x < 880 and 50 < y < 755


def try_statuses(tried, flow, events):
    for event in events:
        tried.go_to(event)
        wanted = {one.id: one.status(event) for one in flow.intervals if one.event <= event}
        found = tried.value(STATUSES)
        tried.check(f"{tried.name}, event {event}: {found} for {wanted}", found == wanted)
        try_badges(tried, flow, event)


def try_badges(tried, flow, event):
    """What is held and what is released, by the badges and in the list."""
    left = lambda one: one.released is not None and one.released <= event
    there = [one for one in flow.intervals if one.outputs and one.event <= event and not one.is_gone(event)]
    found, wanted = tried.value(BADGES), {one.id: "released" if left(one) else "held" for one in there}
    tried.check(f"{tried.name}, event {event}: badges {found} for {wanted}", found == wanted)
    entries = sorted(map(tuple, tried.value(LISTED)))
    texts = sorted((one.id, text) for one in there if left(one) for text in one.outputs)
    tried.check(f"{tried.name}, event {event}: listed are {entries} for {texts}", entries == texts)


def try_lit(tried, one, event, what):
    """What is lit up is the past of an interval, and what stands out is what isn't logged of it."""
    name = f"{tried.name}, event {event}, {what} of {one.id}"
    past = {each.id for each in one.past()}
    lit, standing_out = (set(tried.value(LIT % each)) for each in (".past", ".past.open"))
    tried.check(f"{name}: lit are {sorted(lit ^ past)} too many or few", lit == past)
    unstable = {each.id for each in one.past() if not each.is_stable(event)}
    tried.check(f"{name}: {sorted(standing_out)} stand out for {sorted(unstable)}", standing_out == unstable)
    taken = sorted((each.letter, each.id) for each in one.past() if each.letter is not None)
    arrows = sorted(
        map(
            tuple,
            tried.value(
                "letters.filter((each) => each.element.classList.contains('past')).map((each) => [each.letter, "
                "each.to])"
            ),
        )
    )
    tried.check(f"{name}: arrows {arrows} for {taken}", arrows == taken)


def try_words(tried, flow, one, event):
    """What is said that it waits for: the units, their flushes, and whose kill would undo it."""
    said, loses = tried.text("state"), tried.text("loses")
    name = f"{tried.name}, event {event}, {one.id}: {said!r}, {loses!r}"
    open_units = sorted({each.unit for each in one.past() if not each.is_stable(event)})
    gone = any(each.is_gone(event) for each in one.past())
    waits = not gone and one.status(event) != "firm"
    for what in (r"unit (\d+) has not logged", r"flush (\d+)"):
        tried.check(f"{name}: {what}", sorted(map(int, re.findall(what, said))) == (open_units if waits else []))
    kills = sorted(
        {
            int(each)
            for part in re.findall(r"ill of (.*?)(?: before| what|$)", loses)
            for each in re.findall(r"unit (\d+)", part)
        }
    )
    tried.check(f"{name}: kills {kills}", kills == (open_units if waits else []))
    tried.check(f"{name}: never", ("never be firm" in said) == (gone and not one.is_gone(event)))
    lines = sorted({each.line for each in one.past()} - {one.line})
    made = tried.text("lines")
    numbers = [
        int(each)
        for part in re.findall(r"past by lines (.*)\.", made)
        for each in re.findall(
            r"\d+", re.sub(r"(\d+) to (\d+)", lambda run: " ".join(map(str, range(int(run[1]), int(run[2]) + 1))), part)
        )
    ]
    tried.check(f"{name}: {made!r} for lines {lines}", made.startswith(f"Made by line {one.line}") and numbers == lines)


def outputs_left(program, lines, unit):
    """How many outputs of a unit left, by the replies to these lines."""
    count = 0
    for line, reply in zip(lines, replies_of(program, lines)):
        said = json.loads(reply)
        if said.get("ok") == "released" and json.loads(line)["unit"] == unit:
            count += len(said["outputs"])
    return count


def try_promise(tried, flow, lines, one, event):
    """What is said of a held output, tried with the program: the flushes let it out, and a kill that is named
    doesn't."""
    own = lambda do, unit: json.dumps({"do": do, "tenant": flow.tenant, "unit": unit})
    said, loses = tried.text("state"), tried.text("loses")
    begin = lines[: flow.events[event][0]]
    path = [each for each in flow.intervals if each.unit == one.unit and each in one.past()]
    before = sum(len(each.outputs) for each in path)
    name = f"{tried.name}, event {event}, {one.id}: {said!r}"
    steps = [own("restart", int(unit)) for unit in re.findall(r"restart (\d+) and", said)]
    steps += [own("flush", int(unit)) for unit in re.findall(r"flush (\d+)", said)]
    left = outputs_left(tried.program, [*begin, *steps, own("release", one.unit)], one.unit)
    if "never be firm" not in said:
        tried.check(f"{name}: {left} left, {before} wanted", left >= before)
    everything = [own(do, unit.number) for do in ("restart", "notice", "flush", "release") for unit in flow.units]
    if "never be firm" in said:
        left = outputs_left(tried.program, begin + everything, one.unit)
        tried.check(f"{name}: it left", left < before)
    for unit in re.findall(r"unit (\d+)", loses):
        left = outputs_left(tried.program, [*begin, own("kill", int(unit)), *everything], one.unit)
        tried.check(f"{name}: it left behind a kill of unit {unit}", left < before)


def held(flow, event):
    return [
        one
        for one in flow.intervals
        if one.outputs
        and one.event <= event
        and not one.is_gone(event)
        and not (one.released is not None and one.released <= event)
    ]


def try_held(tried, flow, lines, event):
    """Each held output, pointed at."""
    tried.go_to(event)
    for one in held(flow, event):
        selector = f".outputs[data-of={one.id}]"
        if tried.is_seen(selector):
            tried.point(selector)
            tried.check(
                f"{tried.name}, event {event}: {selector} isn't what is told", tried.text("state").startswith("held: ")
            )
            try_lit(tried, one, event, "output")
            try_words(tried, flow, one, event)
            try_promise(tried, flow, lines, one, event)


def try_intervals(tried, flow, event):
    tried.go_to(event)
    for one in flow.intervals:
        if one.event <= event and tried.is_seen(f"#{one.id}"):
            tried.point(f"#{one.id} .hit")
            try_lit(tried, one, event, "interval")
            try_words(tried, flow, one, event)


def try_letters(tried, flow, event):
    """Each letter that is seen: its sender's past is lit."""
    for number, (sender, _, _) in flow.letters.items():
        if sender.event <= event:
            tried.value(f"show(letters.find((each) => each.letter === {number} && !isOff(each)))")
            lit = set(tried.value(LIT % ".past"))
            tried.check(f"{tried.name}: letter {number}", lit == {each.id for each in sender.past()})


def moments(flow):
    """Three events of a flow: one where something is held or open, the last but one, and the last."""
    last = len(flow.events) - 1
    waits = [
        event
        for event in range(last)
        if any(one.status(event) == "volatile" for one in flow.intervals if one.event <= event)
    ]
    return [waits[len(waits) // 2] if waits else 0, max(last - 1, 0), last]


def try_pictures(tried, flow, folder):
    for place, event in enumerate(moments(flow), 1):
        tried.browser.dark(place == 2)
        tried.go_to(event)
        there = [one for one in flow.intervals if one.event <= event]
        for one in held(flow, event)[-1:] or there[-1:]:
            tried.value(f"choose(outputs.find((each) => each.base.id === '{one.id}') || intervals.get('{one.id}'))")
        tried.browser.picture(os.path.join(folder, f"{tried.name}-{place}.png"))
    tried.browser.dark(False)


def try_tour(tried, name, lines, tenant, pictures):
    flow = flow_of(tried.program, lines, tenant)
    tried.open(name, page_of(tried.program, lines, "--tenant", tenant))
    try_statuses(tried, flow, range(len(flow.events)))
    for event in range(len(flow.events)):
        try_held(tried, flow, lines, event)
    for event in moments(flow):
        try_intervals(tried, flow, event)
        try_letters(tried, flow, event)
    if pictures:
        try_pictures(tried, flow, pictures)
    tried.is_quiet()


def try_random(tried, seed):
    lines, _, flow = make_flow(tried.program, seed, 70)
    tried.open(f"flow {seed}", page_of(tried.program, lines, "--tenant", "a"))
    try_statuses(tried, flow, range(len(flow.events)))
    tried.value("zoomTo(0.4)")
    for event in range(0, len(flow.events), 6):
        try_held(tried, flow, lines, event)
    tried.is_quiet()


def try_window(tried):
    """A window of a long flow: what isn't drawn is known as far as it isn't logged."""
    lines, _, flow = make_flow(tried.program, 11, 700)
    first = len(flow.events) - 40
    tried.open("a window", page_of(tried.program, lines, "--tenant", "a", "--last", "40"))
    for event in range(first, len(flow.events), 3):
        tried.go_to(event)
        seen = [one for one in flow.intervals if first <= one.event <= event]
        found, wanted = tried.value(STATUSES), {one.id: one.status(event) for one in seen}
        tried.check(f"a window, event {event}: {found} for {wanted}", found == wanted)
        for one in seen:
            tried.value(f"show(intervals.get('{one.id}'))")
            words = re.findall(r"unit (\d+) has not logged", tried.text("state"))
            unstable = {each.unit for each in one.past() if not each.is_stable(event)}
            if not any(each.is_gone(event) for each in one.past()):
                tried.check(f"a window, event {event}: {one.id}", set(map(int, words)) == unstable)


def try_hostile(tried):
    """Texts change nothing: no script runs, and the texts are shown as they are."""
    for what, text in HOSTILE.items():
        tried.open(what, page_of(tried.program, texts_flow(text)))
        shown = read_back(text)
        tried.check(f"{what}: a script ran", tried.value("typeof hacked") == "undefined")
        notes = tried.value(
            "[...drawn, ...letters, ...outputs].filter((each) => each.id !== 'i0-0-0' && each.id !== "
            "'i1-0-0').map(noteOf)"
        )
        tried.check(
            f"{what}: {notes}",
            len(notes) == 6 and all(shown.replace("\r\n", "\n") in each or shown in each for each in notes),
        )
        tried.value("choose(intervals.get('i1-0-1'))")
        tried.check(
            f"{what}: what is told", tried.text("state").startswith("volatile: unit 1 has not logged [0,1]; flush 1")
        )
        tried.check(
            f"{what}: the released text",
            tried.value("document.querySelector('.output a').textContent") in (shown, shown.replace("\r\n", "\n")),
        )
        tried.check(
            f"{what}: other elements",
            tried.value("document.querySelectorAll('script, img, iframe, [onload], [onerror], [onfocus]').length") == 1,
        )
        tried.is_quiet()


def try_keys(tried):
    """The keyboard alone: to the diagram, along a line, to another one; the slider; search; a link."""
    name, lines, tenant = next(tours())
    tried.open("keys", page_of(tried.program, lines, "--tenant", tenant))
    press, told = tried.browser.press, lambda: tried.text("what")
    tried.value("rover.element.focus()")
    tried.check(f"the first is {told()!r}", told() == "unit 0 [0,0]")
    for key, wanted in [
        ("ArrowRight", "unit 0 [0,1]"),
        ("ArrowRight", "letter 0 from unit 0 [0,1] to unit 1"),
        ("ArrowLeft", "unit 0 [0,1]"),
        ("ArrowDown", "unit 1 [0,0]"),
        ("ArrowRight", "unit 1 [0,1]"),
        ("ArrowRight", "outputs of unit 1 [0,1]"),
        ("Home", "unit 1 [0,0]"),
        ("ArrowUp", "unit 0 [0,0]"),
    ]:
        press(key)
        tried.check(f"keys: {key} comes to {told()!r} for {wanted!r}", told() == wanted)
    tried.check(
        "keys: the label", tried.value("document.activeElement.getAttribute('aria-label')").startswith("unit 0 [0,0]")
    )
    press("Escape")
    tried.check("keys: Escape", tried.value("svg.classList.contains('lit')") is False)
    press(",", ",")
    tried.check("keys: one event back", tried.value("now") == len(flow_of(tried.program, lines, tenant).events) - 2)
    tried.value("one('search').focus()")
    tried.browser.call("Input.insertText", text="[0,1]")
    press("Enter")
    tried.check(f"search: {told()!r}", told() == "unit 0 [0,1]" and tried.text("count") == "1 of 2")
    press("Enter")
    tried.check(f"search: {told()!r}", told() == "unit 1 [0,1]")
    tried.value("one('search').value = 'line 3', search(), nextFound(1)")
    tried.check(f"search for a line: {told()!r}", told() in ("unit 1 [0,1]", "outputs of unit 1 [0,1]"))
    tried.go_to("slider.max")
    tried.browser.click(*tried.middle(".output a"))
    tried.check(
        "the link of an output", told() == "unit 1 [0,1]" and tried.value("document.activeElement.id") == "i1-0-1"
    )
    tried.check(
        "labels",
        tried.value(
            "[...document.querySelectorAll('button, input')].every((each) => each.getAttribute('aria-label') || "
            "each.textContent || each.labels.length)"
        ),
    )
    tried.is_quiet()


def try_play(tried):
    _, lines, tenant = next(tours())
    tried.open("play", page_of(tried.program, lines, "--tenant", tenant))
    tried.browser.click(*tried.middle("#play"))
    tried.check("play begins", tried.value("now") == 0 and tried.text("play") == "pause")
    tried.browser.click(*tried.middle("#on"))
    tried.check("on", tried.value("now") >= 1)
    tried.value("play(false)")
    tried.browser.dark(True)
    dark = tried.value("getComputedStyle(document.body).backgroundColor")
    tried.browser.dark(False)
    tried.check("dark", dark != tried.value("getComputedStyle(document.body).backgroundColor"))


def try_all(check, program, browser, pictures):
    with tempfile.TemporaryDirectory() as room:
        tried = Tried(check, program, browser, room)
        for name, lines, tenant in tours():
            try_tour(tried, name, lines, tenant, pictures)
        for seed in range(20, 28):
            try_random(tried, seed)
        try_window(tried)
        try_hostile(tried)
        try_keys(tried)
        try_play(tried)
