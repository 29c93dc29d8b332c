"""Small flows, each with what `drive` must write, worked out from the rule by hand: refusals of a delivery by name."""


def open_line(*kinds, **more):
    limits = ",".join(f'"{name}":{more[name]}' for name in ("held", "letters", "volatile") if name in more)
    quota = f'"quota":{{{limits}}},' if limits else ""
    optimism = f'"optimism":{more["optimism"]},' if "optimism" in more else ""
    units = ",".join(f'"{kind}"' for kind in kinds)
    return f'{{"do":"open",{optimism}{quota}"tenant":"a","units":[{units}]}}'


def opened(count):
    return f'{{"ok":"open","units":{count}}}'


def post(unit, number, text="x"):
    return f'{{"do":"post","number":{number},"tenant":"a","text":"{text}","unit":{unit}}}'


def of(do, unit):
    return f'{{"do":"{do}","tenant":"a","unit":{unit}}}'


def deliver(letter):
    return f'{{"do":"deliver","letter":{letter},"tenant":"a"}}'


def took(incarnation, index, held=0, *letters):
    made = ",".join(str(letter) for letter in letters)
    return f'{{"at":[{incarnation},{index}],"held":{held},"letters":[{made}],"ok":"accepted"}}'


def out(unit, text="x"):
    return f'{{"output":"{text}","tenant":"a","unit":{unit}}}'


def no(name):
    return f'{{"no":"{name}"}}'


def status(index, outside):
    """Of a unit that is up in its first incarnation, with all of its path logged and nothing held or released."""
    of_rows = f'"outside":{outside},"released":0,"rows":0,"stable":{index},"up":true,"volatile":0'
    return f'{{"at":[0,{index}],"held":0,"known":0,"ok":"status",{of_rows}}}'


def killed(count=0):
    return f'{{"lost":{count},"ok":"kill"}}'


def restarted(incarnation, start):
    return f'{{"ok":"restart","row":[{incarnation},{start}]}}'


# A ring of more deliveries than a line has: it goes on behind the next line of its tenant, until the quota of letters
# is
# used up.
LARGE_RING = [
    (open_line("relay", "relay", letters=70_000, held=1, volatile=1024), opened(2)),
    (post(0, 0), took(0, 1, 0, 0)),
    (of("status", 0), status(32_769, 1)),
    (of("status", 0), status(35_000, 1)),
]

# Each small flow's name, its lines, and what is written: a line's reply, and the outputs behind it.
FLOWS = [
    ("an output leaves behind its post", [(open_line("echo"), opened(1)), (post(0, 0), took(0, 1, 1), out(0))]),
    (
        "a letter goes through, and each unit's output leaves",
        [(open_line("tee", "echo"), opened(2)), (post(0, 0), took(0, 1, 1, 0), out(0), out(1))],
    ),
    (
        "a small ring goes round until the quota of letters is used up",
        [
            (open_line("relay", "relay", letters=9, held=1, volatile=2), opened(2)),
            (post(0, 0), took(0, 1, 0, 0)),
            (of("status", 0), status(5, 1)),
        ],
    ),
    (
        "down: a letter waits for the restart of its unit, and is delivered behind it",
        [
            (open_line("relay", "echo"), opened(2)),
            (of("kill", 1), killed()),
            (post(0, 0), took(0, 1, 0, 0)),
            (post(0, 1, "y"), took(0, 2, 0, 1)),
            (of("restart", 1), restarted(1, 1), out(1), out(1, "y")),
        ],
    ),
    (
        "repeat: a letter that the input delivered is dropped",
        [
            (open_line("relay", "echo"), opened(2)),
            (post(0, 0), took(0, 1, 0, 0), out(1)),
            (deliver(0), no("repeat")),
            (post(0, 0), no("repeat")),
        ],
    ),
    (
        "a kill behind a driven line loses nothing, and a restart tells the other units",
        [
            (open_line("relay", "echo"), opened(2)),
            (post(0, 0), took(0, 1, 0, 0), out(1)),
            (of("kill", 0), killed()),
            (of("restart", 0), restarted(1, 2)),
            (post(0, 1, "y"), took(1, 2, 0, 1), out(1, "y")),
        ],
    ),
    (
        "gap: a letter behind one that waits for a quota waits too",
        [
            (open_line("tee", "tee", "echo", held=9, letters=2, volatile=9), opened(3)),
            (of("kill", 1), killed()),
            (post(0, 0), took(0, 1, 1, 0), out(0)),
            (post(0, 1, "y"), took(0, 2, 1, 1), out(0, "y")),
            (of("restart", 1), restarted(1, 1)),
        ],
    ),
    (
        "pending: units are flushed before a letter that rests on too much is tried again",
        [(open_line("relay", "echo", optimism=0), opened(2)), (post(0, 0), took(0, 1, 0, 0), out(1))],
    ),
    (
        "quota: what is full is flushed and released, and the letter is tried again",
        [
            (open_line("tee", "tee", "echo", held=1, letters=1000, volatile=1), opened(3)),
            (post(0, 0), took(0, 1, 1, 0), out(0), out(1), out(2)),
            (post(0, 1, "y"), took(0, 2, 1, 2), out(0, "y"), out(1, "y"), out(2, "y")),
        ],
    ),
    (
        "the quota of letters is used up: the letter that would make one more waits",
        [
            (open_line("tee", "tee", "echo", held=9, letters=1, volatile=9), opened(3)),
            (post(0, 0), took(0, 1, 1, 0), out(0)),
            (of("status", 1), status(0, 0)),
        ],
    ),
    (
        "a release by a line has its outputs in its reply alone",
        [
            (open_line("echo"), opened(1)),
            (post(0, 0), took(0, 1, 1), out(0)),
            (of("release", 0), '{"ok":"released","outputs":[]}'),
        ],
    ),
    (
        "a unit that joins is driven too",
        [
            (open_line("tee"), opened(1)),
            ('{"do":"join","kind":"echo","tenant":"a"}', '{"ok":"join","unit":1}'),
            (post(0, 0), took(0, 1, 1, 0), out(0), out(1)),
        ],
    ),
    (
        "lines that are no step, or of no tenant, are answered, and nothing follows them",
        [
            ("{", no("bad-line")),
            (post(0, 0), no("no-tenant")),
            (open_line("echo"), opened(1)),
            (post(1, 0), no("no-unit")),
        ],
    ),
    (
        "a text needs its escapes, and is told with them",
        [(open_line("echo"), opened(1)), (post(0, 0, '\\"\\u0007\\\\'), took(0, 1, 1), out(0, '\\"\\u0007\\\\'))],
    ),
]


def lines_of(flow):
    return [row[0].encode() for row in flow]


def written(flow):
    return b"".join(line.encode() + b"\n" for row in flow for line in row[1:])
