"""Malicious lines: each is answered as the formats say, and none changes anything. And lines in unusual layouts."""

from program import joined

OPEN = b'{"do":"open","tenant":"a","units":["echo"]}'
STATUS = b'{"do":"status","tenant":"a","unit":0}'
BEGUN = (
    b'{"at":[0,0],"held":0,"known":0,"ok":"status","outside":0,"released":0,"rows":0,"stable":0,"up":true,"volatile":0}'
)
BAD, NO_UNIT, NO_TENANT = b'{"no":"bad-line"}', b'{"no":"no-unit"}', b'{"no":"no-tenant"}'
LONGEST = 65536


def post(number=b"0", unit=b"0", tenant=b"a", more=b""):
    return b'{"do":"post","number":%s,"tenant":"%s","text":"x","unit":%s%s}' % (number, tenant, unit, more)


def saying(text):
    """A post to a unit that isn't there, with this in place of its text."""
    return post(unit=b"255").replace(b'"x"', text)


def opening(units):
    return b'{"do":"open","tenant":"b","units":%s}' % units


def filled(length):
    """A status line filled with blanks to this length."""
    return STATUS + b" " * (length - len(STATUS))


LINES = [
    ("200 opening brackets", b"[" * 200, BAD),
    ("as many as fit a line", b"[" * LONGEST, BAD),
    ("200 nested objects", b'{"do":' * 200, BAD),
    ("nothing", b"", BAD),
    ("a zero byte", b"\0", BAD),
    ("bytes that are no UTF-8", post()[:-2] + b"\xff}", BAD),
    ("half of a surrogate pair", b'{"do":"post","number":0,"tenant":"a","text":"\\ud800","unit":0}', BAD),
    ("two values", STATUS + STATUS, BAD),
    ("a value and a comma", STATUS + b",", BAD),
    ("a list of a step", b"[" + STATUS + b"]", BAD),
    ("a number of 33 bits", post(number=b"4294967296"), BAD),
    ("a number below 0", post(number=b"-1"), BAD),
    ("a number with an exponent", post(number=b"1e0"), BAD),
    ("a number with a fraction", post(number=b"0.0"), BAD),
    ("a number with a leading zero", post(number=b"00"), BAD),
    ("a number as a text", post(number=b'"0"'), BAD),
    ("a number of 400 digits", post(number=b"9" * 400), BAD),
    ("no number", post(number=b"null"), BAD),
    ("a unit of 256", post(unit=b"256"), BAD),
    ("a unit of 255", post(unit=b"255"), NO_UNIT),
    ("a tenant of no byte", post(tenant=b""), BAD),
    ("a tenant of 33 bytes", post(tenant=b"a" * 33), BAD),
    ("a tenant of 32 bytes", post(tenant=b"b" * 32), NO_TENANT),
    ("a tenant with a capital", post(tenant=b"A"), BAD),
    ("a tenant with a blank", post(tenant=b"a "), BAD),
    ("a key too many", post(more=b',"units":0'), BAD),
    ("a key too few", b'{"do":"post","number":0,"tenant":"a","unit":0}', BAD),
    ("a step that is none", STATUS.replace(b"status", b"state"), BAD),
    ("a status line of 65,536 bytes", filled(LONGEST), BEGUN),
    ("a status line of 65,537 bytes", filled(LONGEST + 1), BAD),
    ("a line of a megabyte", filled(1 << 20), BAD),
    ("a carriage return", STATUS + b"\r", BEGUN),
    ("a tab before it", b"\t" + STATUS, BEGUN),
    ("a bracket", b"{", BAD),
    ("a number alone", b"1", BAD),
    ("a number below 0 alone", b"-1", BAD),
    ("a text alone", b'"x"', BAD),
    ("a word alone", b"true", BAD),
    ("null alone", b"null", BAD),
    ("a list alone", b"[1]", BAD),
    ("a closing bracket", b"]", BAD),
    ("a closing brace", b"}", BAD),
    ("no verb", b'{"tenant":"a","unit":0}', BAD),
    ("a verb that is no text", b'{"do":0,"tenant":"a","unit":0}', BAD),
    ("two verbs, the last of a step", b'{"do":"state",' + STATUS[1:], BEGUN),
    ("an empty object", b"{}", BAD),
    ("a text that is a number", post().replace(b'"x"', b"0"), BAD),
    ("a step with a capital", STATUS.replace(b"status", b"Status"), BAD),
    ("a status of no unit", b'{"do":"status","tenant":"a"}', BAD),
    ("an open without units", b'{"do":"open","tenant":"b"}', BAD),
    ("a unit that is no text", opening(b"[0]"), BAD),
    ("an optimism that is null", opening(b'[],"optimism":null'), BAD),
    ("an optimism of 33 bits", opening(b'[],"optimism":4294967296'), BAD),
    ("a quota with a key too few", opening(b'[],"quota":{"held":1,"letters":2}'), BAD),
    ("a quota with a key too many", opening(b'[],"quota":{"held":1,"letters":2,"volatile":3,"x":4}'), BAD),
    (
        "an open of nothing",
        opening(b'[],"quota":{"held":0,"letters":0,"volatile":0},"optimism":0'),
        b'{"no":"bad-open"}',
    ),
    ("the greatest letter", b'{"do":"deliver","letter":4294967295,"tenant":"a"}', b'{"no":"no-letter"}'),
    ("a text of 4,097 bytes", post().replace(b'"x"', b'"%s"' % (b"x" * 4097)), b'{"no":"too-much"}'),
    ("a number with a plus", post(number=b"+0"), BAD),
    ("a number of no digit", post(number=b""), BAD),
    ("a unit with a leading zero", post(unit=b"00"), BAD),
    ("a number of ten digits", post(number=b"4294967295", unit=b"255"), NO_UNIT),
    ("a brace too many", post() + b"}", BAD),
    ("a blank behind a key", post(unit=b"255").replace(b'"unit"', b'"unit" '), NO_UNIT),
    ("a text without its end", saying(b'"x'), BAD),
    ("a tab in a text", saying(b'"\t"'), BAD),
    ("an escape that is none", saying(b'"\\x"'), BAD),
    ("escapes in a text", saying(b'"\\"\\\\\\u0000"'), NO_UNIT),
    ("no ASCII in a text", saying('"\u00e9\u20ac\x7f"'.encode()), NO_UNIT),
    ("a text of 500 bytes", saying(b'"%s"' % (b"x" * 500)), NO_UNIT),
]


# Each form with its keys in another order, blanks and escapes: lines and replies.
UNUSUAL = [
    (
        b' {"optimism":16,"quota":{"letters":9,"volatile":8,"held":7},"units" : '
        b'["echo","tee"],"tenant":"a-9","do":"open"} ',
        b'{"ok":"open","units":2}',
    ),
    (b'{"kind":"r\\u0065lay","tenant":"a-9","do":"join"}', b'{"ok":"join","unit":2}'),
    (
        b'\t{"text":"x\\n\\u00e9\\"","number":0,"unit":0,"tenant":"a-9","do":"post"}\r',
        b'{"at":[0,1],"held":1,"letters":[],"ok":"accepted"}',
    ),
    (
        b'{"do" : "post" , "unit" : 1 , "text" : "\\u0061" , "number" : 0 , "tenant" : "a-9"}',
        b'{"at":[0,1],"held":1,"letters":[0],"ok":"accepted"}',
    ),
    (b'{"letter":0,"tenant":"a-9","do":"deliver"}', b'{"at":[0,1],"held":0,"letters":[1],"ok":"accepted"}'),
    (b'{"unit":0,"tenant":"a-9","do":"flush"}', b'{"count":1,"ok":"flush"}'),
    (b'{"unit":0,"do":"checkpoint","tenant":"a-9"}', b'{"at":[0,1],"ok":"checkpoint"}'),
    (b'{"tenant":"a-9","unit":0,"do":"kill"}', b'{"lost":0,"ok":"kill"}'),
    (b'{"unit":0,"tenant":"a-9","do":"restart"}', b'{"ok":"restart","row":[1,2]}'),
    (b'{"unit":1,"tenant":"a-9","do":"notice"}', b'{"ok":"notice","row":null}'),
    (b'{"unit":0,"tenant":"a-9","do":"release"}', '{"ok":"released","outputs":["x\\né\\""]}'.encode()),
    (
        b'{"unit":0,"tenant":"a\\u002d9","do":"status"}',
        b'{"at":[0,1],"held":0,"known":1,"ok":"status","outside":1,"released":1,"rows":1,"stable":1,"up":true,'
        b'"volatile":0}',
    ),
]

# Input, and how many bad lines it is.
ENDS = [(b"", 0), (b"\n", 1), (b"{\n", 1), (b"\n{", 2), (b"\r\n\n", 2)]


def unusual(program):
    """Each form in an unusual layout."""
    out = program.run(joined(line for line, _ in UNUSUAL))
    return 1, [] if (out[0], out[2]) == (joined(reply for _, reply in UNUSUAL), 0) else [f"{out[0]!r}, status {out[2]}"]


def ends(program):
    """As many lines as ends."""
    wrong = []
    for given, count in ENDS:
        out = program.run(given)
        if (out[0], out[2]) != (joined([BAD] * count), 0):
            wrong.append(f"{given!r}: {out[0]!r}, status {out[2]}")
    return len(ENDS), wrong


# One input: five bad lines, and a step without a line end.
TOGETHER = b"\n{\n\xff\n" + b"[" * (LONGEST + 1) + b'\n{"do":"post","number":1.0}\n' + STATUS


def together(program):
    """Bad lines of each sort behind one another, and then a step."""
    out = program.run(TOGETHER)
    return 1, [] if (out[0], out[2]) == (joined([BAD] * 5 + [NO_TENANT]), 0) else [f"{out[0]!r}, status {out[2]}"]


def one(program, what, given, want):
    """The line between an open and a status, and as the last one without its line feed."""
    wrong = []
    for lines_at_once in (0, 1):
        out = program.run(joined([OPEN, given, STATUS]), lines=lines_at_once)
        if (out[0], out[2]) != (joined([b'{"ok":"open","units":1}', want, BEGUN]), 0):
            wrong.append(f"{what}: {out[0][:200]!r}, status {out[2]}")
    if given:
        out = program.run(joined([OPEN]) + given)
        if (out[0], out[2]) != (joined([b'{"ok":"open","units":1}', want]), 0):
            wrong.append(f"{what}, without a line feed: {out[0][:200]!r}, status {out[2]}")
    return 3, wrong


def checks():
    for what, given, want in LINES:
        yield f"line: {what}", lambda program, line=(what, given, want): one(program, *line)
    yield "line: each form in an unusual layout", unusual
    yield "line: as many as ends", ends
    yield "line: bad ones of each sort in one input", together
