"""The structure of the page, without a browser: its tags, what its attributes say, and that texts are texts alone."""

import html.parser
import re

EMPTY = {"meta", "input", "path", "rect", "circle"}
# What the attributes of the diagram's elements may be, whatever the texts of the steps are.
NUMBER, NAME, NAMES = r"\d+", r"i\d+-\d+-\d+", r"(i\d+-\d+-\d+( i\d+-\d+-\d+)*)"
VALUES = {
    **dict.fromkeys(
        [
            "unit",
            "column",
            "line",
            "logged",
            "released",
            "lost",
            "cut",
            "letter",
            "receiver",
            "until",
            "gone",
            "first",
            "end",
        ],
        NUMBER,
    ),
    **dict.fromkeys(["all", "left", "step", "right"], NUMBER),
    **dict.fromkeys(["from", "to", "of", "before"], NAME),
    "mark": r"\d+,\d+",
    "past": NAMES,
}
# Texts that would be markup, end the script, or turn the line round, were they not escaped.
HOSTILE = {
    "the end of a script": "</script><script>hacked=1</script>",
    "an image": "\"><img src=x onerror=hacked=1>'><svg onload=hacked=1>",
    "the end of a title": "</title></svg></style><script>hacked=1</script>",
    "quotes": '"\'`" onfocus=hacked=1 autofocus="',
    "references": "&lt;&amp;&quot;&#39;&#x3c;script&#62;&notin;",
    "comments and sections": "<!--<![CDATA[]]>-->--!>",
    "controls": "".join(map(chr, range(32))) + "\x7f\x85\u2028",
    "no characters": "\ufffe\uffff\ufdd0",
    "from right to left": "\u202e\u2067abc\u05d0\u202c\u2069\u061c",
    "names": "__proto__ constructor i0-0-0 diagram",
    "nothing": "",
    "4,096 bytes": "<" * 4096,
}


def read_back(text):
    """What a page shows of a text: what XML doesn't allow is replaced."""
    return "".join("\ufffd" if each < " " and each not in "\t\n\r" or each in "\ufffe\uffff" else each for each in text)


class Page(html.parser.HTMLParser):
    """A page's elements, as (tag, attributes, depth), and its texts by element."""

    def __init__(self, text):
        super().__init__()
        self.elements, self.open, self.flaws, self.texts = [], [], [], {}
        self.feed(text)
        self.close()
        if self.open:
            self.flaws.append(f"not ended: {self.open}")

    def handle_starttag(self, tag, attributes):
        self.elements.append((tag, dict(attributes), len(self.open)))
        if len(dict(attributes)) != len(attributes):
            self.flaws.append(f"an attribute twice: {attributes}")
        if tag not in EMPTY or tag in {"path", "rect", "circle"}:
            self.open.append((tag, len(self.elements) - 1))

    def handle_startendtag(self, tag, attributes):
        self.elements.append((tag, dict(attributes), len(self.open)))

    def handle_endtag(self, tag):
        if not self.open or self.open[-1][0] != tag:
            self.flaws.append(f"{tag} is ended, and {self.open[-1:]} is open")
        else:
            self.open.pop()

    def handle_data(self, text):
        if self.open:
            place = self.open[-1][1]
            self.texts[place] = self.texts.get(place, "") + text

    def of_class(self, name):
        """The elements of a class, each with its place."""
        return [(place, own) for place, (_, own, _) in enumerate(self.elements) if name in own.get("class", "").split()]

    def text(self, tag):
        """The text of the first element of this tag."""
        return next((self.texts.get(place, "") for place, (own, _, _) in enumerate(self.elements) if own == tag), None)

    def skeleton(self):
        """All that isn't text: the tags with the names of their attributes, and the values but numbers of columns."""
        return [(tag, sorted(attributes.items()), depth) for tag, attributes, depth in self.elements]


def value_flaws(page):
    """Attributes whose values could have come from a text."""
    flaws = []
    for tag, attributes, _ in page.elements:
        for name, value in attributes.items():
            if name.startswith("data-") and not re.fullmatch(VALUES.get(name[5:], r"(?!)"), value):
                flaws.append(f"{tag} has {name}={value!r}")
            if name.startswith("on") or name in ("style", "src", "srcset"):
                flaws.append(f"{tag} has {name}")
            if name == "href" and not re.fullmatch(f"#{NAME}", value):
                flaws.append(f"{tag} has {name}={value!r}")
    return flaws


def number(own, name):
    text = own.get(f"data-{name}")
    return None if text is None else int(text)


def fact_flaws(page, flow, first=0):
    """Where what the page says of the intervals from this event on isn't what the lines and replies say."""
    said = {own["id"]: own for _, own in page.of_class("interval") if "id" in own}
    flaws = []
    for one in flow.intervals:
        own = said.get(one.id)
        if own is None:
            if one.event >= first:
                flaws.append(f"{one.id} isn't there")
            continue
        wanted = {
            "unit": one.unit,
            "column": one.event,
            "line": one.line,
            "logged": one.logged,
            "lost": one.lost,
            "cut": one.cut,
            "released": one.released,
        }
        flaws += [
            f"{one.id}: {name} {number(own, name)} for {value}"
            for name, value in wanted.items()
            if number(own, name) != value
        ]
        if own.get("data-before") != (one.before and one.before.id):
            flaws.append(f"{one.id}: before {own.get('data-before')}")
        tops = {}
        for each in one.past():
            tops[each.unit] = max(tops.get(each.unit, each), each, key=lambda other: other.mark)
        if set(own["data-past"].split()) != {each.id for each in tops.values()}:
            flaws.append(f"{one.id}: past {own['data-past']} for {sorted(each.id for each in tops.values())}")
    return flaws
