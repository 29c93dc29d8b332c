"""The program under test, and units in it that run programs."""

import base64
import json
import os
import subprocess

SECONDS = 120
HERE = os.path.dirname(os.path.abspath(__file__))
TOP = os.path.dirname(os.path.dirname(HERE))
EXAMPLES = os.path.join(TOP, "examples", "programs")
KIND = "rv32-1"


def step(do, tenant, **others):
    return json.dumps({"do": do, "tenant": tenant, **others}, sort_keys=True, separators=(",", ":"))


def loading_texts(image, size=3069):
    """The texts that load an image, so many bytes in each."""
    parts = [image[at : at + size] for at in range(0, len(image), size)] or [b""]
    return ["+" + base64.b64encode(part).decode() for part in parts[:-1]] + ["=" + base64.b64encode(parts[-1]).decode()]


def image_of(name):
    """An image that the repository has."""
    with open(os.path.join(EXAMPLES, name + ".b64"), encoding="ascii") as file:
        return base64.b64decode(file.read())


class Host:
    """Where the program is."""

    def __init__(self, path):
        self.path = os.path.abspath(path)

    def ran(self, words, given=b"", **others):
        return subprocess.run([self.path, *words], input=given, capture_output=True, timeout=SECONDS, **others)

    def replies(self, lines, *words):
        """The replies to step lines, each a dict."""
        ran = self.ran(["run", "--programs", *words], "".join(line + "\n" for line in lines).encode())
        if ran.returncode or ran.stderr:
            raise ValueError(f"status {ran.returncode}, {ran.stderr[:300]!r}")
        replies = [json.loads(line) for line in ran.stdout.splitlines()]
        if len(replies) < len(lines):
            raise ValueError(f"{len(replies)} replies to {len(lines)} lines")
        return replies

    def turns(self, trials):
        """What unit 0 of a new tenant puts out upon each text, and how many letters it sends itself, for each trial: a
        list of texts, the loading ones among them."""
        lines, marks = [], []
        for number, texts in enumerate(trials):
            tenant = f"t{number}"
            lines.append(step("open", tenant, units=[KIND]))
            for at, text in enumerate(texts):
                lines += [
                    step("post", tenant, unit=0, number=at, text=text),
                    step("flush", tenant, unit=0),
                    step("release", tenant, unit=0),
                ]
                marks.append((number, len(lines) - 1))
        replies = self.replies(lines)
        told = [[] for _ in trials]
        for number, at in marks:
            if "no" in replies[at - 2]:
                raise ValueError(f"{lines[at - 2][:200]} is answered {replies[at - 2]}")
            told[number].append((replies[at]["outputs"], len(replies[at - 2]["letters"])))
        return told

    def outputs(self, trials):
        """The same without the letters."""
        return [[outputs for outputs, _ in turns] for turns in self.turns(trials)]

    def upon(self, image, *texts):
        """What a unit with this image puts out upon each of these texts. Loading must put nothing out."""
        loading = loading_texts(image)
        told = self.outputs([[*loading, *texts]])[0]
        if any(told[: len(loading)]):
            raise ValueError(f"loading puts out {told[: len(loading)]}")
        return told[len(loading) :]
