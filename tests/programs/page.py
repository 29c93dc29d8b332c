"""The first pages of docs/PROGRAMS.md: what they have one type is typed in an empty folder, and says what they say it
does."""

import os
import re
import subprocess
import tempfile

from examples import CLANG, missing
from host import SECONDS, TOP

PAGE = os.path.join(TOP, "docs", "PROGRAMS.md")


def blocks():
    """The blocks of the page, by what names them: a file's name before them, or their language, the first of each."""
    with open(PAGE, encoding="utf-8") as file:
        text = file.read()
    found = re.findall(r"(?:`([\w.]+)`:\n\n)?```(\w+)\n(.*?)```\n", text, re.S)
    return {name or language: body for name, language, body in reversed(found)}


def from_an_empty_folder(host):
    if lacking := missing(("cc", "Debian's package gcc"), ("bash", "Debian's package bash"), *CLANG):
        return lacking
    page = blocks()
    with tempfile.TemporaryDirectory() as room:
        for name in ("counter.c", "counter_test.c"):
            with open(os.path.join(room, name), "w", encoding="utf-8") as file:
                file.write(page[name])
        own = os.path.join(room, "bin")
        os.mkdir(own)
        os.symlink(host.path, os.path.join(own, "recall"))
        place = {**os.environ, "RECALL": TOP, "PATH": own + os.pathsep + os.environ["PATH"]}
        ran = subprocess.run(
            ["bash", "-euo", "pipefail", "-c", page["sh"]],
            cwd=room,
            env=place,
            capture_output=True,
            text=True,
            timeout=SECONDS,
        )
    wanted = "3 passed, 0 failed\n" + page["json"]
    return (
        None if ran.returncode == 0 and ran.stdout == wanted else f"status {ran.returncode}, {ran.stdout}, {ran.stderr}"
    )


def checks():
    return [("the page, from an empty folder", from_an_empty_folder)]
