"""The page of `recall draw --html`: tests/browser PROGRAM [--pictures FOLDER]

First its structure, without a browser. Then, where Chromium is to be had (of Debian, the package `chromium`), the page
in it: what lights up when something is pointed at, what is said of it, how the diagram stood at each event, keys,
search and links. What is wanted is worked out from the lines and replies alone (`happened`), and what a sentence
promises is tried with the program. `--pictures` keeps pictures of the tour's flows at three moments each. The last line
is `N passed, M failed`.
"""

import argparse
import os
import sys

import pointing
import shape
from chromium import Browser, path_of_browser


class Checks:
    def __init__(self):
        self.passed, self.failed = 0, 0

    def __call__(self, what, holds):
        if holds:
            self.passed += 1
        else:
            self.failed += 1
            print(f"browser: {what}")


def main():
    words = argparse.ArgumentParser(description=__doc__, formatter_class=argparse.RawDescriptionHelpFormatter)
    words.add_argument("program")
    words.add_argument("--pictures")
    asked = words.parse_args()
    check, program = Checks(), os.path.abspath(asked.program)
    shape.try_all(check, program)
    path = path_of_browser()
    if path is None:
        print("browser: there is no Chromium here: what the page does was not tried")
    else:
        browser = Browser(path)
        try:
            pointing.try_all(check, program, browser, asked.pictures)
        finally:
            browser.close()
    print(f"{check.passed} passed, {check.failed} failed")
    return 1 if check.failed else 0


sys.exit(main())
