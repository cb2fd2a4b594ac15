#!/usr/bin/env python3
"""Brings this repository's own definitions and lemmas to today's spelling: words in snake case.

usage: python3 tools/spell.py        at the top of the repository, once, after port.py

In crates/ (.rt, .antt, .edit) and the pages (README.md, docs/*.md) each name in lower camel case, as nextDate, becomes next_date: in Rust code there is
none. Names of types and modules keep their capitals, and a dash goes on joining the names of which a lemma's is made. Fields of specs/ that were
written with dashes are written with underscores. Where a lemma's name would fall together with its definition's, the lemma gets _lem.
"""

import glob
import os
import re

CAMEL = re.compile(r"(?<![\w'’-])([a-z][a-z0-9]*(?:[A-Z][a-z0-9]*)+)(?![A-Za-z0-9_])|(?<=[a-z0-9]-)([a-z][a-z0-9]*(?:[A-Z][a-z0-9]*)+)(?![A-Za-z0-9_])")
WORD = r"(?<![^\s(){}.;,@\"«»`])%s(?![^\s(){}.;,@\"«»`])"

# Lemmas whose names are those that definitions get: stepIn, leftBy, wordsLeft.
LEMMAS = {"step_in": "step_in_lem", "left_by": "left_by_lem", "words_left": "words_left_lem"}
# Fields of the days that are worked out (crate calendar, specs/Example).
FIELDS = ["equal-holidays", "no-date", "none-after-the-last", "over-a-holiday", "over-a-month-end", "over-a-weekend", "past-the-last", "ten-on", "three-on", "to-the-last"]
# Not names: words of the pages, and what other languages spell so.
LEAVE = set()


def snake(name):
    return re.sub(r"(?<=[a-z0-9])([A-Z])", lambda m: "_" + m.group(1).lower(), name)


def spell(text, path):
    if path.endswith((".antt", ".edit")):
        for old, new in LEMMAS.items():
            text = re.sub(WORD % re.escape(old), new, text)
    if path.startswith("crates/calendar/"):
        for f in FIELDS:
            text = re.sub(WORD % re.escape(f), f.replace("-", "_"), text)
    return CAMEL.sub(lambda m: m.group(0) if m.group(0) in LEAVE else snake(m.group(0)), text)


def main():
    paths = [p for kind in ("rt", "antt", "edit") for p in glob.glob(f"crates/**/*.{kind}", recursive=True)]
    paths += ["README.md"] + glob.glob("docs/**/*.md", recursive=True)
    for path in sorted(paths):
        if "/out/" in path or os.path.basename(path).startswith(("document-0", "PORT")):
            continue
        with open(path, encoding="utf-8") as f:
            text = f.read()
        new = spell(text, path)
        if new != text:
            with open(path, "w", encoding="utf-8") as f:
                f.write(new)


if __name__ == "__main__":
    main()
