#!/usr/bin/env python3
"""Brings the repository's own definitions and lemmas to the spelling of today's Rattle, after port.py and once: python3 tools/respell.py

A name in camel case that begins with a small letter becomes one in snake case (`lineHolds` to `line_holds`), in specs/, proofs/, clauses, must-fail edits and documents.
Names that are Rattle's own keep their spelling. A lemma whose name would fall together with its function's gets `_lem`. A fact begins with a capital.
"""

import glob
import os
import re
import shutil
import sys

LIBRARY = os.path.join(os.path.dirname(os.path.dirname(os.path.realpath(shutil.which("rt") or "rt"))), "rattle")
TOKEN = re.compile(r"(?<![\w'′])[a-z][\w'′]*[A-Z][\w'′]*(?![\w'′])")
FACTS = {"noneDropped": "NoneDropped"}
# Names with the forms of routing numbers in them, which are spelled as the standard prints them.
FORMS = {"bTTTTAAAA": "bTTTTAAAA", "isNNNNNNNNN": "is_NNNNNNNNN", "isTTTT": "is_TTTT", "isTTTTAAAAC": "is_TTTTAAAAC", "isTTTTT": "is_TTTTT", "isbTTTTAAAA": "is_bTTTTAAAA"}
SPECIAL = FACTS | FORMS | {"movedALittle": "moved_a_little"}
# port.py turned the dash of these lemmas into an underscore, and so gave them the names that functions of specs/ now get.
LEMMAS = ["in_list", "walked_on", "other_fits", "has_room", "ending_of", "none_dropped", "comes_back", "all_hold", "all_laid"]


def snake(name):
    return re.sub(r"(?<=[a-z0-9])([A-Z])", lambda m: "_" + m.group(1).lower(), name)


def read(path):
    with open(path, encoding="utf-8") as f:
        return f.read()


def words(text):
    """The words of a text in antt, without its comments."""
    return set(TOKEN.findall(re.sub(r"(?m)(^|\s)--.*$", "", text)))


def main():
    # a second run would respell what the first has made
    if len(sys.argv) > 1 or "lineHolds" not in read("crates/judge/specs/Alone.antt"):
        print(__doc__)
        raise SystemExit("respell: nothing to do: it runs once, behind port.py")
    ours = glob.glob("crates/**/*.antt", recursive=True)
    names = set()
    for path in ours:
        names |= words(read(path))
    theirs = set()
    for path in glob.glob(LIBRARY + "/**/*.antt", recursive=True):
        theirs |= words(read(path))
    names -= theirs - {"isBlank"}
    to = {name: SPECIAL.get(name, snake(name)) for name in names}
    to = {a: b for a, b in to.items() if a != b}
    lemma = re.compile(r"(?<![\w.'′-])(" + "|".join(LEMMAS) + r")(?![\w'′-])")
    others = [p for pattern in ("crates/*/src/**/*.rt", "crates/*/must-fail/*.edit", "crates/*/more-edits/*.edit", "docs/*.md", "README.md") for p in glob.glob(pattern, recursive=True)]
    for path in ours + others:
        old = read(path)
        new = lemma.sub(r"\1_lem", old) if path.endswith(".antt") else old
        new = TOKEN.sub(lambda m: to.get(m.group(0), m.group(0)), new)
        if new != old:
            with open(path, "w", encoding="utf-8") as f:
                f.write(new)
    print(f"respell: {len(to)} names", file=sys.stderr)
    print("\n".join(f"{a} {b}" for a, b in sorted(to.items())))


if __name__ == "__main__":
    main()
