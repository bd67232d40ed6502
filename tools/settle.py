#!/usr/bin/env python3
"""Takes the answers that the check refuses out of a crate's proofs, where the check closes the goal by itself: tools/settle.py, in the crate's folder

What is refused is tried without; what is then still open comes back, marked by a line `-- open`.
"""

import os
import re
import subprocess
import sys

ERROR = re.compile(r"^(?:so far: )?\./(proofs/\S+/Answers\.antt):(\d+):\d+: error: `([^`]+)`", re.M)


def check():
    r = subprocess.run(["rt", "check"], stdout=subprocess.PIPE, stderr=subprocess.STDOUT, text=True)
    return r.stdout


def blocks(text):
    """A file's declarations: (name, text), with the lines of use under the name None."""
    out = []
    for line in text.split("\n"):
        m = re.match(r"^(?:(?:abbrev|unfoldable|pub)\s+)*([^\s:(){}]+)\s*:(?!=)\s", line)
        if m and not line.startswith(("use ", "--")):
            out.append([m.group(1), line])
        elif line.startswith("--") or not out:
            out.append([None, line])
        else:
            out[-1][1] += "\n" + line
    return out


WALK = re.compile(r"^(?:so far: )?\./(proofs/\S+/Proof\.antt):?.*error", re.M)


def main():
    taken = {}
    said = check()
    walks = sorted(set(WALK.findall(said)))
    for path in walks:
        print(f"a walk by hand is tried without: {path}")
        os.remove(path)
    if walks:
        said = check()
    for turn in range(3):
        wrong = {}
        for path, _, name in ERROR.findall(said):
            wrong.setdefault(path, set()).add(name)
        change = False
        for path, names in wrong.items():
            text = open(path, encoding="utf-8").read()
            kept = []
            for name, it in blocks(text):
                if name in names and f": goal.{name}" in it.split("\n")[0]:
                    taken.setdefault(path, {})[name] = it.rstrip()
                    change = True
                else:
                    kept.append(it)
            with open(path, "w", encoding="utf-8") as f:
                f.write("\n".join(kept).rstrip() + "\n")
        if not change:
            break
        said = check()
    # what is still open comes back, for a reader to mend
    for path, them in taken.items():
        text = open(path, encoding="utf-8").read()
        function = os.path.dirname(path)[len("proofs/"):].replace("/", "::")
        proved = "\nlogic=proved" in said or re.search(rf"(?m)^fn \w+::{re.escape(function)}: proved", said)
        if proved:
            continue
        with open(path, "w", encoding="utf-8") as f:
            f.write(text.rstrip() + "\n")
            for name, it in them.items():
                f.write("\n-- open\n" + it + "\n")
        print(f"open: {path}: {', '.join(them)}")
    print("\n".join(l for l in said.split("\n") if re.match(r"(fn .*(not proved|no proof)|logic=|\S+: error)", l))[:6000])


if __name__ == "__main__":
    sys.exit(main())
