#!/usr/bin/env python3
"""Counts, in src/ as a commit has it, the places that docs/DESIGN-PASS.md speaks of: tools/design_counts.py [COMMIT] [-v]

A count is where to look and no verdict; -v prints the places.
"""

import collections
import re
import subprocess
import sys

args = [a for a in sys.argv[1:] if a != "-v"]
verbose = "-v" in sys.argv
commit = args[0] if args else "HEAD"


def git(*words):
    return subprocess.run(["git", *words], capture_output=True, text=True, check=True).stdout


paths = git("ls-tree", "-r", "--name-only", commit, "crates").split()
sources = {p: git("show", f"{commit}:{p}") for p in paths if re.fullmatch(r"crates/\w+/src/\w+\.rt", p)}
answers = [git("show", f"{commit}:{p}") for p in paths if p.endswith("/Answers.antt")]
FN = re.compile(r"((?:^[ \t]*//[^\n]*\n)*)^[ \t]*(?:#\[[^\n]*\n)*[ \t]*(?:pub )?(?:extern \"C\" )?fn (\w+)(?:<[^>(]*>)?\(([^)]*)\)([^{;]*(?:\n\s+(?:requires|ensures)[^\n]*)*)", re.M)


def crate(path):
    return path.split("/")[1]


def lines(pattern):
    """The lines of code, comments left out, that a pattern is in."""
    found = []
    for path, text in sorted(sources.items()):
        for at, line in enumerate(text.split("\n"), 1):
            if not line.strip().startswith("//") and re.search(pattern, line):
                found.append(f"{path}:{at}: {line.strip()}")
    return found


def functions(test):
    return [f"{crate(path)}::{m.group(2)}" for path, text in sorted(sources.items()) for m in FN.finditer(text) if test(m)]


def none_as_number(m):
    says = r"\bor 0\b|, 0 where|0 where|0 of any other|or 65,536|0 for the whole|0 for any other|of no type"
    return re.search(says, m.group(1)) and re.match(r"\s*-> \(?(u64|usize|Entry)\b", m.group(4))


def say(point, what, places):
    print(f"{point:3} {len(places):5}  {what}")
    if verbose:
        for place in places:
            print(f"           {place}")


def has(*words):
    return lambda m: all(w in m.group(3) for w in words)


say("1", "enums", lines(r"^(pub )?enum "))
say("1", "functions whose comment says that a number stands for none", functions(none_as_number))
say("1", "fields that are a code or a flag beside a value (status, number, run)", lines(r"^pub (status|number|run): (u64|bool)|^\s+pub (status|number|run): (u64|bool)"))
say("1", "parameters and fields that hold a record's type number", lines(r"\b(kind|last|holder|present|next|item): u64"))
say("1", "functions from a code to an enum", functions(lambda m: re.match(r"(code|n|bits|list|line): u64", m.group(3)) and re.match(r"\s*-> (Usage|Origin|DataType|Rule|CodeList|Forms|CharacterSet)\b", m.group(4))))
say("2", "functions named for one of the two character sets", functions(lambda m: re.search(r"_(in|of_type_in)_(ascii|ebcdic)$", m.group(2))))
say("2", "types with nothing but three constants", lines(r"^pub struct \w+ \{\}"))
say("3", "loops by while", lines(r"\bwhile\b"))
say("3", "of these, by an index or a count that a constant moves", lines(r"\bwhile (i <|0 < (rows|left|places|end)|1 < left|10 <=)"))
say("3", "loops by for, and iterators", lines(r"\bfor .+ in |\.(iter|iter_mut|chunks_exact|chunks)\("))
say("4", "derives of more than Clone and Copy", lines(r"#\[derive\((?!Clone, Copy\)\])"))
say("4", "bytes of a number put together or taken apart by hand", lines(r"(\*|/) 0x(100_0000|1_0000|100)\b(?!_)"))
say("4", "arms of a match that only repeat the value of the arm before", [
    f"{path}:{text[: m.start()].count(chr(10)) + 2}" for path, text in sorted(sources.items())
    for m in re.finditer(r"^ +\S[^\n]* => ([^\n{]+),\n(?= +\S[^\n]* => \1,\n)", text, re.M)])
say("5", "functions with the set and the file", functions(has("set: CharacterSet", "file: &")))
say("5", "functions with the layouts as numbers", functions(has("layouts: &")))
say("5", "functions with a row and the numbers of its layout", functions(has("own: &", "rows: &")))
facts = collections.Counter()
for path, text in sources.items():
    for clause in re.findall(r"requires(?: \w+)? \{(.*)\}", text):
        for fact in {re.sub(r"\.(now|old)\b", "", f.strip(" ()")) for f in clause.split("×")}:
            facts[fact] += 1
often = [f"{n} {fact}" for fact, n in facts.most_common() if n >= 3]
say("5", "facts that stand in three requires or more", often)
say("6", "arrays of a fixed size on the stack", lines(r"= \[0(u8|u64)?; \w+\]|: \[u(8|64); \d+\] = "))
say("7", "matches on which record was called for", lines(r"match called \{"))
say("7", "bounds on closures", lines(r": Fn(Mut|Once)?\("))
print(f"8   {len(answers):5}  files of answers, with {sum(len(re.findall(r'^pub [^ ]+ : goal[.]', a, re.M)) for a in answers)} answers")
print(f"    {sum(t.count(chr(10)) for t in sources.values()):5}  lines of src/")
