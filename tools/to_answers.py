#!/usr/bin/env python3
"""Turns the proofs of a crate from the older form to today's: tools/to_answers.py NAMES.json CRATE_FOLDER [FUNCTION..]

NAMES.json is what `rt check --generated DIR --old-names` writes. Each proofs/F/Proof.antt that answers goals by `tie.spec` becomes proofs/F/Answers.antt, and
proofs/F/Invariants.antt where there are loops. Answers that only search go, since the check searches by itself. A proof of another form stays as it is.
"""

import json
import os
import re
import sys

DECLARED = re.compile(r"^(?:(?:abbrev|unfoldable|pub|instance)\s+)*([^\s:(){}]+)\s*:(?!=)\s")
PATH = re.compile(r"(?<![\w.'′-])([\w₀-₉]+)((?:\.before)*)\.([A-Za-z_][\w'-]*)((?:\.[\w'-]+)*)")


def plain(name):
    """A name of either form: scripts before this one turned dashes, capitals and endings of the names of steps."""
    if name == "type_size":
        # port.py took the name of a step for one of the library's
        name = "size_of"
    return re.sub(r"_lem$", "", re.sub(r"^Is(?=[A-Z])", "", name).replace("-", "_").lower())


def clauses(root):
    """The names of the `ensures` of each function that has several: {"crate::function": [..]}."""
    out = {}
    for folder, dirs, files in os.walk(os.path.join(root, "crates")):
        dirs[:] = [d for d in dirs if d not in ("out", "proofs", "specs")]
        for name in files:
            if not name.endswith(".rt"):
                continue
            crate = os.path.relpath(folder, os.path.join(root, "crates")).split(os.sep)[0]
            text = open(os.path.join(folder, name), encoding="utf-8").read()
            for m in re.finditer(r"\bfn (\w+)", text):
                head = text[m.end():]
                body = re.search(r"\n\s*\{\n|\{\n", head)
                labels = re.findall(r"\bensures (\w+) \{", head[: body.start()] if body else "")
                if len(labels) > 1:
                    out[f"{crate}::{m.group(1)}"] = labels
    return out


class Function:
    ensures = {}

    def __init__(self, names):
        self.needs, self.place_of = {}, {}
        self.order = [plain(a) for a, _ in names["needs"]]
        for (old, new), (place, _) in zip(names["needs"], names["asked_at"]):
            self.needs[plain(old)] = new
            self.place_of[plain(old)] = plain(place)
        self.places, self.steps, self.params, self.labels = {}, {}, {}, {}
        for n, place in enumerate(names["places"]):
            old, new = place[2]
            arm = names["arms"][n] if n < len(names["arms"]) else None
            told = {(plain(step),) + tuple(path): f"{arm[0]}.{field}" for field, step, path in arm[2]} if arm else {}
            by_name = names["places_by_name"][n] if n < len(names["places_by_name"]) else None
            self.places[plain(place[0])] = (place[1] and plain(place[1]), plain(old), new, told, by_name)
            if old and new:
                self.steps[plain(old)] = new
                if place[3] in Function.ensures:
                    self.labels[new] = Function.ensures[place[3]]
                if place[3] in names["params"]:
                    self.params[new] = names["params"][place[3]]
        self.at = {plain(a): b for a, b in names["asked_at"]}
        self.loops = {a[0][0]: (a[0][1], a[1]) for a in names["loops"]}

    def need(self, old):
        """The goal's key: the older name said which kind of goal it is, or did not."""
        key = plain(old)
        if key not in self.needs:
            key = re.sub(r"^(overflow|slice_bounds|bounds|nonzero|offset_bounds)_", "", key)
        return key

    def told(self, place, befores, key):
        """The arm's own name for a fact, where the place is that of a match."""
        for _ in range(befores):
            if place in self.places:
                place = self.places[place][0]
        while place in self.places:
            parent, old, new, told, _ = self.places[place]
            for n in range(len(key), 0, -1):
                if key[:n] in told:
                    return told[key[:n]], key[n:]
            if old == key[0]:
                return new, key[1:]
            place = parent
        return None


def renamed(f, text, place, problems):
    """Paths through the older record of facts, each as the step's own name in today's."""

    def one(m):
        head, before, step, rest = m.groups()
        rest = rest.replace(".type-inv", ".type_inv")
        if head != "c" and not (before and re.fullmatch(r"[cdw]", head)):
            return m.group(0)
        if step == "before":
            return head + rest if rest else head
        if step == "args" or plain(step) in f.loops:
            # names of the source keep their underscores
            rest = re.sub(r"^\.[\w-]+", lambda k: k.group(0).replace("-", "_") if k.group(0) != ".invariant" else k.group(0), rest)
        if plain(step) == "well_formed":
            return f"{head}.well_formed{rest}"
        if step in ("args", "requires", "ranges"):
            return f"{head}.{step}{rest}"
        words = [x for x in rest.split(".") if x]
        found = f.told(place, before.count(".before"), (plain(step),) + tuple(words))
        if found and rest.startswith((".new.", ".ensures.")) and found[0] == f.steps.get(plain(step)):
            found = None
        if found:
            new, tail = found
            return ".".join([head, new] + words[len(words) - len(tail):])
        new = f.steps.get(plain(step))
        if new is None:
            problems.append(step)
            new = step
        # what a lent argument holds afterwards was counted off, and has the argument's name now
        k = re.match(r"^\.new((?:\.1)*)\.0(?=\.|$)", rest)
        if k and new in f.params and len(k.group(1)) // 2 < len(f.params[new]):
            rest = ".new." + f.params[new][len(k.group(1)) // 2] + rest[k.end():]
        # what a function with several clauses ensures was counted off as well
        if new in f.labels and rest.startswith(".ensures."):
            labels = f.labels[new]
            k = re.match(r"^\.ensures((?:\.1)*)(\.0)?(?=\.|$)", rest)
            n = len(k.group(1)) // 2
            if k.group(2) and n < len(labels) or not k.group(2) and n == len(labels) - 1:
                rest = ".ensures." + labels[n] + rest[k.end():]
            elif not k.group(2) and n > len(labels) - 1:
                rest = ".ensures." + labels[-1] + ".1" * (n - len(labels) + 1) + rest[k.end():]
        return f"{head}.{new}{rest}"

    # a test of `!x` now says that `x` is false, where it said that `not x` is true
    return re.sub(r"not-(?:true|false) (?:_|[\w.-]+|\([^()]*\)) (c\.if-not-[\w-]+\.(?:true|false))", r"\1", PATH.sub(one, text))


HELPER = re.compile(r"^(?:abbrev\s+)?([^\s:(){}]+) : \((\w+) : tie\.((?:After|Else|Start|Then|At|In)[\w-]*)(?: (?:invariant|decreases)-[\w-]+)*\) → (.*)$")


def helpers(f, declared, problems):
    """Lemmas over the facts at a place: {name: (variable, type, body, unfolding)}, which are written where they are used."""
    out = {}
    for d in declared:
        m = HELPER.match(d["lines"][0])
        if not m or d["name"] is None:
            continue
        name, var, place, typ = m.groups()
        rest = "\n".join(d["lines"][1:])
        unfolding = [l for l in d["lines"][1:] if l.startswith("unfolding")]
        k = re.search(r"(?m)^" + re.escape(name) + r" " + re.escape(var) + r" =\s*(.*)\Z", rest, re.S)
        if not k or re.search(r"(?m)^" + re.escape(name) + r"(?![\w'-])", rest[k.end(0):]) or "where" in rest.split():
            continue
        out[name] = (var, typ, k.group(1).rstrip(), unfolding, plain(place))
    return out


def inlined(f, text, them, problems, unfolding):
    """Each use of a lemma over a place's facts, as a `let` of its type at the facts that are known here."""
    for _ in range(6):
        change = False
        for name, (var, typ, body, more, place) in them.items():
            pattern = re.compile(r"(?<![\w.'′-])" + re.escape(name) + r" (c(?:\.before)*)(?![\w.'′-])")

            def put(m):
                it = f"(let {plain(name)}' : {typ} = {body} in {plain(name)}')"
                unfolding.extend(x for x in more if x not in unfolding)
                return renamed(f, it, place, problems) if var == "c" else m.group(0)

            new = pattern.sub(put, text)
            change, text = change or new != text, new
        if not change:
            break
    return text


def parts(text):
    """The file's lines of use, and its declarations: comment lines, name, signature and clauses."""
    uses, declared, comment, here = [], [], [], None
    for line in text.split("\n"):
        if line.startswith("use "):
            uses.append(line)
        elif line.startswith("--"):
            comment.append(line)
            here = None
        elif not line.strip():
            continue
        elif not line[0].isspace() and DECLARED.match(line):
            here = {"name": DECLARED.match(line).group(1), "lines": [line], "comment": comment}
            comment = []
            declared.append(here)
        elif here is not None:
            here["lines"].append(line)
        else:
            declared.append({"name": None, "lines": [line], "comment": comment})
            here = declared[-1]
            comment = []
    return uses, declared


def invariant(f, d, problems):
    text = "\n".join(d["lines"])
    m = re.search(r"\n" + re.escape(d["name"]) + r"((?:\s+[^\s=]+)*)\s*=\s*(.*)\Z", text, re.S)
    kind, loop = re.match(r"(invariant|decreases)-(.*)", d["name"]).groups()
    if loop not in f.loops:
        problems.append("loop " + loop)
        return text
    new, variables = f.loops[loop]
    names, body = m.group(1).split(), m.group(2)
    for n in names:
        base = n.replace("₀", "")
        if base not in variables:
            problems.append("variable " + n)
            continue
        to = f"l.initial.{base}" if n.endswith("₀") else f"l.{base}"
        body = re.sub(r"(?<![\w.'′₀-])" + re.escape(n) + r"(?![\w'′₀-])", to, body)
    unfolding = "".join(l + "\n" for l in d["lines"][1:] if l.startswith("unfolding"))
    return f"abbrev pub {kind}-{new} : goal.{kind}-{new}\n{unfolding}{kind}-{new} l = {body.rstrip()}"


NEED = re.compile(r"tie\.Need-([\w'-]+)((?:\s+(?:invariant|decreases)-[\w-]+)*)")


def answer(f, d, problems, them, own):
    m = NEED.search(d["lines"][0])
    old = m.group(1)
    new = f.needs.get(f.need(old))
    if new is None:
        # today's check has other goals for the two ends of a slice, and proves most of them by itself
        problems.append("goal " + old)
        ends = re.fullmatch(r"slice-bounds-(.*)-(start|end)", old)
        if not ends:
            return old, None
        new = f"slice_bounds-{ends.group(1).replace('-', '_')}-{ends.group(2)}"
    signature = d["lines"][0][: m.start()]
    head = f"pub {new} : goal.{new}"
    if not re.fullmatch(re.escape(d["name"]) + r" : ", signature):
        problems.append("signature of " + old)
    rest = "\n".join(d["lines"][1:])
    others = {a: b for a, b in own.items() if a != d["name"]}
    if others:
        cited = re.compile(r"(?<![\w.'′-])(" + "|".join(sorted(map(re.escape, others), key=len, reverse=True)) + r")(?![\w'′-])")
        rest = cited.sub(lambda k: others[k.group(1)], rest)
    rest = re.sub(r"(?m)^" + re.escape(d["name"]) + r"(?![\w'-])((?:\s+[^\s=]+)*)\s*=", lambda k: new + re.sub(r"\s+κs\b", "", k.group(1)) + " =", rest)
    unfolding = []
    rest = renamed(f, rest, f.place_of.get(f.need(old)), problems) if not them else rest
    if them:
        # the uses first, while the place of each is still written, then the paths
        first = inlined(f, rest, them, problems, unfolding)
        rest = renamed(f, first, f.place_of.get(f.need(old)), problems)
    more = [w for line in unfolding for w in line.split()[1:]]
    if more:
        here = re.match(r"unfolding ([^\n]*)\n", rest)
        rest = "unfolding " + " ".join(dict.fromkeys((here.group(1).split() if here else []) + more)) + "\n" + (rest[here.end():] if here else rest)
    if re.fullmatch(re.escape(new) + r"( c| _)* = search rules\s*", rest.strip()):
        return new, None
    return new, head + "\n" + rest.rstrip()


def used(body, uses):
    """The lines of use, with only the names that the body has."""
    words = set(re.findall(r"[^\s(){},;.]+", body))
    kept = []
    for line in uses:
        m = re.match(r"use ([^{]*)\.\{(.*)\}\s*$", line)
        if not m:
            short = line.split(" as ")[-1].split(".")[-1].strip()
            if re.search(r"(?<![\w-])" + re.escape(short) + r"(?![\w-])", body):
                kept.append(line)
            continue
        names = []
        for n in m.group(2).split(", "):
            sign = n.split(" as ")[-1]
            if "◌" in sign:
                bits = [b for b in sign.split("◌") if b]
                if all(b in body for b in bits):
                    names.append(n)
            elif sign in words or any(sign in w for w in words):
                names.append(n)
        if names:
            kept.append(f"use {m.group(1)}.{{{', '.join(names)}}}")
    return kept


def arguments(text):
    """The arguments of a call, by blanks outside brackets."""
    out, depth, now = [], 0, ""
    for ch in text:
        depth += ch in "([{"
        depth -= ch in ")]}"
        if ch.isspace() and depth == 0:
            if now:
                out.append(now)
            now = ""
        else:
            now += ch
    return out + ([now] if now else [])


def written_in(f, d):
    """The answers that stand as functions in the call of `tie.spec` itself, as declarations."""
    text = "\n".join(d["lines"])
    inside = text[text.index("tie.spec") + len("tie.spec"):].rstrip()
    opened = text[: text.index("tie.spec")]
    if opened.rstrip().endswith("("):
        inside = inside[:-1]
    args = [a for a in arguments(inside) if not re.match(r"(invariant|decreases)-", a)]
    unfolding = [l for l in d["lines"] if l.startswith("unfolding")]
    made = []
    for need, arg in zip(f.order, args):
        m = re.match(r"\(λ\s+(\w+)((?:\s+\S+)*?)\.\s*(.*)\)\Z", arg, re.S)
        if m:
            name = "it-" + need
            made.append({"name": name, "comment": [], "lines": [f"{name} : tie.Need-{need}"] + unfolding + [f"{name} {m.group(1)} = {m.group(3)}"]})
    return made


def turn(path, f):
    text = open(path, encoding="utf-8").read()
    if "tie.spec" not in text:
        return "another form"
    uses, declared = parts(text)
    uses = [u for u in uses if not u.endswith((".Statement.{statement}", ".Tie as tie"))]
    module = re.search(r"use (Rattle\.[\w.+]+)\.Tie as tie", text).group(1)
    head = [l for l in text.split("\n") if l.startswith("--")][:1] if text.startswith("--") else []
    problems, invariants, answers = [], [], []
    for d in list(declared):
        if d["name"] and "tie.spec" in "\n".join(d["lines"]):
            declared += written_in(f, d)
    own = {d["name"]: f.needs.get(f.need(NEED.search(d["lines"][0]).group(1))) for d in declared if "tie.Need-" in d["lines"][0]}
    own = {a: b for a, b in own.items() if b and a != b}
    them = helpers(f, declared, problems)
    for d in declared:
        first = d["lines"][0]
        if d["name"] and re.match(r"(invariant|decreases)-", d["name"]) and "tie." in first:
            invariants.append(invariant(f, d, problems))
        elif "tie.Need-" in first:
            new, it = answer(f, d, problems, them, own)
            if it is not None:
                answers.append(it)
        elif "tie.spec" in "\n".join(d["lines"]) or d["name"] in them:
            continue
        else:
            it = renamed(f, "\n".join(d["lines"]), None, problems)
            it = re.sub(r"tie\.((?:After|Else|Start)[\w-]*)", lambda m: "goal." + f.at.get(plain(m.group(1)), m.group(1)), it)
            answers.append("\n".join(d["comment"] + [it]) if not any(re.match(r"-- src/", c) for c in d["comment"]) else it)
    folder = os.path.dirname(path)
    os.remove(path)
    for name, these, last in (("Invariants", invariants, f"use {module}.Given as goal"), ("Answers", answers, f"use {module}.Goals as goal")):
        if these:
            body = "\n\n".join(t.strip("\n") for t in these)
            lines = used(body, uses) + [last]
            with open(os.path.join(folder, name + ".antt"), "w", encoding="utf-8") as out:
                out.write("\n".join(lines) + "\n\n" + body + "\n")
    if not os.listdir(folder):
        os.rmdir(folder)
    return ("left: " + ", ".join(sorted(set(problems)))) if problems else "turned"


def main(argv):
    names = json.load(open(argv[0]))
    Function.ensures = clauses(os.path.join(os.path.abspath(argv[1]), "..", ".."))
    crate = os.path.basename(os.path.abspath(argv[1]))
    wanted = argv[2:]
    for folder, dirs, files in sorted(os.walk(os.path.join(argv[1], "proofs"))):
        if "Proof.antt" not in files:
            continue
        at = os.path.relpath(folder, os.path.join(argv[1], "proofs")).replace(os.sep, ".")
        if wanted and at not in wanted:
            continue
        key = f"Rattle-{crate}-proofs.{at}.Lts"
        if key not in names:
            print(f"{at}: no names")
            continue
        print(f"{at}: {turn(os.path.join(folder, 'Proof.antt'), Function(names[key]))}")
    return 0


if __name__ == "__main__":
    raise SystemExit(main(sys.argv[1:]))
