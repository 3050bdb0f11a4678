#!/usr/bin/env python3
"""Turns the repository's own hyphenated names into today's spelling: types and facts in upper camel case, everything else in snake case.

Run once at the top of the repository, after port.py. Names of the library, of goals and of what the check makes stay.
A name is the repository's own if it stands in front of a colon, as a definition, a lemma, a field, a constructor or a variable does.
A lemma whose name begins with a fact keeps the dash behind it, as in SameStanding-of_labels.
"""
import re
import sys
from pathlib import Path

END = r"(?![^\s(){}.,;«»⌜⌝:])"
BEGIN = r"(?<![^\s(){}.,;«»⌜⌝∣])"
WORD = r"[A-Za-z][A-Za-z0-9_']*(?:-[A-Za-z0-9_'≡≤<+*/%^]+)+"
MADE = re.compile(r"^(loop|in|in_\w+|then|else|if|returns|invariant|decreases|ghost|overflow\w*|the_row|fold|rec|ind|every|roll|out|rolls)-")


def strip(line):
    """The line without its comment."""
    if line.lstrip().startswith("--"):
        return ""
    return re.sub(r"\s--\s.*$", "", line)


def own_names(files):
    """Own names, and among them those of types and facts."""
    names, types, goals = set(), set(), set()
    for path in files:
        text = path.read_text()
        for line in text.split("\n"):
            code = strip(line)
            if re.match(r"\s*(pub )?use ", code):
                continue
            goals.update(re.findall(r"(?:pub )?(" + WORD + r") : goal\.", code))
            for m in re.finditer(BEGIN + "(" + WORD + r")((?: " + WORD + r"|(?: [a-z]\w*))*) :(?!:)", code):
                names.add(m.group(1))
                names.update(re.findall(WORD, m.group(2)))
            # several fields or constructors in front of one colon, and heads with parameters
            m = re.match(r"^\s*(?:abbrev |unfoldable |pub )*(record |data )?(" + WORD + r")(?=[ :])(.*)$", code)
            if m and (m.group(1) or re.search(r"[)}] *:", m.group(3))):
                names.add(m.group(2))
            for m in re.finditer(r"(?:λ|let) (" + WORD + r")(?=[ .:])", code):
                names.add(m.group(1))
        for m in re.finditer(r" as (" + WORD + r")(?=[,}])", text):
            names.add(m.group(1))
            if m.group(1)[0].isupper():
                types.add(m.group(1))
        flat = re.sub(r"\s+", " ", "\n".join(strip(x) for x in text.split("\n")))
        for m in re.finditer(r"(?:abbrev |unfoldable |pub )*(record |data )(" + WORD + r")", flat):
            if m.group(0).startswith(("record {", "data {")):
                continue
            types.add(m.group(2))
        for m in re.finditer(r"(?:^|\n)[ ]*(?:abbrev |unfoldable |pub )+(" + WORD + r")( :|(?= [({]))", text):
            rest = text[m.end():m.end() + 2000]
            stop = re.search(r"\n\s*\n|\n(?=\S)", rest)
            sig = rest[: stop.start()] if stop else rest
            if re.search(r"Type(?: 0)?\s*$", re.sub(r"\s--\s.*", "", sig).strip()) or m.group(1)[0].isupper():
                if m.group(1)[0].isupper():
                    types.add(m.group(1))
    return names - goals, types


# A name that would fall together with a type or a variant of src/ gets another.
OTHERS = {"nth-start": "start_at", "Breach-formula": "IsBreachFormula", "Labels-exceed": "ExceedsLabels", "Standings-exceed": "ExceedsStandings"}


def camel(name):
    return "".join(p[:1].upper() + p[1:] for p in re.split(r"[-_]", name))


def new_name(name, types):
    if name in OTHERS:
        return OTHERS[name]
    if name in types:
        return camel(name)
    if name[0].isupper():
        parts = name.split("-")
        for n in range(len(parts) - 1, 0, -1):
            head = "-".join(parts[:n])
            if head in types:
                return camel(head) + "-" + "_".join(parts[n:])
        return parts[0] + "-" + "_".join(parts[1:])
    return name.replace("-", "_")


def main():
    top = Path(".")
    antt = sorted(p for p in top.glob("crates/*/*/**/*.antt") if "out" not in p.parts)
    names, types = own_names(antt)
    library = set()
    for path in antt:
        for m in re.finditer(r"^\s*(?:pub )?use (\S+?)\.\{(.*)\}$", path.read_text(), re.M):
            if not re.match(r"Rattle\.(" + "|".join(p.name for p in top.glob("crates/*")) + r")\.", m.group(1) + "."):
                library.update(x.split(" as ")[0].strip() for x in m.group(2).split(","))
    made = {n for n in names if MADE.match(n)}
    both = names & library
    names -= both
    table = {n: new_name(n, types) for n in names}
    turned = {}
    for old, new in table.items():
        turned.setdefault(new, []).append(old)
    for new, olds in sorted(turned.items()):
        if len(olds) > 1:
            print("falls together:", new, olds)
    for path in antt:
        words = set(re.findall(BEGIN + r"([A-Za-z][A-Za-z0-9_'-]*)" + END, path.read_text()))
        for old in sorted(words & set(table)):
            if table[old] in words:
                print("already in", path, ":", old, "->", table[old])
    if "--list" in sys.argv:
        for old in sorted(table):
            print(old, "->", table[old], "(looks made)" if old in made else "")
        print("of the library too:", sorted(both))
        return
    pattern = re.compile(r"\b((?:Rattle\.std|mathlib|borrow)\.[A-Za-z_.]*)?" + BEGIN + "(" + "|".join(sorted(map(re.escape, table), key=len, reverse=True)) + ")" + END)

    def turn(text):
        return pattern.sub(lambda m: m.group(0) if m.group(1) else table[m.group(2)], text)

    changed = 0
    for path in antt:
        old = path.read_text()
        new = "\n".join(turn(x) for x in old.split("\n"))
        if new != old:
            path.write_text(new)
            changed += 1
    for path in sorted(top.glob("crates/*/src/**/*.rt")):
        old = path.read_text()
        new = turn(old)
        if new != old:
            path.write_text(new)
            changed += 1
    for path in [*top.glob("docs/*.md"), top / "README.md"]:
        old = path.read_text()
        new = re.sub(r"`[^`\n]+`", lambda m: turn(m.group(0)[0] + " " + m.group(0)[1:-1] + " " + m.group(0)[-1]).replace("` ", "`", 1)[:-2] + "`", old)
        if new != old:
            path.write_text(new)
            changed += 1
    print("respell:", len(table), "names,", changed, "files")


main()
