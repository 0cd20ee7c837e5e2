#!/usr/bin/env python3
"""Brings the repository's own definitions and lemmas to snake case: `anyBelow` becomes `any_below`, `bit-wordOf` `bit-word_of`.

usage: python3 tools/respell.py        at the top, once, after port.py

Renamed are the names that files of specs/ and proofs/ declare, wherever they stand in .antt files, in clauses and `ghost use` items of .rt files and in
must-fail edits. Types, facts and modules keep their capitals; functions of src/, strings, inputs and outputs keep their names.
Stops, and writes nothing, where two names would fall together.
"""
import os
import re
import sys

# A name that already stands in another crate, where the two are not in scope together: each was looked at.
APART = {"by_mode", "entry_in", "is_name", "is_one", "next_word", "rest_from"}
# A lemma that would have the name that a definition gets.
AWAY = {"digit_at": "digit-small"}
DECLARED = re.compile(r"^\s*(?:(?:pub|abbrev|unfoldable|opaque)\s+)*([^\s:{}()=,;.|λ→]+)\s*:(?!=)")
CAMEL = re.compile(r"[a-z0-9][A-Z]")
PART = r"A-Za-z0-9_'₀-₉◌⁻μ"


def files(*endings):
    for folder, dirs, names in os.walk("crates"):
        dirs[:] = sorted(d for d in dirs if d != "out")
        for name in sorted(names):
            if name.endswith(endings):
                yield os.path.join(folder, name)


def snake(part):
    """A part between dashes: a capital inside a word that begins small starts a new one; a part that begins with a capital names a type and stays."""
    if not part or not part[0].islower():
        return part
    return re.sub(r"(?<=[a-z0-9])([A-Z]+)", lambda m: "_" + m.group(1).lower(), part)


def read(path):
    with open(path, encoding="utf-8") as f:
        return f.read()


def main():
    declared = set()
    for path in files(".antt"):
        for line in read(path).splitlines():
            m = DECLARED.match(line)
            if m:
                declared.add(m.group(1))
    turned = dict(AWAY)
    for name in declared - set(AWAY):
        new = "-".join(snake(p) for p in name.split("-"))
        if new != name:
            turned[name] = new
    seen = {}
    for old, new in sorted(turned.items()):
        if (new in declared - set(AWAY) and new not in APART) or new in seen:
            print(f"{old} and {seen.get(new, new)} would fall together")
            seen["!"] = ""
        seen[new] = old
    if "!" in seen:
        return 1
    names = sorted(turned, key=len, reverse=True)
    word = re.compile(rf"(?<![{PART}\-])(" + "|".join(map(re.escape, names)) + rf")(?![{PART}\-])")
    literal = re.compile(r'"(?:\\.|[^"\\\n])*"')
    count = 0
    for path in files(".antt", ".rt", ".edit"):
        text = read(path)
        if path.endswith(".rt"):
            done, at = [], 0
            for m in literal.finditer(text):
                done += [word.sub(lambda m: turned[m.group(1)], text[at:m.start()]), m.group(0)]
                at = m.end()
            new = "".join(done) + word.sub(lambda m: turned[m.group(1)], text[at:])
        else:
            new = word.sub(lambda m: turned[m.group(1)], text)
        if new != text:
            count += 1
            with open(path, "w", encoding="utf-8") as f:
                f.write(new)
    print(f"{len(turned)} names, {count} files")
    for old in sorted(turned):
        print(f"  {old} {turned[old]}")
    return 0


if __name__ == "__main__":
    sys.exit(main())
