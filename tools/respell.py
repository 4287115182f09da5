#!/usr/bin/env python3
"""Brings the names that this repository declares in specs/ and proofs/ to one spelling: types in upper camel case,
everything else in snake case. Imported names, names that Rattle makes, and functions of src/ keep theirs.

usage: python3 tools/respell.py          rewrites crates/ in place, and prints old and new names
       python3 tools/respell.py --list   only prints them
Names that would fall together are printed and left as they are. It did its work once, in the commit that docs/PORT.md
names; run again, it would take names of goals in answers for names of ours.
"""
import os
import re
import sys

KEYWORDS = r"(?:(?:abbrev|unfoldable|pub|ruleset)\s+)*"
NAME = r"([A-Za-z][\w']*(?:-[\w']+)+)"
DECLARED = re.compile(rf"^{KEYWORDS}(?:(?:record|data)\s+)?{NAME}(?=\s|$)", re.M)
MEMBER = re.compile(rf"^\s+{KEYWORDS}(?:{NAME}\s+:|(?:record|data)\s+{NAME}(?=\s|$))", re.M)
MADE = re.compile(r"^(?:invariant|decreases|loop|returns|overflow|nonzero|bounds|index|if|in|then|else|invariant_of)-|-requires(?:-|$)")


def files(ends):
    for folder, dirs, names in os.walk("crates"):
        dirs[:] = sorted(d for d in dirs if d != "out")
        for name in sorted(names):
            if name.endswith(ends):
                yield os.path.join(folder, name)


def read(path):
    with open(path, encoding="utf-8") as f:
        return f.read()


def is_type(name):
    return name[0].isupper()


def new_name(name):
    if is_type(name):
        return "".join(part[:1].upper() + part[1:] for part in name.split("-"))
    return name.replace("-", "_")


def uses(text):
    """The names that a file imports, each with the path that it comes from."""
    for m in re.finditer(r"use\s+([\w.'+-]+)\.\{([^}]*)\}", text):
        for name in m[2].split(","):
            yield name.strip().split(" as ")[0].strip(), m[1]


def declared():
    names = set()
    for path in files(".antt"):
        text = read(path)
        made = path.endswith(("Answers.antt", "Invariants.antt", "Proof.antt"))
        for m in DECLARED.finditer(text):
            if not (made and MADE.search(m[1])):
                names.add(m[1])
        if not made:
            names |= {m[1] or m[2] for m in MEMBER.finditer(text)}
    return names


def foreign():
    """The names that files import from elsewhere than this repository's own specs/ and proofs/."""
    own = set(os.listdir("crates"))
    names = {}
    for path in files((".antt", ".rt")):
        for name, source in uses(read(path)):
            parts = source.split(".")
            if parts[0] != "Rattle" or len(parts) < 2 or parts[1] not in own:
                names.setdefault(name, set()).add(source)
    return names


def taken():
    words = set()
    for path in files(".antt"):
        words |= set(re.findall(r"[A-Za-z][\w']*(?:-[\w']+)*", read(path)))
    return words


def main():
    names, others, words = declared(), foreign(), taken()
    renamed = {}
    for name in sorted(names):
        new = new_name(name)
        if name in others:
            print(f"left: {name} is also imported from {', '.join(sorted(others[name]))}")
        elif new in words or new in renamed.values():
            print(f"left: {name} would fall together with {new}")
        else:
            renamed[name] = new
    for name, new in renamed.items():
        print(f"{name} {new}")
    if "--list" in sys.argv[1:]:
        return
    pattern = re.compile(r"(?<![\w'-])(" + "|".join(sorted(map(re.escape, renamed), key=len, reverse=True)) + r")(?![\w'-])")
    for path in files((".antt", ".rt", ".edit")):
        text = read(path)
        new = pattern.sub(lambda m: renamed[m[1]], text)
        if new != text:
            with open(path, "w", encoding="utf-8") as f:
                f.write(new)


if __name__ == "__main__":
    main()
