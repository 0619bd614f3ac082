#!/usr/bin/env python3
"""Brings the names of this repository's definitions and lemmas to snake case.

usage: python3 tools/respell.py          run once at the top, on a tree that the kit's port.py has turned
       python3 tools/respell.py --list   says what it would rename, and what would fall together

Types, modules and constructors keep their names, and so does what a .rt file declares. Strings are left alone.
"""

import os
import re
import sys

NAME = r"[^\W\dA-Z_][\w'-]*"
WORD = re.compile(r"(?<![\w'-])" + NAME)
# in an answer, what stands right behind "c." is a step that the check names
ANSWERED = re.compile(r"(?<![\w'-])(?<!\bc\.)(?<!\bl\.)" + NAME)
DECLARES = re.compile(r"^\s*(?:abbrev |unfoldable |pub )*((?:" + NAME + r" )+):(?: |$)")
# names that would fall together with another's
APART = {
    "bit-and": "bit_of_and",
    "bit-or": "bit_of_or",
    "bit-xor": "bit_of_xor",
    "first-copying": "first_copying_law",
    "in-range": "within_range",
    "is-version": "is_a_version",
    "lowest-at": "lowest_at_most",
}
STRING = re.compile(r'"(?:[^"\\]|\\.)*"')


def texts(ends):
    for folder, dirs, files in os.walk("crates"):
        dirs[:] = sorted(d for d in dirs if d != "out")
        for name in sorted(files):
            if name.endswith(ends):
                yield os.path.join(folder, name)


def read(path):
    with open(path, encoding="utf-8") as f:
        return f.read()


def snake(name):
    name = name.replace("-", "_")
    name = re.sub(r"([a-z0-9])([A-Z])", r"\1_\2", name)
    return name.lower()


def declared():
    """The names that files of specs/ and proofs/ declare, but for the goals, which the check names."""
    found, goals = {}, set()
    for path in texts(".antt"):
        text = read(path)
        goals |= set(re.findall(r"goal\.(" + NAME + r")", text))
        for line in text.split("\n"):
            it = DECLARES.match(line)
            if it and not line.lstrip().startswith("--"):
                for name in it.group(1).split():
                    found.setdefault(name, set()).add(path)
    return {n: p for n, p in found.items() if n not in goals}


def renamings():
    names = {n: p for n, p in declared().items() if n != snake(n)}
    return {n: APART.get(n, snake(n)) for n in names}, names


def used():
    """Every word that stands anywhere, with the files where it stands."""
    found = {}
    for path in texts((".antt", ".rt")):
        for word in set(WORD.findall(read(path))):
            found.setdefault(word, set()).add(path)
    return found


def turn(text, new, strings, answers):
    def words(part):
        return (ANSWERED if answers else WORD).sub(lambda m: new.get(m.group(0), m.group(0)), part)

    if not strings:
        return words(text)
    out, at = [], 0
    for it in STRING.finditer(text):
        out += [words(text[at : it.start()]), it.group(0)]
        at = it.end()
    return "".join(out + [words(text[at:])])


def main(argv):
    new, where = renamings()
    words = used()
    into = {}
    for old, name in new.items():
        into.setdefault(name, []).append(old)
    for name, olds in sorted(into.items()):
        if len(olds) > 1:
            print(f"together: {' '.join(sorted(olds))} -> {name}")
        elif name in words:
            print(f"stands already: {olds[0]} -> {name}: {' '.join(sorted(words[name])[:4])}")
    if argv == ["--list"]:
        for old in sorted(new):
            print(f"{old} -> {new[old]}")
        return 0
    changed = 0
    for path in texts((".antt", ".rt")):
        text = read(path)
        after = turn(text, new, path.endswith(".rt"), path.endswith(("/Answers.antt", "/Invariants.antt")))
        if after != text:
            with open(path, "w", encoding="utf-8") as f:
                f.write(after)
            changed += 1
    print(f"respell: {len(new)} names, {changed} files")
    return 0


if __name__ == "__main__":
    raise SystemExit(main(sys.argv[1:]))
