#!/usr/bin/env python3
"""Looks for clauses that are too wide, lines that are too long, and definitions without a sentence.

    docs/widths.py [--list] [--wrap]

In crates/*/src no line of a clause ('ensures' or 'requires' with its braces) has more than CLAUSE columns, and no line but an import
more than MOST; in crates/*/specs no line has more than MOST columns, and above each definition stands a sentence. A clause that names
a trait's methods at a type, between double brackets, is laid out on one line, and isn't looked at. Clauses of more than two
lines are counted, and listed with --list: where their parts have a name of their own, they are shorter. With --wrap each clause that
is too wide is broken anew between its words. Status 0 where nothing is too wide and each definition has its sentence, else 1 with a line for each.
"""
import glob
import os
import re
import sys

ROOT = os.path.dirname(os.path.dirname(os.path.abspath(__file__)))
# The layout joins what has two columns more than 100.
CLAUSE, BREAK, MOST = 102, 100, 140
HEAD = re.compile(r"\s*(?:ensures|requires)\b")
TEXT = re.compile(r'"(?:\\.|[^"\\])*"')
DEFINITION = re.compile(r"(?:(?:abbrev |unfoldable )+(?:pub )?|pub |record |data )(?!use\b|mod\b)(?:abbrev |unfoldable |record |data )*\S")
# An import, and a string of a test, stand on one line.
WHOLE = re.compile(r'\s*(?:(?:pub )?(?:ghost )?use |")')


def clauses(lines):
    """The first and the last line of each clause, by their numbers from 0."""
    first = 0
    while first < len(lines):
        last = first
        if HEAD.match(lines[first]):
            depth = 0
            while True:
                bare = TEXT.sub('""', lines[last])
                depth += bare.count("{") - bare.count("}")
                if depth <= 0 or last + 1 == len(lines):
                    break
                last += 1
            yield first, last
        first = last + 1


def words_of(text):
    """The words between blanks, each text between quotes one of them."""
    return re.findall(r'(?:"(?:\\.|[^"\\])*"|\S)+', text)


def wrapped(lines):
    """The lines of a clause, broken between its words."""
    indent = len(lines[0]) - len(lines[0].lstrip())
    found = [" " * indent]
    for word in words_of(" ".join(lines)):
        if not found[-1].strip():
            found[-1] += word
        elif len(found[-1]) + 1 + len(word) <= BREAK:
            found[-1] += " " + word
        else:
            found.append(" " * (indent + 4) + word)
    return found


def wrap(path, lines):
    """Breaks the clauses of a file that are too wide."""
    changed = False
    for first, last in reversed(list(clauses(lines))):
        part = lines[first : last + 1]
        if max(map(len, part)) > CLAUSE and not any("//" in it or "⟦" in it for it in part):
            lines[first : last + 1] = wrapped(part)
            changed = True
    if changed:
        with open(path, "w", encoding="utf-8") as file:
            file.write("\n".join(lines))


def main(words):
    said, high = [], []
    count = 0
    for path in sorted(glob.glob(f"{ROOT}/crates/*/src/**/*.rt", recursive=True)):
        name = os.path.relpath(path, ROOT)
        lines = open(path, encoding="utf-8").read().split("\n")
        if "--wrap" in words:
            wrap(path, lines)
        for first, last in clauses(lines):
            count += 1
            part = lines[first : last + 1]
            if max(map(len, part)) > CLAUSE and not any("⟦" in it for it in part):
                said.append(f"a clause of more than {CLAUSE} columns: {name}:{first + 1}")
            elif last - first > 1:
                high.append(f"a clause of {last - first + 1} lines: {name}:{first + 1}")
        said += [f"more than {MOST} columns: {name}:{i + 1}" for i, it in enumerate(lines) if len(it) > MOST and not WHOLE.match(it)]
    for path in sorted(glob.glob(f"{ROOT}/crates/*/specs/**/*.antt", recursive=True)):
        name = os.path.relpath(path, ROOT)
        lines = open(path, encoding="utf-8").read().split("\n")
        said += [f"more than {MOST} columns: {name}:{i + 1}" for i, it in enumerate(lines) if len(it) > MOST]
        for i, it in enumerate(lines):
            if DEFINITION.match(it) and not (i and lines[i - 1].startswith("--")):
                said.append(f"no sentence above: {name}:{i + 1}: {it[:60]}")
    for each in said + (high if "--list" in words else []):
        print(each)
    print(f"{count} clauses, of which {len(high)} have more than two lines")
    return 1 if said else 0


if __name__ == "__main__":
    sys.exit(main(sys.argv[1:]))
