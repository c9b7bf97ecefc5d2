#!/usr/bin/env python3
"""Looks for names that mean one thing in one crate and another thing in another.

    docs/names.py [--list] [--write]

A name is declared by 'pub' in a file of crates/*/specs, or by a public function, type, trait or constant at the margin of a file of
crates/*/src: also of a module that isn't, since definitions can name it. Names of methods, fields, variants and laws are not looked at.
Where two crates declare the same name, it has two meanings. docs/names.txt lists the names that may: those that are meant, each with its
reason, and behind the line 'to be renamed' those that nobody has parted yet. Status 0 where the names with two meanings are just these,
else 1 with a line for each that is not listed, and for each that is listed and has one meaning. With --list all are printed, each with
its crates; with --write the names that have one meaning by now are taken out of the list, and none is added.
"""
import glob
import os
import re
import sys
import textwrap

ROOT = os.path.dirname(os.path.dirname(os.path.abspath(__file__)))
LIST = f"{ROOT}/docs/names.txt"
IN_SPECS = re.compile(r"^(?:(?:abbrev |unfoldable )+pub|pub (?:abbrev |unfoldable |record |data )+)\s*([^\s:({]+)", re.M)
IN_SOURCES = re.compile(r"^pub (?:const |unsafe )*(?:fn|struct|enum|trait|type|const|static) (\w+)", re.M)
LAWS = re.compile(r"laws$|^examples$|^order$")


def declared():
    """For each name the crates that declare it."""
    found = {}
    for folder, ending, form in (("specs", "antt", IN_SPECS), ("src", "rt", IN_SOURCES)):
        for path in glob.glob(f"{ROOT}/crates/*/{folder}/**/*.{ending}", recursive=True):
            crate, *inside = os.path.relpath(path, f"{ROOT}/crates").split(os.sep)
            if folder == "specs" or not any(LAWS.search(it.removesuffix(".rt")) for it in inside[1:]):
                for name in form.findall(open(path, encoding="utf-8").read()):
                    found.setdefault(name, set()).add(crate)
    return found


def listed():
    """The names of the list that are meant, each with its reason, and those that are to be renamed."""
    meant, rest, names = {}, set(), None
    for line in open(LIST, encoding="utf-8"):
        line = line.strip()
        if line == "to be renamed":
            names = rest
        elif line and not line.startswith("#"):
            name, _, reason = line.partition(": ")
            if names is None and not reason:
                sys.exit(f"docs/names.txt: {name} has no reason")
            if names is None:
                meant[name] = reason
            else:
                rest.update(line.split())
    return meant, rest


def take_out(names):
    """Takes these names out of the list."""
    head, mark, rest = open(LIST, encoding="utf-8").read().partition("\nto be renamed\n")
    kept = [line for line in head.split("\n") if line.partition(": ")[0] not in names]
    left = textwrap.wrap(" ".join(it for it in rest.split() if it not in names), 130, break_on_hyphens=False)
    with open(LIST, "w", encoding="utf-8") as file:
        file.write("\n".join(kept) + mark + "\n".join(left) + "\n")


def main(words):
    double = {name: sorted(crates) for name, crates in declared().items() if len(crates) > 1}
    meant, rest = listed()
    if "--list" in words:
        for name in sorted(double):
            print(f"{name}: {', '.join(double[name])}")
    new = sorted(set(double) - set(meant) - rest)
    gone = sorted((set(meant) | rest) - set(double))
    if "--write" in words and gone:
        take_out(set(gone))
        gone = []
    for name in new:
        print(f"two meanings: {name} ({', '.join(double[name])})")
    for name in gone:
        print(f"one meaning by now, so out of docs/names.txt: {name}")
    print(f"{len(double)} names have two meanings: {len(set(double) & set(meant))} are meant, {len(set(double) & rest)} are to be renamed")
    return 1 if new or gone else 0


if __name__ == "__main__":
    sys.exit(main(sys.argv[1:]))
