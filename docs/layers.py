#!/usr/bin/env python3
"""Writes the drawing and the tables of docs/layers.md from crates.txt.

    docs/layers.py [--check]

crates.txt has the crates in groups, each behind a line '# NAME: what it is about'; the last group, tests, has the crates of tests. Each
crate stands behind those that it stands on. On the page, between the lines '<!-- from crates.txt -->' and '<!-- to here -->', stand a
drawing of the groups, and for each group a table of its crates: what each stands on, without what those stand on already, and what it
promises, which is kept as the page has it. Behind them stands which libraries each crate of tests calls.
With --check nothing is written, and the status is 1 where the page would change; it is so in any case where a crate has no promise on the
page, no group, or stands on one that comes later.
"""
import glob
import os
import re
import sys
import textwrap

ROOT = os.path.dirname(os.path.dirname(os.path.abspath(__file__)))
PAGE = f"{ROOT}/docs/layers.md"
BEGIN, END = "<!-- from crates.txt -->", "<!-- to here -->"
TESTS = "tests"
WIDTH = 82
# Modules of tests that are named after a topic, and not after the library of that name.
TOPICS = {"wfc_box_tests": ("pins",)}
# Modules of tests whose name is another form of the library's.
LIBRARIES = {"races": "wfc_race"}
# Crates of tests of the whole program, and the library by which they call it.
WHOLE, CALLED_BY = ("wfc_command_tests", "wfc_round_trip_tests"), "wfc_rows"


def groups():
    """The groups in order, each with what it is about and its crates, and for each crate the crates here that it stands on."""
    found, uses = {}, {}
    for line in open(f"{ROOT}/crates.txt", encoding="utf-8"):
        if head := re.match(r"# (\w+): (.+)", line):
            found[head.group(1)] = (head.group(2), [])
        line = line.partition("#")[0].strip()
        if line:
            name, _, rest = line.partition(":")
            if not found:
                sys.exit(f"crates.txt: {name} stands in no group")
            found[list(found)[-1]][1].append(name)
            uses[name] = rest.split()
    return found, {name: [it for it in rest if it in uses] for name, rest in uses.items()}


def below(name, uses, known={}):
    """All that a crate stands on."""
    if name not in known:
        known[name] = set(uses[name]).union(*(below(it, uses) for it in uses[name]))
    return known[name]


def least(name, uses):
    """What a crate stands on, without what those stand on already."""
    return [it for it in uses[name] if not any(it in below(other, uses) for other in uses[name])]


def disorder(found, uses):
    """The faults of crates.txt: a crate that stands before one that it stands on."""
    seen = set()
    for _, names in found.values():
        for name in names:
            for each in uses[name]:
                if each not in seen:
                    yield f"crates.txt: {name} stands on {each}, which comes later"
            seen.add(name)


def drawing(found, uses):
    """The groups as boxes, the highest on top, each with the groups that it stands on."""
    group_of = {name: group for group, (_, names) in found.items() for name in names}
    lines = []
    for group in reversed([it for it in found if it != TESTS]):
        about, names = found[group]
        on = {group_of[it] for name in names for it in uses[name]} - {group}
        on = [it for it in reversed(found) if it in on]
        inside = [f"{group}: {about}", *textwrap.wrap(" ".join(it.removeprefix("wfc_") for it in names), WIDTH - 6)]
        inside += [f"on {', '.join(on)}"] if on else []
        lines.append("+" + "-" * (WIDTH - 2) + "+")
        lines += [f"| {text if not at else '  ' + text:<{WIDTH - 4}} |" for at, text in enumerate(inside)]
    lines.append("+" + "-" * (WIDTH - 2) + "+")
    return ["```text", *lines, "```"]


def tables(found, uses, promises):
    for group, (about, names) in found.items():
        if group == TESTS:
            continue
        yield f"\n**{group}**: {about}.\n"
        yield "| Crate | Stands on | Promises |"
        yield "|---|---|---|"
        for name in names:
            on = ", ".join(f"`{it}`" for it in least(name, uses)) or "nothing"
            yield f"| `{name}` | {on} | {promises.get(name, '')} |"


def tests(found, uses):
    """For each crate of tests the libraries that it tests: that after which it is named, and those after which its modules are."""
    yield "\n**tests**: which libraries each crate of tests calls; the others are tested through those above them.\n"
    yield "| Crate | Tests of |"
    yield "|---|---|"
    for name in found.get(TESTS, ("", []))[1]:
        if name == CALLED_BY:
            continue
        if name in WHOLE:
            yield f"| `{name}` | `wfc_cli`, by `{CALLED_BY}` |"
            continue
        modules = re.findall(r"^mod (\w+);", open(f"{ROOT}/crates/{name}/src/lib.rt", encoding="utf-8").read(), re.M)
        named = {LIBRARIES.get(it, f"wfc_{it}") for it in modules if it not in TOPICS.get(name, ())} | {name.removesuffix("_tests")}
        yield f"| `{name}` | {', '.join(f'`{it}`' for it in uses if it in named)} |"


def promises_of(text):
    """What the page says that each crate promises."""
    return dict(re.findall(r"^\| `(wfc_\w+)` \|[^|]*\| (.*?) \|$", text, re.M))


def main(words):
    text = open(PAGE, encoding="utf-8").read()
    found, uses = groups()
    promises = promises_of(text)
    faults = list(disorder(found, uses))
    for group, (_, names) in found.items():
        faults += [f"docs/layers.md: {it} has no promise" for it in names if group != TESTS and not promises.get(it)]
    listed = set(uses)
    there = {os.path.basename(os.path.dirname(os.path.dirname(it))) for it in glob.glob(f"{ROOT}/crates/*/src/*.rt")}
    faults += [f"crates.txt: no line of {it}" for it in sorted(there - listed)]
    made = [*drawing(found, uses), *tables(found, uses, promises), *tests(found, uses)]
    head, _, rest = text.partition(f"{BEGIN}\n")
    wanted = f"{head}{BEGIN}\n" + "\n".join(made) + f"\n{END}\n" + rest.partition(f"{END}\n")[2]
    if wanted != text:
        if "--check" in words:
            faults.append("docs/layers.md is not as crates.txt: run docs/layers.py")
        else:
            open(PAGE, "w", encoding="utf-8").write(wanted)
            print("docs/layers.md: written")
    for each in faults:
        print(each)
    print(f"{len(uses)} crates in {len(found)} groups, {len(faults)} faults")
    return 1 if faults else 0


if __name__ == "__main__":
    sys.exit(main(sys.argv[1:]))
