#!/usr/bin/env python3
"""Looks over the pages: the definitions that they name, their lines and their links.

    docs/pages.py [--wrap]

Each file crates/NAME/specs/TOPIC.antt but Lib.antt is named on docs/crates/NAME.md, or with the like of it of another command: where the
page has `FillTask.antt` and the words 'and the like', LearnTask.antt is named too. No line of README.md, CONTRIBUTING.md or of a page of
docs/ has more than MOST columns. A link leads to a file that is there, and a link into a page to one of its headings.
With --wrap, lines of prose and of lists that are too long are broken at WIDTH columns; a table's row is not.
Status 0 where all is so, else 1 with a line for each that isn't.
"""
import glob
import os
import re
import sys
import textwrap

ROOT = os.path.dirname(os.path.dirname(os.path.abspath(__file__)))
MOST, WIDTH = 399, 140
PLAIN = re.compile(r"^( *)((?:[-*]|\d+\.) +)?(?=\S)")


def pages():
    """The paths of all pages."""
    found = [f"{ROOT}/README.md", f"{ROOT}/CONTRIBUTING.md"]
    found += glob.glob(f"{ROOT}/docs/*.md") + glob.glob(f"{ROOT}/docs/crates/*.md") + glob.glob(f"{ROOT}/bench/*.md")
    return sorted(it for it in found if os.path.exists(it))


def text_of(path):
    return open(path, encoding="utf-8").read()


def is_named(name, text):
    """Whether a page names a file of definitions, or the like of it."""
    last = re.sub(r"^[A-Z][a-z]+", "", name)
    items = [" ".join(it.split()) for it in re.split(r"\n(?:- |\n)", text)]
    likes = re.findall(r"`(?:specs/)?\w+?([A-Z]\w*\.antt)`", " ".join(it for it in items if "and the like" in it))
    return re.search(rf"(?<!\w){re.escape(name)}", text) is not None or last in likes


def unnamed():
    """The files of definitions that their crates' pages don't name."""
    for path in sorted(glob.glob(f"{ROOT}/crates/*/specs/*.antt")):
        crate, name = path.split(os.sep)[-3], os.path.basename(path)
        page = f"{ROOT}/docs/crates/{crate}.md"
        if name != "Lib.antt" and not crate.endswith("_tests"):
            if not os.path.exists(page):
                yield f"docs/crates/{crate}.md is not there"
            elif not is_named(name, text_of(page)):
                yield f"docs/crates/{crate}.md doesn't name specs/{name}"


def wrapped(line):
    """A line of prose or of a list, broken."""
    indent, mark = PLAIN.match(line).groups()
    rest = " " * (len(indent) + len(mark or ""))
    return textwrap.wrap(line.strip(), WIDTH, initial_indent=indent, subsequent_indent=rest, break_long_words=False, break_on_hyphens=False)


def too_long(path, wrap):
    """The numbers of lines that are too long, which are broken first if that is asked for."""
    lines, is_code = [], False
    for line in text_of(path).split("\n"):
        is_code ^= line.lstrip().startswith("```")
        is_prose = not is_code and not line.startswith(("|", "#", "    ", "<")) and line.strip()
        lines += wrapped(line) if wrap and is_prose and len(line) > MOST else [line]
    if wrap and "\n".join(lines) != text_of(path):
        open(path, "w", encoding="utf-8").write("\n".join(lines))
    return [(number, len(line)) for number, line in enumerate(lines, 1) if len(line) > MOST]


def anchors(text):
    """The anchors of a page's headings."""
    heads = re.findall(r"^#+ (.*)$", re.sub(r"^```.*?^```", "", text, flags=re.M | re.S), re.M)
    return {re.sub(r"[^\w\- ]", "", head.lower()).replace(" ", "-") for head in heads}


def dead_links(path):
    """The links of a page that lead nowhere."""
    text = re.sub(r"^```.*?^```", "", text_of(path), flags=re.M | re.S)
    for link in re.findall(r"\]\(([^)\s]+)\)", text):
        if re.match(r"\w+:", link):
            continue
        file, _, anchor = link.partition("#")
        to = os.path.normpath(f"{os.path.dirname(path)}/{file}") if file else path
        if not os.path.exists(to):
            yield link
        elif anchor and to.endswith(".md") and anchor not in anchors(text_of(to)):
            yield link


def main(words):
    faults = list(unnamed())
    for path in pages():
        name = os.path.relpath(path, ROOT)
        faults += [f"{name}:{number}: {size} columns" for number, size in too_long(path, "--wrap" in words)]
        faults += [f"{name}: no such place: {link}" for link in dead_links(path)]
    for each in faults:
        print(each)
    print(f"{len(pages())} pages, {len(faults)} faults")
    return 1 if faults else 0


if __name__ == "__main__":
    sys.exit(main(sys.argv[1:]))
