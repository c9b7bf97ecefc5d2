#!/usr/bin/env python3
"""Writes the tables of wrong bodies on the pages of docs/crates from the edits that the check refuses.

    docs/tables.py [--check]

The page of a crate has a table under 'Wrong bodies', with a name in the first column for each file crates/NAME/must-fail/*.edit. What
the other columns say of an edit is the first line of its file that is none of 'file:', 'old:' and 'new:', cells parted by ' | '; else what
the table says of it already; else the function that it turns. Names of edits that are gone are taken out.
With --check no page is written, and the status is 1 where one would change, with a line for each.
"""
import glob
import os
import re
import sys

ROOT = os.path.dirname(os.path.dirname(os.path.abspath(__file__)))
HEAD = "## Wrong bodies"
TABLE = re.compile(r"^\|.*\n\|[-| ]+\|\n(?:\|.*\n)*", re.M)


def parts_of(path):
    """The first free line of an edit's file, if there is one, and what it turns: the file and the text."""
    free, turned = None, {}
    for line in open(path, encoding="utf-8"):
        key, colon, text = line.rstrip("\n").partition(": ")
        if colon and key in ("file", "old", "new"):
            turned.setdefault(key, text)
        elif line.strip() and free is None:
            free = line.strip()
    return free, turned.get("file", ""), turned.get("old", "")


def function_of(crate, file, old):
    """The function whose body has the text, and its file."""
    name = None
    for line in open(f"{ROOT}/crates/{crate}/{file}", encoding="utf-8"):
        if head := re.match(r"\s*(?:pub(?:\(crate\))? )?(?:const )?fn (\w+)", line):
            name = head.group(1)
        if old.strip() in line:
            break
    return f"`{name}`, in `{file}`" if name else f"`{file}`"


def cells_of(row):
    """The cells of a row."""
    return [cell.strip() for cell in row.strip().strip("|").split(" | ")]


def table_of(crate, old_rows):
    """The rows of a table for all edits of a crate, those that are there in their order."""
    columns = len(cells_of(old_rows[0]))
    edits = {os.path.basename(path)[: -len(".edit")]: parts_of(path) for path in glob.glob(f"{ROOT}/crates/{crate}/must-fail/*.edit")}
    rows, named = [], set()
    for row in old_rows[2:]:
        names = [name for name in re.findall(r"`(\w+)`", cells_of(row)[0]) if name in edits]
        told = " | ".join(cells_of(row)[1:])
        kept = [name for name in names if edits[name][0] in (None, told)]
        if kept:
            rows.append((kept, told))
            named.update(kept)
    for name in sorted(set(edits) - named):
        free, file, old = edits[name]
        told = free or " | ".join([function_of(crate, file, old)] * (columns - 1))
        rows.append(([name], told))
    return old_rows[:2] + ["| {} | {} |".format(", ".join(f"`{name}`" for name in names), told) for names, told in rows]


def page_of(crate, text):
    """The page with its table as it should be; where there is none, it begins with one."""
    if HEAD not in text:
        text = text.rstrip("\n") + f"\n\n{HEAD}\n"
    start = text.index(HEAD)
    end = text.find("\n## ", start)
    section = text[start : end if end >= 0 else len(text)]
    if not (rows := TABLE.search(section)):
        section = section.replace(HEAD, f"{HEAD}\n\n| Edit | Refused by |\n|---|---|", 1).rstrip("\n") + "\n"
        rows = TABLE.search(section)
    table = "\n".join(table_of(crate, rows.group(0).rstrip("\n").split("\n"))) + "\n"
    return text[:start] + section[: rows.start()] + table + section[rows.end() :] + (text[end:] if end >= 0 else "")


def main(words):
    check = words == ["--check"]
    changed = False
    for path in sorted(glob.glob(f"{ROOT}/crates/*/must-fail")):
        crate = os.path.basename(os.path.dirname(path))
        page = f"{ROOT}/docs/crates/{crate}.md"
        if not os.path.exists(page):
            print(f"{crate}: no page")
            changed = True
            continue
        text = open(page, encoding="utf-8").read()
        wanted = page_of(crate, text)
        if wanted != text:
            changed = True
            print(f"docs/crates/{crate}.md: {'other edits than the crate has' if check else 'written'}")
            if not check:
                open(page, "w", encoding="utf-8").write(wanted)
    return 1 if check and changed else 0


if __name__ == "__main__":
    sys.exit(main(sys.argv[1:]))
