#!/usr/bin/env python3
"""Looks for each clause that docs/theorem.md names, and for each law of docs/commands.md by which a limit is a plain number.

    docs/clauses.py

A row of a table with the columns Call and Clause names calls, as `wfc_grid::read`, and in the next column the clauses of each, those of one
call parted by ',' and those of the next behind ';'. A row with the column Clause alone names clauses of wfc_cli::run, or a call of
its own. A clause is there where a function of that name, in a file of crates/NAME/src, has a line 'ensures CLAUSE'. A part of a clause is
there where the definition that the clause begins with is a record with that field, or names one in its body, in a file of crates/*/specs;
a part of a part, as `fill.legal`, where the field's type is such a definition again. A part is named without its clause.
A row with the columns Limit and Law names laws of a crate, each with its clauses in brackets or without: '`law` (`clause`) of `crate`'. The
crate of one that names none is that of the law before it.
Status 0 where all are there, else 1 with a line for each that is not.
"""
import glob
import os
import re
import sys

ROOT = os.path.dirname(os.path.dirname(os.path.abspath(__file__)))
TOP = "wfc_cli::run"


def clauses_of(crate):
    """The names of the clauses of each function of a crate, by the name of the function, and of its type in front."""
    found = {}
    for path in glob.glob(f"{ROOT}/crates/{crate}/src/**/*.rt", recursive=True):
        owner = name = None
        for line in open(path, encoding="utf-8"):
            is_head = line[:4] in ("impl", "trai", "pub ")
            if is_head and (head := re.match(r"(?:pub )?(?:impl(?:<[^>]*>)? (?:[^{]* for )?|trait )(\w+)", line)):
                owner = head.group(1)
            if line.startswith("}"):
                owner = None
            if head := re.match(r"\s*(?:pub(?:\(crate\))? )?fn (\w+)", line):
                name = f"{owner}::{head.group(1)}" if owner and line[0] == " " else head.group(1)
            if clause := re.match(r"\s*ensures (\w+)(?: \{ (\w+))?", line):
                found.setdefault(name, {})[clause.group(1)] = clause.group(2)
    return found


def definitions():
    """The records of all specs, each with the definition that each of its fields begins with, and the other definitions with the names in
    their bodies."""
    records, bodies = {}, {}
    for path in glob.glob(f"{ROOT}/crates/*/specs/*.antt"):
        text = open(path, encoding="utf-8").read()
        for head in re.finditer(r"^pub record (\w+)(?:.|\n)*? where\n((?:  .*\n)+)", text, re.M):
            records[head.group(1)] = dict(re.findall(r"^  pub (\w+) : (\w*)", head.group(2), re.M))
        for head in re.finditer(r"^abbrev pub (\w+) :(?:.|\n)*?\n\1 [^=]*=\s*(.*(?:\n    .*)*)", text, re.M):
            bodies[head.group(1)] = re.findall(r"\w+", head.group(2))
    return records, bodies


def part(name, field, records, bodies):
    """The definition that a field begins with, of the record of this name or of one that its body names; None where there is none."""
    for each in [name] + bodies.get(name, []):
        if field in records.get(each, {}):
            return records[each][field]
    return None


def is_there(word, found, records, bodies):
    """Whether a call with these clauses has the clause, or the part of one."""
    first, *fields = word.split(".")
    names = [found[first]] if first in found else [part(name, first, records, bodies) for name in found.values()]
    for field in fields:
        names = [part(name, field, records, bodies) for name in names if name is not None]
    return any(name is not None for name in names) or (first in found and not fields)


def rows(path):
    """The rows of the page's tables, with the names of their columns."""
    columns = None
    for line in open(path, encoding="utf-8"):
        if not line.startswith("|"):
            columns = None
            continue
        cells = [cell.strip() for cell in line.strip().strip("|").split("|")]
        if columns is None:
            columns = cells
        elif not set(line.strip()) <= set("|-"):
            yield dict(zip(columns, cells))


def named(row):
    """The calls of a row, each with its clauses."""
    groups = [re.findall(r"`([\w:.]+)`", part) for part in row.get("Clause", "").split(";")]
    if "Call" in row:
        calls = re.findall(r"`(wfc_\w+::[\w:]+)`", row["Call"])
        if calls and len(calls) != len(groups):
            yield row["Call"], ["(as many groups of clauses as calls)"]
        yield from zip(calls, groups)
        return
    call = TOP
    for word in groups[0]:
        if "::" in word:
            call = word
        else:
            yield call, [word]


def lawful(row):
    """The laws of a row, each as a call, with the clauses in its brackets."""
    crate = None
    for part in row.get("Law", "").split(";"):
        laws, _, behind = part.partition(" of `")
        crate = re.match(r"\w+|", behind).group() or crate
        for law, clauses in re.findall(r"`(\w+)`(?: \(([^)]*)\))?", laws):
            yield f"{crate}::{law}", re.findall(r"`(\w+)`", clauses)


def main():
    crates, missing, count = {}, [], 0
    records, bodies = definitions()
    for row in rows(f"{ROOT}/docs/theorem.md"):
        for call, clauses in named(row):
            crate, _, function = call.partition("::")
            found = crates.setdefault(crate, clauses_of(crate)).get(function, {})
            count += len(clauses)
            missing += [f"{call} {clause}" for clause in clauses if not is_there(clause, found, records, bodies)]
    for row in rows(f"{ROOT}/docs/commands.md"):
        for law, clauses in lawful(row):
            crate, _, function = law.partition("::")
            found = crates.setdefault(crate, clauses_of(crate)).get(function, {})
            count += len(clauses) or 1
            missing += [f"{law} {clause}" for clause in clauses or ["(no such law)"] if clause not in found and (clauses or not found)]
    for each in missing:
        print(f"no clause: {each}")
    print(f"{count} clauses named, {len(missing)} missing")
    sys.exit(1 if missing or not count else 0)


if __name__ == "__main__":
    main()
