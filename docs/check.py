#!/usr/bin/env python3
"""Runs every script that holds the documents to the repository, and fails where one of them does.

    docs/check.py

clauses   each clause that docs/theorem.md names is there
names     no name has a second meaning in another crate, but those of docs/names.txt
widths    no clause and no line is too wide, and above each definition stands a sentence
layers    the drawing and the tables of docs/layers.md are those of crates.txt
tables    each must-fail edit stands in the table of its crate's page
pages     each file of definitions is named on its crate's page, no page has a line that is too long, and no link leads nowhere
help      `./wfc help` says of each word what the program takes
A second or two, without a build. What needs the program is run by docs/cookbook.py.
"""
import os
import subprocess
import sys

HERE = os.path.dirname(os.path.abspath(__file__))
SCRIPTS = ("clauses", "names", "widths", "layers --check", "tables --check", "pages", "help")


def main():
    failed = []
    for each in SCRIPTS:
        name, *words = each.split()
        print(f"== {name}", flush=True)
        if subprocess.run([sys.executable, f"{HERE}/{name}.py", *words]).returncode:
            failed.append(name)
    print(f"failed: {', '.join(failed)}" if failed else "all agree")
    return 1 if failed else 0


if __name__ == "__main__":
    sys.exit(main())
