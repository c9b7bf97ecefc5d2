#!/usr/bin/env python3
"""Cuts what `grow` writes of a stuck block into the block's pins and its refutation, and prints the words of the `check` that accepts it.

    python3 examples/stuck_block.py SAMPLE NAME < TEXT

TEXT is what `grow` wrote with status 8, and SAMPLE the file that it grew a map of. The lines of pins go to NAME.pins and the refutation to
NAME.ref, both as they stand in TEXT. N, the sides, the symmetry and the wrapping of the words stand in the head of the refutation.
Status 0; 1 where TEXT is of no stuck block, and then nothing is written; 3 where the words are others. Whether the refutation is one is
not looked at here: that is what `check` is for.
"""
import itertools
import re
import shlex
import shutil
import sys

FRONT = re.compile(rb"stuck \d+ \d+ (\d+ \d+) pins (\d+)\n")
PIN = re.compile(rb"(?:pin|ban) \d+ \d+ \S+\n")
HEAD = re.compile(rb"wfc-refutation 2\ncells \d+ values \d+\nfor (\d+) (\d+ \d+) 1 (\d) ([01]) 0\n")


def main(words):
    if len(words) != 2:
        print(__doc__.split("\n\n")[1].strip(), file=sys.stderr)
        return 3
    sample, name = words
    text = sys.stdin.buffer
    front = FRONT.fullmatch(text.readline())
    pins = list(itertools.islice(iter(text.readline, b""), int(front[2]) if front else 0))
    head = b"".join(text.readline() for _ in range(3))
    found = HEAD.fullmatch(head)
    if not front or len(pins) != int(front[2]) or not found or found[2] != front[1] or not all(map(PIN.fullmatch, pins)):
        print("stuck_block.py: this is not the text of a stuck block", file=sys.stderr)
        return 1
    with open(f"{name}.pins", "wb") as file:
        file.writelines(pins)
    with open(f"{name}.ref", "wb") as file:
        file.write(head)
        shutil.copyfileobj(text, file)
    n, sides, symmetry, wraps = (part.decode() for part in found.groups())
    said = ["check", sample, n, *sides.split(), f"{name}.ref", "--pins", f"{name}.pins", "--symmetry", symmetry]
    print(shlex.join(said + ["--wrap-in"] * int(wraps)))
    return 0


if __name__ == "__main__":
    sys.exit(main(sys.argv[1:]))
