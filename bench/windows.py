#!/usr/bin/env python3
"""Looks each window of a map up among those of its sample: nothing here is shared with the program.

    windows.py SAMPLE N MAP [--symmetry S] [--wrap-in] [--wrap-out]

SAMPLE and MAP are character grids. A window is N by N; with --symmetry S the first S of its eight images count: it, its reflection, both
turned once, both turned twice, both turned three times. Says how many windows there are and how many different ones; status 0 where the
sample has them all, else 1 with the place of the first that it lacks.
"""
import argparse
import sys


def grid(path):
    return open(path, "rb").read().split(b"\n")[:-1]


def windows(rows, n, wraps):
    """Each window with its place, row by row."""
    height, width = len(rows), len(rows[0])
    if wraps:
        rows = [(row + row * n)[: width + n - 1] for row in (rows + rows * n)[: height + n - 1]]
    for y in range(len(rows) - n + 1):
        strip = rows[y : y + n]
        for x in range(len(rows[0]) - n + 1):
            yield x, y, b"".join(row[x : x + n] for row in strip)


def images(window, n):
    """The eight images of a window: it and its reflection, turned by none to three quarters."""
    cells = [[window[y * n + x] for x in range(n)] for y in range(n)]
    for _ in range(4):
        yield bytes(cell for row in cells for cell in row)
        yield bytes(cell for row in cells for cell in reversed(row))
        cells = [[cells[x][n - 1 - y] for x in range(n)] for y in range(n)]


def main():
    ask = argparse.ArgumentParser(description=__doc__, formatter_class=argparse.RawDescriptionHelpFormatter)
    ask.add_argument("sample")
    ask.add_argument("n", type=int)
    ask.add_argument("map")
    ask.add_argument("--symmetry", type=int, default=1)
    ask.add_argument("--wrap-in", action="store_true")
    ask.add_argument("--wrap-out", action="store_true")
    o = ask.parse_args()
    known = {image for _, _, window in windows(grid(o.sample), o.n, o.wrap_in) for image in list(images(window, o.n))[: o.symmetry]}
    seen, count = set(), 0
    for x, y, window in windows(grid(o.map), o.n, o.wrap_out):
        count += 1
        if window not in seen:
            if window not in known:
                print(f"the window at {x} {y} is not one of the sample's")
                return 1
            seen.add(window)
    print(f"{count} windows, {len(seen)} different ones, each one of the sample's")
    return 0


if __name__ == "__main__":
    sys.exit(main())
