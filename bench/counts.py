#!/usr/bin/env python3
"""Instructions of runs, counted by valgrind (callgrind), which other work on the machine doesn't change.

    counts.py --wfc PROGRAM [--only WORD]

start    a word that is no command, the tiniest `fill`, and a usual one; and what of the first is spent in functions whose names have
         'choos': the choosers are made before the words are read.
races    on cases that take nothing back: `fill`; a race of one with the greatest quantum, with that seed; a race of eight with quantums of
         1 and 1,000, beside `fill` of the seed that wins, which has made its whole run when the race ends.
memory   the greatest resident memory of a race of one and of eight.
"""
import argparse
import os
import re
import subprocess
import sys
import tempfile

HERE = os.path.dirname(os.path.abspath(__file__))
sys.dont_write_bytecode = True
sys.path.insert(0, HERE)
import timed  # noqa: E402

CASES = [("town", 48, 1), ("caves", 48, 1), ("birds", 48, 1), ("halls", 48, 3)]


def counted(words, inclusive=None):
    """The instructions of a run and what it writes; with a pattern also those spent in the functions so named, inclusively."""
    with tempfile.TemporaryDirectory() as room:
        out = f"{room}/counts"
        ran = subprocess.run(["valgrind", "--tool=callgrind", f"--callgrind-out-file={out}", *words], capture_output=True, check=False)
        total = int(re.search(rb"Collected : (\d+)", ran.stderr).group(1))
        if inclusive is None:
            return total, ran.stdout
        annotate = ["callgrind_annotate", "--inclusive=yes", "--threshold=100", out]
        told = subprocess.run(annotate, capture_output=True, text=True, check=False).stdout
        rows = re.findall(r"^\s*([\d,]+) \([^)]*\)\s+(.*)$", told, re.M)
        return total, [(int(count.replace(",", "")), name[:100]) for count, name in rows if re.search(inclusive, name, re.I)]


def start(wfc, room):
    with open(f"{room}/chk.txt", "w") as file:
        file.write("ab\nba\n")
    none, named = counted([wfc, "paint"], "choos|bucket|scanning")
    tiny, _ = counted([wfc, "fill", f"{room}/chk.txt", "2", "2", "2"])
    usual = [wfc, "fill", f"{HERE}/samples/town.txt", "3", "48", "48", "--symmetry", "8", "--wrap-in", "--wrap-out", "--seed", "1"]
    usual, _ = counted(usual)
    print(f"start: no command {none:,}, the tiniest fill {tiny:,}, a usual one {usual:,} instructions")
    for count, name in named[:12]:
        print(f"  {count:>12,}  {100 * count / tiny:6.2f} % of the tiniest, {100 * count / usual:6.3f} % of a usual one  {name}")


def races(wfc, only):
    for name, side, seed in CASES:
        if only not in name:
            continue
        words = [f"{HERE}/samples/{name}.txt", "3", str(side), str(side), "--symmetry", "8", "--wrap-in", "--wrap-out"]
        alone, _ = counted([wfc, "fill", *words, "--seed", str(seed)])
        one, _ = counted([wfc, "race", *words, "--seed", str(seed), "--seeds", "1", "--quantum", "1000000"])
        print(f"{name} {side}: fill {alone:,}, a race of one {one:,}: {one / alone:.3f}", flush=True)
        for quantum in ("1", "1000"):
            eight, said = counted([wfc, "race", *words, "--seed", str(seed), "--seeds", "8", "--quantum", quantum])
            won = said.split()[1].decode()
            share, _ = counted([wfc, "fill", *words, "--seed", won])
            print(f"  eight, quantum {quantum}: {eight:,}, {said.decode().strip()}: {eight / share:.2f} of fill with that seed", flush=True)
        peaks = [timed.run([wfc, "race", *words, "--seed", str(seed), "--seeds", seeds], 600).megabytes for seeds in ("1", "8")]
        print(f"  memory of one {peaks[0]:.1f} MB, of eight {peaks[1]:.1f} MB", flush=True)


def main():
    ask = argparse.ArgumentParser(description=__doc__, formatter_class=argparse.RawDescriptionHelpFormatter)
    ask.add_argument("--wfc", required=True)
    ask.add_argument("--only", default="")
    o = ask.parse_args()
    with tempfile.TemporaryDirectory() as room:
        start(os.path.abspath(o.wfc), room)
    races(os.path.abspath(o.wfc), o.only)


if __name__ == "__main__":
    main()
