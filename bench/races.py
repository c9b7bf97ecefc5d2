#!/usr/bin/env python3
"""Seeds alone and in a race, on the stubborn cases of cases.txt: what each takes of processor time and of memory.

    races.py --wfc PROGRAM [--only WORD] [--seconds 60] [--times 1]

For each case, first seeds 1 to 8 by `fill`, each alone and ended at --seconds of processor time; then races of four and of eight, from
seed 1, with a quantum of 1, 10, 100 and 1,000, with the line that they write; then races of one and of eight with a budget of 0, for
their memory. Of --times runs the one with the least time counts.
"""
import argparse
import os
import sys

HERE = os.path.dirname(os.path.abspath(__file__))
sys.dont_write_bytecode = True
sys.path.insert(0, HERE)
import bench  # noqa: E402
import timed  # noqa: E402

SAID = {0: "a map", 1: "no map", 2: "budget spent", None: "not ended"}


def main():
    ask = argparse.ArgumentParser(description=__doc__, formatter_class=argparse.RawDescriptionHelpFormatter)
    ask.add_argument("--wfc", required=True)
    ask.add_argument("--only", default="")
    ask.add_argument("--cases", default=f"{HERE}/cases.txt")
    ask.add_argument("--seconds", type=int, default=60)
    ask.add_argument("--times", type=int, default=1)
    o = ask.parse_args()
    for case in bench.read_cases(o.cases):
        title = f"{case['name']} {case['w']}x{case['h']}"
        if not case["stubborn"] or o.only not in title:
            continue
        words = [f"{HERE}/samples/{case['name']}.txt", case["n"], case["w"], case["h"]]
        words = [*map(str, [*words, "--symmetry", case["s"], *case["flags"]])]
        print(title)
        for seed in range(1, 9):
            ran = timed.least([o.wfc, "fill", *words, "--seed", str(seed)], o.seconds, o.times)
            print(f"  seed {seed}: {ran.seconds:8.2f} s {ran.megabytes:6.1f} MB  {SAID.get(ran.status, ran.status)}", flush=True)
        race = [o.wfc, "race", *words, "--seed", "1", "--seeds"]
        for seeds in ("4", "8"):
            for quantum in ("1", "10", "100", "1000"):
                ran = timed.least([*race, seeds, "--quantum", quantum], o.seconds, o.times)
                said = ran.out.decode().strip() or SAID.get(ran.status, ran.status)
                print(f"  race of {seeds}, quantum {quantum:>4}: {ran.seconds:8.2f} s {ran.megabytes:6.1f} MB  {said}", flush=True)
        for seeds in ("1", "8"):
            ran = timed.least([*race, seeds, "--budget", "0"], o.seconds, o.times)
            print(f"  race of {seeds}, budget 0: {ran.seconds:8.2f} s {ran.megabytes:6.1f} MB  {SAID.get(ran.status, ran.status)}", flush=True)


if __name__ == "__main__":
    main()
