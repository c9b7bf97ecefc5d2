#!/usr/bin/env python3
"""How many of twenty seeds end within a small budget, and in what time, on the stubborn cases of cases.txt.

    stubborn.py --wfc PROGRAM [--seeds 20] [--budget 100] [--seconds 60] [--only WORD] [--rule fewest]

Each seed from 1 on is a `fill` of its own, ended at --seconds of processor time. A row has how many seeds end with a map, without one,
with their budget spent, and not at all; and the least, the middle and the greatest processor time of a run, and the sum of all.
"""
import argparse
import os
import statistics
import sys

HERE = os.path.dirname(os.path.abspath(__file__))
sys.dont_write_bytecode = True
sys.path.insert(0, HERE)
import bench  # noqa: E402
import timed  # noqa: E402


def main():
    ask = argparse.ArgumentParser(description=__doc__, formatter_class=argparse.RawDescriptionHelpFormatter)
    ask.add_argument("--wfc", required=True)
    ask.add_argument("--seeds", type=int, default=20)
    ask.add_argument("--budget", default="100")
    ask.add_argument("--seconds", type=int, default=60)
    ask.add_argument("--only", default="")
    ask.add_argument("--rule", default="fewest")
    ask.add_argument("--cases", default=f"{HERE}/cases.txt")
    o = ask.parse_args()
    print(f"{'case':<17}{'map':>5}{'none':>6}{'spent':>7}{'not ended':>11}{'least s':>9}{'middle s':>10}{'most s':>9}{'sum s':>9}")
    for case in bench.read_cases(o.cases):
        title = f"{case['name']} {case['w']}x{case['h']}"
        if not case["stubborn"] or o.only not in title:
            continue
        words = [o.wfc, "fill", f"{HERE}/samples/{case['name']}.txt", case["n"], case["w"], case["h"]]
        words += ["--symmetry", case["s"], *case["flags"], "--budget", o.budget, "--rule", o.rule, "--seed"]
        ran = [timed.run([*map(str, words), str(seed)], o.seconds) for seed in range(1, o.seeds + 1)]
        ends = [sum(one.status == status for one in ran) for status in (0, 1, 2, None)]
        if sum(ends) != o.seeds:
            sys.exit(f"{title}: statuses {sorted({one.status for one in ran}, key=str)}")
        took = sorted(one.seconds for one in ran)
        row = f"{title:<17}{ends[0]:>5}{ends[1]:>6}{ends[2]:>7}{ends[3]:>11}"
        row += f"{took[0]:>9.2f}{statistics.median(took):>10.2f}{took[-1]:>9.2f}{sum(took):>9.2f}"
        print(row, flush=True)


if __name__ == "__main__":
    main()
