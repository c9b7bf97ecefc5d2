#!/usr/bin/env python3
"""Times the program beside the peer on cases that are drawn: any of the samples, N 2 or 3, symmetry 1, 2, 4 or 8, other sides and seeds.

    draws.py --peer CMD --wfc CMD [--seed 1] [--count 24] [--reps 5] [--sides 48,256] [--patterns 16,397] [--budget 100] [--split]

A case counts where the peer makes a map at its first try, of a sample with so many patterns, and the program makes one within the
budget. In half of the cases the map is a square, and in seven of ten it wraps. A row has the least processor time and the least peak of --reps runs,
which the two take in turn; each map of the program is held to its sample, as by bench.py. The same seed draws the same cases.
With --split a row has, beside that, the least instructions of both, counted by callgrind.
The last line has the geometric means and the greatest ratios. Status 0 where no map is wrong and enough cases count, else 1.
"""
import argparse
import math
import os
import random
import re
import shlex
import subprocess
import sys
import tempfile

HERE = os.path.dirname(os.path.abspath(__file__))
sys.dont_write_bytecode = True
sys.path.insert(0, HERE)
import bench  # noqa: E402

SAMPLES = sorted(name[:-4] for name in os.listdir(f"{HERE}/samples"))


def drawn(dice, low, high):
    """A case that may count."""
    width = dice.randint(low, high)
    height = dice.randint(low, high) if dice.random() < 0.5 else width
    flags = ["--wrap-in"] + ["--wrap-out"] * (dice.random() < 0.7)
    name, n, symmetry = dice.choice(SAMPLES), dice.choice([2, 3]), dice.choice([1, 2, 4, 8])
    return dict(name=name, n=n, w=width, h=height, s=symmetry, seed=dice.randint(1, 99), flags=flags)


def words_of(case, budget):
    words = [f"{HERE}/samples/{case['name']}.txt", case["n"], case["w"], case["h"], "--symmetry", case["s"], *case["flags"]]
    return [*map(str, words), "--seed", str(case["seed"]), "--budget", budget, "--rule", "fewest"]


def instructions(words):
    """How many millions of instructions a run takes."""
    call = ["valgrind", "--tool=callgrind", "--callgrind-out-file=/dev/null", *words]
    said = subprocess.run(call, stdout=subprocess.DEVNULL, stderr=subprocess.PIPE, text=True).stderr
    return int(re.search(r"refs:\s+([\d,]+)", said)[1].replace(",", "")) / 1e6


def main():
    ask = argparse.ArgumentParser(description=__doc__, formatter_class=argparse.RawDescriptionHelpFormatter)
    ask.add_argument("--peer", required=True)
    ask.add_argument("--wfc", required=True)
    ask.add_argument("--seed", type=int, default=1)
    ask.add_argument("--count", type=int, default=24)
    ask.add_argument("--reps", type=int, default=5)
    ask.add_argument("--sides", default="48,256")
    ask.add_argument("--patterns", default="16,397")
    ask.add_argument("--budget", default="100")
    ask.add_argument("--seconds", type=int, default=60)
    ask.add_argument("--split", action="store_true")
    o = ask.parse_args()
    sides, patterns = ([int(it) for it in text.split(",")] for text in (o.sides, o.patterns))
    programs = {"peer": shlex.split(o.peer), "wfc": [*shlex.split(o.wfc), "fill"]}
    dice, rows, tries, all_well = random.Random(o.seed), [], 0, True

    with tempfile.TemporaryDirectory(prefix="wfc-draws-") as room:
        measure, out = f"{room}/measure", f"{room}/map"
        subprocess.run(["cc", "-O2", "-o", measure, f"{HERE}/measure.c"], check=True)

        def run(which, words):
            """The processor time in milliseconds, the peak in megabytes and the status."""
            call = [measure, str(o.seconds), out, *programs[which], *words]
            _, user, system, peak, status = map(int, subprocess.run(call, capture_output=True, text=True, check=True).stdout.split())
            return (user + system) / 1000, peak / 1024, status

        print(f"{'case':<34}{'patterns':>9}{'peer ms':>10}{'wfc ms':>10}{'time':>7}{'memory':>8}")
        while len(rows) < o.count:
            tries += 1
            if tries > 100 * o.count:
                sys.exit(f"only {len(rows)} of {tries - 1} cases count")
            case = drawn(dice, *sides)
            words = words_of(case, o.budget)
            said = subprocess.run([*programs["peer"], *words], stdout=subprocess.DEVNULL, stderr=subprocess.PIPE, text=True).stderr
            told = dict(re.findall(r"(\w+)=(\S+)", said))
            if told.get("result") != "map" or not patterns[0] <= int(told["patterns"]) <= patterns[1]:
                continue
            status = run("wfc", words)[2]
            if status not in (0, 1, 2):
                sys.exit(f"status {status} of {shlex.join([*programs['wfc'], *words])}")
            if status != 0:
                continue
            wrong = bench.fault(case, f"{HERE}/samples/{case['name']}.txt", out)
            all_well &= wrong is None
            ran = {which: [] for which in programs}
            for _ in range(o.reps):
                for which in programs:
                    ran[which].append(run(which, words))
            least = {which: [min(one[k] for one in runs) for k in (0, 1)] for which, runs in ran.items()}
            time, memory = (least["wfc"][k] / least["peer"][k] for k in (0, 1))
            rows.append((time, memory))
            title = f"{case['name']} N{case['n']} s{case['s']} {case['w']}x{case['h']} seed {case['seed']}{'' if len(case['flags']) == 2 else ' edges'}"
            line = f"{title:<34}{told['patterns']:>9}{least['peer'][0]:>10.1f}{least['wfc'][0]:>10.1f}{time:>7.2f}{memory:>8.2f}"
            if o.split:
                counts = [instructions([*programs[which], *words]) for which in programs]
                line += f"  {counts[1]:.1f} of {counts[0]:.1f} million instructions, {counts[1] / counts[0]:.2f}"
            print(line + (f"  WRONG {wrong}" if wrong else ""), flush=True)

    mean = lambda xs: math.exp(sum(map(math.log, xs)) / len(xs))
    times, memories = zip(*rows)
    print(f"time: mean {mean(times):.3f}, most {max(times):.2f}; memory: mean {mean(memories):.3f}, most {max(memories):.2f}")
    return 0 if all_well else 1


if __name__ == "__main__":
    sys.exit(main())
