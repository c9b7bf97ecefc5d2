#!/usr/bin/env python3
"""What `explain` takes for a pins file of 64 lines, beside `fill` with the lines that hold.

    cores.py --wfc PROGRAM [--seconds 60] [--times 3] [--only WORD] [--size 48]

For each sample of cases.txt: a map of --size is made by `fill`; 62 of its pixels, evenly spread, are the first lines of pins, and
the last two pin one pixel to two symbols. So each of the 62 is dropped, as the problem without it has no map either, and for each of
the last two a map is made. Of --times runs the one with the least processor time counts.
"""
import argparse
import os
import sys
import tempfile

HERE = os.path.dirname(os.path.abspath(__file__))
sys.dont_write_bytecode = True
sys.path.insert(0, HERE)
import bench  # noqa: E402
import timed  # noqa: E402


def spelled(symbol):
    return "\\s" if symbol == " " else symbol


def main():
    ask = argparse.ArgumentParser(description=__doc__, formatter_class=argparse.RawDescriptionHelpFormatter)
    ask.add_argument("--wfc", required=True)
    ask.add_argument("--seconds", type=int, default=60)
    ask.add_argument("--times", type=int, default=3)
    ask.add_argument("--only", default="")
    ask.add_argument("--size", type=int, default=48)
    ask.add_argument("--cases", default=f"{HERE}/cases.txt")
    o = ask.parse_args()
    done = set()
    print(f"{'sample':<10}{'fill s':>9}{'fill MB':>9}{'explain s':>11}{'MB':>7}  answer")
    for case in bench.read_cases(o.cases):
        name = case["name"]
        if name in done or o.only not in name:
            continue
        done.add(name)
        sample, side = f"{HERE}/samples/{name}.txt", str(o.size)
        words = [sample, str(case["n"]), side, side, "--symmetry", str(case["s"]), *case["flags"]]
        for seed in ("3", "4", "1", "2", "5"):
            fill = timed.run([o.wfc, "fill", *words, "--seed", seed], o.seconds)
            if fill.status == 0:
                break
        if fill.status != 0:
            print(f"{name:<10} no map within the time")
            continue
        rows = fill.out.decode("latin-1").splitlines()
        symbols = sorted(set(open(sample, encoding="latin-1").read()) - {"\n"})
        places = [(k * 37 % o.size, k * 37 // o.size * 5 % o.size) for k in range(1, 64)]
        x, y = places.pop()
        other = next(s for s in symbols if s != rows[y][x])
        with tempfile.NamedTemporaryFile("w", suffix=".pins") as pins:
            held = [f"pin {a} {b} {spelled(rows[b][a])}\n" for a, b in places]
            pins.write("".join(held))
            pins.flush()
            fill = timed.least([o.wfc, "fill", *words, "--seed", seed, "--pins", pins.name], o.seconds, o.times)
            pins.write(f"pin {x} {y} {spelled(rows[y][x])}\npin {x} {y} {spelled(other)}\n")
            pins.flush()
            ran = timed.least([o.wfc, "explain", *words, "--seed", seed, "--pins", pins.name], o.seconds, o.times)
        said = ran.out.decode().replace("\n", ", ").rstrip(", ") or {1: "map exists", 2: "budget spent", None: "not ended"}.get(ran.status)
        print(f"{name:<10}{fill.seconds:>9.3f}{fill.megabytes:>9.1f}{ran.seconds:>11.3f}{ran.megabytes:>7.1f}  {said}", flush=True)


if __name__ == "__main__":
    main()
