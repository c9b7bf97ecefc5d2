#!/usr/bin/env python3
"""Compares the built program with a second implementation on random small cases of every command.

    bench/differ.py [--wfc PROGRAM] [--seed S] [--count N] [--processes P] [--only COMMAND] [--case K]

PROGRAM is crates/wfc_app/out/wfc_app if it isn't given. The second implementation, bench/judge, is in Python, was written from
docs/commands.md and docs/formats.md, and shares nothing with the program. It makes the defined run, so that a map, the words of a
race, a core or a grown map must be the same byte by byte. Beside that a map is held to the definition of a legal one, 'no map' to a
search that tries all maps where that takes few steps, and the text of a refutation to a checker and to the choices and dead ends of the
run. A refutation that the program wrote is then given to `check` and `upgrade`, that of a box to `box-check`, and that of a stuck block,
with the block's pins, to `check`.

Case K of a seed is the same at each call, whatever the count. Each difference is printed with its words and its files. The table
counts the cases by command and status; 'long' are those whose run takes the judge too many turns, which are not compared. What PROGRAM
lacks is said, and of these commands the judge's answers alone are held to one another ('alone').
Status 0 where nothing differs, else 1.
"""
import argparse
import multiprocessing
import os
import random
import shutil
import subprocess
import sys
import tempfile
import time

HERE = os.path.dirname(os.path.abspath(__file__))
sys.dont_write_bytecode = True
sys.path.insert(0, HERE)
from judge import answers, cases, turns  # noqa: E402

SECONDS = 60
TOWER = {"t.toml": b"[[tile]]\nname = 'a'\nclass = 'X'\n", "s.txt": b"a\n"}
PROBES = {
    "grow": "grow s.txt 1 1 1",
    "box-fill": "box-fill t.toml 1 1 1",
    "box-refute": "box-refute t.toml 1 1 1",
    "box-check": "box-check t.toml 1 1 1 none.ref",
    "race": "race s.txt 1 1 1 --seeds 1",
    "explain": "explain s.txt 1 1 1 --pins none.txt",
}


def put(room, folder):
    os.mkdir(room)
    for name, data in folder.items():
        with open(os.path.join(room, name), "wb") as file:
            file.write(data)


def run(program, room, said):
    try:
        how = dict(cwd=room, env={}, stdin=subprocess.DEVNULL, capture_output=True, timeout=SECONDS, check=False)
        told = subprocess.run([program, *said], **how)
    except subprocess.TimeoutExpired:
        return "it did not end", b"", b""
    return told.returncode, told.stdout, told.stderr


def shown(data):
    return repr(data if len(data) <= 2000 else data[:2000] + b"..")


def report(at, said, folder, fault):
    text = f"case {at}: {fault}\n  words {said}\n"
    return text + "".join(f"  {name} {shown(data)}\n" for name, data in sorted(folder.items()))


def compare(program, room, at, said, folder, lacks):
    """One case: its row of the table, a report of a difference or nothing, and what the program wrote."""
    command = said[0] if said and said[0] in answers.COMMANDS else "(none)"
    try:
        wanted = answers.answer(said, folder)
    except turns.Long:
        return (command, "long"), "", None
    except AssertionError as fault:
        return (command, "judge"), report(at, said, folder, f"the judge differs from itself: {fault}"), None
    if command in lacks:
        return (command, "alone"), "", None
    put(room, folder)
    try:
        got = run(program, room, said)
        fault = wanted.difference(*got)
    finally:
        shutil.rmtree(room)
    return (command, str(wanted.status)), report(at, said, folder, fault) if fault else "", got


def follow(said, folder, written):
    """The cases that a refutation which the program wrote makes."""
    folder, kept, at = {**folder, "made.ref": written}, [], 1
    while at < len(said):
        word = said[at]
        name = word[2:].partition("=")[0] if word.startswith("--") else ""
        step = 2 if name and "=" not in word and name not in cases.words.FLAGS else 1
        if name not in ("seed", "budget", "rule", "format"):
            kept += said[at : at + step]
        at += step
    followers = ["check", "upgrade"] if said[0] == "refute" else ["box-check"]
    return [([command, *kept, "made.ref"], folder) for command in followers]


def follow_stuck(said, folder, written):
    """The case that the text of a stuck block makes: its refutation is checked with its pins."""
    asked = cases.words.request(said)
    head, _, rest = written.partition(b"\n")
    width, height, count = head.split()[3], head.split()[4], int(head.split()[6])
    lines = rest.split(b"\n", count)
    folder = {**folder, "made.pins": b"".join(line + b"\n" for line in lines[:count]), "made.ref": lines[count]}
    made = ["check", "--pins", "made.pins", "--symmetry", str(asked["symmetry"]), *["--wrap-in"] * asked.get("wrap-in", False), "--"]
    return made + [asked["file"], str(asked["MODEL"]), width.decode(), height.decode(), "made.ref"], folder


def work(program, seed, first, step, count, commands, lacks, queue):
    table, reports = {}, []
    with tempfile.TemporaryDirectory(prefix="wfc-differ-") as place:
        for at in range(first, count, step):
            r = random.Random(f"{seed} {at}")
            waiting = [(at, *cases.case(r, commands))]
            while waiting:
                name, said, folder = waiting.pop()
                row, fault, got = compare(program, os.path.join(place, "room"), name, said, folder, lacks)
                table[row] = table.get(row, 0) + 1
                reports += [fault] if fault else []
                if got and got[0] == 0 and said[0] in ("refute", "box-refute"):
                    waiting += [(f"{at} behind it", *made) for made in follow(said, folder, got[1])]
                if got and got[0] == 8:
                    waiting.append((f"{at} behind it", *follow_stuck(said, folder, got[1])))
    queue.put((table, reports))


def main():
    ask = argparse.ArgumentParser(description=__doc__, formatter_class=argparse.RawDescriptionHelpFormatter)
    ask.add_argument("--wfc", default=f"{os.path.dirname(HERE)}/crates/wfc_app/out/wfc_app")
    ask.add_argument("--seed", type=int, default=1)
    ask.add_argument("--count", type=int, default=1000)
    ask.add_argument("--processes", type=int, default=3)
    ask.add_argument("--only", choices=[name for name in cases.WEIGHTS])
    ask.add_argument("--case", type=int)
    o = ask.parse_args()
    program = os.path.abspath(o.wfc)
    if not os.access(program, os.X_OK):
        sys.exit(f"no program {program}: ./wfc builds it")
    with tempfile.TemporaryDirectory() as place:
        put(os.path.join(place, "room"), TOWER)
        told = {name: run(program, os.path.join(place, "room"), line.split()) for name, line in PROBES.items()}
        lacks = [name for name, got in told.items() if got[2] == b"wfc: command refused\n"]
    for name in lacks:
        print(f"this program lacks {name}: its cases are not compared")
    commands = [o.only] if o.only else [name for name in cases.WEIGHTS]
    begun, queue = time.monotonic(), multiprocessing.Queue()
    first, last = (0, o.count) if o.case is None else (o.case, o.case + 1)
    step = o.processes if o.case is None else 1
    given = [(program, o.seed, first + k, step, last, commands, lacks, queue) for k in range(step)]
    workers = [multiprocessing.Process(target=work, args=one) for one in given]
    for worker in workers:
        worker.start()
    table, reports = {}, []
    for _ in workers:
        more, faults = queue.get()
        reports += faults
        for row, count in more.items():
            table[row] = table.get(row, 0) + count
    for worker in workers:
        worker.join()
    tell(table, reports, time.monotonic() - begun)
    sys.exit(1 if reports or any(worker.exitcode for worker in workers) else 0)


def tell(table, reports, took):
    for text in reports:
        print(text)
    columns = sorted({column for _, column in table})
    print(f"{'command':<12}" + "".join(f"{column:>8}" for column in columns))
    for command in sorted({command for command, _ in table}):
        print(f"{command:<12}" + "".join(f"{table.get((command, column), 0):>8}" for column in columns))
    compared = sum(count for (_, column), count in table.items() if column not in ("long", "alone", "judge"))
    print(f"{compared} cases compared in {took:.0f} s, {len(reports)} differences")


if __name__ == "__main__":
    main()
