#!/usr/bin/env python3
"""Runs the built program against refused memory, failing devices, hostile files and every limit.

    bench/hostile.py [--wfc PROGRAM] [--only WORD] [--slow]

PROGRAM is crates/wfc_app/out/wfc_app if it isn't given: the program that `rt run` or `./wfc` built. Each case runs it as a user would, in
an empty folder of its own, and compares the status, the standard output and the error stream with what docs/commands.md says. No
case may end by a signal, or take more than a minute, but those of --slow.

allocations  each request for memory is refused in turn, and then it and all behind it: a refused run ends with status 6, an empty
             output and the line of memory, or answers as it does with memory. bench/refuse.c, which is loaded before the program, counts
             and refuses the requests; cc builds it.
memory       the program under a limit of its address space (ulimit -v), at twenty sizes from the least at which it starts to one at
             which it answers.
writings     each writing to the output fails in turn; and each takes few bytes.
readings     each reading of a file fails in turn; and each gives few bytes.
changes      a file is cut, written over, exchanged, removed, or grows while it is read (bench/failing.py, bench/devices.c).
devices      full, closed and missing devices; names that are no files.
limits       each limit of docs/commands.md and docs/formats.md at its last value and one past it.

Of commands that PROGRAM lacks it says so, and leaves their cases out.

--only WORD runs the cases whose name has the word. --slow adds the refutations at the limit of their length, which take 4.3 GB of disk and
ten minutes each at most. What needs another user is left out where the script doesn't run as root. Each case is one line; the last two
lines say which run took longest, and count the cases. Status 0 where all are right, else 1.
"""
import argparse
import os
import resource
import shutil
import signal
import stat
import subprocess
import sys
import tempfile
import threading
import time

sys.path.insert(0, os.path.dirname(os.path.abspath(__file__)))
import bench  # noqa: E402  the windows of a map, as the reference has them
import failing  # noqa: E402

HERE = os.path.dirname(os.path.abspath(__file__))
ROOT = os.path.dirname(HERE)
SECONDS = 60
SLOW_SECONDS = 600
NOBODY = 65534
FILE_LIMIT = 16_777_216
REFUTATION_LIMIT = 4_294_967_296
TOWN = "".join("".join("#" if x % 4 == 0 or y % 4 == 0 else "." for x in range(16)) + "\n" for y in range(16))
FILL_TOWN = "fill town.txt 3 48 48 --symmetry 8 --wrap-in --seed 1 --budget 0"
GROW_MAZE = "grow maze.txt 3 20 12 --symmetry 8 --wrap-in --block 12"
HEAD = "wfc-refutation 1\ncells 2 values 1\n"
PROOF = HEAD + "r 0 0 2\nx 0\nq\n"
SMALL = {
    "chk.txt": "ab\nba\n",
    "a.txt": "a\n",
    "six.txt": "aaaaaa\n" * 6,
    "town.txt": TOWN,
    "two.steps": "choose 0 0\nchoose 2 1\nundo\nundo\n",
    "one.ref": PROOF,
    "corner.toml": "[[tile]]\nname = 'corner'\nclass = 'L'\npicture = 'corner.txt'\n[[pair]]\nleft = 'corner 1'\nright = 'corner 2'\n",
    "corner.txt": "#.\n..\n",
    "corner.pins": "pin 0 0 corner/1\npin 1 0 corner/2\n",
    "clash.pins": "pin 0 0 corner/1\nban 1 0 corner/2\n",
    "three.pins": "pin 0 0 a\npin 0 0 b\npin 2 2 a\n",
    "tower.toml": "[[tile]]\nname = 'line'\nclass = 'I'\n[[pair]]\nleft = 'line 0'\nright = 'line 0'\n[[stack]]\nlower = 'line 0'\nupper = 'line 1'\n",
    "cube.toml": "[[tile]]\nname = 't0'\nclass = 'X'\n[[pair]]\nleft = 't0'\nright = 't0'\n[[stack]]\nlower = 't0'\nupper = 't0'\n",
    "tower.pins": "pin 0 0 0 line/0\n",
    "last_clash.pins": "ban 8 8 a\nban 8 8 b\n",
    "tree.pins": "pin 5 1 T\n",
    "turns.txt": "aaaa\naaab\nbbcc\ncbab\nccba\n",
    "spot.ppm": "P3\n1 1\n255\n1 2 3\n",
    "piled.toml": "[[tile]]\nname = 'corner'\nclass = 'L'\npicture = 'corner.txt'\n[[pair]]\nleft = 'corner 1'\nright = 'corner 2'\n"
    "[[stack]]\nlower = 'corner'\nupper = 'corner'\n",
    "free.toml": "tile = [{name = 'a', class = 'X'}, {name = 'b', class = 'X'}]\n"
    + "".join(f"{kind} = [" + ", ".join(f"{{{one} = '{x}', {other} = '{y}'}}" for x in "ab" for y in "ab") + "]\n"
              for kind, one, other in (("pair", "left", "right"), ("stack", "lower", "upper"))),
    "piled.pins": "pin 0 0 0 corner/1\npin 1 0 1 corner/2\n",
    "short.ref": "wfc-refutation 1\ncells 4 values 2\nr 0 1 2\n",
    "a_ban.pins": "ban 0 0 a\n",
    "first.pins": "pin 0 0 a\n",
    "empty.pins": "# no line\n",
    "box.ref": "wfc-refutation 1\ncells 4 values 2\nr 0 1 2\nr 2 1 2\nr 0 0 4\nx 0\nq\n",
}
STEPS = (
    "step 0\n0: 0 1\n1: 0 1\n2: 0 1\nstep 1\n0: 0\n1: 1\n2: 0\nstep 2\ndead\n"
    "step 3\n0: 0\n1: 1\n2: 0\nstep 4\n0: 0 1\n1: 0 1\n2: 0 1\n"
)
OUT_FAILED = "wfc: device Failed out\n"
NO_MEMORY = (6, b"", b"wfc: out of memory\n")


class Bench:
    """The program, the folder that the cases run in, and how many of them were right."""

    def __init__(self, program, folder, only):
        self.folder, self.only = folder, only
        self.program = os.path.join(folder, "wfc")
        shutil.copyfile(program, self.program)
        os.chmod(self.program, 0o755)
        os.chmod(folder, 0o755)
        self.right = self.wrong = 0
        self.longest = 0.0, ()
        self.lacking = set()

    def has(self, line):
        """Whether the program has the command of a line: it refuses the word of one that it lacks, and no other word of the line."""
        return line.split()[0] not in self.lacking

    def probe(self):
        for command, line in PROBES.items():
            if self.run(line.split())[2] == b"wfc: command refused\n":
                self.lacking.add(command)
                print(f"lacks  {command}: its cases are left out", flush=True)

    def wants(self, name):
        return not self.only or self.only in name

    def path(self, name):
        return os.path.join(self.folder, name)

    def write(self, name, content, size=None):
        """Writes a file; with a size the rest of it is a hole."""
        with open(self.path(name), "wb") as file:
            file.write(content if isinstance(content, bytes) else content.encode())
            if size is not None:
                file.truncate(size)

    def run(self, words, stdout=None, stderr=None, environment=None, before=None, hold=(), seconds=SECONDS):
        """Runs the program. The answer is its status, or why there is none, and what it wrote."""
        words = [word if isinstance(word, bytes) else word.encode() for word in words]
        begun = time.monotonic()
        told = subprocess.Popen(
            [self.program.encode(), *words],
            cwd=self.folder,
            env=environment or {},
            stdin=subprocess.DEVNULL,
            stdout=subprocess.PIPE if stdout is None else stdout,
            stderr=subprocess.PIPE if stderr is None else stderr,
            preexec_fn=before,
            pass_fds=hold,
        )
        try:
            out, err = told.communicate(timeout=seconds)
        except subprocess.TimeoutExpired:
            told.kill()
            told.communicate()
            return "it did not end", b"", b""
        finally:
            self.longest = max(self.longest, (time.monotonic() - begun, tuple(words)))
        status = told.returncode if told.returncode >= 0 else signal.Signals(-told.returncode).name
        return status, out or b"", err or b""

    def tell(self, name, fault):
        if fault:
            self.wrong += 1
        else:
            self.right += 1
        print(f"{'wrong' if fault else 'right'}  {name}{': ' + fault if fault else ''}", flush=True)

    def check(self, name, line, status, out="", err="", **how):
        """One case: the words of a line, and what comes of it. An `out` that is no text is a test of the bytes."""
        if not self.wants(name) or (isinstance(line, str) and not self.has(line)):
            return
        words = line.split() if isinstance(line, str) else line
        begun = time.monotonic()
        got = self.run(words, **how)
        took = time.monotonic() - begun
        self.tell(f"{name} ({took:.1f} s)", difference(got, status, out, err))


def shortened(bytes_):
    return repr(bytes_ if len(bytes_) <= 80 else bytes_[:60] + b".." + bytes_[-10:])


def difference(got, status, out, err):
    """Says how an answer differs from what is wanted, or nothing."""
    if got[0] != status:
        return f"status {got[0]} and not {status}, err {shortened(got[2])}"
    if callable(out):
        if not out(got[1]):
            return f"output {shortened(got[1])}"
    elif got[1] != out.encode():
        return f"output {shortened(got[1])}"
    if got[2] != err.encode():
        return f"err {shortened(got[2])}"
    return ""


# ---- allocations


def is_town(out):
    """Whether these bytes are a legal map of 48 by 48 of the town."""
    rows = out.decode("latin-1").splitlines()
    if len(rows) != 48 or any(len(row) != 48 for row in rows):
        return False
    known = {form for window in bench.windows(TOWN.split(), 3, True) for form in bench.forms(window, 8)}
    return all(window in known for window in bench.windows(rows, 3, False))


STUCK = b"stuck 1 0 2 2 pins 2\npin 0 0 b\npin 0 1 a\nwfc-refutation 2\ncells 1 values 1\nfor 2 2 2 1 1 0 0\nx 0\nq\n"
TOWER = b"layer 0\n0\nlayer 1\n1\nlayer 2\n0\n"


class Row:
    """A line with what it answers where nothing fails, and whether it reads and writes at all."""

    def __init__(self, name, line, is_right, status=0, err=b"", reads=True):
        self.name, self.line, self.is_right, self.status, self.err, self.reads = name, line, is_right, status, err, reads
        self.writes = is_right is not nothing

    def is_right_whole(self, got):
        return got[0] == self.status and self.is_right(got[1]) and got[2] == self.err


def exactly(text):
    return lambda out: out == text


def nothing(out):
    return out == b""


def is_stuck_island(out):
    """Whether these bytes are of the stuck block of the islands: four pins of the block before it, and the pin of the file."""
    lines = out.split(b"\n")
    kept = all(line.startswith(b"pin 0 %d " % y) for y, line in enumerate(lines[1:5]))
    return lines[0] == b"stuck 4 0 4 4 pins 5" and kept and lines[5:7] == [b"pin 1 1 T", b"wfc-refutation 2"] and lines[-2:] == [b"q", b""]


def is_stuck_maze(out):
    """Whether these bytes are of the stuck block of the maze: two columns of the block before it, and a proof with splits."""
    front = out.startswith(b"stuck 10 0 10 12 pins 24\npin 0 0 ") and b"\nwfc-refutation 2\n" in out
    return front and out.endswith(b"\nq\n")


ROWS = [
    Row("a grid", "fill chk.txt 2 2 2", exactly(b"ab\nba\n")),
    Row("domains", "domains chk.txt 2 4 2 --wrap-in --steps two.steps", exactly(STEPS.encode())),
    Row("a town", FILL_TOWN, is_town),
    Row("tiles", "fill corner.toml tiles 2 1 --pins corner.pins", exactly(b"....\n#..#\n")),
    Row("a refutation", "refute chk.txt 2 3 2 --format 1", exactly(PROOF.encode())),
    Row("a journal", "refute chk.txt 2 2 2", lambda out: out.endswith(b"\ns\n"), 1, b"wfc: map exists\n"),
    Row("a check", "check chk.txt 2 3 2 one.ref", exactly(b"accepted\n")),
    Row("an upgrade", "upgrade chk.txt 2 3 2 one.ref", exactly(b"wfc-refutation 2\ncells 2 values 1\nfor 2 3 2 1 1 0 0\nr 0 0 0 2\nx 0\nq\n")),
    Row("learning", "learn chk.txt 2 --wrap-in", lambda out: out.startswith(b"overlap 2\ncolours 2\n0 a\n1 b\npatterns 2\n")),
    Row("a demonstration", "demo 0", exactly(b"patterns 9\ncells 2116\nretractions 0\nstatus 0\n"), reads=False),
    Row("a race", "race chk.txt 2 2 2 --seeds 2", exactly(b"seed 0 retractions 0 map\n")),
    Row("a race of eight", FILL_TOWN.replace("fill", "race") + " --seeds 8", lambda out: out.startswith(b"seed ") and out.endswith(b" retractions 0 map\n")),
    Row("a race of tiles", "race corner.toml tiles 2 1 --pins corner.pins --seeds 3 --quantum 9", exactly(b"seed 0 retractions 0 map\n")),
    Row("a race without a map", "race chk.txt 2 3 2 --seeds 2", exactly(b"seed 0 retractions 0 no map\n"), 1, b"wfc: no map\n"),
    Row("a race whose budgets are spent", "race chk.txt 2 3 3 --wrap-in --wrap-out --seeds 2 --budget 0", nothing, 2, b"wfc: budget spent budget=0\n"),
    Row("a core", "explain chk.txt 2 3 3 --wrap-in --pins three.pins", exactly(b"core 2\nneeded 2\nneeded 3\n")),
    Row("a core of tiles", "explain corner.toml tiles 2 1 --pins clash.pins", exactly(b"core 2\nneeded 1\nneeded 2\n")),
    Row("no core", "explain chk.txt 2 2 2 --pins first.pins", nothing, 1, b"wfc: map exists\n"),
    Row("a core whose budget is spent", "explain chk.txt 2 3 3 --wrap-in --wrap-out --budget 0 --pins empty.pins", nothing, 2, b"wfc: budget spent budget=0\n"),
    Row("a grown map", "grow chk.txt 2 4 4 --wrap-in --block 3 --seed 1", lambda out: out.split() in ([b"abab", b"baba"] * 2, [b"baba", b"abab"] * 2)),
    Row("a stuck block", "grow chk.txt 2 3 2 --block 2", exactly(STUCK), 8, b"wfc: grow stuck x=1 y=0\n"),
    Row("a stuck block with a pin of the file", "grow islands.txt 2 8 4 --wrap-in --block 5 --pins tree.pins", is_stuck_island, 8, b"wfc: grow stuck x=4 y=0\n"),
    Row("a stuck block of a maze", GROW_MAZE + " --seed 1", is_stuck_maze, 8, b"wfc: grow stuck x=10 y=0\n"),
    Row("a spent block", GROW_MAZE + " --seed 4 --budget 0", nothing, 2, b"wfc: budget spent budget=0\n"),
    Row("a last block that is spent", "grow turns.txt 2 15 8 --wrap-in --seed 1 --block 8 --budget 0", nothing, 2, b"wfc: budget spent budget=0\n"),
    Row("a grown picture", "grow spot.ppm 1 2 1 --block 1", exactly(b"P6\n2 1\n255\n\1\2\3\1\2\3")),
    Row("a grown town", FILL_TOWN.replace("fill", "grow") + " --block 20", is_town),
    Row("a box", "box-fill tower.toml 1 1 3 --pins tower.pins", exactly(TOWER)),
    Row("a box of pictures", "box-fill piled.toml 2 1 2 --pins piled.pins", exactly(b"layer 0\n....\n#..#\nlayer 1\n....\n#..#\n")),
    Row("no box", "box-fill tower.toml 2 1 2", nothing, 1, b"wfc: no map\n"),
    Row("a journal of a box", "box-refute tower.toml 1 1 3 --pins tower.pins", lambda out: out.endswith(b"\ns\n"), 1, b"wfc: map exists\n"),
    Row("a refutation of a box", "box-refute tower.toml 2 1 2", lambda out: out.startswith(b"wfc-refutation 2\ncells 4 values 2\nfor 0 2 1 2 1 0 0\n") and out.endswith(b"q\n")),
    Row("a check of a box", "box-check tower.toml 2 1 2 box.ref", exactly(b"accepted\n")),
    Row("a box's refutation without an end", "box-check tower.toml 2 1 2 short.ref", nothing, 1, b"wfc: check NotEnded file=short.ref\n"),
]
PROBES = {
    "race": "race chk.txt 2 2 2 --seeds 2",
    "explain": "explain chk.txt 2 2 2 --pins three.pins",
    "grow": "grow chk.txt 2 2 2",
    "box-fill": "box-fill tower.toml 1 1 1",
    "box-refute": "box-refute tower.toml 1 1 1",
    "box-check": "box-check tower.toml 1 1 1 one.ref",
}


def run_refused(it, library, words, at, on):
    """Runs the program with a request refused; answers what comes of it and how many requests there were."""
    read, write = os.pipe()
    environment = {"LD_PRELOAD": library, "REFUSE_AT": str(at), "REFUSE_TELL": str(write)}
    if on:
        environment["REFUSE_ON"] = "1"
    try:
        got = it.run(words, environment=environment, hold=(write,))
    finally:
        os.close(write)
    with os.fdopen(read, "rb") as told:
        asked = told.read()
    return got, int(asked or b"0")


def rows_of(it):
    return [row for row in ROWS if it.has(row.line)]


def allocations(it):
    library = it.path("refuse.so")
    subprocess.run(["cc", "-O2", "-shared", "-fPIC", "-o", library, f"{HERE}/refuse.c", "-ldl"], check=True)
    for row in rows_of(it):
        name = f"allocations: {row.name}"
        if not it.wants(name):
            continue
        words = row.line.split()
        whole, count = run_refused(it, library, words, 0, False)
        fault = "" if row.is_right_whole(whole) else f"with memory {whole[0]} {shortened(whole[1])} {shortened(whole[2])}"
        if not fault and count == 0:
            fault = "no request for memory was seen"
        short = 0
        for at in range(1, count + 1):
            for on in (False, True):
                got, asked = run_refused(it, library, words, at, on)
                if asked < at:
                    fault = fault or f"request {at} of {count} was not made"
                if got == NO_MEMORY:
                    short += 1
                elif got != whole:
                    fault = fault or f"request {at}{' and on' if on else ''}: {got[0]} {shortened(got[1])} {shortened(got[2])}"
        fault = fault or ("" if short else "no run was out of memory")
        it.tell(f"{name}: {2 * count} runs of {count} requests, {short} out of memory, the others with the whole answer", fault)


# ---- memory


def limited(kilobytes):
    def before():
        resource.setrlimit(resource.RLIMIT_AS, (kilobytes * 1024, kilobytes * 1024))

    return before


def least(holds, low, high):
    """The least number above `low`, up to `high`, of which it holds, where it holds of all behind it."""
    while high - low > 1:
        middle = (low + high) // 2
        if holds(middle):
            high = middle
        else:
            low = middle
    return high


MEMORY = [
    ("fill", "fill town.txt 3 200 200 --symmetry 8 --wrap-in --seed 1"),
    ("learn", "learn large.txt 6 --symmetry 8 --wrap-in"),
    ("domains", "domains chk.txt 2 400 400 --wrap-in"),
    ("refute", "refute chk.txt 2 101 101 --wrap-in --wrap-out"),
    ("race", "race town.txt 3 80 80 --symmetry 8 --wrap-in --seeds 8"),
    ("explain", "explain town.txt 3 48 48 --symmetry 8 --wrap-in --pins street.pins"),
    ("grow", "grow town.txt 3 200 200 --symmetry 8 --wrap-in --seed 1 --block 60"),
    ("grow, stuck", "grow chk.txt 2 161 161 --block 81"),
    ("box-fill", "box-fill cube.toml 60 60 60 --wrap-out"),
    ("box-refute", "box-refute tower.toml 60 60 60"),
    ("box-check", "box-check tower.toml 60 60 60 tower.ref"),
]


def memory(it):
    it.write("large.txt", "".join("".join("ab"[(x * x + y * y * 3 + x * y) % 7 % 2] for x in range(300)) + "\n" for y in range(300)))
    it.write("street.pins", "pin 20 20 #\npin 0 0 #\npin 1 0 #\npin 2 0 .\n")
    it.write("tower.ref", it.run("box-refute tower.toml 60 60 60".split())[1])
    start = least(lambda kb: it.run(["paint"], before=limited(kb))[0] == 3, 512, 1 << 20)
    for name, line in MEMORY:
        if not it.wants(f"memory: {name}") or not it.has(line):
            continue
        name, words = f"memory: {name}", line.split()
        whole = it.run(words)
        fault = "" if whole[0] == 0 or (whole[0] == 8 and "stuck" in name) else f"with memory {whole[0]} {shortened(whole[2])}"
        enough = least(lambda kb: it.run(words, before=limited(kb)) == whole, start, 1 << 21)
        sizes = [start + (enough - start) * k // 19 for k in range(20)]
        short = 0
        for kb in sizes:
            got = it.run(words, before=limited(kb))
            if got == NO_MEMORY:
                short += 1
            elif got != whole:
                fault = fault or f"at {kb} kB: {got[0]} {shortened(got[1])} {shortened(got[2])}"
        fault = fault or ("" if short else "no size was too small")
        it.tell(f"{name}: {short} of 20 sizes from {sizes[0]} to {sizes[-1]} kB out of memory, the others with the whole answer", fault)


# ---- devices


def closing(*numbers):
    def before():
        for number in numbers:
            os.close(number)

    return before


def as_nobody():
    os.setgroups([])
    os.setgid(NOBODY)
    os.setuid(NOBODY)


def cut_pipe(count):
    """The end for writing of a pipe whose reader goes away behind so many bytes, and what waits for it."""
    read, write = os.pipe()

    def drain():
        left = count
        while left > 0:
            got = os.read(read, left)
            if not got:
                break
            left -= len(got)
        os.close(read)

    if count == 0:
        os.close(read)
        return write, lambda: None
    reader = threading.Thread(target=drain)
    reader.start()
    return write, reader.join


def devices_out(it):
    """What stands in the place of the output and of the error stream."""
    line, no_map = "fill chk.txt 2 2 2", "fill chk.txt 2 3 2"
    large = "fill a.txt 1 4096 2048"
    with open("/dev/full", "wb") as full:
        it.check("devices: /dev/full as output", line, 5, err=OUT_FAILED, stdout=full)
        it.check("devices: /dev/full as output of refute", "refute chk.txt 2 3 2", 5, err=OUT_FAILED, stdout=full)
        it.check("devices: /dev/full as error stream", no_map, 1, stderr=full)
        it.check("devices: /dev/full as both", line, 5, stdout=full, stderr=full)
    for name, words, count in (("a pipe without a reader", line, 0), ("a pipe whose reader goes away", large, 1000)):
        write, join = cut_pipe(count)
        it.check(f"devices: {name} as output", words, 5, err=OUT_FAILED, stdout=write)
        os.close(write)
        join()
    write, join = cut_pipe(0)
    it.check("devices: a pipe without a reader as error stream", no_map, 1, stderr=write)
    os.close(write)
    it.check("devices: a closed output", line, 5, err=OUT_FAILED, before=closing(1))
    it.check("devices: a closed output, nothing to write", no_map, 1, err="wfc: no map\n", before=closing(1))
    it.check("devices: a closed error stream", no_map, 1, before=closing(2))
    it.check("devices: a closed input", line, 0, "ab\nba\n", before=closing(0))
    it.check("devices: all three closed", line, 5, before=closing(0, 1, 2))
    it.check("devices: all three closed, nothing to write", no_map, 1, before=closing(0, 1, 2))
    with open(it.path("chk.txt"), "rb") as unwritable:
        it.check("devices: an output that can't be written", line, 5, err=OUT_FAILED, stdout=unwritable)


def devices_of_lines(it):
    """The output of commands that write a line or two, and what stands in the place of their files."""
    failed = "wfc: device Failed file={}\n"
    for row in rows_of(it):
        if row.line.split()[0] in ("fill", "domains", "learn"):
            continue
        status, err = (5, OUT_FAILED) if row.writes else (row.status, row.err.decode())
        with open("/dev/full", "wb") as full:
            it.check(f"devices: /dev/full as output of {row.name}", row.line, status, err=err, stdout=full)
            it.check(f"devices: /dev/full as error stream of {row.name}", row.line, row.status, row.is_right, stderr=full)
        write, join = cut_pipe(0)
        it.check(f"devices: a pipe without a reader as output of {row.name}", row.line, status, err=err, stdout=write)
        os.close(write)
        join()
        it.check(f"devices: a closed output of {row.name}", row.line, status, err=err, before=closing(1))
        with open(it.path("chk.txt"), "rb") as unwritable:
            it.check(f"devices: an output that can't be written, of {row.name}", row.line, status, err=err, stdout=unwritable)
        it.check(f"devices: a closed error stream of {row.name}", row.line, row.status, row.is_right, before=closing(2))
        it.check(f"devices: a closed input of {row.name}", row.line, row.status, row.is_right, row.err.decode(), before=closing(0))
    for line in ("grow a.txt 1 4096 2048 --block 4096", "box-fill cube.toml 64 64 64", "box-refute free.toml 32 32 32"):
        write, join = cut_pipe(1000)
        it.check(f"devices: a pipe whose reader goes away as output of {line.split()[0]}", line, 5, err=OUT_FAILED, stdout=write)
        os.close(write)
        join()
    for role, line in READERS:
        name = f"{role} of {line.split()[0]}"
        it.check(f"devices: a folder as {name}", line.format("folder"), 5, err=failed.format("folder"))
        it.check(f"devices: links in a circle as {name}", line.format("loop"), 5, err=failed.format("loop"))
        it.check(f"devices: a missing {name}", line.format("none"), 5, err="wfc: device Missing file=none\n")
        with_writer = os.open(it.path("pipe"), os.O_RDWR)
        it.check(f"devices: a pipe that is written, as {name}", line.format("pipe"), 5, err=failed.format("pipe"))
        os.close(with_writer)
        if role == "refutation":
            it.check(f"devices: /dev/zero as {name}", line.format("/dev/zero"), 1, err="wfc: check BadLine line=1 file=/dev/zero\n")
        else:
            it.check(f"devices: /dev/zero as {name}", line.format("/dev/zero"), 4, err="wfc: file TooLong file=/dev/zero\n")
        if os.geteuid() == 0:
            it.check(f"devices: a file without permission as {name}", line.format("secret.txt"), 5, err=failed.format("secret.txt"), before=as_nobody)
    for command in ("race {}.toml tiles 2 1 --seeds 2", "explain {}.toml tiles 2 1 --pins clash.pins", "box-fill {}.toml 1 1 1", "box-refute {}.toml 1 1 1",
                    "box-check {}.toml 1 1 1 box.ref"):
        name = command.split()[0]
        it.check(f"devices: a missing picture of {name}", command.format("none"), 5, err="wfc: device Missing tile=0 file=none.toml\n")
        it.check(f"devices: a folder as picture of {name}", command.format("folder"), 5, err="wfc: device Failed tile=0 file=folder.toml\n")
        it.check(f"devices: /dev/zero as picture of {name}", command.format("zero"), 4, err="wfc: tiles BadPicture tile=0 file=zero.toml\n")
    for command in ("race corner.toml tiles 2 1 --seeds 2 --mask {}", "explain corner.toml tiles 2 1 --pins clash.pins --mask {}"):
        it.check(f"devices: a folder as mask of {command.split()[0]}", command.format("folder"), 5, err=failed.format("folder"))
        it.check(f"devices: a missing mask of {command.split()[0]}", command.format("none"), 5, err="wfc: device Missing file=none\n")
    it.check("devices: /dev/null as pins of explain", "explain chk.txt 2 2 2 --pins /dev/null", 1, err="wfc: map exists\n")


READERS = (
    ("sample", "race {} 2 2 2 --seeds 2"),
    ("pins", "race chk.txt 2 2 2 --seeds 2 --pins {}"),
    ("sample", "explain {} 2 2 2 --pins three.pins"),
    ("pins", "explain chk.txt 2 2 2 --pins {}"),
    ("sample", "grow {} 2 2 2"),
    ("pins", "grow chk.txt 2 2 2 --pins {}"),
    ("tile set", "box-fill {} 1 1 1"),
    ("pins", "box-fill tower.toml 1 1 1 --pins {}"),
    ("tile set", "box-refute {} 1 1 1"),
    ("pins", "box-refute tower.toml 1 1 1 --pins {}"),
    ("tile set", "box-check {} 1 1 1 box.ref"),
    ("pins", "box-check tower.toml 2 1 2 box.ref --pins {}"),
    ("refutation", "box-check tower.toml 2 1 2 {}"),
)


def devices_in(it):
    """What stands in the place of a file."""
    os.mkdir(it.path("folder"))
    it.write("secret.txt", "ab\n")
    os.chmod(it.path("secret.txt"), 0)
    os.symlink("loop", it.path("loop"))
    os.symlink("chk.txt", it.path("link.txt"))
    os.mkfifo(it.path("pipe"))
    failed = "wfc: device Failed file={}\n"
    it.check("devices: a folder as sample", "fill folder 2 2 2", 5, err=failed.format("folder"))
    it.check("devices: a folder as pins", "fill chk.txt 2 2 2 --pins folder", 5, err=failed.format("folder"))
    it.check("devices: a folder as refutation", "check chk.txt 2 3 2 folder", 5, err=failed.format("folder"))
    it.check("devices: a missing file", "fill none.txt 2 2 2", 5, err="wfc: device Missing file=none.txt\n")
    it.check("devices: an empty name", ["fill", "", "2", "2", "2"], 5, err="wfc: device Missing file=\n")
    it.check("devices: a file as a folder", "fill chk.txt/x 2 2 2", 5, err=failed.format("chk.txt/x"))
    it.check("devices: a link in a circle", "fill loop 2 2 2", 5, err=failed.format("loop"))
    it.check("devices: a link to a file", "fill link.txt 2 2 2", 0, "ab\nba\n")
    it.check("devices: a name of 256 bytes", ["fill", "n" * 256, "2", "2", "2"], 5, err=failed.format("n" * 256))
    it.check("devices: a name of 100,000 bytes", ["fill", "n" * 100_000, "2", "2", "2"], 5, err=failed.format("n" * 100_000))
    it.check("devices: a name that is no UTF-8", ["fill", b"\xff.txt", "2", "2", "2"], 3, err="wfc: command refused\n")
    it.check("devices: /dev/null as sample", "fill /dev/null 2 2 2", 4, err="wfc: grid Empty file=/dev/null\n")
    it.check("devices: /dev/zero as sample", "fill /dev/zero 2 2 2", 4, err="wfc: file TooLong file=/dev/zero\n")
    it.check("devices: /dev/zero as pins", "fill chk.txt 2 2 2 --pins /dev/zero", 4, err="wfc: file TooLong file=/dev/zero\n")
    it.check("devices: /dev/zero as refutation", "check chk.txt 2 3 2 /dev/zero", 1, err="wfc: check BadLine line=1 file=/dev/zero\n")
    it.check("devices: /dev/zero to be upgraded", "upgrade chk.txt 2 3 2 /dev/zero", 4, err="wfc: file TooLong file=/dev/zero\n")
    for name, picture in (("none", "none.txt"), ("folder", "folder"), ("zero", "/dev/zero")):
        it.write(f"{name}.toml", tile_set(["X"], picture=picture))
    it.check("devices: a tile's picture that is missing", "fill none.toml tiles 2 1", 5, err="wfc: device Missing tile=0 file=none.toml\n")
    it.check("devices: a folder as a tile's picture", "fill folder.toml tiles 2 1", 5, err="wfc: device Failed tile=0 file=folder.toml\n")
    it.check("devices: /dev/zero as a tile's picture", "fill zero.toml tiles 2 1", 4, err="wfc: tiles BadPicture tile=0 file=zero.toml\n")
    it.check("devices: a folder as tile set", "fill folder tiles 2 1", 5, err=failed.format("folder"))
    it.check("devices: a folder as mask", "fill corner.toml tiles 2 1 --mask folder", 5, err=failed.format("folder"))
    it.check("devices: /dev/zero as tile set", "fill /dev/zero tiles 2 1", 4, err="wfc: file TooLong file=/dev/zero\n")
    it.check("devices: /dev/zero as mask", "fill corner.toml tiles 2 1 --mask /dev/zero", 4, err="wfc: file TooLong file=/dev/zero\n")
    if os.geteuid() == 0:
        it.check("devices: a file without permission", "fill secret.txt 2 2 2", 5, err=failed.format("secret.txt"), before=as_nobody)
    if it.wants("devices: a pipe"):
        with_writer = os.open(it.path("pipe"), os.O_RDWR)
        it.check("devices: a pipe that is written, as sample", "fill pipe 2 2 2", 5, err=failed.format("pipe"))
        os.close(with_writer)
        writer = threading.Timer(1, lambda: os.close(os.open(it.path("pipe"), os.O_WRONLY)))
        writer.start()
        it.check("devices: a pipe that is opened for writing a second later", "fill pipe 2 2 2", 5, err=failed.format("pipe"))
        writer.join()


# ---- limits


def p6(width, height, pixel):
    pixels = b"".join(bytes(pixel(x, y)) for y in range(height) for x in range(width))
    return f"P6\n{width} {height}\n255\n".encode() + pixels


def padded(text, size):
    """The text behind a comment, so many bytes long."""
    return "#" + "x" * (size - len(text) - 2) + "\n" + text


def tile_set(classes, picture=None, weight=None, name="t", pair=False):
    """A document with a tile of each class, and with a pair that lets the first tile stand beside itself."""
    lines = []
    for number, letter in enumerate(classes):
        lines += ["[[tile]]", f"name = '{name}{number}'", f"class = '{letter}'"]
        lines += [f"picture = '{picture}'"] if picture else []
        lines += [f"weight = {weight}"] if weight else []
    lines += ["[[pair]]", f"left = '{name}0'", f"right = '{name}0'"] if pair else []
    return "\n".join(lines) + "\n"


def limits_words(it):
    """The ranges of the words."""
    for name, line, value, most in (
        ("MODEL", "fill six.txt {} 6 6", 6, "MODEL"),
        ("WIDTH", "fill a.txt 1 {} 1", 4096, "WIDTH"),
        ("HEIGHT", "fill a.txt 1 1 {}", 4096, "HEIGHT"),
        ("symmetry", "fill a.txt 1 1 1 --symmetry {}", 8, "symmetry"),
        ("seed", "fill a.txt 1 1 1 --seed {}", 18_446_744_073_709_551_615, "seed"),
        ("budget", "fill a.txt 1 1 1 --budget {}", 1_000_000_000, "budget"),
        ("NUMBER", "demo {}", 1_000_000, "NUMBER"),
        ("format", "refute chk.txt 2 3 2 --format {}", 2, "format"),
    ):
        it.check(f"limits: {name} {value}", line.format(value), 0, out=lambda out: len(out) > 1)
        it.check(f"limits: {name} {value + 1}", line.format(value + 1), 3, err=f"wfc: command value {most}\n")
    for name, line in (("MODEL", "fill a.txt 0 1 1"), ("WIDTH", "fill a.txt 1 0 1"), ("HEIGHT", "fill a.txt 1 1 0")):
        it.check(f"limits: {name} 0", line, 3, err=f"wfc: command value {name}\n")


NO_HEAD = "wfc: check HeaderDiffers cells={} values={} file={}\n"
ALL_WORDS = (
    ("learn", "learn six.txt {MODEL} --symmetry {symmetry}", 0, ""),
    ("domains", "domains six.txt {MODEL} {WIDTH} {HEIGHT} --symmetry {symmetry}", 0, ""),
    ("refute", "refute six.txt {MODEL} {WIDTH} {HEIGHT} --symmetry {symmetry} --seed {seed} --budget {budget} --format {format}", 1, "wfc: map exists\n"),
    ("check", "check six.txt {MODEL} {WIDTH} {HEIGHT} one.ref --symmetry {symmetry}", 1, NO_HEAD.format(2, 1, "one.ref")),
    ("upgrade", "upgrade six.txt {MODEL} {WIDTH} {HEIGHT} one.ref --symmetry {symmetry}", 1, NO_HEAD.format(2, 1, "one.ref")),
    ("race", "race six.txt {MODEL} {WIDTH} {HEIGHT} --seeds 1 --symmetry {symmetry} --seed {seed} --budget {budget}", 0, ""),
    ("explain", "explain six.txt {MODEL} {WIDTH} {HEIGHT} --pins a_ban.pins --symmetry {symmetry} --seed {seed} --budget {budget}", 0, ""),
    ("grow", "grow six.txt {MODEL} {WIDTH} {HEIGHT} --symmetry {symmetry} --seed {seed} --budget {budget}", 0, ""),
    ("box-fill", "box-fill cube.toml {WIDTH} {HEIGHT} {DEPTH} --seed {seed} --budget {budget}", 0, ""),
    ("box-refute", "box-refute tower.toml {WIDTH} {HEIGHT} {DEPTH} --seed {seed} --budget {budget} --format {format}", 0, ""),
    ("box-check", "box-check tower.toml {WIDTH} {HEIGHT} {DEPTH} box.ref", 1, NO_HEAD.format(4, 2, "box.ref")),
)
RANGES = {"MODEL": (1, 6), "WIDTH": (1, 4096), "HEIGHT": (1, 4096), "DEPTH": (1, 256), "symmetry": (1, 8), "seed": (0, (1 << 64) - 1),
          "budget": (0, 1_000_000_000), "format": (1, 2)}


def limits_all_words(it):
    """The ranges of the words of each command but `fill` and `demo`, each word at its ends with the others small."""
    for command, line, status, err in ALL_WORDS:
        usual = {"MODEL": 6, "WIDTH": 6, "HEIGHT": 6, "DEPTH": 2, "symmetry": 1, "seed": 0, "budget": 1, "format": 2}
        for name, (low, most) in RANGES.items():
            if "{" + name + "}" not in line:
                continue
            it.check(f"limits: {name} {most} of {command}", line.format(**{**usual, name: most}), status, err=err,
                     out=nothing if "check" in err else lambda out: len(out) > 1)
            for value in (low - 1, most + 1):
                if value >= 0:
                    it.check(f"limits: {name} {value} of {command}", line.format(**{**usual, name: value}), 3, err=f"wfc: command value {name}\n")


REFUTED = "wfc-refutation 2\ncells 1 values 1\nfor 0 1 1 1 1 0 0\nx 0\nq\n"


def limits_all_files(it):
    """The length of the files of these commands."""
    cube = tile_set(["X"], pair=True) + "[[stack]]\nlower = 't0'\nupper = 't0'\n"
    grid = "P3\n" + padded("1 1\n255\n1 2 3\n", FILE_LIMIT - 3)
    for name, line, text, status, out, err in (
        ("a sample of a race", "race {} 1 2 1 --seeds 2", grid, 0, "seed 0 retractions 0 map\n", ""),
        ("pins of a race", "race chk.txt 2 2 2 --seeds 2 --pins {}", padded("pin 0 0 a\n", FILE_LIMIT), 0, "seed 0 retractions 0 map\n", ""),
        ("a sample of explain", "explain {} 1 2 1 --pins empty.pins", grid, 1, "", "wfc: map exists\n"),
        ("a sample to be grown", "grow {} 1 2 1 --block 1 --form p3", grid, 0, "P3\n2 1\n255\n1 2 3\n1 2 3\n", ""),
        ("pins to be grown with", "grow chk.txt 2 2 2 --pins {}", padded("pin 0 0 a\n", FILE_LIMIT), 0, "ab\nba\n", ""),
        ("a tile set of a box", "box-fill {} 1 1 2", padded(cube, FILE_LIMIT), 0, "layer 0\n0\nlayer 1\n0\n", ""),
        ("pins of a box", "box-fill cube.toml 1 1 1 --pins {}", padded("pin 0 0 0 t0/0\n", FILE_LIMIT), 0, "layer 0\n0\n", ""),
        ("pins of box-refute", "box-refute cube.toml 1 1 1 --pins {}", padded("ban 0 0 0 t0/0\n", FILE_LIMIT), 0, REFUTED, ""),
        ("pins of box-check", "box-check cube.toml 1 1 1 short.ref --pins {}", padded("ban 0 0 0 t0/0\n", FILE_LIMIT), 1, "", NO_HEAD.format(4, 2, "short.ref")),
        ("a tile set of box-refute", "box-refute {} 1 1 1", padded(cube, FILE_LIMIT), 1, REFUTED.replace("x 0\nq", "s"), "wfc: map exists\n"),
        ("a tile set of box-check", "box-check {} 1 1 1 short.ref", padded(cube, FILE_LIMIT), 1, "", NO_HEAD.format(4, 2, "short.ref")),
    ):
        for size in (FILE_LIMIT, FILE_LIMIT + 1):
            file = "big.ppm" if text is grid else "big"
            it.write(file, text + "\n" * (size - FILE_LIMIT))
            past = (4, "", f"wfc: file TooLong file={file}\n")
            it.check(f"limits: {name} of {size:,} bytes", line.format(file), *((status, out, err) if size == FILE_LIMIT else past))


def limits_race(it):
    """Seeds, quantum and what fits a race."""
    won = "seed {} retractions 0 map\n"
    line = "race a.txt 1 1 1 --seeds {}"
    for seeds, quantum in ((1, 1), (8, 1), (8, 1_000_000)):
        it.check(f"limits: seeds {seeds}, quantum {quantum}", f"{line.format(seeds)} --quantum {quantum}", 0, won.format(0))
    for name, words in (("seeds", line.format(0)), ("seeds", line.format(9)), ("quantum", line.format(1) + " --quantum 0"),
                        ("quantum", line.format(1) + " --quantum 1000001"), ("rule", line.format(1) + " --rule ranked")):
        it.check(f"limits: {' '.join(words.split()[5:])} of a race", words, 3, err=f"wfc: command value {name}\n")
    last = (1 << 64) - 8
    it.check("limits: a last seed of 18446744073709551615", f"{line.format(8)} --seed {last}", 0, won.format(last))
    it.check("limits: a last seed of 18446744073709551616", f"{line.format(8)} --seed {last + 1}", 3, err="wfc: command value seeds\n")
    it.check("limits: a race without --seeds", "race a.txt 1 1 1", 3, err="wfc: command refused\n")
    for words, product in (("1024 1024 --seeds 8", 0), ("1025 1024 --seeds 8", 8_396_800), ("4096 2048 --seeds 1", 0), ("4096 2048 --seeds 2", 16_777_216)):
        if product:
            it.check(f"limits: a race of {product}", f"race a.txt 1 {words}", 4, err=f"wfc: race TooLarge product={product}\n")
        else:
            it.check("limits: a race of 8,388,608", f"race a.txt 1 {words}", 0, won.format(0))
    it.check("limits: a race of eight of 1,048,576 pairs of 4,096 patterns", "race windows.ppm 2 257 2 --seeds 8", 0, won.format(0))
    it.check("limits: a race of eight of 1,052,672 pairs of 4,096 patterns", "race windows.ppm 2 258 2 --seeds 8", 4,
             err="wfc: race TooLarge product=8421376\n")
    it.check("limits: a race of one of 8,388,610", "race a.txt 1 2113 3970 --seeds 1", 4, err="wfc: build TooLarge product=8388610\n")


def limits_explain(it):
    """Lines of pins, and the chooser."""
    line, clash = "explain chk.txt 2 {0} {0} --wrap-in --pins {1}", "pin 0 0 a\npin 1 0 a\n"
    for count in (64, 65):
        it.write(f"{count}.pins", "pin 0 0 a\n" * (count - 1) + "ban 1 0 b\n")
        it.write(f"{count}_more.pins", "# a line that doesn't count\n\n" * 9 + "pin 0 0 a\n" * count)
    it.check("limits: 64 lines of pins, two to blame", line.format(8, "64.pins"), 0, "core 2\nneeded 63\nneeded 64\n")
    it.check("limits: 65 lines of pins", line.format(8, "65.pins"), 4, err="wfc: explain TooManyPins count=65 file=65.pins\n")
    it.check("limits: 64 lines of pins, none to blame", line.format(8, "64_more.pins"), 1, err="wfc: map exists\n")
    it.check("limits: 65 lines of pins and 18 others", line.format(8, "65_more.pins"), 4, err="wfc: explain TooManyPins count=65 file=65_more.pins\n")
    it.write("million.pins", "pin 0 0 a\n" * 1_600_000)
    it.check("limits: 1,600,000 lines of pins", line.format(8, "million.pins"), 4, err="wfc: explain TooManyPins count=1600000 file=million.pins\n")
    it.write("long_clash.pins", padded(clash, FILE_LIMIT))
    it.write("longer_clash.pins", padded(clash, FILE_LIMIT + 1))
    it.check("limits: 16,777,216 bytes of pins of explain", line.format(8, "long_clash.pins"), 0, "core 2\nneeded 2\nneeded 3\n")
    it.check("limits: 16,777,217 bytes of pins of explain", line.format(8, "longer_clash.pins"), 4, err="wfc: file TooLong file=longer_clash.pins\n")
    it.check("limits: rule ranked of explain", line.format(8, "64.pins") + " --rule ranked", 3, err="wfc: command value rule\n")
    it.check("limits: explain without --pins", "explain chk.txt 2 2 2", 3, err="wfc: command refused\n")
    it.write("far_clash.pins", "pin 4095 1023 a\npin 0 0 a\npin 1 0 a\n")
    it.check("limits: 8,378,370 pairs of explain", "explain chk.txt 2 4096 1024 --wrap-in --pins far_clash.pins", 0, "core 2\nneeded 2\nneeded 3\n")


def limits_grow(it):
    """Blocks, their side, and the largest maps."""
    line = "grow a.txt 1 {} --block {}"
    it.check("limits: 64 blocks", line.format("64 1", 1), 0, "a" * 64 + "\n")
    it.check("limits: 65 blocks", line.format("65 1", 1), 4, err="wfc: grow TooManyBlocks count=65\n")
    it.check("limits: 16,777,216 blocks", line.format("4096 4096", 1), 4, err="wfc: grow TooManyBlocks count=16777216\n")
    it.check("limits: a block of side 4096", line.format("4096 2048", 4096), 0, ("a" * 4096 + "\n") * 2048)
    it.check("limits: a block of side 4097", line.format("1 1", 4097), 3, err="wfc: command value block\n")
    it.check("limits: a block of side N", "grow six.txt 6 8 8 --block 6", 0, ("a" * 8 + "\n") * 8)
    it.check("limits: a block of side below N", "grow six.txt 6 8 8 --block 5", 3, err="wfc: command value block\n")
    it.check("limits: 16,777,216 pixels in four blocks", line.format("4096 4096", 2048), 0, ("a" * 4096 + "\n") * 4096)
    it.check("limits: a first block of 16,777,216 pairs", line.format("4096 4096", 4096), 4, err="wfc: build TooLarge product=16777216\n")
    it.check("limits: a first block of 8,388,610 pairs", line.format("2113 3970", 4096), 4, err="wfc: build TooLarge product=8388610\n")
    it.check("limits: a first block of 2,048 cells of 4,096 patterns", "grow windows.ppm 2 2049 2 --block 2049", 0, lambda out: out.startswith(b"P6\n2049 2\n255\n"))
    it.check("limits: a first block of 2,049 cells of 4,096 patterns", "grow windows.ppm 2 2050 2 --block 2050", 4, err="wfc: build TooLarge product=8392704\n")
    for value, err in ((4_294_967_295, "build PinOutside"), (4_294_967_296, "pins BadLine")):
        it.write("far_grown.pins", f"pin {value} 0 a\n")
        it.check(f"limits: a pin in column {value} of growth", "grow chk.txt 2 2 2 --pins far_grown.pins", 4, err=f"wfc: {err} line=1 file=far_grown.pins\n")
    it.check("limits: a grown map of tiles", "grow corner.toml tiles 2 2", 3, err="wfc: command value MODEL\n")
    it.check("limits: rule ranked of growth", line.format("1 1", 1) + " --rule ranked", 3, err="wfc: command value rule\n")
    it.check("limits: a last seed past 64 bits of growth", line.format("4 4", 1) + f" --seed {(1 << 64) - 1}", 0, "aaaa\n" * 4)
    it.check("limits: a stuck last block of 64", "grow chk.txt 2 9 9 --wrap-in --block 2 --pins last_clash.pins", 8,
             lambda out: out.startswith(b"stuck 7 7 2 2 pins 5\n") and out.endswith(b"x 0\nq\n"), "wfc: grow stuck x=7 y=7\n")
    it.check("limits: a stuck last block of 64, a closed output", "grow chk.txt 2 9 9 --wrap-in --block 2 --pins last_clash.pins", 5, err=OUT_FAILED,
             before=closing(1))


def limits_boxes(it):
    """Depth, pairs and pixels of boxes."""
    it.write("cube64.toml", tile_set(["X"], picture="side64.txt", pair=True) + "[[stack]]\nlower = 't0'\nupper = 't0'\n")
    layers = lambda rows, depth: "".join(f"layer {z}\n{rows}" for z in range(depth))
    for command in ("box-fill", "box-refute"):
        it.check(f"limits: rule ranked of {command}", f"{command} cube.toml 1 1 1 --rule ranked", 7, err="wfc: chooser missing rule=ranked\n")
    it.check("limits: DEPTH 256", "box-fill cube.toml 1 1 256", 0, layers("0\n", 256))
    for depth in (0, 257):
        it.check(f"limits: DEPTH {depth}", f"box-fill cube.toml 1 1 {depth}", 3, err="wfc: command value DEPTH\n")
    it.check("limits: 8,388,608 places of a box", "box-fill cube.toml 256 128 256", 0, layers(("0" + " 0" * 255 + "\n") * 128, 256))
    it.check("limits: 8,421,376 places of a box", "box-fill cube.toml 257 128 256", 4, err="wfc: build TooLarge product=8421376\n")
    it.check("limits: 16,777,216 pixels of a box", "box-fill cube64.toml 16 16 16", 0, layers(("a" * 1024 + "\n") * 1024, 16))
    it.check("limits: 17,825,792 pixels of a box", "box-fill cube64.toml 17 16 16", 4, err="wfc: render TooLarge pixels=17825792\n")
    it.check("limits: a box's refutation of format 3", "box-refute tower.toml 2 1 2 --format 3", 3, err="wfc: command value format\n")
    for value, err in ((4_294_967_295, "build PinOutside"), (4_294_967_296, "pins BadLine")):
        it.write("far_box.pins", f"pin 0 0 {value} t0/0\n")
        it.check(f"limits: a pin in layer {value}", "box-fill cube.toml 1 1 1 --pins far_box.pins", 4, err=f"wfc: {err} line=1 file=far_box.pins\n")
    for line in ("box-refute cube.toml 257 128 256", "box-check cube.toml 257 128 256 box.ref"):
        it.check(f"limits: 8,421,376 places of {line.split()[0]}", line, 4, err="wfc: build TooLarge product=8421376\n")
    it.check("limits: 8,388,608 places of box-refute", "box-refute cube.toml 256 128 256", 1, lambda out: out.endswith(b"\ns\n"), "wfc: map exists\n")
    it.check("limits: 8,388,608 places of box-check", "box-check cube.toml 256 128 256 box.ref", 1, err="wfc: check HeaderDiffers cells=4 values=2 file=box.ref\n")
    head = "wfc-refutation 1\ncells 4 values 2\n"
    for number, text, fault in (
        (1, head + "r 0 0 5\n", "Rejected line=3 reject=NoNeighbour"),
        (2, head + "r 0 0 6\n", "Rejected line=3 reject=IndexRange"),
        (3, head + "r 0 0 256\n", "BadLine line=3"),
        (4, head + "r 4 0 0\n", "Rejected line=3 reject=IndexRange"),
        (5, head + "r 0 65535 2\n", "Rejected line=3 reject=IndexRange"),
        (6, head + "r 0 65536 2\n", "BadLine line=3"),
        (7, head + "x" * 64 + "\n", "BadLine line=3"),
        (8, head + "x" * 65 + "\n", "BadLine line=3"),
        (9, "wfc-refutation 1\ncells 4294967295 values 4294967295\n", "HeaderDiffers cells=4294967295 values=4294967295"),
        (10, "wfc-refutation 2\ncells 4 values 2\nfor 0 2 1 256 1 0 0\n", "OptionsDiffer n=0 width=2 height=1 depth=256 symmetry=1 wrap_in=0 wrap_out=0"),
        (11, "wfc-refutation 2\ncells 4 values 2\nfor 0 2 1 4294967296 1 0 0\n", "BadLine line=3"),
    ):
        it.write(f"box_{number}.ref", text)
        it.check(f"limits: {fault}, refutation {number} of a box", f"box-check tower.toml 2 1 2 box_{number}.ref", 1, err=f"wfc: check {fault} file=box_{number}.ref\n")
    it.write("zeros.ref", "", size=REFUTATION_LIMIT + 1)
    it.check("limits: a box's refutation of 4,294,967,297 zeros", "box-check tower.toml 2 1 2 zeros.ref", 1, err="wfc: check BadLine line=1 file=zeros.ref\n")
    it.write("spot.toml", tile_set(["X"], picture="spot.ppm", pair=True))
    for form, status, err in (("cells", 0, ""), ("grid", 4, "wfc: render FormDiffers\n"), ("p6", 4, "wfc: render FormDiffers\n")):
        it.check(f"limits: form {form} of a box of colours", f"box-fill spot.toml 1 1 1 --form {form}", status, "" if status else "layer 0\n0\n", err)


def limits_samples(it):
    """Pixels, colours, patterns and the length of a sample."""
    it.write("most.txt", ("a" * 1024 + "\n") * 1024)
    it.write("more.txt", "a" * 1_048_577 + "\n")
    learned = "overlap 1\ncolours 1\n0 {}\npatterns 1\n0 1048576: 0\n"
    it.check("limits: a grid of 1,048,576 bytes", "learn most.txt 1", 0, learned.format("a"))
    it.check("limits: a grid of 1,048,577 bytes", "learn more.txt 1", 4, err="wfc: grid TooLarge file=more.txt\n")
    it.write("most.ppm", b"P6\n1024 1024\n255\n" + bytes(3 * 1_048_576))
    it.write("more.ppm", b"P6\n1048577 1\n255\n" + bytes(3 * 1_048_577))
    it.check("limits: a picture of 1,048,576 pixels", "learn most.ppm 1", 0, learned.format("0,0,0"))
    it.check("limits: a picture of 1,048,577 pixels", "learn more.ppm 1", 4, err="wfc: ppm TooLarge file=more.ppm\n")
    it.write("colours.ppm", p6(4096, 1, lambda x, y: (x // 256, x % 256, 0)))
    it.write("colour_more.ppm", p6(4097, 1, lambda x, y: (x // 256, x % 256, 0)))
    it.check("limits: 4,096 colours", "learn colours.ppm 1", 0, out=lambda out: out.startswith(b"overlap 1\ncolours 4096\n"))
    it.check("limits: 4,097 colours", "learn colour_more.ppm 1", 4, err="wfc: palette TooManyColours at=4096 file=colour_more.ppm\n")
    column = lambda x, y: (x % 65 if y == 0 else x // 65, 0, 0)
    it.write("windows.ppm", p6(4097, 2, column))
    it.write("window_more.ppm", p6(4098, 2, column))
    it.check("limits: 4,096 patterns", "learn windows.ppm 2", 0, out=lambda out: b"\npatterns 4096\n" in out)
    it.check("limits: 4,097 patterns", "learn window_more.ppm 2", 4, err="wfc: learn TooManyPatterns count=4097 file=window_more.ppm\n")
    picture = "1 1\n255\n1 2 3\n"
    for name, size in (("long", FILE_LIMIT), ("longer", FILE_LIMIT + 1)):
        it.write(f"{name}.ppm", "P3\n" + padded(picture, size - 3))
    it.check("limits: a sample of 16,777,216 bytes", "fill long.ppm 1 2 1 --form p3", 0, "P3\n2 1\n255\n1 2 3\n1 2 3\n")
    it.check("limits: a sample of 16,777,217 bytes", "fill longer.ppm 1 2 1 --form p3", 4, err="wfc: file TooLong file=longer.ppm\n")
    it.write("hole.txt", "ab\n", size=1 << 40)
    it.check("limits: a sample of 2^40 bytes", "fill hole.txt 1 2 1", 4, err="wfc: file TooLong file=hole.txt\n")


def limits_problems(it):
    """Cells times values."""
    it.check("limits: 8,388,608 cells of one value", "fill a.txt 1 4096 2048", 0, "".join(["a" * 4096 + "\n"] * 2048))
    it.check("limits: 8,388,610 cells of one value", "fill a.txt 1 2113 3970", 4, err="wfc: build TooLarge product=8388610\n")
    block = lambda values: "step 0\n" + "".join(f"{cell}: {' '.join(map(str, values(cell)))}\n" for cell in range(2048))
    it.check("limits: 2,048 cells of 4,096 values", "domains colours.ppm 1 2048 1", 0, block(lambda cell: range(4096)))
    it.check("limits: 2,049 cells of 4,096 values", "domains colours.ppm 1 2049 1", 4, err="wfc: build TooLarge product=8392704\n")
    it.check("limits: 2,048 cells of 4,096 windows in a row", "domains windows.ppm 2 2049 2", 0, block(lambda cell: range(cell, cell + 2049)))
    board = "".join("".join("ab"[(x + y) % 2] for x in range(4096)) + "\n" for y in range(1024))
    it.write("last.pins", "pin 4095 1023 b\n")
    it.check("limits: a pin that fixes 4,189,185 cells in turn", "fill chk.txt 2 4096 1024 --wrap-in --pins last.pins", 0,
             out=lambda out: out.decode() in (board, board.translate(str.maketrans("ab", "ba"))) and out[-2:-1] == b"b")


def limits_tiles(it):
    """Variants, weights, names and pictures of tiles, and the pixels of a map."""
    learned = "tiles 1\nvariants 1\n0 {}: {}0/0\nacross 0\ndown 0\n"
    for count, end in ((4096, []), (4097, ["X"])):
        it.write(f"{count}.toml", tile_set(["F"] * 512 + end))
    it.check("limits: 4,096 variants", "learn 4096.toml tiles", 0, out=lambda out: out.startswith(b"tiles 512\nvariants 4096\n0 1: t0/0\n"))
    it.check("limits: 4,097 variants", "learn 4097.toml tiles", 4, err="wfc: tiles TooManyVariants count=4097 file=4097.toml\n")
    for weight in (1_000_000, 1_000_001):
        it.write(f"{weight}.toml", tile_set(["X"], weight=weight))
    it.check("limits: a weight of 1,000,000", "learn 1000000.toml tiles", 0, learned.format(1_000_000, "t"))
    it.check("limits: a weight of 1,000,001", "learn 1000001.toml tiles", 4, err="wfc: tiles BadWeight tile=0 file=1000001.toml\n")
    for length in (64, 65):
        it.write(f"n{length}.toml", tile_set(["X"], name="n" * (length - 1)))
    it.check("limits: a name of 64 bytes", "learn n64.toml tiles", 0, learned.format(1, "n" * 63))
    it.check("limits: a name of 65 bytes", "learn n65.toml tiles", 4, err="wfc: tiles BadName tile=0 file=n65.toml\n")
    for side in (64, 65):
        it.write(f"side{side}.txt", ("a" * side + "\n") * side)
        it.write(f"side{side}.toml", tile_set(["X"], picture=f"side{side}.txt", pair=True))
    it.check("limits: 16,777,216 pixels of pictures of 64", "fill side64.toml tiles 64 64", 0, ("a" * 4096 + "\n") * 4096)
    it.check("limits: 16,781,312 pixels", "fill side64.toml tiles 17 241", 4, err="wfc: render TooLarge pixels=16781312\n")
    it.check("limits: a picture of a side of 65", "fill side65.toml tiles 1 1", 4, err="wfc: tiles BadPicture tile=0 file=side65.toml\n")
    for name, size in (("long", FILE_LIMIT), ("longer", FILE_LIMIT + 1)):
        it.write(f"{name}.toml", padded(tile_set(["X"]), size))
        it.write(f"{name}_picture.toml", tile_set(["X"], picture=f"{name}.ppm", pair=True))
    it.check("limits: a tile set of 16,777,216 bytes", "learn long.toml tiles", 0, learned.format(1, "t"))
    it.check("limits: a tile set of 16,777,217 bytes", "learn longer.toml tiles", 4, err="wfc: file TooLong file=longer.toml\n")
    it.check("limits: a tile's picture of 16,777,216 bytes", "fill long_picture.toml tiles 2 1 --form p3", 0, "P3\n2 1\n255\n1 2 3\n1 2 3\n")
    it.check("limits: a tile's picture of 16,777,217 bytes", "fill longer_picture.toml tiles 2 1", 4, err="wfc: tiles BadPicture tile=0 file=longer_picture.toml\n")


def limits_masks(it):
    """Holes, and a mask as large as a grid may be."""
    it.write("one.toml", tile_set(["X"], pair=True))
    row = "." + "#" * 1023 + "\n"
    it.write("most.mask", row * 1024)
    it.check("limits: a mask of 1,048,576 places", "fill one.toml tiles 1024 1024 --mask most.mask", 0, ("0" + " -" * 1023 + "\n") * 1024)
    it.write("more.mask", "." * 1_048_577 + "\n")
    it.check("limits: a mask of 1,048,577 places", "fill one.toml tiles 1024 1024 --mask more.mask", 4, err="wfc: mask TooLarge file=more.mask\n")
    it.write("none.mask", "##\n")
    it.check("limits: a mask of holes alone", "fill one.toml tiles 2 1 --mask none.mask", 4, err="wfc: mask AllHoles file=none.mask\n")
    it.check("limits: a mask for windows", "fill chk.txt 2 2 2 --mask none.mask", 3, err="wfc: command value mask\n")


def limits_lines(it):
    """Files of pins and of steps."""
    for kind, line, text, answer in (
        ("pins", "fill chk.txt 2 2 2 --pins {}", "pin 0 0 a\n", "ab\nba\n"),
        ("steps", "domains chk.txt 2 2 2 --steps {}", "choose 0 0\n", "step 0\n0: 0\nstep 1\n0: 0\n"),
    ):
        it.write(f"long.{kind}", padded(text, FILE_LIMIT))
        it.write(f"longer.{kind}", padded(text, FILE_LIMIT + 1))
        it.check(f"limits: {kind} of 16,777,216 bytes", line.format(f"long.{kind}"), 0, answer)
        it.check(f"limits: {kind} of 16,777,217 bytes", line.format(f"longer.{kind}"), 4, err=f"wfc: file TooLong file=longer.{kind}\n")
    for value, err in ((4_294_967_295, "build PinOutside"), (4_294_967_296, "pins BadLine")):
        it.write("far.pins", f"pin {value} 0 a\n")
        it.check(f"limits: a pin in column {value}", "fill chk.txt 2 2 2 --pins far.pins", 4, err=f"wfc: {err} line=1 file=far.pins\n")
    for value, err in ((65_535, "OutOfRange"), (65_536, "BadLine")):
        it.write("far.steps", f"choose 0 {value}\n")
        it.check(f"limits: a step of value {value}", "domains chk.txt 2 2 2 --steps far.steps", 4, err=f"wfc: steps {err} line=1 file=far.steps\n")


def limits_refutations(it):
    """The lines and the length of a refutation."""
    line = "check chk.txt 2 3 2 {}"
    for number, text, fault in (
        (1, HEAD + "x" * 64 + "\n", "BadLine line=3"),
        (2, HEAD + "x" * 65 + "\n", "BadLine line=3"),
        (3, "wfc-refutation 1\ncells 4294967295 values 4294967295\n", "HeaderDiffers cells=4294967295 values=4294967295"),
        (4, "wfc-refutation 1\ncells 4294967296 values 1\n", "BadLine line=2"),
        (5, HEAD + "r 0 65535 2\n", "Rejected line=3 reject=IndexRange"),
        (6, HEAD + "r 0 65536 2\n", "BadLine line=3"),
        (7, HEAD + "r 0 0 255\n", "Rejected line=3 reject=IndexRange"),
        (8, HEAD + "r 0 0 256\n", "BadLine line=3"),
        (9, HEAD, "NotEnded"),
    ):
        it.write(f"{number}.ref", text)
        it.check(f"limits: {fault}, refutation {number}", line.format(f"{number}.ref"), 1, err=f"wfc: check {fault} file={number}.ref\n")
    it.write("hole.ref", "", size=REFUTATION_LIMIT + 1)
    it.check("limits: a refutation of 4,294,967,297 zeros", line.format("hole.ref"), 1, err="wfc: check BadLine line=1 file=hole.ref\n")
    it.write("behind.ref", PROOF, size=REFUTATION_LIMIT + 1)
    it.check("limits: zeros behind a refutation", line.format("behind.ref"), 1, err="wfc: check BadLine line=6 file=behind.ref\n")
    upgrade = "upgrade chk.txt 2 3 2 {}"
    it.write("long.ref", PROOF, size=FILE_LIMIT)
    it.write("longer.ref", PROOF, size=FILE_LIMIT + 1)
    it.check("limits: 16,777,216 bytes to be upgraded", upgrade.format("long.ref"), 1, err="wfc: check BadLine line=6 file=long.ref\n")
    it.check("limits: 16,777,217 bytes to be upgraded", upgrade.format("longer.ref"), 4, err="wfc: file TooLong file=longer.ref\n")


def limits_long_refutations(it):
    """A right proof with more bytes than a refutation may have: cell 0 has no value, and all others are split in turn."""
    it.write("sym.txt", "ab\n")
    it.write("both.pins", "pin 0 0 a\npin 0 0 b\n")
    line = "check sym.txt 1 40 1 {} --pins both.pins"
    low = failing.branches(range(18, 38))
    with open(it.path("whole.ref"), "wb") as file:
        file.write(b"wfc-refutation 1\ncells 40 values 2\n")

        def write(cell):
            if file.tell() > REFUTATION_LIMIT:
                return
            if cell == 18:
                file.write(low)
                return
            file.write(b"t %d 0\n" % cell)
            write(cell + 1)
            write(cell + 1)

        write(1)
        file.truncate(REFUTATION_LIMIT + 1)
    it.check("limits: right lines past 4,294,967,296 bytes", line.format("whole.ref"), 4, err="wfc: file TooLong file=whole.ref\n", seconds=SLOW_SECONDS)
    os.truncate(it.path("whole.ref"), REFUTATION_LIMIT)
    if it.wants("limits: right lines up to"):
        got = it.run(line.format("whole.ref").split(), seconds=SLOW_SECONDS)
        good = got[0] == 1 and got[2].startswith((b"wfc: check NotEnded", b"wfc: check BadLine line="))
        it.tell("limits: right lines up to 4,294,967,296 bytes", "" if good else f"{got[0]} {shortened(got[2])}")
    os.remove(it.path("whole.ref"))


def main():
    ask = argparse.ArgumentParser(description=__doc__, formatter_class=argparse.RawDescriptionHelpFormatter)
    ask.add_argument("--wfc", default=f"{ROOT}/crates/wfc_app/out/wfc_app")
    ask.add_argument("--only")
    ask.add_argument("--slow", action="store_true")
    asked = ask.parse_args()
    if not os.access(asked.wfc, os.X_OK):
        sys.exit(f"no program {asked.wfc}: ./wfc builds it")
    with tempfile.TemporaryDirectory() as folder:
        it = Bench(asked.wfc, folder, asked.only)
        for name, text in SMALL.items():
            it.write(name, text)
        for path in ("examples/islands.txt", "bench/samples/maze.txt"):
            shutil.copy(f"{ROOT}/{path}", folder)
        it.probe()
        allocations(it)
        memory(it)
        failing.cases(it, rows_of(it))
        devices_out(it)
        devices_in(it)
        devices_of_lines(it)
        limits_words(it)
        limits_all_words(it)
        limits_all_files(it)
        limits_samples(it)
        limits_race(it)
        limits_explain(it)
        limits_grow(it)
        limits_tiles(it)
        limits_boxes(it)
        limits_problems(it)
        limits_masks(it)
        limits_lines(it)
        limits_refutations(it)
        if asked.slow:
            limits_long_refutations(it)
        os.chmod(it.path("secret.txt"), stat.S_IRUSR | stat.S_IWUSR)
    print(f"the longest run took {it.longest[0]:.1f} s: {shortened(b' '.join(it.longest[1]))}")
    print(f"{it.right} right, {it.wrong} wrong")
    sys.exit(1 if it.wrong or not it.right else 0)


if __name__ == "__main__":
    main()
