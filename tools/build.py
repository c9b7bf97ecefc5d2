#!/usr/bin/env python3
"""Builds the program: proves and builds the libraries that it stands on, side by side, and then the program itself.

    tools/build.py

`./wfc` calls it. A library is built by `rt lib` as soon as those that it stands on are built, in a small repository of its own, since two
calls of rt never work in one folder at a time: it has the sources and the libraries that this one needs. What was built goes to
crates/NAME/out, where rt looks for it and compares its checksums, so that rt alone says what holds. Those that come first on the longest
way to the program begin first, and processors that are left over are shared among those that run.

On the error stream: how many crates of how many are built, the seconds since the beginning, and which are at work; on a terminal in one
line that changes, else a line for each crate. A build that is broken off goes on where it was. Status 0, else 1 with what the crate at
fault said.
"""
import fcntl
import glob
import os
import shutil
import signal
import subprocess
import sys
import tempfile
import time
import zlib

ROOT = os.path.dirname(os.path.dirname(os.path.realpath(__file__)))
TOP = "wfc_app"
# Where libraries are built: beside the repository's files, since the gate lets no second crates.txt stand among them.
ROOM = f"{ROOT}/.git/wfc-build"
if not os.path.isdir(f"{ROOT}/.git"):
    ROOM = f"{tempfile.gettempdir()}/wfc-build-{os.getuid()}-{zlib.crc32(os.fsencode(ROOT)):08x}"
PARTS = ("src", "specs", "proofs")
# What the check of one crate takes of memory at most, in bytes, for each of its jobs.
NEED = 1_500_000_000
# More jobs than these don't make the check of one crate shorter.
MOST_JOBS = 4


def rows():
    """The rows of crates.txt: for each crate all that it stands on."""
    lines = [line.partition("#")[0].strip() for line in open(f"{ROOT}/crates.txt", encoding="utf-8")]
    return {name.strip(): uses.split() for name, _, uses in (line.partition(":") for line in lines if line)}


def below(name, uses):
    """All crates of the repository that this one stands on, each behind those that it stands on itself."""
    found, ready = {}, [name]
    while ready:
        each = ready[-1]
        lower = [it for it in uses[each] if it in uses and it not in found]
        ready += lower
        if not lower:
            found[ready.pop()] = None
    return [it for it in found if it != name]


def files(name):
    """The folders and files of a crate's sources."""
    for part in PARTS:
        for folder, _, names in os.walk(f"{ROOT}/crates/{name}/{part}"):
            yield folder
            yield from (f"{folder}/{it}" for it in names)


def size(name):
    """How long a crate's sources are, in bytes."""
    return sum(os.path.getsize(it) for it in files(name) if os.path.isfile(it))


def stamp_of(name):
    """What rt writes behind all else of a library."""
    return f"{ROOT}/crates/{name}/out/rlib/stamp"


def looks_built(name, uses):
    """Whether a library of the crate is there, and nothing that it is made of was touched since: its sources, lower libraries, and rt."""
    if not os.path.exists(stamp_of(name)):
        return False
    made = os.stat(stamp_of(name)).st_mtime
    touched = [os.stat(it).st_ctime for it in [os.path.realpath(shutil.which("rt") or ""), *files(name)]]
    return max(touched + [os.stat(stamp_of(it)).st_mtime for it in uses[name] if it in uses]) <= made


def give(one, other):
    """Gives a folder's files a second name below another folder, or copies them where the file system can't."""

    def link(file, to):
        try:
            os.link(file, to)
        except OSError:
            shutil.copy2(file, to)

    shutil.copytree(one, other, copy_function=link)


def move(one, other):
    """Moves a folder, if it is there, in the place of another."""
    if os.path.isdir(one):
        shutil.rmtree(other, ignore_errors=True)
        os.makedirs(os.path.dirname(other), exist_ok=True)
        shutil.move(one, other)


class Slot:
    """A small repository in which one crate at a time is built. What it was given of lower crates stays for the next one."""

    def __init__(self, number, uses):
        self.room, self.uses, self.given = f"{ROOM}/{number}", uses, set()

    def copy_sources(self, name):
        """Copies them, since a second name would count as a change of the file."""
        for part in PARTS:
            if os.path.isdir(f"{ROOT}/crates/{name}/{part}"):
                shutil.copytree(f"{ROOT}/crates/{name}/{part}", f"{self.room}/crates/{name}/{part}")

    def prepare(self, name):
        """Gives it what the crate's build needs, and returns the crate's folder."""
        chain = below(name, self.uses)
        for each in chain:
            if each not in self.given:
                self.copy_sources(each)
                give(f"{ROOT}/crates/{each}/out/rlib", f"{self.room}/crates/{each}/out/rlib")
                self.given.add(each)
        self.copy_sources(name)
        with open(f"{self.room}/crates.txt", "w", encoding="utf-8") as file:
            file.writelines(f"{each}: {' '.join(self.uses[each])}\n" for each in [*chain, name])
        if os.path.exists(f"{ROOT}/HANDLES"):
            shutil.copy2(f"{ROOT}/HANDLES", self.room)
        move(f"{ROOT}/crates/{name}/out/incremental", f"{self.room}/crates/{name}/out/incremental")
        return f"{self.room}/crates/{name}"

    def take_back(self, name):
        """Brings what the build made, or had begun, to where rt looks for it, and returns whether a library is there."""
        made, here = f"{self.room}/crates/{name}/out", f"{ROOT}/crates/{name}/out"
        move(f"{made}/incremental", f"{here}/incremental")
        if os.path.exists(f"{made}/rlib/stamp"):
            shutil.rmtree(f"{here}/rlib", ignore_errors=True)
            give(f"{made}/rlib", f"{here}/rlib")
            self.given.add(name)
            return True
        shutil.rmtree(f"{self.room}/crates/{name}", ignore_errors=True)
        return False


def clear_room():
    """Removes what a build that was broken off left, but for what it had begun."""
    for folder in glob.glob(f"{ROOM}/*/crates/*/out/incremental"):
        name = folder.split(os.sep)[-3]
        if not os.path.isdir(f"{ROOT}/crates/{name}/out/incremental"):
            move(folder, f"{ROOT}/crates/{name}/out/incremental")
    for each in glob.glob(f"{ROOM}/*"):
        if os.path.isdir(each):
            shutil.rmtree(each, ignore_errors=True)


class Progress:
    """What the error stream is told."""

    def __init__(self, total):
        self.began, self.total, self.built, self.shown = time.time(), total, 0, ""
        self.is_terminal = sys.stderr.isatty()

    def text(self, names):
        return f"wfc: {self.built} of {self.total} crates built, {time.time() - self.began:.0f} s: {' '.join(names)}"

    def show(self, names):
        """The line on a terminal: those at work."""
        if self.is_terminal and (text := self.text(names)[: shutil.get_terminal_size().columns - 1]) != self.shown:
            self.shown = text
            print(f"\r\033[K{text}", end="", file=sys.stderr, flush=True)

    def end_line(self):
        if self.is_terminal and self.shown:
            print("\r\033[K", end="", file=sys.stderr, flush=True)
            self.shown = ""

    def add(self, name):
        """One more is built."""
        self.built += 1
        if not self.is_terminal:
            print(self.text([name]), file=sys.stderr, flush=True)


def processors():
    """How many jobs may run at a time, by processors and by free memory."""
    free = NEED * 64
    try:
        with open("/proc/meminfo", encoding="utf-8") as file:
            free = next(int(line.split()[1]) * 1024 for line in file if line.startswith("MemAvailable:"))
    except (OSError, StopIteration):
        pass
    return max(1, min(len(os.sched_getaffinity(0)), free // NEED))


def start(words, folder, log):
    """A command of rt, whose output goes to a file."""
    with open(log, "w", encoding="utf-8") as file:
        return subprocess.Popen(words, cwd=folder, stdin=subprocess.DEVNULL, stdout=file, stderr=subprocess.STDOUT)


def tell_failure(name, log, progress):
    progress.end_line()
    with open(log, encoding="utf-8", errors="replace") as file:
        sys.stderr.write(file.read())
    print(f"wfc: {name} was not built", file=sys.stderr)


class Libraries:
    """The libraries that are to be built, those that are, and those at work: each with its process, its jobs, its log and its slot."""

    def __init__(self, uses, most):
        self.uses, self.built, self.running, self.failed = uses, set(), {}, False
        self.most, self.slots = most, [Slot(it, uses) for it in range(most)]
        self.left = below(TOP, uses)
        self.way = {}
        for name in reversed(self.left):
            above = [self.way[it] for it in self.left if name in uses[it]]
            self.way[name] = size(name) + max(above, default=0)
        for name in list(self.left):
            if self.is_ready(name) and looks_built(name, uses):
                self.built.add(name)
                self.left.remove(name)

    def is_ready(self, name):
        """Whether all that the crate stands on is built."""
        return all(it in self.built for it in self.uses[name] if it in self.uses)

    def begin(self):
        """Starts those that are ready, as far as there are processors."""
        free = self.most - sum(jobs for _, jobs, _, _ in self.running.values())
        ready = sorted(filter(self.is_ready, self.left), key=lambda it: -self.way[it])
        while ready and free > 0 and not self.failed:
            name = ready.pop(0)
            jobs = max(1, free // (len(ready) + 1))
            if self.most >= 4 and self.way[name] >= max((self.way[it] for it in [*ready, *self.running]), default=0):
                # what all else waits for
                jobs = max(jobs, 2)
            jobs = min(jobs, free, MOST_JOBS)
            slot, log = self.slots.pop(), f"{ROOM}/{name}.log"
            folder = slot.prepare(name)
            self.running[name] = start(["rt", "lib", "--jobs", str(jobs)], folder, log), jobs, log, slot
            self.left.remove(name)
            free -= jobs

    def end(self, progress):
        """Takes back those that ended."""
        for name, (job, _, log, slot) in list(self.running.items()):
            if job.poll() is None:
                continue
            del self.running[name]
            self.slots.append(slot)
            if slot.take_back(name) and job.returncode == 0:
                self.built.add(name)
                progress.add(name)
            else:
                self.failed = True
                tell_failure(name, log, progress)

    def build(self, progress):
        """Builds them all, and returns whether all are built."""
        while self.running or (self.left and not self.failed):
            self.begin()
            progress.show(self.running)
            time.sleep(0.2)
            self.end(progress)
        return not self.failed


def build_program(progress):
    """Builds the program over its libraries, which ends with a run of it, and returns whether it did."""
    log = f"{ROOM}/{TOP}.log"
    job = start(["rt", "run", "--", "fill", "data/board.txt", "2", "3", "2"], f"{ROOT}/crates/{TOP}", log)
    while job.poll() is None:
        time.sleep(0.2)
        progress.show([TOP])
    if job.returncode == 0:
        progress.add(TOP)
    else:
        tell_failure(TOP, log, progress)
    return job.returncode == 0


def main():
    signal.signal(signal.SIGTERM, lambda *_: sys.exit(1))
    os.makedirs(ROOM, mode=0o700, exist_ok=True)
    # One build at a time: the next finds what this one made.
    lock = open(f"{ROOM}/lock", "w", encoding="utf-8")
    fcntl.flock(lock, fcntl.LOCK_EX)
    clear_room()
    libraries = Libraries(rows(), processors())
    progress = Progress(len(libraries.left) + 1)
    try:
        is_built = libraries.build(progress) and build_program(progress)
    finally:
        progress.end_line()
    if is_built:
        print(f"wfc: built in {time.time() - progress.began:.0f} s", file=sys.stderr, flush=True)
        clear_room()
        for log in glob.glob(f"{ROOM}/*.log"):
            os.remove(log)
    sys.exit(0 if is_built else 1)


if __name__ == "__main__":
    main()
