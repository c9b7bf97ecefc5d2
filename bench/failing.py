"""The cases of hostile.py in which writing or reading fails in its midst, or a file changes while it is read.

bench/devices.c, which is loaded before the program, counts and fails the writings and readings; cc builds it.
"""
import os
import shutil
import subprocess

HERE = os.path.dirname(os.path.abspath(__file__))
CUT = 65_536  # what the program reads at a time
REFUTATION = b"wfc-refutation 1\ncells 1 values 2\nx 0\nq\n"
BOX_REFUTATION = b"wfc-refutation 1\ncells 1 values 1\nx 0\nq\n"


def run_with(it, library, words, **settings):
    """Runs the program with these settings of bench/devices.c; answers what comes of it, and how many writings and readings there were."""
    read, write = os.pipe()
    environment = {"LD_PRELOAD": library, "DEVICES_TELL": str(write), **{name: str(value) for name, value in settings.items()}}
    try:
        got = it.run(words, environment=environment, hold=(write,))
    finally:
        os.close(write)
    with os.fdopen(read, "rb") as told:
        counts = told.read().split()
    return got, [int(count) for count in counts] or [0, 0]


def is_front(out, whole):
    return whole.startswith(out)


def outputs_and_readings(it, library, rows):
    """Each writing to the output fails in turn, and each reading; and all are done in small pieces."""
    for row in rows:
        name, words = row.name, row.line.split()
        if not it.wants(f"writings: {name}") and not it.wants(f"readings: {name}"):
            continue
        whole, (writes, reads) = run_with(it, library, words)
        fault = "" if row.is_right_whole(whole) else f"undisturbed {whole[0]} {whole[2]!r}"
        bad = fault
        for at in range(1, writes + 1):
            for on in ({}, {"WRITE_ON": 1}):
                got, _ = run_with(it, library, words, WRITE_AT=at, **on)
                if got[0] != 5 or got[2] != b"wfc: device Failed out\n" or not is_front(got[1], whole[1]):
                    bad = bad or f"writing {at} of {writes}: {got[0]} {got[1][:80]!r} {got[2]!r}"
        got, (more, _) = run_with(it, library, words, WRITE_MOST=7)
        if got != whole:
            bad = bad or f"in pieces of 7 bytes: {got[0]} {got[1][:80]!r} {got[2]!r}"
        bad = bad or ("" if bool(writes) == row.writes else f"{writes} writings")
        it.tell(f"writings: {name}: each of {writes} failed, and {more} of 7 bytes at most", bad)
        bad = fault
        for at in range(1, reads + 1):
            for on in ({}, {"READ_ON": 1}):
                got, _ = run_with(it, library, words, READ_AT=at, **on)
                if got[0] != 5 or got[1] or not got[2].startswith(b"wfc: device Failed ") or b"file=" not in got[2]:
                    bad = bad or f"reading {at} of {reads}: {got[0]} {got[1][:80]!r} {got[2]!r}"
        got, (_, more) = run_with(it, library, words, READ_MOST=3)
        if got != whole:
            bad = bad or f"in pieces of 3 bytes: {got[0]} {got[1][:80]!r} {got[2]!r}"
        bad = bad or ("" if reads or not row.reads else "nothing was read")
        it.tell(f"readings: {name}: each of {reads} failed, and {more} of 3 bytes at most", bad)


def square(side):
    return (b"a" * side + b"\n") * side


def branches(cells):
    """The lines of a proof that splits these cells in turn, each branch closed by the empty cell 0."""
    lines = b"x 0\n"
    for cell in reversed(cells):
        lines = b"t %d 0\n" % cell + lines + lines
    return lines


LONG = b"wfc-refutation 1\ncells 14 values 2\n" + branches(range(1, 14)) + b"q\n"  # of two values each, of which cell 0 has none


def changes(it, library):
    """A file changes behind its first, second and last piece: it is cut, written over, exchanged, removed, or grows."""
    row = b"ab" * 20 + b"\n"
    large = row * 5000
    text = b"#" + b"x" * 199_998 + b"\npin 0 0 a\n"
    boxed = b"#" + b"x" * 199_998 + b"\npin 0 0 0 t0/0\n"
    cube = b"#" + b"x" * 199_998 + b"\n[[tile]]\nname = 't0'\nclass = 'X'\n"
    lines = b"[[tile]]\nname = 't0'\nclass = 'I'\n"
    kinds = {
        "a sample": ("learn moved 1", large, row * 7000, b"ba" * 20 + b"\n"),
        "pins": ("fill chk.txt 2 2 2 --pins moved", text, text + b"pin 1 1 a\n" * 9000, b"pin 0 0 b\n"),
        "pins of explain": ("explain chk.txt 2 2 2 --pins moved", text, text + b"# pin\n" * 9000, b"pin 0 0 b\n"),
        "a sample of a race": ("race moved 1 1 1 --seeds 2", large, row * 7000, b"ba" * 20 + b"\n"),
        "pins of a race": ("race chk.txt 2 2 2 --seeds 2 --pins moved", text, text + b"pin 1 1 a\n" * 9000, b"pin 0 0 b\n"),
        "a sample of explain": ("explain moved 1 1 1 --pins both.pins", large, row * 7000, b"b" * 20 + b"\n"),
        "a sample to be grown": ("grow moved 1 2 1 --block 1", large, row * 7000, b"ba" * 20 + b"\n"),
        "pins to be grown with": ("grow chk.txt 2 3 3 --wrap-in --block 3 --pins moved", text, text + b"pin 1 1 a\n" * 9000, b"pin 0 0 b\n"),
        "a tile set of a box": ("box-fill moved 1 1 1", cube, cube + b"# more\n" * 9000, lines),
        "a picture of a box": ("box-fill pictured.toml 1 1 1", square(64), square(64) + b"a" * 64 + b"\n", square(32)),
        "pins of a box": ("box-fill cube.toml 1 1 1 --pins moved", boxed, boxed + b"pin 0 0 0 t0/0\n" * 9000, b"pin 0 0 1 t0/0\n"),
        "a tile set of box-refute": ("box-refute moved 1 1 2", cube, cube + b"# more\n" * 9000, lines),
        "pins of box-refute": ("box-refute cube.toml 1 1 1 --pins moved", boxed, boxed + b"ban 0 0 0 t0/0\n" * 9000, b"ban 0 0 0 t0/0\n"),
        "a refutation of a box": ("box-check cube.toml 1 1 1 moved --pins none.pins", BOX_REFUTATION, BOX_REFUTATION + b"q\n" * 9000, BOX_REFUTATION[:-2]),
        "a long refutation of a box": ("box-check lines.toml 14 1 1 moved --pins no_line.pins", LONG, LONG[:-2] + b"x 0\n" * 9000, LONG[: CUT + 7]),
        "a long refutation": ("check both.txt 1 14 1 moved --pins both.pins", LONG, LONG[:-2] + b"x 0\n" * 9000, LONG[: CUT + 7]),
        "a long upgrade": ("upgrade both.txt 1 14 1 moved --pins both.pins", LONG, LONG[:-2] + b"x 0\n" * 9000, LONG[: CUT + 7]),
        "a refutation": ("check both.txt 1 1 1 moved --pins both.pins", REFUTATION, REFUTATION + b"q\n" * 9000, REFUTATION[:-2]),
        "an upgrade": ("upgrade both.txt 1 1 1 moved --pins both.pins", REFUTATION, REFUTATION + b"q\n" * 9000, REFUTATION[:-2]),
    }
    it.write("both.txt", "ab\n")
    it.write("both.pins", "pin 0 0 a\npin 0 0 b\n")
    it.write("none.pins", "ban 0 0 0 t0/0\n")
    it.write("lines.toml", lines)
    it.write("pictured.toml", b"[[tile]]\nname = 't0'\nclass = 'X'\npicture = 'moved'\n")
    it.write("no_line.pins", "ban 0 0 0 t0/0\nban 0 0 0 t0/1\n")
    for kind, (line, first, grown, other) in kinds.items():
        name, words = f"changes: {kind}", line.split()
        if not it.wants(name):
            continue
        it.write("moved", first)
        whole, (_, reads) = run_with(it, library, words)
        # A file that is exchanged or removed before it is opened is the other one, or missing.
        it.write("moved", other)
        exchanged, _ = run_with(it, library, words)
        os.remove(it.path("moved"))
        missing, _ = run_with(it, library, words)
        early = {"exchange": exchanged, "remove": missing}
        bad, count, same = "", 0, 0
        for at in range(1, reads + 1):
            for how in ("cut", "empty", "grow", "over", "exchange", "remove"):
                it.write("moved", first)
                it.write("with", grown if how == "grow" else other)
                shutil.copyfile(it.path("with"), it.path("by"))
                setting = {
                    "cut": {"CHANGE_SIZE": CUT + 7}, "empty": {"CHANGE_SIZE": 0}, "grow": {"CHANGE_WITH": "with"},
                    "over": {"CHANGE_WITH": "with"}, "exchange": {"CHANGE_BY": "by"}, "remove": {},
                }[how]
                got, _ = run_with(it, library, words, CHANGE_AT=at, CHANGE_NAME="moved", **setting)
                count += 1
                same += got == whole
                if how in early:
                    if got not in (whole, early[how]):
                        bad = bad or f"{how} before reading {at} of {reads}: {got[0]} {got[2]!r}"
                elif got[0] not in (0, 1, 4) or (got[0] != 0 and got[1] and not got[1].endswith((b"\ns\n", b" no map\n"))) or (got[0] == 0) != (not got[2]):
                    bad = bad or f"{how} before reading {at} of {reads}: {got[0]} {got[1][:80]!r} {got[2]!r}"
        it.tell(f"{name}: {count} runs of {reads} readings, {same} with the whole answer, the others with that of what was read", bad)




def cases(it, rows):
    library = it.path("devices.so")
    subprocess.run(["cc", "-O2", "-shared", "-fPIC", "-o", library, f"{HERE}/devices.c", "-ldl"], check=True)
    outputs_and_readings(it, library, rows)
    changes(it, library)
