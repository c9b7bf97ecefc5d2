"""Refutations of both formats: reading, checking, joining, and making them at random."""
import re
from .model import BACK
from .turns import values_of

NUMBER = r"(0|[1-9][0-9]*)"
FIELDS = ("n", "width", "height", "depth", "symmetry", "wrap_in", "wrap_out")


def numbers(form, line, mosts):
    """The numbers of a line of this form, none above its most, or None."""
    got = re.fullmatch(form.replace("#", NUMBER).encode(), line)
    read = [int(word) for word in got.groups()] if got else None
    return read if read is not None and all(n <= most for n, most in zip(read, mosts)) else None


BIG, VALUE, DIRECTION = 4_294_967_295, 65_535, 255


def line_of(line, form):
    """A line of a proof: its letter and its numbers; `r` has a first and a last value. None where it is no line."""
    if len(line) > 64:
        return None
    if line in (b"q", b"s", b"o"):
        return (line.decode(),)
    if form == 1 and (read := numbers("r # # #", line, (BIG, VALUE, DIRECTION))):
        return ("r", read[0], read[1], read[1], read[2])
    if form == 2 and (read := numbers("r # # # #", line, (BIG, VALUE, VALUE, DIRECTION))):
        return ("r", *read) if read[1] <= read[2] else None
    if read := numbers("t # #", line, (BIG, VALUE)):
        return ("t", *read)
    if read := numbers("x #", line, (BIG,)):
        return ("x", *read)
    return None


class Rejected(Exception):
    """Why a line isn't right where it stands."""


class Checker:
    """The domains of the innermost open branch, and the splits that wait for their second branch."""

    def __init__(self, problem):
        self.problem, self.domains, self.waiting = problem, list(problem.base), []
        self.closed = self.ended = False

    def line(self, line):
        if self.ended or (self.closed and line[0] != "q"):
            raise Rejected("AfterEnd")
        if line[0] in "qso":
            if not self.closed:
                raise Rejected("NotClosed")
            self.ended = True
        elif line[0] == "r":
            kept = self.domains[line[1]] if line[1] < self.problem.cells else None
            try:
                for value in range(line[2], line[3] + 1):
                    self.remove(line[1], value, line[4])
            except Rejected:
                if kept is not None:
                    self.domains[line[1]] = kept
                raise
        elif line[0] == "t":
            self.split(*line[1:])
        else:
            self.empty(*line[1:])

    def standing(self, cell, value):
        if cell >= self.problem.cells or value >= self.problem.values:
            raise Rejected("IndexRange")
        if not self.domains[cell] >> value & 1:
            raise Rejected("NotStanding")

    def remove(self, cell, value, direction):
        if direction >= len(self.problem.fits):
            raise Rejected("IndexRange")
        self.standing(cell, value)
        there = self.problem.neighbours[cell][direction]
        if there is None:
            raise Rejected("NoNeighbour")
        support = self.problem.fits[direction][value] & self.domains[there]
        if support:
            raise Rejected(f"HasSupport value={values_of(support)[0]}")
        self.domains[cell] &= ~(1 << value)

    def split(self, cell, value):
        self.standing(cell, value)
        if self.domains[cell] == 1 << value:
            raise Rejected("OnlyValue")
        other = list(self.domains)
        other[cell] &= ~(1 << value)
        self.waiting.append(other)
        self.domains[cell] = 1 << value

    def empty(self, cell):
        if cell >= self.problem.cells:
            raise Rejected("IndexRange")
        if self.domains[cell]:
            raise Rejected(f"NotEmpty value={values_of(self.domains[cell])[0]}")
        if self.waiting:
            self.domains = self.waiting.pop()
        else:
            self.closed = True


def read(problem, shape, text):
    """The checker and the lines of a text; the fault of the first line at fault is raised as a ValueError."""
    bad = lambda at: ValueError(f"BadLine line={at}")
    if not text:
        raise bad(1)
    pieces = text.split(b"\n")
    tail = pieces.pop()
    checker, form, lines = Checker(problem), 0, []
    for at, piece in enumerate(pieces, 1):
        if at == 1:
            form = {b"wfc-refutation 1": 1, b"wfc-refutation 2": 2}.get(piece)
            if form is None:
                raise bad(1)
        elif at == 2:
            head = numbers("cells # values #", piece, (BIG, BIG)) if len(piece) <= 64 else None
            if head is None:
                raise bad(2)
            if head != [problem.cells, problem.values]:
                raise ValueError(f"HeaderDiffers cells={head[0]} values={head[1]}")
        elif at == 3 and form == 2:
            found = numbers("for # # # # # # #", piece, (6, BIG, BIG, BIG, 255, 1, 1)) if len(piece) <= 64 else None
            if found is None:
                raise bad(3)
            if found != list(shape):
                raise ValueError("OptionsDiffer " + " ".join(f"{name}={n}" for name, n in zip(FIELDS, found)))
        else:
            line = line_of(piece, form)
            if line is None:
                raise bad(at)
            try:
                checker.line(line)
            except Rejected as fault:
                error = ValueError(f"Rejected line={at} reject={fault}")
                error.checker, error.lines, error.last = checker, lines, line
                error.whole = at == len(pieces) and not tail
                raise error from None
            lines.append(line)
    if tail:
        raise bad(len(pieces) + 1)
    if not checker.ended:
        raise ValueError("NotEnded")
    return checker, lines, form


def head(problem, shape, form):
    text = f"wfc-refutation {form}\ncells {problem.cells} values {problem.values}\n"
    return text + (f"for {' '.join(map(str, shape))}\n" if form == 2 else "")


def spelled(problem, shape, form, lines, joins=True):
    """The text of a proof. In format 2 removals that follow one another are joined, where that is asked for."""
    single = []
    for line in lines:
        single += [("r", line[1], v, v, line[4]) for v in range(line[2], line[3] + 1)] if line[0] == "r" else [line]
    put = []
    for line in single:
        last = put[-1] if put else (None,)
        if form == 2 and joins and line[0] == last[0] == "r" and (line[1], line[4]) == (last[1], last[4]) and line[2] == last[3] + 1:
            put[-1] = ("r", last[1], last[2], line[3], last[4])
        else:
            put.append(line)
    if form == 1:
        put = [("r", line[1], line[2], line[4]) if line[0] == "r" else line for line in put]
    return (head(problem, shape, form) + "".join(" ".join(map(str, line)) + "\n" for line in put)).encode()


def journal_fault(problem, shape, form, text, run):
    """What is wrong with the text of `refute` for a run, or nothing."""
    last = {"none": b"q", "map": b"s", "spent": b"o"}[run.end]
    if not text.startswith(head(problem, shape, form).encode()):
        return "its head"
    try:
        checker, lines, _ = read(problem, shape, text)
        if run.end != "none":
            return "it ends with q"
    except ValueError as fault:
        if run.end == "none" or not hasattr(fault, "last"):
            return str(fault)
        if not str(fault).endswith("NotClosed") or not fault.whole or fault.last != (last.decode(),):
            return str(fault)
        lines = fault.lines + [fault.last]
    if [line[1:] for line in lines if line[0] == "t"] != run.chosen:
        return "its choices"
    if sum(line[0] == "x" for line in lines) != run.dead:
        return "its dead ends"
    if text != spelled(problem, shape, form, lines):
        return "its joined lines"
    return first_fault(problem, lines)


def first_fault(problem, lines):
    """The first removal of the opening is the first value without a support, in its first direction."""
    if not all(problem.base):
        at = next(c for c, there in enumerate(problem.base) if not there)
        return "" if lines[0] == ("x", at) else "its first line"
    for cell, there in enumerate(problem.base):
        for value in values_of(there):
            for d, to in enumerate(problem.neighbours[cell]):
                if to is not None and not problem.fits[d][value] & problem.base[to]:
                    first = lines[0]
                    return "" if (first[0], first[1], first[2], first[4:]) == ("r", cell, value, (d,)) else "its first removal"
    return "" if lines[0][0] != "r" else "a removal of a value with its supports"


def random_proof(problem, pick, most=400):
    """The lines of a proof made in no particular order, without its q; None where it becomes too long or a map turns up."""
    lines = []

    def close(domains):
        while True:
            if len(lines) > most:
                return False
            empty = [c for c, there in enumerate(domains) if not there]
            if empty:
                lines.append(("x", pick.choice(empty)))
                return True
            loose = [
                (c, v, d) for c, there in enumerate(domains) for v in values_of(there)
                for d, to in enumerate(problem.neighbours[c]) if to is not None and not problem.fits[d][v] & domains[to]
            ]
            open_ = [c for c, there in enumerate(domains) if there & (there - 1)]
            if loose and not (open_ and pick.random() < 0.05):
                c, v, d = pick.choice(loose)
                lines.append(("r", c, v, v, d))
                domains[c] &= ~(1 << v)
                continue
            if not open_:
                return False
            c = pick.choice(open_)
            v = pick.choice(values_of(domains[c]))
            lines.append(("t", c, v))
            one = list(domains)
            one[c] = 1 << v
            if not close(one):
                return False
            domains[c] &= ~(1 << v)

    return lines if close(list(problem.base)) else None
