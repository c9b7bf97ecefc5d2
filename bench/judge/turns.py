"""The words of a seed, what arc consistency leaves, and the defined run turn by turn."""
from .model import BACK

MASK64, MASK128 = (1 << 64) - 1, (1 << 128) - 1


def words(seed):
    """The words of PCG (XSL RR 128/64), whose seed of 32 bytes PCG32 makes of a number."""
    state, seeds = seed & MASK64, []
    for _ in range(8):
        state = (state * 6364136223846793005 + 11634580027462260723) & MASK64
        shifted, turn = ((state >> 18) ^ state) >> 27 & 0xFFFFFFFF, state >> 59
        seeds.append((shifted >> turn | shifted << (32 - turn)) & 0xFFFFFFFF)
    pairs = [seeds[k] | seeds[k + 1] << 32 for k in range(0, 8, 2)]
    step = (pairs[2] | pairs[3] << 64) | 1
    by = 0x2360ED051FC65DA44385DF649FCCF645
    state = ((pairs[0] | pairs[1] << 64) + step) & MASK128
    state = (state * by + step) & MASK128
    while True:
        state = (state * by + step) & MASK128
        folded, turn = (state >> 64 ^ state) & MASK64, state >> 122
        yield (folded >> turn | folded << (64 - turn)) & MASK64


class Long(Exception):
    """A run of more turns than the judge makes."""


class Closing:
    """Takes away what has no support, as far as it goes."""

    def __init__(self, problem):
        self.problem = problem
        self.known = {}
        self.dirs = [range(len(row)) for row in problem.neighbours]

    def supported(self, d, there):
        """The values that have a support among those that stand at the neighbour in this direction."""
        key = (d, there)
        if key not in self.known:
            fits = self.problem.fits[d]
            self.known[key] = sum(1 << v for v in range(self.problem.values) if fits[v] & there)
        return self.known[key]

    def close(self, domains, changed):
        """Closes these domains in place, of which so many cells have changed; answers whether all cells keep a value."""
        neighbours = self.problem.neighbours
        waiting = list(changed)
        while waiting:
            n = waiting.pop()
            if not domains[n]:
                return False
            for d in self.dirs[n]:
                c = neighbours[n][d]
                if c is None:
                    continue
                left = domains[c] & self.supported(BACK[d], domains[n])
                if left != domains[c]:
                    domains[c] = left
                    if not left:
                        return False
                    waiting.append(c)
        return True

    def root(self):
        """The domains without any assumption, and whether they live."""
        domains = list(self.problem.base)
        lives = all(domains) and self.close(domains, range(len(domains)))
        return domains, lives

    def assumed(self, domains, keep, cell, value):
        """The domains behind an assumption, and whether they live."""
        made = list(domains)
        bit = 1 << value
        made[cell] = made[cell] & bit if keep else made[cell] & ~bit
        lives = bool(made[cell]) and (made[cell] == domains[cell] or self.close(made, [cell]))
        return made, lives


def picked(rule, domains):
    best = None
    for cell, there in enumerate(domains):
        if there & (there - 1):
            size = there.bit_count()
            if rule == "scanline":
                return cell
            if best is None or size < best[0]:
                best = (size, cell)
    return best[1] if best else None


def values_of(there):
    return [v for v in range(there.bit_length()) if there >> v & 1]


def drawn(weights, there, word):
    left = word % sum(weights[v] for v in values_of(there))
    for v in values_of(there):
        if left < weights[v]:
            return v
        left -= weights[v]
    raise AssertionError


class Run:
    """The end of the defined run: `map`, `none` or `spent`, and what was told on its way."""

    def __init__(self, problem, rule, seed, budget, most=4000):
        closing, stream = Closing(problem), words(seed)
        domains, lives = closing.root()
        stack = []  # the standing assumptions, each with the domains before it
        self.retractions = self.turns = self.dead = 0
        self.chosen, self.assignment = [], None
        self.dead = int(not lives)
        while True:
            self.turns += 1
            if self.turns > most:
                raise Long
            if not lives:
                if not any(keep for keep, *_ in stack):
                    self.end = "none"
                    return
                if self.retractions == budget:
                    self.end = "spent"
                    return
                while True:
                    keep, cell, value, before = stack.pop()
                    if keep:
                        break
                stack.append((False, cell, value, before))
                domains, lives = closing.assumed(before, False, cell, value)
                self.retractions += 1
                self.dead += not lives
                continue
            cell = picked(rule, domains)
            if cell is None:
                self.end = "map"
                self.assignment = [there.bit_length() - 1 for there in domains]
                return
            value = drawn(problem.weights, domains[cell], next(stream))
            self.chosen.append((cell, value))
            stack.append((True, cell, value, domains))
            domains, lives = closing.assumed(domains, True, cell, value)
            self.dead += not lives


def raced(runs, quantum):
    """Which of these runs ends first, by rounds in which each makes so many turns; None where all are spent."""
    made, going = [0] * len(runs), set(range(len(runs)))
    while going:
        for at, run in enumerate(runs):
            if at in going:
                made[at] += quantum
                if made[at] >= run.turns:
                    if run.end != "spent":
                        return at
                    going.discard(at)
    return None
