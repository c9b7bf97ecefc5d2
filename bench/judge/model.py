"""Samples, tile sets and boxes as problems: cells with neighbours, values with weights, and which may stand beside which."""
from . import files
from .files import Fault

MOVES = [(-1, 0), (0, 1), (1, 0), (0, -1)]  # left, down, right, up
BACK = [2, 3, 0, 1, 5, 4]


class Problem:
    """neighbours[c][d] is a cell or None; fits[d][v] and base[c] are sets of values, as bits of a number."""

    def __init__(self, neighbours, weights, fits, base):
        self.neighbours, self.weights, self.fits, self.base = neighbours, weights, fits, base
        self.cells, self.values = len(base), len(weights)


# ---- windows


def places(width, height, n, wraps):
    if wraps:
        return [(x, y) for y in range(height) for x in range(width)]
    return [(x, y) for y in range(height - n + 1) for x in range(width - n + 1)]


def window(rows, x, y, n):
    height, width = len(rows), len(rows[0])
    return tuple(rows[(y + j) % height][(x + i) % width] for j in range(n) for i in range(n))


def reflect(p, n):
    return tuple(p[y * n + n - 1 - x] for y in range(n) for x in range(n))


def rotate(p, n):
    return tuple(p[x * n + n - 1 - y] for y in range(n) for x in range(n))


def images(p, n, count):
    made = [p]
    for k in range(1, count):
        made.append(reflect(made[k - 1], n) if k % 2 else rotate(made[k - 2], n))
    return made


class Sample:
    """What a sample teaches: its symbols by first appearance, and its windows with their weights."""

    def __init__(self, name, data, n, symmetry, wraps):
        if files.is_ppm(name):
            self.kind = "ppm"
            width, self.maxval, pixels = files.ppm(data, name)
        else:
            self.kind, self.maxval = "grid", 0
            rows = files.grid(data, "grid", name)
            width, pixels = len(rows[0]), [byte for row in rows for byte in row]
        number = {}
        for at, pixel in enumerate(pixels):
            number.setdefault(pixel, len(number))
            if len(number) > 4_096:
                raise Fault(4, f"palette TooManyColours at={at} file={name}")
        self.symbols, self.n = list(number), n
        self.rows = [[number[p] for p in pixels[k : k + width]] for k in range(0, len(pixels), width)]
        self.learn(name, symmetry, wraps)

    def learn(self, name, symmetry, wraps):
        width, height = len(self.rows[0]), len(self.rows)
        if not wraps and min(width, height) < self.n:
            raise Fault(4, f"learn SampleBelowN file={name}")
        self.weight = {}
        for x, y in places(width, height, self.n, wraps):
            for form in images(window(self.rows, x, y, self.n), self.n, symmetry):
                self.weight[form] = self.weight.get(form, 0) + 1
        self.patterns = list(self.weight)
        if len(self.patterns) > 4_096:
            raise Fault(4, f"learn TooManyPatterns count={len(self.patterns)} file={name}")

    def symbol(self, word):
        """The number of the symbol that a word of a pin spells, or None."""
        return {spelled(self.kind, symbol).encode(): at for at, symbol in enumerate(self.symbols)}.get(word)

    def agree(self, p, q, dx, dy):
        n = self.n
        return all(
            p[y * n + x] == q[(y - dy) * n + x - dx]
            for y in range(n) for x in range(n) if 0 <= x - dx < n and 0 <= y - dy < n
        )

    def fits(self):
        return [
            [sum(1 << w for w, q in enumerate(self.patterns) if self.agree(p, q, *move)) for p in self.patterns]
            for move in MOVES
        ]


def spelled(kind, symbol):
    if kind == "ppm":
        return ",".join(map(str, symbol))
    return "\\s" if symbol == 0x20 else chr(symbol)


def pinned(pins, name, inside, hole, symbol):
    """The lines of pins with the numbers of their symbols; the first line at fault is refused."""
    read = []
    for line, keep, place, word in pins:
        if not inside(place):
            raise Fault(4, f"build PinOutside line={line} file={name}")
        if hole(place):
            raise Fault(4, f"build PinInHole line={line} file={name}")
        value = symbol(word)
        if value is None:
            raise Fault(4, f"build UnknownSymbol line={line} file={name}")
        read.append((keep, place, value))
    return read


def overlap_size(sample, width, height, wraps):
    """The number of cells; a side below N and too large a problem are refused."""
    if min(width, height) < sample.n:
        raise Fault(4, "build SizeBelowN")
    cells = width * height if wraps else (width - sample.n + 1) * (height - sample.n + 1)
    if cells * len(sample.patterns) > 8_388_608:
        raise Fault(4, f"build TooLarge product={cells * len(sample.patterns)}")
    return cells


def overlap_pins(sample, width, height, pins, name):
    return pinned(pins, name, lambda at: at[0] < width and at[1] < height, lambda at: False, sample.symbol)


def overlap_problem(sample, width, height, wraps, pins, fits=None):
    """A problem with a cell for each window of the map."""
    n = sample.n
    cells = places(width, height, n, wraps)
    number = {place: at for at, place in enumerate(cells)}
    neighbours = [
        [number.get(((x + dx) % width, (y + dy) % height) if wraps else (x + dx, y + dy)) for dx, dy in MOVES]
        for x, y in cells
    ]
    base = []
    for x, y in cells:
        here = {((x + i) % width, (y + j) % height): j * n + i for j in range(n) for i in range(n)}
        asked = [(keep, here[place], value) for keep, place, value in pins if place in here]
        base.append(sum(1 << v for v, p in enumerate(sample.patterns) if all((p[k] == value) == keep for keep, k, value in asked)))
    return Problem(neighbours, [sample.weight[p] for p in sample.patterns], fits or sample.fits(), base)


def overlap_map(sample, width, height, wraps, assignment):
    """The picture of an assignment: each pixel is that of every window that has it."""
    rows = [[None] * width for _ in range(height)]
    for (x, y), value in zip(places(width, height, sample.n, wraps), assignment):
        for k, colour in enumerate(sample.patterns[value]):
            rows[(y + k // sample.n) % height][(x + k % sample.n) % width] = colour
    return rows


# ---- tiles


def turned(kind, i):
    return {"X": i, "I": 1 - i, "\\": 1 - i, "L": (i + 1) % 4, "T": (i + 1) % 4}.get(
        kind, (i + 1) % 4 if i < 4 else 4 + (i - 1) % 4)


def mirrored(kind, i):
    return {"X": i, "I": i, "\\": 1 - i, "L": i + 1 if i % 2 == 0 else i - 1, "T": i if i % 2 == 0 else 4 - i}.get(
        kind, i + 4 if i < 4 else i - 4)


def acted(kind, i, k):
    for _ in range(k % 4):
        i = turned(kind, i)
    return mirrored(kind, i) if k >= 4 else i


class Tiles:
    """A tile set: its variants, and which of them may stand side by side, one above the other, and one on the other."""

    def __init__(self, name, folder, with_stacks=False):
        self.tiles, pairs, value = files.tile_set(folder[name], name)
        self.pictures = files.tile_pictures(self.tiles, folder, name)
        self.kind = self.pictures[0] if self.pictures else "plain"
        self.side = self.pictures[1] if self.pictures else 1
        self.variants = [(t, i) for t, tile in enumerate(self.tiles) for i in range(files.CARDINALITY[tile[1]])]
        self.number = {variant: at for at, variant in enumerate(self.variants)}
        self.across, self.down = set(), set()
        for left, right in pairs:
            self.allow(self.of(*left), self.of(*right))
        self.stacked = set()
        if with_stacks:
            for lower, upper in files.stacks(value, self.tiles, name):
                for k in range(8):
                    self.stacked.add((self.act(k, self.of(*lower)), self.act(k, self.of(*upper))))

    def of(self, tile, k):
        return self.number[tile, acted(self.tiles[tile][1], 0, k)]

    def act(self, k, v):
        tile, i = self.variants[v]
        return self.number[tile, acted(self.tiles[tile][1], i, k)]

    def allow(self, left, right):
        """A pair and what the eight actions make of it, by what a square's symmetries do to a pair side by side.

        A quarter turn counter-clockwise brings the right end to the top; the reflection changes the sides of a row alone."""
        for k in range(8):
            a, b = self.act(k, left), self.act(k, right)
            row, first = [(True, True), (False, False), (True, False), (False, True)][k % 4]
            if k >= 4 and row:
                first = not first
            (self.across if row else self.down).add((a, b) if first else (b, a))

    def spell(self, v):
        tile, i = self.variants[v]
        return f"{self.tiles[tile][0]}/{i}"

    def symbol(self, word):
        return {self.spell(v).encode(): v for v in range(len(self.variants))}.get(word)

    def weights(self):
        return [self.tiles[tile][2] for tile, _ in self.variants]

    def fits(self, pairs):
        """Of each variant the second ends of the pairs, and of each the first ends."""
        ends = range(len(self.variants))
        return (
            [sum(1 << b for b in ends if (a, b) in pairs) for a in ends],
            [sum(1 << a for a in ends if (a, b) in pairs) for b in ends],
        )

    def picture(self, v):
        tile, i = self.variants[v]
        rows = self.pictures[3][tile]
        side = len(rows)
        flat = tuple(pixel for row in rows for pixel in row)
        for _ in range(i % 4):
            flat = rotate(flat, side)
        if i >= 4:
            flat = reflect(flat, side)
        return [flat[k : k + side] for k in range(0, side * side, side)]


def tile_problem(tiles, sides, wraps, spots, pins):
    """A problem with a cell for each place (x, y, layer) that is no hole."""
    width, height, depth = sides
    number = {place: at for at, place in enumerate(spots)}
    moves = [(dx, dy, 0) for dx, dy in MOVES] + ([(0, 0, 1), (0, 0, -1)] if depth is not None else [])
    neighbours = []
    for x, y, z in spots:
        row = []
        for dx, dy, dz in moves:
            to = (x + dx, y + dy, z + dz)
            row.append(number.get((to[0] % width, to[1] % height, to[2]) if wraps else to))
        neighbours.append(row)
    (right, left), (below, above) = tiles.fits(tiles.across), tiles.fits(tiles.down)
    fits = [left, below, right, above]
    if depth is not None:
        fits += list(tiles.fits(tiles.stacked))
    base = []
    for place in spots:
        asked = [(keep, value) for keep, at, value in pins if at == place]
        base.append(sum(1 << v for v in range(len(tiles.variants)) if all((v == value) == keep for keep, value in asked)))
    return Problem(neighbours, tiles.weights(), fits, base)


def tile_size(tiles, cells):
    if cells * len(tiles.variants) > 8_388_608:
        raise Fault(4, f"build TooLarge product={cells * len(tiles.variants)}")
