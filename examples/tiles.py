"""The tile sets of this folder: writes the pictures of their tiles, and for each set a document. Two tiles may stand side by
side where their pictures show the same along the sides that touch.

    python3 examples/tiles.py
"""

import pathlib

HERE = pathlib.Path(__file__).parent

# For each tile: its name, its class, its weight and its picture.
DUNGEON = [
    ("rock", "X", 6, ["   ", "   ", "   "]),
    ("floor", "X", 12, ["...", "...", "..."]),
    ("wall", "T", 6, ["   ", "###", "..."]),
    ("corner", "L", 12, [" #.", " ##", "   "]),
    ("door", "T", 3, [" : ", "#+#", "..."]),
    ("corridor", "I", 3, [" : ", " : ", " : "]),
    ("bend", "L", 1, [" : ", " ::", "   "]),
    ("fork", "T", 1, ["   ", ":::", " : "]),
]

# On the ground a yard, trees, and walls with gates and towers; above them battlements, turrets, keeps and roofs, and the sky.
CASTLE = [
    ("yard", "X", 6, ["...", "...", "..."]),
    ("tree", "X", 1, ["...", ".%.", "..."]),
    ("wall", "I", 3, [".#.", ".#.", ".#."]),
    ("gate", "I", 1, [".#.", ".:.", ".#."]),
    ("tower", "L", 8, [".#.", ".@#", "..."]),
    ("sky", "X", 6, ["   ", "   ", "   "]),
    ("rampart", "I", 3, [" = ", " = ", " = "]),
    ("turret", "L", 8, [" = ", " @=", "   "]),
    ("keep", "X", 2, ["   ", " @ ", "   "]),
    ("roof", "X", 1, ["   ", " ^ ", "   "]),
]

# Which tile of the castle stands on which.
STOREYS = [
    ("yard", "sky"),
    ("tree", "sky"),
    ("wall", "rampart"),
    ("gate", "rampart"),
    ("tower", "turret"),
    ("rampart", "sky"),
    ("turret", "keep"),
    ("turret", "roof"),
    ("keep", "keep"),
    ("keep", "roof"),
    ("roof", "sky"),
    ("sky", "sky"),
]

# The same, with the rows of each picture one behind another.
ROADS = [
    (
        "grass",
        "X",
        24,
        "......... ......... ..,...... ......... ......,.. ......... ...,..... ......... .........",
    ),
    (
        "trees",
        "X",
        10,
        "......... ..ttt.... .ttTtt... .tTttt... ..ttt.tt. .....tTt. .....ttt. ......tt. .........",
    ),
    (
        "road",
        "I",
        12,
        "..rrrrr.. ..rrrrr.. ..rr-rr.. ..rr-rr.. ..rr-rr.. ..rr-rr.. ..rr-rr.. ..rrrrr.. ..rrrrr..",
    ),
    (
        "bend",
        "L",
        2,
        "..rrrrr.. ..rrrrr.. ..rr-rrrr ..rr-rrrr ..rr---rr ...rrrrrr ....rrrrr ......... .........",
    ),
    (
        "fork",
        "T",
        2,
        "......... ......... rrrrrrrrr rrrrrrrrr rrrrrrrrr rrrrrrrrr rrrrrrrrr ..rrrrr.. ..rrrrr..",
    ),
    (
        "house",
        "T",
        3,
        "......... .hhhhhhh. .hhhhhhh. .hhhhhhh. .HHHHHHH. .HHHHHHH. ...rrr... ..rrrrr.. ..rrrrr..",
    ),
    (
        "river",
        "I",
        12,
        "..bwwwb.. ..bwwwb.. ..bwwwb.. ..bwwwb.. ..bwwwb.. ..bwwwb.. ..bwwwb.. ..bwwwb.. ..bwwwb..",
    ),
    (
        "turn",
        "L",
        1,
        "..bwwwb.. ..bwwwb.. ..bwwwbbb ..bwwwwww ..bwwwwww ...bwwwww ....bbbbb ......... .........",
    ),
    (
        "bridge",
        "I",
        6,
        "..bwwwb.. ..bwwwb.. rrrrrrrrr rrrrrrrrr rr-----rr rrrrrrrrr rrrrrrrrr ..bwwwb.. ..bwwwb..",
    ),
]

COLOURS = {
    # Grass, a road, a river and its banks, a roof, trees.
    ".": (126, 184, 96),
    ",": (106, 166, 82),
    "r": (92, 92, 100),
    "-": (232, 224, 160),
    "w": (58, 124, 190),
    "b": (96, 164, 214),
    "h": (196, 92, 66),
    "H": (160, 68, 50),
    "t": (50, 112, 58),
    "T": (72, 140, 74),
    # The sea, a beach, meadows, woods.
    "s": (70, 140, 190),
    "y": (222, 206, 150),
    "m": (116, 172, 92),
    "f": (60, 116, 66),
}

# Names of tiles that never stand side by side.
APART = {("corner", "corner"), ("gate", "gate"), ("house", "house"), ("turn", "turn")}

# The side of a tile of the coast, in pixels.
SIDE = 8


def slope(low, high, between, corners):
    """A tile whose four corners, above and below, left and right, are low (0) or high (1)."""
    last = SIDE - 1
    a, b, c, d = corners
    rows = []
    for y in range(SIDE):
        row = ""
        for x in range(SIDE):
            height = (last - y) * (a * (last - x) + b * x) + y * (c * (last - x) + d * x)
            part = height / last**2
            row += low if part < 0.5 else between if part < 0.7 else high
        rows.append(row)
    return rows


def coast():
    """The sea, meadows and woods, and what lies between each two."""
    tiles = [
        ("sea", "X", 12, ["s" * SIDE] * SIDE),
        ("meadow", "X", 4, ["m" * SIDE] * SIDE),
        ("wood", "X", 8, ["f" * SIDE] * SIDE),
    ]
    for name, colours in [("shore", ("s", "m", "y")), ("edge", ("m", "f", "f"))]:
        tiles.append((name, "T", 2, slope(*colours, (1, 1, 0, 0))))
        tiles.append((name + "-cape", "L", 1, slope(*colours, (0, 1, 0, 0))))
        tiles.append((name + "-bay", "L", 1, slope(*colours, (1, 1, 0, 1))))
    return tiles


def globe():
    """A mask of two discs, side by side."""
    return ["".join(place(x % 31, y) for x in range(62)) for y in range(30)]


def place(x, y):
    """A place of a disc in a rectangle of 31 by 30, or a hole."""
    return "." if (2 * x - 30) ** 2 + (2 * y - 29) ** 2 <= 900 else "#"


def rotated(rows):
    """A picture turned counter-clockwise."""
    return ["".join(row[-1 - y] for row in rows) for y in range(len(rows))]


def reflected(rows):
    """A picture with left and right exchanged."""
    return [row[::-1] for row in rows]


def images(rows):
    """A picture under each of the eight actions."""
    turned = [rows]
    for _ in range(3):
        turned.append(rotated(turned[-1]))
    return turned + [reflected(picture) for picture in turned]


def variants(tile):
    """The pictures of a tile's variants, each with the least action that gives it. A tile of class X has one variant."""
    found = {}
    for action, picture in enumerate(images(tile[3])[: 1 if tile[1] == "X" else 8]):
        found.setdefault(tuple(picture), action)
    return found


def variant(tile, picture):
    """What a tile's variant with this picture is told by."""
    return tile[0], None if tile[1] == "X" else tuple(picture)


def touch(left, right):
    """Whether two pictures show the same along the sides that touch."""
    return all(a[-1] == b[0] for a, b in zip(left, right))


def alike(first, second):
    """The pairs of variants of two tiles that show the same along the sides that touch, each with its actions."""
    for left, turn in variants(first).items():
        for right, other in variants(second).items():
            if touch(left, right):
                yield left, turn, right, other


def pairs(tiles):
    """The pairs of tiles, with their actions, that may stand side by side, but for those that follow from others by half a
    turn or a reflection of both."""
    allowed = set()
    for first in tiles:
        for second in tiles:
            if (first[0], second[0]) in APART:
                continue
            for left, turn, right, other in alike(first, second):
                if (variant(first, left), variant(second, right)) in allowed:
                    continue
                yield word(first, turn), word(second, other)
                for action in (0, 6):
                    a, b = images(left)[action], images(right)[action]
                    allowed.add((variant(first, a), variant(second, b)))
                for action in (2, 4):
                    a, b = images(left)[action], images(right)[action]
                    allowed.add((variant(second, b), variant(first, a)))


def word(tile, action):
    """What a document calls an action on a tile."""
    return f"{tile[0]} {action}" if action else tile[0]


def write(name, about, tiles, ending, bytes_of, stacks=()):
    """Writes the pictures of a set into its folder, and its document, which names them as seen from the top folder."""
    folder = HERE / name
    folder.mkdir(exist_ok=True)
    where = "# The pictures are looked for from the folder where the program runs: the top of the repository."
    lines = [f"# {about} Written by tiles.py.", where, "", "tile = ["]
    for title, kind, weight, rows in tiles:
        (folder / (title + ending)).write_bytes(bytes_of(rows))
        picture = f"examples/{name}/{title}{ending}"
        lines.append(f"    {{ name = '{title}', class = '{kind}', weight = {weight}, picture = '{picture}' }},")
    lines += ["]", "", "pair = ["]
    lines += [f"    {{ left = '{left}', right = '{right}' }}," for left, right in pairs(tiles)]
    if stacks:
        lines += ["]", "", "stack = ["]
        lines += [f"    {{ lower = '{lower}', upper = '{upper}' }}," for lower, upper in stacks]
    lines += ["]", ""]
    (HERE / (name + ".toml")).write_text("\n".join(lines))


def grid(rows):
    """The bytes of a picture of characters."""
    return "".join(row + "\n" for row in rows).encode()


def ppm(rows):
    """The bytes of a picture in colours."""
    pixels = b"".join(bytes(COLOURS[symbol]) for row in rows for symbol in row)
    return b"P6\n%d %d\n255\n" % (len(rows[0]), len(rows)) + pixels


if __name__ == "__main__":
    roads = [(*tile[:3], tile[3].split()) for tile in ROADS]
    write("dungeon", "Rooms with doors, and corridors between them.", DUNGEON, ".txt", grid)
    write("castle", "A castle, storey upon storey.", CASTLE, ".txt", grid, STOREYS)
    write("roads", "Roads between houses, and rivers with bridges.", roads, ".ppm", ppm)
    write("coast", "The sea, meadows and woods.", coast(), ".ppm", ppm)
    (HERE / "coast.mask").write_bytes(grid(globe()))
