#!/usr/bin/env python3
"""Compares the pictures of a tile set with what its classes and pairs say, and warns where they differ.

    python3 examples/check_tiles.py SET.toml

Run it from the folder where the program will run: pictures are looked for from there. The program itself never looks at what a picture
shows, so a tile whose picture does not fit its class makes a torn map and no fault.

A tile's class says which of its variants it becomes by each of eight actions, quarter turns and a reflection. Where its picture, under an
action, has other sides than that of the variant, the class or the picture is wrong: docs/formats.md shows how variant 0 of each class is
drawn. Where only its inside differs, as that of grass may, a note says so. Of each declared pair the right column of the left picture is
compared with the left column of the right one: they may differ, where that is meant.
Status 0 where nothing but notes is told, else 1; 2 where the set or a picture can't be read.
"""
import re
import sys

COUNT = {"X": 1, "I": 2, "\\": 2, "L": 4, "T": 4, "F": 8}
DRAWN = {
    "X": "the same however it is turned or reflected",
    "I": "the same reflected left to right and upside down: a bar",
    "\\": "the same turned by half, and reflected as turned by a quarter: a diagonal",
    "L": "reflected left to right as turned by a quarter counter-clockwise: a corner that opens up and right, or down and left",
    "T": "the same reflected left to right: a stem that goes down, or up",
    "F": "anything",
}


def turned(kind, i):
    """The variant that variant i of a class becomes by a quarter turn counter-clockwise."""
    if kind == "F" and i >= 4:
        return 4 + (i - 1) % 4
    return {"X": i, "I": 1 - i, "\\": 1 - i}.get(kind, (i + 1) % 4)


def reflected(kind, i):
    """The variant that variant i of a class becomes by a reflection left to right."""
    if kind in "XI":
        return i
    if kind == "\\":
        return 1 - i
    if kind == "F":
        return (i + 4) % 8
    return i ^ 1 if kind == "L" else -i % 4 if i % 2 else i


def acted(kind, action):
    """The variant that variant 0 of a class becomes by an action."""
    i = 0
    for _ in range(action % 4):
        i = turned(kind, i)
    return reflected(kind, i) if action >= 4 else i


def rotate(rows):
    return [[row[-1 - y] for row in rows] for y in range(len(rows))]


def under(rows, action):
    """A picture under an action."""
    for _ in range(action % 4):
        rows = rotate(rows)
    return [row[::-1] for row in rows] if action >= 4 else rows


def ppm(data):
    """The rows of pixels of a picture in the form P6 or P3."""
    magic, tokens, at = data[:2], [], 2
    while len(tokens) < 3:
        found = re.compile(rb"(?:\s|#[^\r\n]*[\r\n])+(\d+)").match(data, at)
        if not found:
            raise ValueError("no picture in the form PPM")
        tokens.append(int(found.group(1)))
        at = found.end()
    width, height, most = tokens
    if magic == b"P6":
        size = 1 if most < 256 else 2
        body = data[at + 1 :]
        samples = [int.from_bytes(body[i : i + size], "big") for i in range(0, len(body), size)]
    else:
        samples = [int(it) for it in re.sub(rb"#[^\r\n]*", b"", data[at:]).split()]
    pixels = list(zip(samples[::3], samples[1::3], samples[2::3]))
    return [pixels[y * width : (y + 1) * width] for y in range(height)]


def picture(name):
    """The rows of a tile's picture."""
    with open(name, "rb") as file:
        data = file.read()
    if name.endswith((".ppm", ".PPM")):
        return ppm(data)
    return [list(line) for line in data.decode("ascii").splitlines()]


def action_of(end):
    """The tile's name and the action of an end of a pair."""
    name, blank, action = end.partition(" ")
    if blank and action not in list("01234567"):
        raise ValueError(f"'{end}' has no action from 0 to 7")
    return name, int(action or 0)


def sides(rows):
    """The pixels along the four sides of a picture."""
    return rows[0], rows[-1], [row[0] for row in rows], [row[-1] for row in rows]


def wrong_actions(tile, rows, part):
    """The actions under which this part of a tile's picture is not that of the variant that its class says."""
    kind = tile["class"]
    return [it for it in range(8) if part(under(rows, it)) != part(under(rows, acted(kind, it)))]


def told_of(name, tile, rows):
    """What is told of a tile's picture."""
    if any(len(row) != len(rows) for row in rows):
        return f"{name}: its picture is not square"
    kind = f"of class {tile['class']}, which is {DRAWN[tile['class']]}"
    if wrong := wrong_actions(tile, rows, sides):
        return f"{name}: {kind}; its sides aren't so under the actions {', '.join(map(str, wrong))}"
    if wrong_actions(tile, rows, list):
        return f"note: {name}: {kind}; its inside isn't so"
    return None


def faults(document):
    tiles = {tile["name"]: tile for tile in document.get("tile", [])}
    pictures = {}
    for name, tile in tiles.items():
        if tile["class"] not in COUNT:
            raise ValueError(f"{name}: class '{tile['class']}' is none of {', '.join(COUNT)}")
    for name, tile in tiles.items():
        extra = set(tile) - {"name", "class", "weight", "picture"}
        if extra:
            yield f"{name}: nobody reads {', '.join(sorted(extra))}"
        if "picture" not in tile:
            continue
        pictures[name] = picture(tile["picture"])
        if told := told_of(name, tile, pictures[name]):
            yield told
    for number, pair in enumerate(document.get("pair", [])):
        ends = [action_of(pair["left"]), action_of(pair["right"])]
        for name, _ in ends:
            if name not in tiles:
                yield f"pair {number}: there is no tile {name}"
        if all(name in pictures for name, _ in ends):
            left, right = (under(pictures[name], acted(tiles[name]["class"], action)) for name, action in ends)
            if [row[-1] for row in left] != [row[0] for row in right]:
                yield f"pair {number}: {pair['left']} and {pair['right']} show different things along the sides that touch"


def main(words):
    if len(words) != 1:
        sys.exit(__doc__)
    try:
        import tomllib
    except ImportError:
        print("Python 3.11 or later is needed, for its tomllib", file=sys.stderr)
        return 2
    try:
        with open(words[0], "rb") as file:
            document = tomllib.load(file)
        found = list(faults(document))
    except (OSError, ValueError, KeyError, IndexError, TypeError, AttributeError) as error:
        print(f"{words[0]}: {type(error).__name__}: {error}", file=sys.stderr)
        return 2
    for each in found:
        print(each)
    return 1 if any(not it.startswith("note: ") for it in found) else 0


if __name__ == "__main__":
    sys.exit(main(sys.argv[1:]))
