"""What a legal map is, in words of pixels and tiles alone, and a search that tries all maps in turn. No problem is made."""
from .model import places, window


class TooMany(Exception):
    """More steps than a search may take."""


def picture_fault(sample, width, height, wraps, pins, rows):
    """What is wrong with a map of colour numbers, or nothing."""
    if len(rows) != height or any(len(row) != width for row in rows):
        return "its size"
    known = set(sample.patterns)
    for x, y in places(width, height, sample.n, wraps):
        if window(rows, x, y, sample.n) not in known:
            return f"the window at {x} {y}"
    return next((f"the pin at {x} {y}" for keep, (x, y), value in pins if (rows[y][x] == value) != keep), "")


def tiles_fault(tiles, sides, wraps, spots, pins, at):
    """What is wrong with variants by place, or nothing."""
    if set(at) != set(spots):
        return "its places"
    width, height, _ = sides
    for (x, y, z), v in at.items():
        right, below = (x + 1, y, z), (x, y + 1, z)
        if wraps:
            right, below = ((x + 1) % width, y, z), (x, (y + 1) % height, z)
        for there, pairs in ((right, tiles.across), (below, tiles.down), ((x, y, z + 1), tiles.stacked)):
            if there in at and (v, at[there]) not in pairs:
                return f"the pair at {x} {y} {z}"
    return next((f"the pin at {place}" for keep, place, value in pins if place not in at or (at[place] == value) != keep), "")


def tried(choices, is_right, most):
    """Whether a list with a choice at each place exists of which is_right holds at each place, of what stands up to it."""
    made, left = [], most

    def go():
        nonlocal left
        at = len(made)
        if at == len(choices):
            return True
        for choice in choices[at]:
            left -= 1
            if left < 0:
                raise TooMany
            made.append(choice)
            if is_right(made) and go():
                return True
            made.pop()
        return False

    return go()


def some_picture(sample, width, height, wraps, pins, most=60_000):
    """Whether a legal map exists: pixel by pixel, each window is looked at when its last pixel is set."""
    n, known = sample.n, set(sample.patterns)
    ends = {}
    for x, y in places(width, height, n, wraps):
        spots = [((y + j) % height) * width + (x + i) % width for j in range(n) for i in range(n)]
        ends.setdefault(max(spots), []).append(spots)
    asked = {}
    for keep, (x, y), value in pins:
        asked.setdefault(y * width + x, []).append((keep, value))
    choices = [
        [c for c in range(len(sample.symbols)) if all((c == value) == keep for keep, value in asked.get(at, []))]
        for at in range(width * height)
    ]
    is_right = lambda made: all(tuple(made[k] for k in spots) in known for spots in ends.get(len(made) - 1, []))
    return tried(choices, is_right, most)


def some_tiles(tiles, sides, wraps, spots, pins, most=60_000):
    """Whether a legal map exists: place by place, each pair is looked at when its second end is set."""
    width, height, _ = sides
    order = {place: k for k, place in enumerate(spots)}
    pairs = [[] for _ in spots]
    for (x, y, z), k in order.items():
        right, below = (x + 1, y, z), (x, y + 1, z)
        if wraps:
            right, below = ((x + 1) % width, y, z), (x, (y + 1) % height, z)
        for there, allowed in ((right, tiles.across), (below, tiles.down), ((x, y, z + 1), tiles.stacked)):
            if there in order:
                pairs[max(k, order[there])].append((k, order[there], allowed))
    asked = {}
    for keep, place, value in pins:
        asked.setdefault(place, []).append((keep, value))
    choices = [
        [v for v in range(len(tiles.variants)) if all((v == value) == keep for keep, value in asked.get(place, []))]
        for place in spots
    ]
    is_right = lambda made: all((made[a], made[b]) in allowed for a, b, allowed in pairs[len(made) - 1])
    return tried(choices, is_right, most)
