"""The texts that commands write."""
from .files import Fault
from .model import spelled

FORMS = {"grid": ("grid", "cells"), "ppm": ("p6", "p3", "cells"), "plain": ("cells",)}


def layout(kind, form, pixels):
    """The form of a map; one that the kind lacks, and too many pixels, are refused."""
    form = form or FORMS[kind][0]
    if form not in FORMS[kind]:
        raise Fault(4, "render FormDiffers")
    if pixels > 16_777_216:
        raise Fault(4, f"render TooLarge pixels={pixels}")
    return form


def picture(form, maxval, rows):
    """The bytes of rows of pixels: bytes of a grid, or colours."""
    if form == "grid":
        return b"".join(bytes(row) + b"\n" for row in rows)
    head = f"{form.upper()}\n{len(rows[0])} {len(rows)}\n{maxval}\n".encode()
    pixels = [pixel for row in rows for pixel in row]
    if form == "p3":
        return head + "".join(f"{r} {g} {b}\n" for r, g, b in pixels).encode()
    size = 1 if maxval < 256 else 2
    return head + b"".join(sample.to_bytes(size, "big") for pixel in pixels for sample in pixel)


def cells(rows):
    return "".join(" ".join("-" if v is None else str(v) for v in row) + "\n" for row in rows).encode()


def sample_map(sample, form, rows):
    if form == "cells":
        return cells(rows)
    return picture(form, sample.maxval, [[sample.symbols[c] for c in row] for row in rows])


def tile_map(tiles, form, rows):
    """The text of rows of variants, with None for a hole."""
    if form == "cells":
        return cells(rows)
    blank = 0x20 if tiles.kind == "grid" else (0, 0, 0)
    shown, drawn = {None: [[blank] * tiles.side] * tiles.side}, []
    for row in rows:
        for v in row:
            if v not in shown:
                shown[v] = tiles.picture(v)
        drawn += [[pixel for v in row for pixel in shown[v][y]] for y in range(tiles.side)]
    return picture(form, tiles.pictures[2], drawn)


def learned(sample):
    text = f"overlap {sample.n}\ncolours {len(sample.symbols)}\n"
    text += "".join(f"{k} {spelled(sample.kind, symbol)}\n" for k, symbol in enumerate(sample.symbols))
    text += f"patterns {len(sample.patterns)}\n"
    for k, p in enumerate(sample.patterns):
        text += f"{k} {sample.weight[p]}:" + "".join(f" {c}" for c in p) + "\n"
    return text.encode()


def learned_tiles(tiles):
    text = f"tiles {len(tiles.tiles)}\nvariants {len(tiles.variants)}\n"
    text += "".join(f"{v} {weight}: {tiles.spell(v)}\n" for v, weight in enumerate(tiles.weights()))
    for word, pairs in (("across", tiles.across), ("down", tiles.down)):
        text += f"{word} {len(pairs)}\n" + "".join(f"{a} {b}\n" for a, b in sorted(pairs))
    return text.encode()


def block(step, domains):
    """A block of domains, which are None where they are dead."""
    text = f"step {step}\n"
    if domains is None:
        return text + "dead\n"
    for cell, there in enumerate(domains):
        text += f"{cell}:" + "".join(f" {v}" for v in range(there.bit_length()) if there >> v & 1) + "\n"
    return text
