#!/usr/bin/env python3
"""Runs every command that the pages show, and makes every picture anew.

    docs/cookbook.py [--wfc PROGRAM] [--write] [PAGE..]

A page is README.md, docs/gallery.md or docs/cookbook.md, all three if none is given. A block of a page that begins with ```console has
commands in lines that begin with '$ ', which go on in lines that begin with '> ', each with what it writes behind it, on both streams. The
blocks of a page run one after another in one folder, as a user at the top of the repository would run them: `./wfc`, `examples`, `bench`
and `docs` are there. A line '..' stands for any lines. A picture is shown as ![NAME](gallery/NAME.png) with its command behind it in backticks.
PROGRAM is the script `./wfc` if it isn't given. With --write the pages and pictures get what the commands write now; else those that differ
are told. A block that needs a program which isn't here, as its line '# needs NAME' says, is left out and counted.
Status 0 where all is as shown, else 1.
"""
import argparse
import os
import re
import shutil
import struct
import subprocess
import sys
import tempfile
import zlib

ROOT = os.path.dirname(os.path.dirname(os.path.abspath(__file__)))
PAGES = ("README.md", "docs/gallery.md", "docs/cookbook.md")
BLOCK = re.compile(r"^```console\n(.*?)^```$", re.M | re.S)
PICTURE = re.compile(r"!\[(\w+)\]\((?:docs/)?gallery/\1\.png\)(?:<br>)? ?`\./wfc ([^`>|]*?)(?: > [\w.]+)?`")
WIDTH = 512
END = "-- the next command --"


def commands(block):
    """The commands of a block, each with the lines that it shows."""
    found = []
    for line in block.splitlines():
        if line.startswith("$ "):
            found.append([line[2:], []])
        elif line.startswith("> ") and found and not found[-1][1]:
            found[-1][0] += "\n" + line[2:]
        elif found:
            found[-1][1].append(line)
    return found


def ran(lines, folder):
    """What each of these commands writes, one after another in one shell."""
    script = "".join(f"{line}\necho; echo '{END}'\n" for line in lines)
    done = subprocess.run(["sh", "-c", f"exec 2>&1\n{script}"], cwd=folder, stdout=subprocess.PIPE, stdin=subprocess.DEVNULL)
    parts = done.stdout.decode("utf-8", "replace").split(f"\n{END}\n")[: len(lines)]
    return [part.removesuffix("\n").split("\n") if part else [] for part in parts + [""] * (len(lines) - len(parts))]


def is_as_shown(shown, written):
    """Whether what was written is what is shown, where a line '..' stands for any lines."""
    if ".." not in shown:
        return shown == written
    at = shown.index("..")
    return written[:at] == shown[:at] and any(is_as_shown(shown[at + 1 :], written[i:]) for i in range(at, len(written) + 1))


def lacks(block):
    """The program that a block needs, and that isn't here."""
    return next((it for it in re.findall(r"^# needs (\S+)$", block, re.M) if not shutil.which(it)), None)


class Runs:
    """The folder that the commands run in, and how many of them were right."""

    def __init__(self, program, write):
        self.program, self.write = program, write
        self.right = self.wrong = self.left_out = 0

    def tell(self, page, command, shown, written):
        self.wrong += 1
        print(f"== {page}: {command}")
        print("".join(f"-{line}\n" for line in shown) + "".join(f"+{line}\n" for line in written), end="")

    def block(self, page, block, folder):
        """Runs a block, and returns it with what its commands write now."""
        if lacks(block):
            self.left_out += 1
            return block
        found = commands(block)
        text = "".join(f"{line}\n" for line in block.splitlines() if line.startswith("# needs "))
        for (command, shown), written in zip(found, ran([it[0] for it in found], folder)):
            if is_as_shown(shown, written):
                self.right += 1
            elif self.write and ".." not in shown:
                shown = written
                self.right += 1
            else:
                self.tell(page, command, shown, written)
            text += "$ " + command.replace("\n", "\n> ") + "\n" + "".join(f"{line}\n" for line in shown)
        return text

    def page(self, name):
        with open(f"{ROOT}/{name}", encoding="utf-8") as file:
            text = file.read()
        with tempfile.TemporaryDirectory(prefix="wfc-pages-") as folder:
            os.symlink(self.program, f"{folder}/wfc")
            for each in ("examples", "bench", "docs"):
                shutil.copytree(f"{ROOT}/{each}", f"{folder}/{each}")
            made = BLOCK.sub(lambda it: f"```console\n{self.block(name, it.group(1), folder)}```", text)
            for picture, words in dict(PICTURE.findall(text)).items():
                self.picture(name, picture, words, folder)
        if self.write and made != text:
            with open(f"{ROOT}/{name}", "w", encoding="utf-8") as file:
                file.write(made)

    def picture(self, page, name, words, folder):
        """Makes a picture, and compares it with the file, pixel by pixel."""
        done = subprocess.run(f"./wfc {words}", shell=True, cwd=folder, stdout=subprocess.PIPE, stderr=subprocess.STDOUT)
        path = f"{ROOT}/docs/gallery/{name}.png"
        if done.returncode:
            self.tell(page, words, [], [done.stdout.decode("utf-8", "replace")])
            return
        made = png(*pixels_of(done.stdout))
        if os.path.exists(path) and shown_by(path) == shown_by_bytes(made):
            self.right += 1
        elif self.write:
            with open(path, "wb") as file:
                file.write(made)
            self.right += 1
        else:
            self.tell(page, words, [f"docs/gallery/{name}.png"], ["another picture"])


def pixels_of(data):
    """The width, the height and the bytes of the pixels of a map in the form p6."""
    magic, sides, _, pixels = data.split(b"\n", 3)
    assert magic == b"P6"
    width, height = map(int, sides.split())
    return width, height, pixels


def chunk(kind, data):
    return struct.pack(">I", len(data)) + kind + data + struct.pack(">I", zlib.crc32(kind + data))


def smaller(width, height, pixels):
    """A picture that is wider than 512, with squares of pixels as one, of their mean colour, so that it is not."""
    side = -(-width // WIDTH)
    wide, high, made = width // side, height // side, bytearray()
    for y in range(high):
        sums = [0] * (3 * wide)
        for row in range(y * side, y * side + side):
            line = pixels[3 * row * width : 3 * (row + 1) * width]
            for part in range(3):
                for step in range(side):
                    sums[part::3] = map(int.__add__, sums[part::3], line[part + 3 * step :: 3 * side])
        made += bytes(it // side**2 for it in sums)
    return wide, high, bytes(made)


def png(width, height, pixels):
    """The same picture as a PNG file, with pixels as large as fit into a width of 512."""
    if width > WIDTH:
        width, height, pixels = smaller(width, height, pixels)
    scale = max(1, WIDTH // width)
    rows = b""
    for y in range(height):
        row = b"".join(pixels[3 * (y * width + x) :][:3] * scale for x in range(width))
        rows += (b"\0" + row) * scale
    head = struct.pack(">IIBBBBB", width * scale, height * scale, 8, 2, 0, 0, 0)
    return b"\x89PNG\r\n\x1a\n" + chunk(b"IHDR", head) + chunk(b"IDAT", zlib.compress(rows, 9)) + chunk(b"IEND", b"")


def shown_by_bytes(data):
    """What a PNG file shows: its head and its pixels, however they are packed."""
    at, head, body = 8, b"", b""
    while at < len(data):
        size, kind = struct.unpack(">I4s", data[at : at + 8])
        part = data[at + 8 : at + 8 + size]
        head += part if kind == b"IHDR" else b""
        body += part if kind == b"IDAT" else b""
        at += 12 + size
    return head, zlib.decompress(body)


def shown_by(path):
    with open(path, "rb") as file:
        return shown_by_bytes(file.read())


def main():
    parser = argparse.ArgumentParser(description=__doc__, formatter_class=argparse.RawDescriptionHelpFormatter)
    parser.add_argument("--wfc", default=f"{ROOT}/wfc")
    parser.add_argument("--write", action="store_true")
    parser.add_argument("page", nargs="*", default=PAGES)
    given = parser.parse_args()
    runs = Runs(os.path.abspath(given.wfc), given.write)
    for name in given.page:
        runs.page(name)
    print(f"{runs.right} commands and pictures are as shown, {runs.wrong} are not, {runs.left_out} blocks were left out")
    return 1 if runs.wrong else 0


if __name__ == "__main__":
    sys.exit(main())
