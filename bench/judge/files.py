"""The files that commands read, and the first fault of each."""
import re
import tomllib

CARDINALITY = {"X": 1, "I": 2, "\\": 2, "L": 4, "T": 4, "F": 8}
SPACES = b" \t\r\n"


class Fault(Exception):
    """What is refused: the status, and the line without its beginning."""

    def __init__(self, status, line):
        super().__init__(line)
        self.status, self.line = status, line


def lines_of(data):
    """The lines of a text, without LF or CR LF."""
    pieces = data.split(b"\n")
    last = pieces.pop()
    lines = [piece[:-1] if piece.endswith(b"\r") else piece for piece in pieces]
    return lines + [last] if last else lines


def grid(data, word, name):
    """The rows of a character grid, as bytes."""
    fault = lambda text: Fault(4, f"{word} {text} file={name}")
    rows = lines_of(data)
    if not rows or not rows[0]:
        raise fault("Empty")
    for at, row in enumerate(rows):
        bad = next((k for k, byte in enumerate(row) if not 0x20 <= byte <= 0x7E), None)
        if bad is not None:
            raise fault(f"BadByte line={at + 1} column={bad + 1}")
        if len(row) != len(rows[0]):
            raise fault(f"Ragged line={at + 1}")
    if len(rows) * len(rows[0]) > 1_048_576:
        raise fault("TooLarge")
    return rows


class Scan:
    """A place in the head of a picture in colours."""

    def __init__(self, data):
        self.data, self.at = data, 2

    def byte(self):
        return self.data[self.at : self.at + 1]

    def separator(self):
        """Passes whitespace and comments; answers whether there were any, and whether a comment has its end."""
        begun = self.at
        while self.byte() and self.byte() in (b" ", b"\t", b"\r", b"\n", b"#"):
            if self.byte() == b"#":
                while self.byte() and self.byte() not in (b"\r", b"\n"):
                    self.at += 1
                if not self.byte():
                    return self.at > begun, False
            self.at += 1
        return self.at > begun, True

    def digits(self):
        begun = self.at
        while self.byte().isdigit():
            self.at += 1
        return self.data[begun : self.at]


def ppm(data, name):
    """Width, maxval and the pixels of a picture in colours, row by row."""
    fault = lambda text: Fault(4, f"ppm {text} file={name}")
    if data[:2] not in (b"P3", b"P6"):
        raise fault("Magic")
    scan, head = Scan(data), []
    for part in range(3):
        some, ended = scan.separator()
        begun = scan.at
        digits = scan.digits() if some and ended else b""
        if not digits:
            raise fault(f"Header at={begun}")
        head.append(min(int(digits), 4_294_967_295))
        if part < 2 and head[-1] == 0:
            raise fault(f"Header at={begun}")
    width, height, maxval = head
    if data[:2] == b"P6":
        if not scan.byte() or scan.byte() not in (b" ", b"\t", b"\r", b"\n"):
            raise fault(f"Header at={scan.at}")
        scan.at += 1
    else:
        some, ended = scan.separator()
        if not some or not ended:
            raise fault(f"Header at={scan.at}")
    if not 1 <= maxval <= 65_535:
        raise fault(f"Maxval value={maxval}")
    if width * height > 1_048_576:
        raise fault("TooLarge")
    read = p6_samples if data[:2] == b"P6" else p3_samples
    samples = read(scan, 3 * width * height, maxval, fault)
    return width, maxval, [tuple(samples[k : k + 3]) for k in range(0, len(samples), 3)]


def p6_samples(scan, count, maxval, fault):
    size = 1 if maxval < 256 else 2
    body = scan.data[scan.at :]
    if len(body) < count * size:
        raise fault(f"Truncated wanted={count * size} found={len(body)}")
    samples = [int.from_bytes(body[k * size : (k + 1) * size], "big") for k in range(count)]
    high = next((k for k, sample in enumerate(samples) if sample > maxval), None)
    if high is not None:
        raise fault(f"SampleAboveMaxval at={scan.at + high * size}")
    if len(body) > count * size:
        raise fault(f"Trailing at={scan.at + count * size}")
    return samples


def p3_samples(scan, count, maxval, fault):
    samples = []
    while True:
        scan.separator()
        begun = scan.at
        while scan.byte() and scan.byte() not in (b" ", b"\t", b"\r", b"\n", b"#"):
            scan.at += 1
        token = scan.data[begun : scan.at]
        if len(samples) == count:
            if token:
                raise fault(f"Trailing at={begun}")
            return samples
        if not token:
            raise fault(f"Truncated wanted={count} found={len(samples)}")
        if not all(0x30 <= byte <= 0x39 for byte in token):
            raise fault(f"BadSample at={begun}")
        if int(token) > maxval:
            raise fault(f"SampleAboveMaxval at={begun}")
        samples.append(int(token))


def is_ppm(name):
    return name.endswith((".ppm", ".PPM"))


def words_of(data):
    """The lines of pins and of steps that have words, with their numbers."""
    for at, line in enumerate(lines_of(data)):
        words = [word for word in re.split(rb"[ \t]+", line) if word]
        if words and not line.startswith(b"#"):
            yield at + 1, words


def small(word, most):
    return int(word) if re.fullmatch(rb"[0-9]+", word) and int(word) <= most else None


def pins(data, name, places=2):
    """The lines of pins and bans: line, whether it is a pin, the place, the symbol."""
    read = []
    for line, words in words_of(data):
        place = [small(word, 4_294_967_295) for word in words[1:-1]]
        if words[0] not in (b"pin", b"ban") or len(words) != places + 2 or None in place:
            raise Fault(4, f"pins BadLine line={line} file={name}")
        read.append((line, words[0] == b"pin", tuple(place), words[-1]))
    return read


def steps(data, name):
    """The lines of steps: line, `choose`, `forbid` or `undo`, cell and value."""
    read, standing = [], 0
    for line, words in words_of(data):
        word = words[0].decode("latin-1")
        if word == "undo" and len(words) == 1:
            if standing == 0:
                raise Fault(4, f"steps NothingToUndo line={line} file={name}")
            standing -= 1
            read.append((line, word, 0, 0))
            continue
        cell = small(words[1], 4_294_967_295) if len(words) == 3 else None
        value = small(words[2], 65_535) if len(words) == 3 else None
        if word not in ("choose", "forbid") or cell is None or value is None:
            raise Fault(4, f"steps BadLine line={line} file={name}")
        standing += 1
        read.append((line, word, cell, value))
    return read


def mask(data, name, width, height):
    """The places of a mask that are no holes, row by row."""
    rows = grid(data, "mask", name)
    if (len(rows[0]), len(rows)) != (width, height):
        raise Fault(4, f"mask SizeDiffers width={len(rows[0])} height={len(rows)} file={name}")
    for y, row in enumerate(rows):
        for x, byte in enumerate(row):
            if byte not in b".#":
                raise Fault(4, f"mask BadSymbol line={y + 1} column={x + 1} file={name}")
    places = [(x, y) for y, row in enumerate(rows) for x, byte in enumerate(row) if byte == ord(".")]
    if not places:
        raise Fault(4, f"mask AllHoles file={name}")
    return places


def kind_of(value, kind):
    return isinstance(value, kind) and not (kind is int and isinstance(value, bool))


def end_of(text, numbers):
    """The tile and the action that an end of a pair names, or the word of its fault."""
    name, blank, turn = text.partition(" ")
    if name not in numbers:
        return "UnknownTile"
    if blank and not (len(turn) == 1 and turn in "01234567"):
        return "BadTurn"
    return numbers[name], int(turn or "0")


def tile_of(table, at, numbers, first, fault):
    """One tile of a document: name, class, weight and its picture's name."""
    if not isinstance(table, dict):
        raise fault(f"WrongKind tile={at} key=tile")
    for key, kind in (("name", str), ("class", str), ("weight", int), ("picture", str)):
        if key not in table:
            if key in ("name", "class"):
                raise fault(f"MissingKey tile={at} key={key}")
            continue
        value = table[key]
        if not kind_of(value, kind):
            raise fault(f"WrongKind tile={at} key={key}")
        if key == "name":
            if not re.fullmatch(r"[A-Za-z0-9_-]{1,64}", value):
                raise fault(f"BadName tile={at}")
            if value in numbers:
                raise fault(f"DoubleName tile={at}")
        if key == "class" and value not in CARDINALITY:
            raise fault(f"BadClass tile={at}")
        if key == "weight" and not 1 <= value <= 1_000_000:
            raise fault(f"BadWeight tile={at}")
    picture = table.get("picture")
    if first is not None and ((picture is None) != (first[3] is None) or (picture and is_ppm(picture) != is_ppm(first[3]))):
        raise fault(f"MixedKinds tile={at}")
    return table["name"], table["class"], table.get("weight", 1), picture


def tile_set(data, name):
    """The tiles, the pairs and the stacks' value of a document. Stacks are read later."""
    fault = lambda text: Fault(4, f"tiles {text} file={name}")
    try:
        document = tomllib.loads(data.decode())
    except (UnicodeDecodeError, tomllib.TOMLDecodeError):
        raise fault("Toml") from None
    for key in ("tile", "pair"):
        if key in document and not isinstance(document[key], list):
            raise fault(f"WrongKind top key={key}")
    if not document.get("tile"):
        raise fault("NoTiles")
    tiles, numbers = [], {}
    for at, table in enumerate(document["tile"]):
        tiles.append(tile_of(table, at, numbers, tiles[0] if tiles else None, fault))
        numbers[tiles[-1][0]] = at
    count = sum(CARDINALITY[tile[1]] for tile in tiles)
    if count > 4_096:
        raise fault(f"TooManyVariants count={count}")
    pairs = []
    for at, table in enumerate(document.get("pair", [])):
        if not isinstance(table, dict):
            raise fault(f"WrongKind pair={at} key=pair")
        ends = []
        for key in ("left", "right"):
            if key not in table:
                raise fault(f"MissingKey pair={at} key={key}")
            if not isinstance(table[key], str):
                raise fault(f"WrongKind pair={at} key={key}")
            ends.append(end_of(table[key], numbers))
            if isinstance(ends[-1], str):
                raise fault(f"{ends[-1]} pair={at}")
        pairs.append(tuple(ends))
    return tiles, pairs, document.get("stack", [])


def stacks(value, tiles, name):
    """The stacks of a document: for each its lower and its upper end."""
    fault = lambda text: Fault(4, f"stack {text} file={name}")
    if not isinstance(value, list):
        raise fault("NotArray")
    numbers, read = {tile[0]: at for at, tile in enumerate(tiles)}, []
    for at, table in enumerate(value):
        if not isinstance(table, dict):
            raise fault(f"NotTable stack={at}")
        ends = []
        for key in ("lower", "upper"):
            if key not in table:
                raise fault(f"MissingKey stack={at} key={key}")
            if not isinstance(table[key], str):
                raise fault(f"NotText stack={at} key={key}")
            ends.append(end_of(table[key], numbers))
            if isinstance(ends[-1], str):
                raise fault(f"{ends[-1]} stack={at}")
        read.append(tuple(ends))
    return read


def tile_pictures(tiles, folder, name):
    """The pictures of the tiles as rows of pixels, with the kind and maxval; None where there are none."""
    fault = lambda text: Fault(4, f"tiles {text} file={name}")
    if tiles[0][3] is None:
        return None
    kind, first, pictures = "ppm" if is_ppm(tiles[0][3]) else "grid", None, []
    for at, tile in enumerate(tiles):
        if tile[3] not in folder:
            raise Fault(5, f"device Missing tile={at} file={name}")
        try:
            if kind == "ppm":
                width, maxval, pixels = ppm(folder[tile[3]], name)
            else:
                rows = grid(folder[tile[3]], "grid", name)
                width, maxval, pixels = len(rows[0]), 0, [byte for row in rows for byte in row]
        except Fault:
            raise fault(f"BadPicture tile={at}") from None
        if len(pixels) != width * width or width > 64:
            raise fault(f"BadPicture tile={at}")
        first = first or (width, maxval)
        if maxval != first[1]:
            raise fault(f"MixedKinds tile={at}")
        if width != first[0]:
            raise fault(f"SizeDiffers tile={at}")
        pictures.append([pixels[k : k + width] for k in range(0, len(pixels), width)])
    return kind, first[0], first[1], pictures
