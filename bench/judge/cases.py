"""Random small cases: the words of a command, and the files that they name."""
from . import answers, files, model, proofs, turns, words

WEIGHTS = {
    "fill": 22, "learn": 10, "domains": 10, "refute": 12, "check": 14, "upgrade": 6, "race": 8, "explain": 8, "demo": 0.1,
    "grow": 8, "box-fill": 7, "box-refute": 5, "box-check": 6, "words": 4,
}
LETTERS = "ab#. ~\\0"
COLOURS = [(0, 0, 0), (255, 0, 1), (1, 2, 3), (9, 9, 9)]
NAMES = ["a", "line", "b-2", "T_", "x0"]
STUBBORN = [
    ["ab", "ba"], ["abb", "bba", "bab"], ["####", "#...", "#.#.", "#.##"], ["#.#", "...", "##."], ["aab", "aba", "baa"],
    ["..#", ".##", "#.."], ["ab.", "ba.", "..."], ["a.b", ".a.", "b.a"],
]

# Samples whose blocks take choices back though their maps don't wrap, each with its N, its other words and the side of a block.
WANDERING = [
    (["aaaa", "aaab", "bbcc", "cbab", "ccba"], 2, ["--wrap-in"], 8),
    (["..a##a#", "bb.b...", "#####a."], 2, ["--wrap-in"], 6),
    (["abcab", "abbca", "ababc", "abaac", "cbbbc", "cabab"], 2, [], 7),
    (["##..#.#", "..#.###", "#......", "##.....", "#####.#"], 3, ["--symmetry", "8"], 6),
]


def lines(r, made):
    """A text of lines, some with other blanks, ends, comments and empty lines."""
    text = b""
    for line in made:
        if r.random() < 0.1:
            line = line.replace(b" ", r.choice([b"  ", b"\t", b" \t "])) + r.choice([b"", b" "])
        if r.random() < 0.08:
            text += r.choice([b"\n", b"# made by hand\n", b"#\r\n", b" \t\n"])
        text += line + (b"\r\n" if r.random() < 0.05 else b"\n")
    return text[:-1] if text.endswith(b"\n") and not text.endswith(b"\r\n") and r.random() < 0.1 else text


def spoiled(r, data):
    """The same bytes with a small fault, which may be none."""
    data = bytearray(data)
    for _ in range(r.choice([1, 1, 1, 2])):
        at = r.randrange(len(data) + 1)
        how = r.randrange(4)
        if how == 0:
            data[at:at] = bytes([r.choice([0, 9, 10, 13, 32, 35, 48, 49, 57, 97, 98, 127, 255, r.randrange(256)])])
        elif how == 1:
            del data[at : at + r.choice([1, 1, 2, 5])]
        elif how == 2 and at < len(data):
            data[at] = r.choice([0, 10, 13, 32, 35, 48, 49, 50, 57, 97, r.randrange(256)])
        else:
            del data[at:]
    return bytes(data)


def grid_sample(r, colours=None):
    """The bytes of a grid of few windows."""
    width, height, some = r.randint(1, 6), r.randint(1, 6), colours or r.sample(LETTERS, r.choice([1, 2, 2, 2, 3]))
    style = r.randrange(4)
    if style == 0:
        rows = [[r.choice(some) for _ in range(width)] for _ in range(height)]
    elif style == 1:
        p, q = r.randint(1, 3), r.randint(0, 3)
        rows = [[some[(x * p + y * q) // 2 % len(some)] for x in range(width)] for y in range(height)]
    elif style == 2:
        rows = [[some[-1 if x % 3 == 0 or y % 3 == 0 else 0] for x in range(width)] for y in range(height)]
    else:
        rows = [[some[0]] * width for _ in range(height)]
        for _ in range(r.randint(1, 4)):
            rows[r.randrange(height)][r.randrange(width)] = r.choice(some)
    return rows


def ppm_bytes(r, rows, maxval):
    """The same rows of colours as a picture, spelled in one of many ways."""
    blank = lambda: r.choice([" ", "\n", "\t", "\r\n", "  ", "# a\n", " #b\r"]) if r.random() < 0.3 else " "
    number = lambda n: ("0" if r.random() < 0.05 else "") + str(n)
    head = [number(len(rows[0])), number(len(rows)), number(maxval)]
    samples = [sample for row in rows for pixel in row for sample in pixel]
    if r.random() < 0.5:
        text = "P6" + "".join(blank() + part for part in head) + r.choice(" \n\t\r")
        size = 1 if maxval < 256 else 2
        return text.encode() + b"".join(sample.to_bytes(size, "big") for sample in samples)
    text = "P3" + "".join(blank() + part for part in head + [number(sample) for sample in samples])
    return (text + r.choice(["", "\n", " ", " # end", "#"])).encode()


def sample(r, folder):
    """Writes a sample; answers its name and the spelling of its symbols."""
    if r.random() < 0.75:
        rows = r.choice(STUBBORN) if r.random() < 0.35 else grid_sample(r)
        name = r.choice(["s.txt", "s", "s.ppmx"])
        folder[name] = "".join("".join(row) + ("\r\n" if r.random() < 0.02 else "\n") for row in rows).encode()
        return name, sorted({model.spelled("grid", ord(c)) for row in rows for c in row}), min(len(rows), len(rows[0]))
    maxval = r.choice([255, 255, 10, 256, 65_535])
    some = [tuple(min(sample, maxval) for sample in colour) for colour in r.sample(COLOURS, r.choice([1, 2, 2, 3]))]
    rows = grid_sample(r, some)
    name = r.choice(["s.ppm", "s.PPM"])
    folder[name] = ppm_bytes(r, rows, maxval)
    return name, sorted({model.spelled("ppm", c) for row in rows for c in row}), min(len(rows), len(rows[0]))


def tile_set(r, folder, boxed):
    """Writes a tile set; answers its name and the spelling of its variants."""
    classes = [r.choice("XIILT\\LTF") for _ in range(r.choice([1, 1, 2, 2, 3]))]
    names = r.sample(NAMES, len(classes))
    pictures = r.choice(["", "", "", ".txt", ".ppm"])
    side, maxval = r.randint(1, 3), r.choice([255, 300])
    text = ""
    for name, letter in zip(names, classes):
        text += f"[[tile]]\nname = '{name}'\nclass = '{letter}'\n"
        if r.random() < 0.4:
            text += f"weight = {r.choice([1, 2, 3, 7, 1_000_000])}\n"
        if pictures:
            text += f"picture = '{name}{pictures}'\n"
            if pictures == ".txt":
                folder[name + pictures] = "".join("".join(r.choice("#.o") for _ in range(side)) + "\n" for _ in range(side)).encode()
            else:
                folder[name + pictures] = ppm_bytes(r, [[r.choice(COLOURS) for _ in range(side)] for _ in range(side)], maxval)
    end = lambda: r.choice(names) + r.choice(["", " 0", f" {r.randrange(8)}", f" {r.randrange(8)}"])
    for _ in range(r.choice([0, 1, 2, 3, 4, 6, 9])):
        text += f"[[pair]]\nleft = '{end()}'\nright = '{end()}'\n"
    if boxed or r.random() < 0.1:
        for _ in range(r.choice([0, 1, 2, 3, 5, 8])):
            text += f"[[stack]]\nlower = '{end()}'\nupper = '{end()}'\n"
    if r.random() < 0.06:
        text = spoiled_document(r, text)
    folder["t.toml"] = text.encode()
    spelled = [f"{name}/{i}" for name, letter in zip(names, classes) for i in range(files.CARDINALITY[letter])]
    return "t.toml", spelled


def spoiled_document(r, text):
    """A document with one word exchanged, so that it stays a document mostly."""
    exchanges = [
        ("class", "klass"), ("name", "nam"), ("left", "lift"), ("right", "write"), ("lower", "low"), ("upper", "up"), ("'I'", "'Q'"),
        ("'X'", "1"), ("weight = ", "weight = -"), ("weight = ", "weight = 1000001 #"), ("name = '", "name = 'a b"), ("name = '", "name = ''#"),
        (" 0'", " 9'"), (" 1'", "  1'"), ("left = '", "left = 'z"), ("upper = '", "upper = 'z"), ("right = '", "right = 3 #"),
        ("lower = '", "lower = [] #"), ("[[pair]]", "[pair]"), ("[[stack]]", "[stack]"), ("[[tile]]", "[[tie]]"), ("picture", "#"),
        ("class = '", "class = 'X' #"), ("=", ":"), ("[[pair]]", "[[pair]]\nother = 1"), ("weight = ", "weight = 1.5 #"),
    ]
    old, new = r.choice([pair for pair in exchanges if pair[0] in text])
    head, tail = text.split(old)[0], old.join(text.split(old)[1:])
    return head + new + tail if r.random() < 0.7 else text.replace(old, new)


def pins_of(r, symbols, sides, count):
    made = []
    for _ in range(count):
        place = [str(r.randrange(side + (r.random() < 0.01))) for side in sides]
        symbol = r.choice(symbols) if r.random() < 0.985 else r.choice(["z", "1,2", "01,2,3", "a/9", "\\s", "a/0x"])
        made.append(f"{r.choice(['pin', 'pin', 'ban'])} {' '.join(place)} {symbol}".encode())
    return lines(r, made)


def flags(r, *some):
    return [f"--{name}" for name in some if r.random() < 0.5]


def valued(r, name, value):
    return [f"--{name}={value}"] if r.random() < 0.2 else [f"--{name}", str(value)]


def run_options(r):
    said = []
    if r.random() < 0.7:
        said += valued(r, "seed", r.choice([r.randrange(10), r.randrange(1 << 64), (1 << 64) - 9, (1 << 64) - 1]))
    if r.random() < 0.7:
        said += valued(r, "budget", r.choice([0, 0, 1, 2, 3, 5, 20, 100, 1000]))
    if r.random() < 0.4:
        said += valued(r, "rule", r.choice(["scanline", "fewest", "scanline", "fewest", "scanline", "ranked" if r.random() < 0.1 else "fewest"]))
    return said


def steps_of(r, cells, values):
    made, standing = [], 0
    for _ in range(r.randint(0, 7)):
        if standing and r.random() < 0.35:
            made.append(b"undo")
            standing -= 1
        else:
            cell = r.randrange(cells + (r.random() < 0.03))
            made.append(f"{r.choice(['choose', 'forbid'])} {cell} {r.randrange(values + (r.random() < 0.03))}".encode())
            standing += 1
    if r.random() < 0.03:
        made.insert(r.randrange(len(made) + 1), r.choice([b"undo", b"undo undo", b"choose 0", b"pin 0 0 a", b"forbid 0 65536"]))
    return lines(r, made)


def map_words(r, command, folder):
    """The words of a command on a map of windows or of tiles, whose files stand in the folder; without the options of a run."""
    tiles = command != "grow" and r.random() < 0.4
    if tiles:
        name, symbols = tile_set(r, folder, False)
        n, width, height = 1, r.randint(1, 4), r.randint(1, 4)
    else:
        name, symbols, side = sample(r, folder)
        n = r.choice([1, 2, 2, 2, 2, 3, 3, 4])
        n = min(n, side) if r.random() < 0.5 else n
        width, height = (n + r.choice([0, 1, 1, 2, 3, 4]) for _ in range(2))
        if command == "grow":
            width, height = (n + r.choice([0, 1, 2, 3, 5, 7]) for _ in range(2))
    if r.random() < 0.01:
        width = max(1, n - 1)
    said = [name, "tiles" if tiles else str(n)] + ([str(width), str(height)] if command != "learn" else [])
    wraps = ["--wrap-in"] if not tiles and n > side and r.random() < 0.9 else flags(r, "wrap-in")
    options = wraps + (flags(r, "wrap-out") if command not in ("learn", "grow") else [])
    if r.random() < 0.6:
        options += valued(r, "symmetry", r.choice([1, 2, 2, 3, 4, 5, 6, 7, 8, 8, 8]))
    if command != "learn":
        if command == "explain" or r.random() < 0.45:
            folder["p.txt"] = pins_of(r, symbols, (width, height), r.choice([2, 3, 4, 5, 6]) if command == "explain" else r.choice([0, 1, 1, 2, 3]))
            options += valued(r, "pins", "p.txt")
        if tiles and r.random() < 0.4:
            dots = r.choice([".#", "..#", "....#"])
            rows = ["".join(r.choice(dots) for _ in range(width)) for _ in range(height + (r.random() < 0.03))]
            if r.random() < 0.03:
                rows[0] = "x" + rows[0][1:]
            folder["m.txt"] = "".join(row + "\n" for row in rows).encode()
            options += valued(r, "mask", "m.txt")
    return said, options


def wandering_words(r, folder):
    """The words of `grow` on a sample whose blocks take choices back."""
    rows, n, options, side = r.choice(WANDERING)
    folder["s.txt"] = "".join(row + "\n" for row in rows).encode()
    sides = [side + r.choice([0, 1, 2, 4, 6, 8]), side - r.choice([0, 0, 1])]
    options = [*options, "--block", str(side)]
    if r.random() < 0.3:
        folder["p.txt"] = pins_of(r, sorted({c for row in rows for c in row}), sides, r.choice([1, 2]))
        options += valued(r, "pins", "p.txt")
    r.shuffle(sides)
    return ["s.txt", str(n), *map(str, sides)], options


def box_words(r, folder):
    name, symbols = tile_set(r, folder, True)
    sides = [r.randint(1, 3) for _ in range(3)]
    options = flags(r, "wrap-out")
    if r.random() < 0.45:
        folder["p.txt"] = pins_of(r, symbols, sides, r.choice([0, 1, 1, 2, 3]))
        options += valued(r, "pins", "p.txt")
    return [name, *map(str, sides)], options


def own_refutation(r, said, options, folder, command):
    """A refutation of the problem of these words, made by the judge, or other lines where there is a map; and which it is."""
    try:
        task = answers.Task(words.request([command, *said, "none.ref", *options]), folder)
        made = proofs.random_proof(task.problem, r) or []
    except (files.Fault, words.Refused, words.Value):
        return b"wfc-refutation 1\ncells 1 values 1\nx 0\nq\n", False
    form = r.choice([1, 2])
    text = proofs.spelled(task.problem, task.subject.shape, form, made + [("q",)], r.random() < 0.7)
    if r.random() < 0.35:
        text = spoiled(r, text)
    if r.random() < 0.25:
        text = exchanged(r, text)
    return text, bool(made)


def exchanged(r, text):
    """The same text with a line left out, said twice, moved or changed in a number."""
    rows = text.split(b"\n")
    a, b, how = r.randrange(len(rows)), r.randrange(len(rows)), r.randrange(4)
    if how == 0:
        del rows[a]
    elif how == 1:
        rows.insert(b, rows[a])
    elif how == 2:
        rows[a], rows[b] = rows[b], rows[a]
    else:
        parts = rows[a].split(b" ")
        at = r.randrange(len(parts))
        parts[at] = str(r.choice([0, 1, 2, 3, 4, 5, 255, 256, 65_535, 65_536, 4_294_967_295, 4_294_967_296])).encode()
        rows[a] = b" ".join(parts)
    return b"\n".join(rows)


def wrong_words(r, said):
    """The words with a fault, which may be none."""
    said, how = list(said), r.randrange(8)
    at = r.randrange(len(said))
    if how == 0:
        del said[at]
    elif how == 1:
        said.insert(at, r.choice(["x", "--", "--other", "1", "-x", "--wrap-in", "--seed", "--seed=1", "--pins=p.txt", "--help", "--version"]))
    elif how == 2:
        said[at] = r.choice(["0", "7", "4097", "18446744073709551616", "007", "+1", "1.0", "", "tiles", "x", "\u00e9", "-1"])
    elif how == 3:
        said.append(said[at])
    elif how == 4:
        said += valued(r, r.choice(list(words.MOST)), r.choice([0, 1, 8, 9, 10**20, "grid", "fewest", "", "1_000"]))
    elif how == 5:
        said = said[:at]
    elif how == 6:
        r.shuffle(said)
    else:
        said[at] = said[at].upper()
    return said


def extra(r, command, options):
    """The options that one command has beside those of a run, but for these ones."""
    said = []
    if command in ("fill", "grow", "box-fill") and r.random() < 0.4:
        said += valued(r, "form", r.choice(["grid", "cells", "cells", "cells", "cells", "p3", "p6"]))
    if command in ("refute", "box-refute") and r.random() < 0.6:
        said += valued(r, "format", r.choice([1, 2]))
    if command == "race":
        said += valued(r, "seeds", r.randint(1, 8)) + (valued(r, "quantum", r.choice([1, 2, 3, 10, 1_000_000])) if r.random() < 0.6 else [])
    if command == "grow" and "--block" not in options and r.random() < 0.9:
        said += valued(r, "block", r.choice([1, 2, 3, 4, 5, 6]))
    return said


def mixed(r, said, options):
    """The words with the options somewhere behind the command's name."""
    pieces, at = [[word] for word in said], 0
    while at < len(options):
        step = 1 if "=" in options[at] or options[at][2:] in words.FLAGS else 2
        pieces.insert(r.randrange(len(pieces) + 1), options[at : at + step])
        at += step
    return [word for piece in pieces for word in piece]


def case(r, commands):
    """The words, and the folder by name."""
    command = r.choices(commands, [WEIGHTS[name] for name in commands])[0]
    folder, broken = {}, command == "words"
    if broken:
        command = r.choice([name for name in commands if name != "words"])
    if command == "demo":
        said, options = [str(r.choice([r.randrange(30), r.randrange(1_000_001)]))], []
    elif command.startswith("box"):
        said, options = box_words(r, folder)
    elif command == "grow" and r.random() < 0.3:
        said, options = wandering_words(r, folder)
    else:
        said, options = map_words(r, command, folder)
    if command in ("check", "upgrade", "box-check"):
        for _ in range(8):
            text, proved = own_refutation(r, said, options, folder, command)
            if proved or r.random() < 0.1:
                break
            folder = {}
            said, options = box_words(r, folder) if command == "box-check" else map_words(r, command, folder)
        folder["r.ref"] = text
        said.append("r.ref")
    elif command not in ("learn", "domains", "demo"):
        options += run_options(r)
    options += extra(r, command, options)
    if command == "domains" and r.random() < 0.8:
        folder["x.txt"] = steps_of(r, r.choice([1, 2, 4, 6, 9]), r.choice([1, 2, 2, 3, 4]))
        options += valued(r, "steps", "x.txt")
    if r.random() < 0.08 and folder:
        name = r.choice([name for name in folder if name != "t.toml"] or ["t.toml"])
        if r.random() < 0.15 or name == "t.toml":
            del folder[name]
        else:
            folder[name] = spoiled(r, folder[name])
    said = [command, *mixed(r, said, options)]
    return wrong_words(r, said) if broken else said, folder
