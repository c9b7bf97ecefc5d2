"""What a command answers: a status, the output, and the line on the error stream."""
from . import files, grown, legal, model, proofs, texts, turns
from .files import Fault
from .words import Refused, Value, request


class Answer:
    """The output is bytes, or a test that says what is wrong with some bytes."""

    def __init__(self, status, out=b"", line=""):
        self.status, self.out, self.err = status, out, f"wfc: {line}\n" if line else ""

    def difference(self, status, out, err):
        if status != self.status or err != self.err.encode():
            return f"status {status} and {err!r}, not {self.status} and {self.err.encode()!r}"
        if callable(self.out):
            fault = self.out(out)
            return f"output: {fault}" if fault else ""
        return "" if out == self.out else f"output {out[:300]!r}, not {self.out[:300]!r}"


def file_of(folder, name):
    if name not in folder:
        raise Fault(5, f"device Missing file={name}")
    return folder[name]


class Overlap:
    """A map whose windows are those of a sample."""

    def __init__(self, asked, folder, draws):
        self.width, self.height, self.wraps = asked["WIDTH"], asked["HEIGHT"], asked.get("wrap-out", False)
        data = file_of(folder, asked["file"])
        self.sample = model.Sample(asked["file"], data, asked["MODEL"], asked["symmetry"], asked.get("wrap-in", False))
        self.shape = (asked["MODEL"], self.width, self.height, 1, asked["symmetry"], int(asked.get("wrap-in", False)), int(self.wraps))
        self.form = texts.layout(self.sample.kind, asked.get("form"), self.width * self.height) if draws else None
        self.fits = None

    def read_mask(self, asked, folder):
        pass

    def sized(self):
        return model.overlap_size(self.sample, self.width, self.height, self.wraps)

    def pins(self, lines, name):
        return model.overlap_pins(self.sample, self.width, self.height, lines, name)

    def problem(self, pins):
        self.fits = self.fits or self.sample.fits()
        return model.overlap_problem(self.sample, self.width, self.height, self.wraps, pins, self.fits)

    def rows(self, assignment):
        return model.overlap_map(self.sample, self.width, self.height, self.wraps, assignment)

    def fault(self, pins, assignment):
        return legal.picture_fault(self.sample, self.width, self.height, self.wraps, pins, self.rows(assignment))

    def some(self, pins):
        return legal.some_picture(self.sample, self.width, self.height, self.wraps, pins)

    def text(self, assignment):
        return texts.sample_map(self.sample, self.form, self.rows(assignment))


class Tiled:
    """A map of tiles, of one layer with a mask or of several layers."""

    def __init__(self, asked, folder, draws):
        self.boxed = asked["command"].startswith("box")
        self.width, self.height, self.depth = asked["WIDTH"], asked["HEIGHT"], asked["DEPTH"] if self.boxed else None
        self.wraps = asked.get("wrap-out", False)
        file_of(folder, asked["file"])
        self.tiles = model.Tiles(asked["file"], folder, self.boxed)
        self.layers = self.depth or 1
        self.shape = (0, self.width, self.height, self.layers, 1, 0, int(self.wraps))
        kind, pixels = self.tiles.kind, self.width * self.height * self.layers * self.tiles.side**2
        kind = "plain" if self.boxed and kind == "ppm" else kind
        self.form = texts.layout(kind, asked.get("form"), pixels) if draws else None
        self.spots = [(x, y, z) for z in range(self.layers) for y in range(self.height) for x in range(self.width)]

    def read_mask(self, asked, folder):
        if "mask" in asked:
            name = asked["mask"]
            self.spots = [(x, y, 0) for x, y in files.mask(file_of(folder, name), name, self.width, self.height)]

    def sized(self):
        model.tile_size(self.tiles, len(self.spots))

    def pins(self, lines, name):
        lines = [(line, keep, place + (0,) * (3 - len(place)), word) for line, keep, place, word in lines]
        inside = lambda at: at[0] < self.width and at[1] < self.height and at[2] < self.layers
        held = set(self.spots)
        return model.pinned(lines, name, inside, lambda at: at not in held, self.tiles.symbol)

    def problem(self, pins):
        return model.tile_problem(self.tiles, (self.width, self.height, self.depth), self.wraps, self.spots, pins)

    def fault(self, pins, assignment):
        at = dict(zip(self.spots, assignment))
        return legal.tiles_fault(self.tiles, (self.width, self.height, self.layers), self.wraps, self.spots, pins, at)

    def some(self, pins):
        return legal.some_tiles(self.tiles, (self.width, self.height, self.layers), self.wraps, self.spots, pins)

    def text(self, assignment):
        at, text = dict(zip(self.spots, assignment)), b""
        for z in range(self.layers):
            rows = [[at.get((x, y, z)) for x in range(self.width)] for y in range(self.height)]
            text += (f"layer {z}\n".encode() if self.boxed else b"") + texts.tile_map(self.tiles, self.form, rows)
        return text


class Task:
    """A problem with what it was made of."""

    def __init__(self, asked, folder):
        command = asked["command"]
        of = Tiled if asked.get("tiles") or command.startswith("box") else Overlap
        self.subject = of(asked, folder, command in ("fill", "box-fill"))
        name, lines = asked.get("pins", ""), []
        if "pins" in asked:
            lines = files.pins(file_of(folder, name), name, 3 if command.startswith("box") else 2)
            if command == "explain" and len(lines) > 64:
                raise Fault(4, f"explain TooManyPins count={len(lines)} file={name}")
        self.subject.read_mask(asked, folder)
        self.subject.sized()
        self.lines, self.pins = [line for line, *_ in lines], self.subject.pins(lines, name)
        self.problem = self.subject.problem(self.pins)

    def run(self, asked, seed=None):
        return turns.Run(self.problem, asked["rule"], asked["seed"] if seed is None else seed, asked["budget"])

    def holds(self, run, pins=None):
        """The judge agrees with itself: a map is legal, and where there is none, none is found by trying all."""
        pins = self.pins if pins is None else pins
        if run.end == "map":
            assert not self.subject.fault(pins, run.assignment), "the judge's own map"
        try:
            some = self.subject.some(pins)
            assert run.end == "spent" or some == (run.end == "map"), "the judge's own search"
        except legal.TooMany:
            return False
        return True


ENDS = {"none": (1, "no map"), "spent": (2, "budget spent budget={}")}


def fill(asked, folder):
    task = Task(asked, folder)
    run = task.run(asked)
    task.holds(run)
    if run.end == "map":
        return Answer(0, task.subject.text(run.assignment))
    status, line = ENDS[run.end]
    return Answer(status, line=line.format(asked["budget"]))


def learn(asked, folder):
    name = asked["file"]
    data = file_of(folder, name)
    if asked.get("tiles"):
        return Answer(0, texts.learned_tiles(model.Tiles(name, folder)))
    return Answer(0, texts.learned(model.Sample(name, data, asked["MODEL"], asked["symmetry"], asked.get("wrap-in", False))))


def domains(asked, folder):
    task = Task(asked, folder)
    problem, steps, name = task.problem, [], asked.get("steps")
    if name is not None:
        steps = files.steps(file_of(folder, name), name)
        for line, word, cell, value in steps:
            if word != "undo" and (cell >= problem.cells or value >= problem.values):
                raise Fault(4, f"steps OutOfRange line={line} file={name}")
    closing, standing, text, alive = turns.Closing(problem), [], "", False
    for k in range(len(steps) + 1):
        if k:
            _, word, cell, value = steps[k - 1]
            standing = standing[:-1] if word == "undo" else standing + [(word == "choose", cell, value)]
        made = list(problem.base)
        for keep, cell, value in standing:
            made[cell] &= 1 << value if keep else ~(1 << value)
        lives = all(made) and closing.close(made, range(problem.cells))
        text += texts.block(k, made if lives else None)
        alive = alive or (k == 0 and lives)
    return Answer(0, text.encode()) if alive else Answer(1, text.encode(), "no consistent domains")


def refute(asked, folder):
    task = Task(asked, folder)
    run = task.run(asked)
    task.holds(run)
    status, line = {"none": (0, ""), "map": (1, "map exists"), "spent": (2, f"budget spent budget={asked['budget']}")}[run.end]
    is_wrong = lambda out: proofs.journal_fault(task.problem, task.subject.shape, asked["format"], out, run)
    return Answer(status, is_wrong, line)


def check(asked, folder):
    task, name = Task(asked, folder), asked["refutation"]
    shape = task.subject.shape
    try:
        _, lines, _ = proofs.read(task.problem, shape, file_of(folder, name))
    except ValueError as fault:
        return Answer(1, line=f"check {fault} file={name}")
    try:
        assert not task.subject.some(task.pins), "an accepted refutation, and a map"
    except legal.TooMany:
        pass
    if asked["command"] == "upgrade":
        return Answer(0, proofs.spelled(task.problem, shape, 2, lines))
    return Answer(0, b"accepted\n")


def race(asked, folder):
    task = Task(asked, folder)
    product = task.problem.cells * task.problem.values * asked["seeds"]
    if product > 8_388_608:
        raise Fault(4, f"race TooLarge product={product}")
    runs = [task.run(asked, asked["seed"] + k) for k in range(asked["seeds"])]
    for run in runs:
        task.holds(run)
    assert not {"map", "none"} <= {run.end for run in runs}, "one map and one none"
    at = turns.raced(runs, asked["quantum"])
    if at is None:
        return Answer(2, line=f"budget spent budget={asked['budget']}")
    end = "map" if runs[at].end == "map" else "no map"
    text = f"seed {asked['seed'] + at} retractions {runs[at].retractions} {end}\n".encode()
    return Answer(0, text) if end == "map" else Answer(1, text, "no map")


def explain(asked, folder):
    """The core by its fold, and what it claims by trying all maps."""
    task = Task(asked, folder)

    def end(kept):
        pins = [task.pins[k] for k in kept]
        run = turns.Run(task.subject.problem(pins), asked["rule"], asked["seed"], asked["budget"])
        task.holds(run, pins)
        return run.end

    kept, marks = list(range(len(task.lines))), {}
    first = end(kept)
    if first == "map":
        return Answer(1, line="map exists")
    if first == "spent":
        return Answer(2, line=f"budget spent budget={asked['budget']}")
    for k in range(len(task.lines)):
        without = [j for j in kept if j != k]
        found = end(without)
        if found == "none":
            kept = without
        else:
            marks[k] = "needed" if found == "map" else "undecided"
    try:
        assert not task.subject.some([task.pins[k] for k in kept]), "a core, and a map"
        for k in kept:
            rest = [task.pins[j] for j in kept if j != k]
            assert marks[k] != "needed" or task.subject.some(rest), "a needed line, and no map without it"
    except legal.TooMany:
        pass
    return Answer(0, (f"core {len(kept)}\n" + "".join(f"{marks[k]} {task.lines[k]}\n" for k in kept)).encode())


def demo(asked, folder):
    n = asked["NUMBER"]
    p, q = 3 + n % 5, 3 + n // 5 % 5
    rows = "".join("".join("#" if x % p == 0 or y % q == 0 else "." for x in range(24)) + "\n" for y in range(24))
    asked = {**asked, "file": "grid", "MODEL": 3, "WIDTH": 48, "HEIGHT": 48, "seed": n, "budget": 1000, "command": "fill"}
    task = Task(asked, {"grid": rows.encode()})
    run = task.run(asked)
    status = {"map": 0, "none": 1, "spent": 2}[run.end]
    line = ENDS[run.end][1].format(1000) if status else ""
    text = f"patterns {task.problem.values}\ncells {task.problem.cells}\nretractions {run.retractions}\nstatus {status}\n"
    return Answer(status, text.encode(), line)


COMMANDS = {
    "fill": fill, "learn": learn, "domains": domains, "refute": refute, "check": check, "upgrade": check, "race": race,
    "explain": explain, "demo": demo, "box-fill": fill, "box-refute": refute, "box-check": check, "grow": grown.grow,
}


def answer(words, folder):
    """What the program answers to these words, where the folder has these files by name."""
    try:
        asked = request(words)
        if asked["rule"] == "ranked" and asked["command"] in ("fill", "refute", "box-fill", "box-refute"):
            raise Fault(7, "chooser missing rule=ranked")
        return COMMANDS[asked["command"]](asked, folder)
    except Refused:
        return Answer(3, line="command refused")
    except Value as fault:
        return Answer(3, line=f"command value {fault}")
    except Fault as fault:
        return Answer(fault.status, line=fault.line)
