"""Large maps, block by block."""
from . import answers, files, legal, model, proofs, texts, turns
from .files import Fault


def blocks_of(width, height, n, side):
    """The blocks row by row, each with its corner and its sides."""
    step = side - n + 1
    across, down = -(-(width - n + 1) // step), -(-(height - n + 1) // step)
    return [
        (i * step, j * step, min(side, width - i * step), min(side, height - j * step)) for j in range(down) for i in range(across)
    ]


def grow(asked, folder):
    data = answers.file_of(folder, asked["file"])
    n, width, height = asked["MODEL"], asked["WIDTH"], asked["HEIGHT"]
    sample = model.Sample(asked["file"], data, n, asked["symmetry"], asked.get("wrap-in", False))
    form = texts.layout(sample.kind, asked.get("form"), width * height)
    name, lines = asked.get("pins", ""), []
    if "pins" in asked:
        lines = files.pins(answers.file_of(folder, name), name)
    if min(width, height) < n:
        raise Fault(4, "build SizeBelowN")
    blocks = blocks_of(width, height, n, asked["block"])
    if len(blocks) > 64:
        raise Fault(4, f"grow TooManyBlocks count={len(blocks)}")
    model.overlap_size(sample, blocks[0][2], blocks[0][3], False)
    pins = model.overlap_pins(sample, width, height, lines, name)
    rows, fits = [[None] * width for _ in range(height)], sample.fits()
    for k, (x, y, w, h) in enumerate(blocks):
        set_ = [(True, (i, j), rows[y + j][x + i]) for j in range(h) for i in range(w) if rows[y + j][x + i] is not None]
        own = [(keep, (a - x, b - y), value) for keep, (a, b), value in pins if x <= a < x + w and y <= b < y + h]
        problem = model.overlap_problem(sample, w, h, False, set_ + own, fits)
        run = turns.Run(problem, asked["rule"], (asked["seed"] + k) % (1 << 64), asked["budget"])
        hold(sample, w, h, set_ + own, run)
        if run.end == "spent":
            return answers.Answer(2, line=f"budget spent budget={asked['budget']}")
        if run.end == "none":
            shape = (n, w, h, 1, asked["symmetry"], int(asked.get("wrap-in", False)), 0)
            return answers.Answer(8, stuck(sample, (x, y, w, h), set_ + own, problem, shape, run), f"grow stuck x={x} y={y}")
        for j, row in enumerate(model.overlap_map(sample, w, h, False, run.assignment)):
            rows[y + j][x : x + w] = row
    assert not legal.picture_fault(sample, width, height, False, pins, rows), "the judge's own grown map"
    return answers.Answer(0, texts.sample_map(sample, form, rows))


def hold(sample, w, h, pins, run):
    try:
        assert run.end == "spent" or legal.some_picture(sample, w, h, False, pins) == (run.end == "map"), "the judge's own block"
    except legal.TooMany:
        pass


def stuck(sample, block, pins, problem, shape, run):
    """What is wrong with the text of a stuck block."""
    front = f"stuck {' '.join(map(str, block))} pins {len(pins)}\n"
    for keep, (x, y), value in pins:
        front += f"{'pin' if keep else 'ban'} {x} {y} {model.spelled(sample.kind, sample.symbols[value])}\n"

    def is_wrong(out):
        if not out.startswith(front.encode()):
            return "the front of a stuck block"
        return proofs.journal_fault(problem, shape, 2, out[len(front) :], run)

    return is_wrong
