"""The words of a command: what they ask for, or the fault of them."""

FLAGS = {"wrap-in", "wrap-out"}
PROBLEM = ["symmetry", "wrap-in", "wrap-out", "pins", "mask"]
RUN = ["seed", "budget", "rule"]
MAP = ["file", "MODEL", "WIDTH", "HEIGHT"]
BOX = ["file", "WIDTH", "HEIGHT", "DEPTH"]
COMMANDS = {
    "learn": (["file", "MODEL"], ["symmetry", "wrap-in"], []),
    "fill": (MAP, PROBLEM + RUN + ["form"], []),
    "domains": (MAP, PROBLEM + ["steps"], []),
    "refute": (MAP, PROBLEM + RUN + ["format"], []),
    "check": (MAP + ["refutation"], PROBLEM, []),
    "upgrade": (MAP + ["refutation"], PROBLEM, []),
    "demo": (["NUMBER"], [], []),
    "race": (MAP, PROBLEM + RUN + ["seeds", "quantum"], ["seeds"]),
    "explain": (MAP, PROBLEM + RUN, ["pins"]),
    "grow": (MAP, ["symmetry", "wrap-in", "pins", "block", "form"] + RUN, []),
    "box-fill": (BOX, ["wrap-out", "pins", "form"] + RUN, []),
    "box-refute": (BOX, ["wrap-out", "pins", "format"] + RUN, []),
    "box-check": (BOX + ["refutation"], ["wrap-out", "pins"], []),
}
MOST = {
    "MODEL": (1, 6), "WIDTH": (1, 4096), "HEIGHT": (1, 4096), "symmetry": (1, 8), "seed": (0, (1 << 64) - 1),
    "budget": (0, 1_000_000_000), "rule": None, "form": None, "NUMBER": (0, 1_000_000), "format": (1, 2), "mask": None,
    "seeds": (1, 8), "quantum": (1, 1_000_000), "block": (1, 4096), "DEPTH": (1, 256),
}
DEFAULTS = {"symmetry": 1, "seed": 0, "budget": 1_000_000, "rule": "fewest", "format": 2, "quantum": 1, "block": 512, "DEPTH": 1}
NAMED = {"rule": ("scanline", "fewest", "ranked"), "form": ("p6", "p3", "grid", "cells")}


class Refused(Exception):
    """The words are none of the command."""


class Value(Exception):
    """A value out of its range, by name."""


def taken(words):
    """The words by their names, as texts, as a simple command takes them."""
    if not words or words[0] not in COMMANDS:
        raise Refused
    places, options, required = COMMANDS[words[0]]
    got, stood, at, ended = {}, [], 1, False
    while at < len(words):
        word = words[at]
        at += 1
        if ended or not word.startswith("-") or word == "-":
            stood.append(word)
            continue
        if word == "--":
            ended = True
            continue
        name, equals, value = word[2:].partition("=")
        if not word.startswith("--") or name not in options or name in got:
            raise Refused
        if name in FLAGS:
            if equals:
                raise Refused
            got[name] = True
            continue
        if not equals:
            if at == len(words) or (words[at].startswith("-") and words[at] != "-"):
                raise Refused
            value = words[at]
            at += 1
        got[name] = value
    if len(stood) != len(places) or any(name not in got for name in required):
        raise Refused
    got.update(zip(places, stood))
    got["command"] = words[0]
    return got


def number(text, low, high):
    """The number that decimal digits spell, where it lies in the range."""
    if not text or any(c not in "0123456789" for c in text):
        return None
    value = int(text[-4000:]) if len(text.lstrip("0")) < 30 else high + 1
    return value if low <= value <= high else None


def request(words):
    """What the words ask for."""
    asked = taken(words)
    command = asked["command"]
    turned = command in ("race", "explain", "grow")
    for name, span in MOST.items():
        text = asked.get(name)
        if text is None:
            continue
        if name == "mask":
            if not asked.get("tiles"):
                raise Value(name)
            continue
        if span is None:
            if text not in NAMED[name] or (name == "rule" and turned and text == "ranked"):
                raise Value(name)
            continue
        if name == "MODEL" and text == "tiles" and command != "grow":
            asked["MODEL"] = 0
            asked["tiles"] = True
            continue
        low, high = span
        if name == "block":
            low = asked["MODEL"]
        asked[name] = number(text, low, high)
        if asked[name] is None or (name == "seeds" and int(asked.get("seed", "0")) + asked[name] - 1 > MOST["seed"][1]):
            raise Value(name)
    for name, value in DEFAULTS.items():
        asked.setdefault(name, value)
    return asked
