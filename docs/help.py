#!/usr/bin/env python3
"""Holds docs/help.txt, which `./wfc help` shows, to the words that the program takes and to docs/commands.md.

    docs/help.py

Each command of the table in crates/wfc_words/src/commands.rt (its groups in groups.rt, its words in texts.rt) has a part of the
help, and a row of the table of commands on the page: both name its words and no other ones, those that may be left out in brackets. Each
word has a line in its part, the same in each (but for `OWN`), which says the range and the default that crates/wfc_words/src/numbers.rt has for it, and so
does the page's table of words. What `./wfc --version` says of the toolchain is what README.md says. Status 0 where all agree, else 1 with a
line for each that doesn't.
"""
import os
import re
import sys

ROOT = os.path.dirname(os.path.dirname(os.path.abspath(__file__)))
WORDS = f"{ROOT}/crates/wfc_words/src"
MOST_COLUMNS = 110
# Words that mean less in these commands, whose lines are their own: a box is made of tiles, and a map block by block of windows.
OWN = {"box": ("FILE", "form"), "grow": ("FILE", "MODEL")}


def text_of(path):
    return open(path, encoding="utf-8").read()


def texts():
    """The words by the names of their constants."""
    return dict(re.findall(r'const (\w+): &str = "([\w-]+)";', text_of(f"{WORDS}/texts.rt")))


def rows():
    """For each command its words, each with whether it must be there."""
    word_of, groups = texts(), {}
    for name, body in re.findall(r"const (\w+): &\[Argument<'static>\] = &\[(.*?)\];", text_of(f"{WORDS}/groups.rt"), re.S):
        words = re.findall(r"Argument::(\w+)\(texts::(\w+)\)", body)
        groups[name] = [(word_of[word], kind in ("Required", "Demand")) for kind, word in words]
    table = text_of(f"{WORDS}/commands.rt")
    for name, body in re.findall(r"const (\w+): &\[&\[Argument<'static>\]\] = &\[(.*?)\];", table, re.S):
        groups[name] = [word for group in re.findall(r"\w+", body) for word in groups[group]]
    found = {}
    for name, body in re.findall(r'CommandRow \{\s*name: "([\w-]+)",\s*groups: (.*?),\s*\};', table, re.S):
        found[name] = dict(word for group in re.findall(r"\w+", body) for word in groups[group])
    return found


def numbers():
    """For each word that is a number its least, its greatest and what stands for it where it is left out."""
    word_of, found = texts(), {}
    row = r"name: ValueName::(\w+),\s*least: (.*?),\s*most: (.*?),\s*absent: (.*?),"
    for value, least, most, absent in re.findall(row, text_of(f"{WORDS}/numbers.rt"), re.S):
        least = {"least_block(source)": "N"}.get(least, least)
        most = {"u64::MAX": str(2**64 - 1), "(u64::MAX - seed).min(7) + 1": "8"}.get(most, most.replace("_", ""))
        found[word_of[value.upper()]] = (least, most, absent.replace("_", ""))
    return found


def parts():
    """The parts of the help by their names."""
    found = re.split(r"^= ([\w-]+)\n", text_of(f"{ROOT}/docs/help.txt"), flags=re.M)
    return dict(zip(found[1::2], found[2::2]))


def words_in(usage):
    """The words of a usage, each with whether it must be there."""
    found = {}
    for bracket, option, name in re.findall(r"(\[?)(?:--([a-z-]+)(?: [A-Z]+)?|([A-Z]+))", usage):
        found[option or name] = not bracket
    return found


def says_range(text, least, most):
    """Whether a text begins with a range: as '1 or 2' where it has two numbers."""
    between = "or" if least.isdigit() and int(most) - int(least) == 1 else "to"
    return text.replace(",", "").startswith(f"{least} {between} {most}")


class Faults:
    """What doesn't agree."""

    def __init__(self):
        self.count = 0

    def tell(self, text):
        self.count += 1
        print(text)


def check_part(name, text, words, limits, lines, faults):
    usage = text.partition("\n\n")[0].removeprefix(f"usage: wfc {name}")
    if words_in(usage) != words:
        faults.tell(f"help {name}: the usage has {words_in(usage)}, the command takes {words}")
    told = dict(re.findall(r"^  (?:--)?([\w-]+)(?: [A-Z]+)?  +(.*)$", text, re.M))
    if set(told) != set(words):
        faults.tell(f"help {name}: lines for {sorted(told)}, words {sorted(words)}")
    for word, line in told.items():
        plain = line.removesuffix("; it must be there")
        own = name.partition("-")[0] if word in OWN.get(name.partition("-")[0], ()) else ""
        if lines.setdefault((own, word), plain) != plain:
            faults.tell(f"help {name}: {word} has another line elsewhere")
        if word in limits:
            least, most, absent = limits[word]
            if not says_range(line, least, most) or (words.get(word) is False and f"(default {absent})" not in line):
                faults.tell(f"help {name}: {word} is {least} to {most}, by default {absent}: {line}")
        if words.get(word) and f"--{word}" in usage and not line.endswith("; it must be there"):
            faults.tell(f"help {name}: {word} must be there, and its line doesn't say so")


def table(page, head):
    """The rows of the page's table with this head, as lists of cells."""
    rows = page.partition(f"\n{head}\n")[2].partition("\n\n")[0].split("\n")[1:]
    return [[cell.strip() for cell in re.split(r" \|(?= |$)", row.removeprefix("| "))[:-1]] for row in rows]


def check_page(commands, limits, faults):
    page = text_of(f"{ROOT}/docs/commands.md")
    problem = words_in(re.search(r"The problem options are `(.*?)`", page, re.S).group(1))
    box = words_in(re.search(r"the box options `(.*?)`", page, re.S).group(1))
    told = {row[0].strip("`"): row[1] for row in table(page, "| Command | Words | Writes |")}
    for name, words in commands.items():
        if name not in told:
            faults.tell(f"commands.md: no row of {name}")
            continue
        found = words_in(" ".join(re.findall(r"`(.*?)`", told[name])))
        if "the words of `" in told[name]:
            found = commands[re.search(r"the words of `([\w-]+)`", told[name]).group(1)]
        if "problem options" in told[name]:
            found = {**problem, **found}
        if "box options" in told[name]:
            found = {**box, **found}
        if found != words:
            faults.tell(f"commands.md: the row of {name} has {found}, the command takes {words}")
    taken = {word for words in commands.values() for word in words}
    for row in table(page, "| Word | Range | Default |"):
        for word in re.findall(r"(?:--)?([\w-]+)", row[0]):
            if word in limits and word in taken:
                least, most, absent = limits[word]
                if not says_range(row[1], least, most) or (row[2] not in ("", absent)):
                    faults.tell(f"commands.md: {word} is {least} to {most}, by default {absent}: {row[1]}, {row[2]}")


def main():
    commands, limits, help_parts, faults = rows(), numbers(), parts(), Faults()
    if set(help_parts) != {"wfc", "version", *commands}:
        faults.tell(f"help.txt has the parts {sorted(help_parts)}, the commands are {sorted(commands)}")
    lines = {}
    for name, words in commands.items():
        if name in help_parts:
            check_part(name, help_parts[name], words, limits, lines, faults)
        if f"\n  {name} " not in help_parts["wfc"]:
            faults.tell(f"help.txt: its first part doesn't list {name}")
    check_page(commands, limits, faults)
    kit = re.search(r"rattle-kit-\S+ logic \w+", help_parts["version"])
    if not kit or kit.group() not in text_of(f"{ROOT}/README.md"):
        faults.tell("help.txt: its part 'version' names another toolchain than README.md")
    for number, line in enumerate(text_of(f"{ROOT}/docs/help.txt").split("\n"), 1):
        if len(line) > MOST_COLUMNS:
            faults.tell(f"help.txt:{number}: {len(line)} columns")
    print(f"{len(commands)} commands, {sum(map(len, commands.values()))} words, {faults.count} faults")
    return 1 if faults.count or not commands else 0


if __name__ == "__main__":
    sys.exit(main())
