#!/usr/bin/env python3
"""Lists the definitions that public contracts cite and no law names.

    docs/laws.py [CRATE..]

A definition is a name that a file of crates/*/specs declares by 'pub'. A contract cites it where a clause of a public function, or of a
function of a public trait, has its name, and the file imports it. A law is a function without a body, and names what its clauses have.
What stands in the body of a definition that a law names is named through others.
For each crate two lines: the definitions of its specs that are cited and that no law names, also not through others; and those that are
named through others alone. The last line counts them.
"""
import glob
import os
import re
import sys

ROOT = os.path.dirname(os.path.dirname(os.path.abspath(__file__)))
DECLARED = re.compile(r"^(?:abbrev |unfoldable )?pub (?:abbrev |record |data )?([^\s:({]+)", re.M)


def definitions():
    """For each crate and module of specs the names that it declares, and for each name the words of its body."""
    found = {}
    for path in glob.glob(f"{ROOT}/crates/*/specs/**/*.antt", recursive=True):
        crate = path[len(ROOT) + 8 :].split("/")[0]
        text = re.sub(r"^--.*$", "", open(path, encoding="utf-8").read(), flags=re.M)
        for block in re.split(r"\n(?=(?:abbrev |unfoldable )?pub )", text):
            head = DECLARED.match(block)
            if head and not block.startswith(("pub mod", "pub use")):
                found[(crate, head.group(1))] = set(re.findall(r"[^\s(){}.;,λ]+", block)) - {head.group(1)}
    return found


def imports(text):
    """The crate that each name of a file comes from, by its lines of ghost use."""
    found = {}
    for crate, names in re.findall(r"ghost use Rattle\.(wfc_\w+)\.specs\.[\w.]*?\.?\{([^}]*)\}", text):
        for name in names.split(","):
            found[name.strip().split(" as ")[-1]] = crate
    return found


def functions(text):
    """The functions of a file: whether each is public, whether it has no body, and its clauses."""
    trait = False
    for part in re.split(r"\n(?=[ \t]*(?:pub(?:\([a-z]+\))? )?(?:const )?fn |pub trait |impl|\}$)", text):
        if re.match(r"pub trait ", part):
            trait = True
        elif re.match(r"impl|\}", part):
            trait = False
        head = re.match(r"\s*(pub )?(?:const )?fn \w+", part)
        if not head:
            continue
        clauses = re.findall(r"(?:requires|ensures)\*? ?\w* ?\{(.*?)\}(?=\s*(?:requires|ensures|\{|;|$))", part, re.S)
        empty = re.search(r"\n\s*\{\}", part) is not None
        yield bool(head.group(1)) or trait, empty, " ".join(clauses)


def main(words):
    declared = definitions()
    cited, named = set(), set()
    for path in glob.glob(f"{ROOT}/crates/*/src/**/*.rt", recursive=True):
        text = open(path, encoding="utf-8").read()
        origin = imports(text)
        for public, law, clauses in functions(text):
            used = {(origin[w], w) for w in re.findall(r"[^\s(){}.;,λ]+", clauses) if w in origin}
            if law:
                named |= used
            elif public:
                cited |= used
    through, front = set(named), list(named)
    while front:
        crate, name = front.pop()
        for word in declared.get((crate, name), ()):
            for key in [(c, w) for (c, w) in declared if w == word]:
                if key not in through:
                    through.add(key)
                    front.append(key)
    bare = sorted(k for k in cited if k in declared and k not in through)
    inner = sorted(k for k in cited if k in declared and k in through and k not in named)
    for crate in sorted({c for c, _ in bare + inner}):
        if words and crate not in words:
            continue
        print(f"{crate}: {', '.join(n for c, n in bare if c == crate) or 'none'}")
        print(f"    through others: {', '.join(n for c, n in inner if c == crate) or 'none'}")
    known = [k for k in cited if k in declared]
    print(f"{len(known)} definitions are cited, {len(bare)} named by no law, {len(inner)} through others alone")


if __name__ == "__main__":
    main(sys.argv[1:])
