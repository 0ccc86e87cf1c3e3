"""Respells the names of this repository's own definitions, lemmas and fields as today's Rattle has them: words in snake case.

usage: python3 tools/respell.py        once, at the top, right after the kit's port.py; it rewrites files in place and lists each name that it changed

A name that begins with a small letter loses its capitals and its dashes: `scoreF-most` becomes `score_f_most`. Where two names of one file would fall together,
the lemma keeps its dash, or takes `_lem` behind it. Names that a file brings in from the kit's library are left alone, and so are those of goals, which Rattle gives.
It is kept because docs/PORT.md names it: by running it on the commit before the port anyone can see that nothing but spelling changed there.
"""

import collections
import glob
import re

OWN = {line.split(":")[0].split()[0] for line in open("crates.txt") if line.strip() and not line.startswith("#")}
NAME = r"[A-Za-z0-9_'ℕ₀₁₂₃₄₅₆₇₈₉-]+"
DECLARED = re.compile(r"^ *(?:(?:pub |abbrev |unfoldable )+(" + NAME + r")(?: [({].*)?|(" + NAME + r")) :(?: (.*))?$")
TOKEN = re.compile(r"(?<![A-Za-z0-9_'ℕ₀-₉-])" + r"[a-z][A-Za-z0-9_'ℕ₀₁₂₃₄₅₆₇₈₉]*(?:-[A-Za-z0-9_'ℕ₀₁₂₃₄₅₆₇₈₉]+)*" + r"(?![A-Za-z0-9_'ℕ₀-₉-])")


def snake(name):
    """`scoreF-most` as `score_f_most`; a mark of the format, as `HD`, is one word."""
    name = name.replace("-", "_")
    name = re.sub(r"(?<=[a-z0-9])([A-Z]+)(?=_|$|[0-9'])", lambda m: "_" + m.group(1).lower(), name)
    name = re.sub(r"(?<=_)([A-Z]+)(?=_|$|[0-9'])", lambda m: m.group(1).lower(), name)
    return re.sub(r"(?<=[a-z0-9])([A-Z])(?=[a-z])", lambda m: "_" + m.group(1).lower(), name)


def declared(path):
    """The names that a file of specs/ or proofs/ declares, fields and constructors too; but not those of goals."""
    for line in open(path, encoding="utf-8"):
        m = DECLARED.match(line)
        name = m and (m.group(1) or m.group(2))
        if name and re.match(r"[a-z]", name) and not re.match(r"(tie|goal)\.|\{M : Type 1\} → statement M", m.group(3) or ""):
            yield name


def files(pattern):
    return sorted(p for p in glob.glob(pattern, recursive=True) if "/out/" not in p)


def new_names(paths):
    """What each own name becomes, and what would fall together with another name of its file: such a lemma keeps its dash, or takes `_lem` behind it."""
    made, lemmas, told = {}, {}, []
    for path in paths:
        for name in declared(path):
            if snake(name) != name:
                made[name] = snake(name)
    for path in paths:
        kit, own = brought_in(open(path, encoding="utf-8").read())
        here = collections.defaultdict(set)
        for name in own | set(declared(path)):
            here[made.get(name, name)].add(name)
        for to, names in sorted(here.items()):
            if len(names) < 2 and not (to in kit and to not in names):
                continue
            told.append(f"{path}: {' and '.join(sorted(names))} would be {to}")
            dashed = {n for n in names if "-" in n}
            made.update({n: n for n in dashed})
            if len(names) > 1 and not dashed:
                lemmas[to] = to + "_lem"
    return made, lemmas, told


def brought_in(text):
    """The names that a file imports from the kit's library, and those that it imports from this repository."""
    kit, own = set(), set()
    for m in re.finditer(r"^(?:ghost |pub )*use ([A-Za-z0-9_.·'+-]+)\.\{([^}]*)\}", text, re.M):
        parts = m.group(1).split(".")
        mine = parts[0] == "Rattle" and len(parts) > 1 and parts[1] in OWN
        for item in m.group(2).split(","):
            for word in item.split(" as "):
                (own if mine else kit).add(word.strip())
    return kit, own


def respelled(text, made, kept):
    def turn(m):
        w = m.group(0)
        return made.get(w, w) if w not in kept else w

    return TOKEN.sub(turn, text)


def write(path, old, new):
    if new != old:
        with open(path, "w", encoding="utf-8") as f:
            f.write(new)


def main():
    antt = files("crates/*/specs/**/*.antt") + files("crates/*/proofs/**/*.antt")
    made, lemmas, told = new_names(antt)
    for path in antt + files("crates/*/src/**/*.rt"):
        text = open(path, encoding="utf-8").read()
        kit, own = brought_in(text)
        own |= set(declared(path)) if path.endswith(".antt") else set()
        # a function of src/ may have the name of such a lemma, and steps of its callers too
        here = {n: to for n, to in lemmas.items() if n in own}
        write(path, text, respelled(text, made | here, kit - own))
    for path in files("docs/**/*.md") + files("*.md") + files("books/*.md"):
        text = open(path, encoding="utf-8").read()
        write(path, text, re.sub(r"`[^`\n]+`", lambda m: respelled(m.group(0), made | lemmas, set()), text))
    for line in told:
        print(f"look: {line}")
    for name, to in sorted((made | lemmas).items()):
        print(f"{name} {to}")


main()
