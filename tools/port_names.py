#!/usr/bin/env python3
"""Brings the repository's own definitions and lemmas to today's spelling: words in snake case.

Run once, at the top, on what port.py of the installed Rattle left. A lower-camel name of specs/ and proofs/, as finiteOf, becomes
finite_of, wherever it stands: in .antt files, in clauses and comments of .rt files, in must-fail edits and in pages. A dash stays
where it joins two names (moved_edge-right). Code of src/, strings, exported names, inputs and outputs have no such name and keep theirs.
Two lemmas would fall together with the definition that they are about and get the ending _lem, as does what cites them.
"""

import os
import re
import sys

TOKEN = re.compile(r"[^\s(){}\[\];,.:=λ→×⊎≡≤<>◌∷+*/%^«»\"`|&!?@#]+")
CAMEL = re.compile(r"[a-z].*[a-z0-9][A-Z]|[a-z][A-Z]")
# name, where it is a lemma that stands beside a definition of the same new name
LEMMAS = {
    "counts_of": ("crates/accumulator/proofs/", "crates/samples/proofs/adding/", "crates/model/proofs/Counts.antt"),
    "all_in": ("crates/feed/proofs/PlanChunks.antt",),
}
PAGES = ("README.md", "docs", "oracle/stories.py")


def snake(name):
    def one(m):
        return m.group(1) + "_" + m.group(2).lower()

    while True:
        turned = re.sub(r"([a-z0-9'])([A-Z])", one, name, count=1)
        if turned == name:
            return name
        name = turned


def below(top, endings):
    if os.path.isfile(top):
        yield top
        return
    for folder, dirs, files in os.walk(top):
        dirs[:] = sorted(d for d in dirs if d not in ("out", "target", ".git"))
        for f in sorted(files):
            if f.endswith(endings):
                yield os.path.join(folder, f)


def read(path):
    with open(path, encoding="utf-8") as f:
        return f.read()


def main():
    known = set()
    for path in below("crates", (".antt",)):
        known |= set(TOKEN.findall(read(path)))
    turned = {n: snake(n) for n in known if CAMEL.match(n)}
    # what pages and edits name, and port.py turned already
    for top in ("crates",) + PAGES:
        for path in below(top, (".edit", ".md", ".py")):
            for n in TOKEN.findall(read(path)):
                if CAMEL.match(n) and snake(n) in known:
                    turned[n] = snake(n)
    changed = 0
    for top in ("crates",) + PAGES:
        for path in below(top, (".antt", ".rt", ".edit", ".md", ".py")):
            old = read(path)
            new = old
            for lemma, places in LEMMAS.items():
                if path.startswith(places):
                    new = re.sub(r"(?<![\w'.-])" + lemma + r"(?![\w'-])", lemma + "_lem", new)
            new = TOKEN.sub(lambda m: turned.get(m.group(0), m.group(0)), new)
            if new != old:
                with open(path, "w", encoding="utf-8") as f:
                    f.write(new)
                changed += 1
    print(f"port_names: {len(turned)} names, {changed} files")
    return 0


if __name__ == "__main__":
    sys.exit(main())
