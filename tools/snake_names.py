#!/usr/bin/env python3
"""Brings the names of this repository's definitions and lemmas to one spelling: words in snake case, types and modules in camel case.

A dash stays in the name of a lemma beside a definition's name, as `length-bytes_of`, and where a definition has the name without it.

usage: python3 tools/snake_names.py      once, at the top, over what the kit's port.py made

It turns every name that a .antt file of crates/ declares or binds: a capital within a name or a dash between its words becomes `_`. Names of the
library, which a `use` line brings in from elsewhere, and the names that the prover makes for a function's proof stay. The same names are turned
in the clauses of src/, in must-fail/*.edit and, within backquotes, in README.md and docs/*.md (docs/landings aside, which tell of their day).
It stops where two names would fall together.
"""
import os
import re
import sys

NAME = r"[A-Za-z_][\w'?]*(?:-[\w'?]+)*"
TOKEN = re.compile(rf"(?<![\w'?-]){NAME}(?![\w'?])")
OWN = {"order", "model", "promises", "room", "little", "file", "ring", "races", "runlist"}
# A capital alone is the modulus's letter, and no second word.
LETTERS = {"mM", "eE", "eR"}
# Lemmas that port.py turned into the name that a definition has now: these keep their dash, as the library's do, in these files alone.
BACK = {
    "all_moved": ("all-moved", ["model/proofs/Report.antt", "promises/proofs/Pushed.antt"]),
    "core_at": ("core-at", ["ring/proofs/Fresh.antt"]),
    "entry_in": ("entry-in", ["ring/proofs/Turn.antt", "ring/proofs/run/"]),
    "room_of": ("room-of", ["promises/proofs/Half.antt", "promises/proofs/Moves.antt", "promises/proofs/Shortfall.antt"]),
    "same_place": ("same-place", ["promises/proofs/Seat.antt", "ring/proofs/Lists.antt"]),
    "store_at": ("store-at", ["promises/proofs/Seated.antt", "promises/proofs/Log.antt", "order/proofs/"]),
}
# Words of the library within names of this repository.
WORDS = {"getD": "get_or", "getElem": "get_elem"}
# A field whose words are a definition's name too.
OTHER = {"of-orders": "orders_are"}


def snake(name):
    if name in LETTERS:
        return name
    if name in OTHER:
        return OTHER[name]
    made, dash = "", ""
    for part in name.split("-"):
        whole = part in WORDS or bool(re.search(r"[a-z0-9'][A-Z]", part)) and part[0].islower()
        if whole:
            part = WORDS.get(part) or re.sub(r"(?<=[a-z0-9'])(?=[A-Z])", "_", part).lower()
        made += ("" if not made else "-" if whole or dash else "_") + part
        dash = whole
    return made


def comments_off(text):
    return re.sub(r"--.*", "", text)


def files(ending):
    for folder, dirs, names in os.walk("crates"):
        dirs[:] = sorted(d for d in dirs if d != "out")
        for n in sorted(names):
            if n.endswith(ending):
                yield os.path.join(folder, n)


def read(path):
    with open(path, encoding="utf-8") as f:
        return f.read()


def library(text):
    """The names that use lines bring in from elsewhere."""
    found = set()
    for path, names in re.findall(r"(?m)^\s*(?:ghost )?use ([^\s{;]+?)\.?\{([^}]*)\}", text):
        part = path.split(".")
        if not (part[0] == "Rattle" and len(part) > 1 and part[1] in OWN):
            found.update(w for n in names.split(",") for w in n.split())
    return found


def declared(text):
    """The names that a file declares or binds."""
    text = comments_off(text)
    found = set()
    for line in text.split("\n"):
        m = re.match(rf"\s*(?:(?:abbrev|unfoldable)\s+)*(?:pub\s+)?(?:(?:data|record)\s+)?((?:{NAME}\s+)*{NAME})\s*(?:\{{[^}}]*\}}\s*)*(?:\([^)]*\)\s*)*:(?!=)", line)
        if m:
            found.update(m.group(1).split())
    for names in re.findall(rf"[({{]((?:{NAME}\s+)*{NAME}) :", text):
        found.update(names.split())
    found.update(re.findall(rf"\blet ({NAME})", text))
    for names in re.findall(r"λ ([^.]*)\.", text):
        found.update(re.findall(NAME, names))
    return found


def main():
    back = {}
    for path in files(".antt"):
        names = {n: to for n, (to, where) in BACK.items() if any(w in path for w in where)}
        if names:
            back[path] = TOKEN.sub(lambda m: names.get(m.group(0), m.group(0)), read(path))
    for path, text in back.items():
        with open(path, "w", encoding="utf-8") as f:
            f.write(text)
    texts = {p: read(p) for p in files(".antt")}
    lib = set().union(*(library(t) for t in texts.values()), *(library(read(p)) for p in files(".rt")))
    own = set()
    for path, text in texts.items():
        own |= declared(text)
    made = {n for t in texts.values() for n in re.findall(rf"\b(?:need|goal)\.({NAME})", t)}
    turn = {n: snake(n) for n in own if snake(n) != n and not n[0].isupper()}
    for n in sorted(turn):
        if n in lib or n in made:
            print(f"left: {n}: {'the library has it too' if n in lib else 'the prover makes it'}")
    turn = {n: s for n, s in turn.items() if n not in lib and n not in made}
    odd = sorted(n for n in own if n[0].isupper() and "-" in n)
    if odd:
        print("left: types with a dash: " + " ".join(odd))
    # Two names of this repository, or one of it and one of the library.
    def groups():
        taken = {}
        for n in own | lib:
            taken.setdefault(turn.get(n, n), set()).add(n)
        return {s: ns for s, ns in taken.items() if len(ns) > 1}

    for s, ns in groups().items():
        for n in ns:
            if "-" in n and n.replace("-", "_") == s:
                turn.pop(n, None)
    together = groups()
    for s, ns in sorted(together.items()):
        print(f"look: {' and '.join(sorted(ns))} fall together in {s}")

    def turned(text, names):
        return TOKEN.sub(lambda m: names.get(m.group(0), m.group(0)), text)

    said = dict(turn)
    for path in list(texts) + list(files(".rt")):
        old = texts.get(path) or read(path)
        new = turned(old, turn)
        if new != old:
            with open(path, "w", encoding="utf-8") as f:
                f.write(new)
    # What older texts call by an older spelling: a name whose new spelling is one of today's.
    today = {turn.get(n, n) for n in own}

    def older(m):
        n = m.group(0)
        s = snake(n)
        return s if s != n and s in today and not n[0].isupper() and n not in lib else n

    for path in files(".edit"):
        old = read(path)
        new = "\n".join(TOKEN.sub(older, l) if re.match(r"(old|new): ", l) else l for l in old.split("\n"))
        if new != old:
            with open(path, "w", encoding="utf-8") as f:
                f.write(new)
    pages = ["README.md"] + [os.path.join("docs", n) for n in sorted(os.listdir("docs")) if n.endswith(".md")]
    for path in pages:
        old = read(path)
        new = re.sub(r"`[^`\n]*`", lambda m: TOKEN.sub(older, m.group(0)), old)
        if new != old:
            with open(path, "w", encoding="utf-8") as f:
                f.write(new)
    print(f"{len(said)} names turned")


if __name__ == "__main__":
    sys.exit(main())
