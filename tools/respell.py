#!/usr/bin/env python3
# Brought the names of this repository's definitions, lemmas and record fields to today's spelling, once, after port.py: words in snake
# case, facts in upper camel case, no dash in a field. Run at the top. Names of code, strings, inputs and outputs stay.
import glob
import os
import re
import sys

# Facts that had a small letter in front, and fields that had a dash.
FACTS = {
    "answeredAndZero": "AnsweredAndZero",
    "keysAndZero": "KeysAndZero",
    "givenAndZero": "GivenAndZero",
}
FIELDS = {
    "values-are": "values_are",
    "moves-m": "moves_m",
    "held-is": "held_is",
    "tally-is": "tally_is",
    "word-is": "word_is",
    "value-is": "value_is",
    "session-is": "session_is",
}
# Lemmas and local facts that would have the name of a definition that they are about (path's end, name).
LEMMAS = [
    (".antt", "same_key"),
    ("sheet_draft/proofs/Sheet.antt", "step_fits"),
    ("engine/proofs/put_in/Proof.antt", "goes_in"),
    ("tally/proofs/count/Proof.antt", "counted_of"),
]
TOKEN = re.compile(r"[^\s(){}.,;`\"|]+")
HEAD = re.compile(r"^(?:abbrev |unfoldable )*(?:pub )?(?:abbrev |unfoldable )*(?:pub )?(?:record |data )?([^\s:(){}]+)\s*(?:\{[^}]*\}|\([^)]*\)|\s)*:\s")
FIELD = re.compile(r"^  (?:pub )?([^\s:(){}=]+)\s*:\s")


def snake(name):
    return re.sub(r"(?<=[a-z0-9])([A-Z])", lambda m: "_" + m.group(1), name).lower()


def tree(*ends):
    for folder, dirs, files in os.walk("crates"):
        dirs[:] = sorted(d for d in dirs if d != "out")
        for f in sorted(files):
            if f.endswith(ends):
                yield os.path.join(folder, f)


def read(path):
    with open(path, encoding="utf-8") as f:
        return f.read()


def table():
    found = dict(FACTS)
    found.update(FIELDS)
    for path in tree(".antt"):
        if path.endswith("Proof.antt"):
            continue
        for line in read(path).split("\n"):
            m = HEAD.match(line) or FIELD.match(line)
            if not m or line.startswith(("--", "use")):
                continue
            name = m.group(1)
            if name not in found and name[0].islower() and re.search(r"[a-z0-9][A-Z]", name):
                found[name] = snake(name)
    return found


def main():
    names = table()
    back = {}
    for old, new in names.items():
        back.setdefault(new, []).append(old)
    for new, olds in back.items():
        if len(olds) > 1:
            print("falls together:", new, olds)
    paths = list(tree(".antt", ".rt", ".edit")) + sorted(glob.glob("docs/**/*.md", recursive=True)) + ["README.md"]
    if "--look" in sys.argv:
        seen = {}
        for path in paths:
            for m in TOKEN.finditer(read(path)):
                if m.group(0) in back and m.group(0) not in names:
                    seen.setdefault(m.group(0), set()).add(path)
        for new in sorted(seen):
            print("is there already:", new, back[new], sorted(seen[new])[:6])
        return
    n = 0
    for path in paths:
        text = read(path)
        own = {name: name + "_lem" for end, name in LEMMAS if path.endswith(end)}
        own.update(names)
        done = TOKEN.sub(lambda m: own.get(m.group(0), m.group(0)), text)
        if done != text:
            with open(path, "w", encoding="utf-8") as f:
                f.write(done)
            n += 1
    print(len(names), "names,", n, "files")


main()
