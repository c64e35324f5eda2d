#!/usr/bin/env python3
"""Brings the repository's own definitions and lemmas to snake case, after port.py has run.

Run once, at the top. It takes the names that specs/ and proofs/ declare and that hold a capital or a dash
behind a small first letter, and writes them with `_`, wherever they stand: in specs/, proofs/, the clauses
of src/ and the text of must-fail edits. Functions of src/, exported C names, strings, inputs and outputs
hold no such name. It prints each new name that stands somewhere already; NEW says what such a name becomes
instead. With --list it prints all names, with --write it turns them.
"""
import pathlib
import re
import sys

LETTER = r"[\w\-'′]"
# A name whose plain spelling is taken by another.
NEW = {
    name: name.replace("-", "_") + "_lem"
    for name in (
        "joined-roots or-accepted is-external replaced-by bad-record root-range is-less child-range same-node at-node forward-child id-of".split()
    )
} | {"first_some": "first_some_lem", "place_at": "place_at_lem"}
# The module `specs/Contracts` needs another name: Rattle makes one of that name.
MOVED = {"crates/sorting/specs/Contracts.antt": ("crates/sorting/specs/Promises.antt", "Contracts", "Promises")}


def snake(name):
    spaced = re.sub(r"(?<=[a-z0-9₀-₉])([A-Z])", lambda m: "_" + m.group(1).lower(), name)
    return spaced.replace("-", "_")


def declared(text):
    """The names that a file declares: definitions, lemmas, fields and variants, local ones too."""
    for line in text.splitlines():
        line = re.sub(r"--.*", "", line)
        m = re.match(rf"\s*(?:\|\s*)?((?:abbrev|unfoldable|pub)\s+)*((?:{LETTER}+\s+)*{LETTER}+)\s*:(?!=)", line)
        if m:
            yield from (w for w in m.group(2).split() if w not in ("data", "record", "let", "pub", "abbrev"))
        m = re.search(rf"\blet\s+({LETTER}+)\s*:", line)
        if m:
            yield m.group(1)


def files():
    for crate in sorted(pathlib.Path("crates").iterdir()):
        yield from sorted(p for p in crate.rglob("*") if p.suffix in (".antt", ".rt", ".edit") and "out" not in p.parts)


def main():
    texts = {p: p.read_text() for p in files()}
    names = set()
    for p, text in texts.items():
        # A folder of proofs/ is a function's proof: most names in it are Rattle's own.
        if p.suffix == ".antt" and (p.parts[2] == "specs" or len(p.parts) == 4):
            names.update(declared(text))
        if p.suffix == ".rt" or p.parts[2] == "specs" or len(p.parts) == 4:
            names.update(re.findall(rf" as ({LETTER}+)", "\n".join(re.findall(r"^(?:ghost |pub )*use .*$", text, re.M))))
    turned = {n: NEW.get(n, snake(n)) for n in names if n[0].islower() and (re.search(r"[A-Z]", n) or "-" in n)}
    turned = {a: b for a, b in turned.items() if a != b} | {a: b for a, b in NEW.items() if a in names}
    words = {}
    for p, text in texts.items():
        for w in re.findall(rf"{LETTER}+", text):
            words.setdefault(w, set()).add(str(p))
    taken = sorted((a, b, len(words[b])) for a, b in turned.items() if b in words)
    twice = {}
    for a, b in turned.items():
        twice.setdefault(b, []).append(a)
    twice = {b: sorted(a) for b, a in twice.items() if len(a) > 1}
    if "--list" in sys.argv:
        for a in sorted(turned):
            print(a, turned[a])
    for a, b, n in taken:
        print(f"taken: {a} -> {b} stands in {n} files: {sorted(words[b])[:6]}")
    for b, a in twice.items():
        print(f"fall together: {a} -> {b}")
    if "--write" not in sys.argv:
        return
    pattern = re.compile(rf"(?<!{LETTER})({'|'.join(sorted(map(re.escape, turned), key=len, reverse=True))})(?!{LETTER})")
    for p, text in texts.items():
        new = pattern.sub(lambda m: turned[m.group(1)], text)
        for old, (_, was, now) in MOVED.items():
            crate = pathlib.Path(old).parts[1]
            new = new.replace(f"Rattle.{crate}.specs.{was}.", f"Rattle.{crate}.specs.{now}.")
        if new != text:
            p.write_text(new)
    for old, (to, was, now) in MOVED.items():
        pathlib.Path(old).rename(to)
        lib = pathlib.Path(old).parent / "Lib.antt"
        lib.write_text(re.sub(rf"\bmod {was}\b", f"mod {now}", lib.read_text()))
    print(f"{len(turned)} names")


main()
