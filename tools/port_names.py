#!/usr/bin/env python3
"""Brings the names of this repository's definitions and lemmas to snake case, behind the kit's port/port.py: in specs/ and proofs/, in the contracts of src/ and in must-fail/.

usage: python3 tools/port_names.py [--look]     --look: says which names fall together, and writes nothing

Names of a library, of src/, of types, and those that the proof of a function is made of (proofs/NAME/) stay. specs/Contracts.antt of octets is OfContracts.antt, since the check makes a module of that name.
"""
import os
import re
import sys

ROOT = os.path.join(os.path.dirname(os.path.realpath(__file__)), "..", "crates")
WORD = re.compile(r"[^\s(){}\[\],;.:=λ→×∷∙↦|\"⌜⌝]+")
STRING = re.compile(r'("(?:[^"\\]|\\.)*")')
USE = re.compile(r"^\s*(?:ghost )?use\s+([^\s{;]+?)(?:\.\{([^}]*)\}|\s+as\s+\S+)?;?\s*$", re.M)
DECLARED = re.compile(r"^\s*(?:(?:pub|abbrev|unfoldable|private|infixl?r? \d+)\s+)*([^\s(){}:λ]+)(?:\s+[^\s(){}:λ]+)*\s+:\s", re.M)
JOINED = re.compile(r"^[a-z][^-]*(?:-[^-]+)+$")
# These name a function's module, or a field.
ALIASES = {"form-of", "kind-of", "type-name"}
HUMPED = re.compile(r"^[a-z][a-z0-9_]*[A-Z]")


def snake(word):
    return re.sub(r"([a-z0-9])([A-Z])", lambda m: m[1] + "_" + m[2].lower(), word).replace("-", "_")


def odd(word):
    return bool(JOINED.match(word) or HUMPED.match(word)) and not re.search(r"[*+≤<≡‥]", word)


def files():
    for folder, dirs, names in os.walk(ROOT):
        dirs[:] = sorted(d for d in dirs if d != "out")
        for name in sorted(names):
            yield os.path.join(folder, name)


def of_function(path):
    """Whether a proof file belongs to one function: it stands in a folder of proofs/."""
    parts = os.path.relpath(path, ROOT).split(os.sep)
    return parts[1] == "proofs" and len(parts) > 3


def read(path):
    with open(path, encoding="utf-8") as f:
        return f.read()


def words(text):
    for i, part in enumerate(STRING.split(text)):
        if i % 2 == 0:
            yield from WORD.findall(part)


def main(look):
    proofs = [p for p in files() if p.endswith(".antt")]
    library, own, all_words = set(), set(), set()
    for p in proofs:
        text = read(p)
        for module, names in USE.findall(text):
            if not module.startswith("Rattle.") or module.startswith("Rattle.std"):
                library |= {n.strip().split(" as ")[0].strip() for n in names.split(",")}
    for p in proofs:
        if of_function(p):
            continue
        code = "\n".join(l for l in read(p).split("\n") if not l.lstrip().startswith("--") and not USE.match(l))
        all_words |= set(words(code))
        own |= {w for w in words(code) if odd(w)}
    own -= library | {"not-nil"}
    fall = {}
    for w in own:
        fall.setdefault(snake(w), set()).add(w)
    # A lemma that would have its definition's name ends in _lem.
    into = {}
    for new, olds in sorted(fall.items()):
        taken = new in all_words or len(olds) > 1
        for w in olds:
            into[w] = new + "_lem" if taken and "-" in w and w not in ALIASES else new
        if taken:
            print("fall together:", new, {w: into[w] for w in sorted(olds)}, "a name already" if new in all_words else "")
    if look:
        print(len(own), "names")
        return

    # A field is no lemma; a lemma of proofs/ that the older script named as a function of src/ gives way to a definition.
    def turned(text, lemmas):
        parts = STRING.split(text)
        for i in range(0, len(parts), 2):
            part = parts[i]

            def turn(m):
                line = part[: m.start()].rsplit("\n", 1)[-1].lstrip()
                if line.startswith(("--", "//")) and into.get(m[0], "").endswith("_lem"):
                    return m[0]
                if part[: m.start()].endswith("."):
                    return snake(m[0]) if m[0] in own else m[0]
                return "same_turn_lem" if lemmas and m[0] == "same_turn" else into.get(m[0], m[0])

            parts[i] = WORD.sub(turn, part)
        return "".join(parts).replace("octets.specs.Contracts", "octets.specs.OfContracts").replace("octets·specs.specs.Contracts", "octets·specs.specs.OfContracts")

    for p in files():
        if p.endswith((".antt", ".rt", ".edit")):
            old = read(p)
            new = turned(old, p.endswith(".antt"))
            if new != old:
                with open(p, "w", encoding="utf-8") as f:
                    f.write(new)
    specs = os.path.join(ROOT, "octets", "specs")
    if os.path.exists(os.path.join(specs, "Contracts.antt")):
        os.rename(os.path.join(specs, "Contracts.antt"), os.path.join(specs, "OfContracts.antt"))
        lib = os.path.join(specs, "Lib.antt")
        text = read(lib).replace("pub mod Contracts", "pub mod OfContracts")
        with open(lib, "w", encoding="utf-8") as f:
            f.write(text)


if __name__ == "__main__":
    main("--look" in sys.argv[1:])
