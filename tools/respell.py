#!/usr/bin/env python3
"""Brings this repository's own names for definitions and lemmas to the spelling of the kit's library.

usage: python3 tools/respell.py [FOLDER]     the top of the repository (here, if none is given)

Run once, right after the kit's port.py. Facts and types (names that begin with a capital letter) become camel case, every
other definition, lemma, record field and constructor becomes snake case. Names that the check makes (goals) and names that are
imported from the library keep their spelling, and so do functions of src/, strings, inputs and outputs.
"""

import glob
import os
import re
import sys

TOKEN = r"[^\s(){}\[\]⟦⟧.,;:∷λ→×≡]+"
DECLARED = re.compile(r"^\s*(?:(?:abbrev|unfoldable|pub|data|record)\s+)*([^\s(){}\[\].,;:]+)\s*(?:[({][^=]*)?\s:\s(.*)$")
# the check's own names, which a proof file answers
MADE = re.compile(r"^goal\.")
# names that are no fact, but answer a type: the library's spelling of types
FACTS = {"any-balance": "AnyBalance"}
# names that src/ gives to what it imports
ALIASES = {"Led-on": "led_on", "led-on": "led_on", "what-comes": "what_comes", "gone-into": "gone_into"}


def files(top, *patterns):
    return sorted(f for p in patterns for f in glob.glob(os.path.join(top, p), recursive=True) if "/out/" not in f)


def respelled(name):
    if name in FACTS:
        return FACTS[name]
    if name[0].isupper():
        parts = name.split("-")
        return "".join(p[:1].upper() + p[1:] for p in parts)
    return re.sub(r"([a-z])([A-Z])", lambda m: m.group(1) + "_" + m.group(2).lower(), name.replace("-", "_"))


def declared(antt):
    names = set()
    for path in antt:
        for line in open(path, encoding="utf-8"):
            if line.lstrip().startswith(("--", "use ", "elim", "let ")):
                continue
            found = DECLARED.match(line)
            if found and not MADE.match(found.group(2)) and not found.group(1).startswith("invariant-of-"):
                names.add(found.group(1))
    return names


def imported(texts):
    names = set()
    for path in texts:
        text = open(path, encoding="utf-8").read()
        for names_of in re.findall(r"use (?:Rattle\.std|borrow|mathlib|lib|Prim|native)[^{};\n]*\{([^}]*)\}", text):
            for item in names_of.split(","):
                names.update(w for w in item.split() if w != "as")
    return names


def main(top):
    antt = files(top, "crates/*/specs/**/*.antt", "crates/*/proofs/**/*.antt")
    rust = files(top, "crates/*/src/**/*.rt")
    kept = imported(antt + rust)
    table = dict(ALIASES)
    for name in declared(antt):
        new = respelled(name)
        if new != name and ("-" in name or name in FACTS or re.match(r"[a-z]+[A-Z]", name)):
            if name in kept:
                print(f"kept, since the library has it: {name}")
            else:
                table[name] = new
    edge = r"[^\s(){}\[\]⟦⟧.,;:∷λ→×≡`'\"]"
    pattern = re.compile(r"(?<!" + edge + r")(" + "|".join(sorted(map(re.escape, table), key=len, reverse=True)) + r")(?!" + edge + r")")
    tokens = set()
    for path in antt + rust:
        tokens.update(re.findall(TOKEN, open(path, encoding="utf-8").read()))
    back = {}
    for name, new in sorted(table.items()):
        if new in tokens or new in back:
            print(f"falls together: {name} and {new}")
        back[new] = name
    for path in antt:
        text = open(path, encoding="utf-8").read()
        turned = pattern.sub(lambda m: table[m.group(1)], text)
        if turned != text:
            open(path, "w", encoding="utf-8").write(turned)
    for path in rust:
        lines = open(path, encoding="utf-8").read().split("\n")
        turned = [pattern.sub(lambda m: table[m.group(1)], l) if is_ghost(l) else l for l in lines]
        if turned != lines:
            open(path, "w", encoding="utf-8").write("\n".join(turned))
    print(f"{len(table)} names respelled")


def is_ghost(line):
    """Lines of src/ that hold antt: imports, clauses, ghost members and fields, and what follows them within a clause."""
    return bool(re.match(r"\s*(ghost |requires|ensures|\{|.*≡|.*→|.*λ)", line)) and not line.lstrip().startswith("//")


if __name__ == "__main__":
    main(sys.argv[1] if len(sys.argv) > 1 else ".")
