#!/usr/bin/env python3
"""Brings the names of goals and steps that proof files cite to the spelling of today's check: source names keep their underscores.

usage: python3 tools/goal_names.py     at the top of the repository, once, after tools/respell.py
"""

import glob
import re

LABELS = ["in_ok", "in_err", "in_default", "type_inv", "overflow_add", "overflow_cast", "overflow_sub", "overflow_mul"]
LIBRARY = ["as_slice", "as_mut_slice", "from_residual", "push_reserved", "get_or"]


def main():
    names = set(LABELS + LIBRARY)
    for path in glob.glob("crates/*/src/**/*.rt", recursive=True):
        code = "\n".join(l for l in open(path, encoding="utf-8").read().split("\n") if not l.strip().startswith(("//", "ghost use", "requires", "ensures")))
        names.update(w for w in re.findall(r"\b[A-Za-z][A-Za-z0-9]*(?:_[A-Za-z0-9]+)+\b", code))
    table = {n.replace("_", "-"): n for n in names}
    pattern = re.compile(r"(?<![A-Za-z0-9_'])(" + "|".join(sorted(map(re.escape, table), key=len, reverse=True)) + r")(?![A-Za-z0-9_'])")
    for path in glob.glob("crates/*/proofs/*/**/*.antt", recursive=True):
        text = open(path, encoding="utf-8").read()
        turned = "\n".join(l if l.startswith(("use Rattle.std", "use borrow", "use native", "--")) else pattern.sub(lambda m: table[m.group(1)], l) for l in text.split("\n"))
        if turned != text:
            open(path, "w", encoding="utf-8").write(turned)
            print(path)


main()
