#!/usr/bin/env python3
"""Brings the generated names in Answers.antt and Invariants.antt to today's form: a name from the source keeps its spelling, a word of
Rattle's is in snake case, and a dash joins the parts.

usage: python3 tools/relabel.py [NAME..]      at the top of the checkout: the crates NAME, or all
"""
import os
import re
import sys

WORD = re.compile(r"[A-Za-z_][A-Za-z0-9_+'-]*")
WORDS = [
    ("in-err", "in_err"), ("in-ok", "in_ok"), ("in-default", "in_default"),
    ("In-err", "In_err"), ("In-ok", "In_ok"), ("In-default", "In_default"),
    ("invariant-of", "invariant_of"), ("slice-bounds", "slice_bounds"), ("offset-bounds", "offset_bounds"), ("shape-of", "shape_of"),
] + [(f"{a}-{b}", f"{a}_{b}") for a in ("overflow", "nonzero") for b in ("add", "sub", "mul", "div", "rem", "cast", "shl", "shr", "step", "neg")]


def source_names(crate):
    names = set()
    for folder, _, files in os.walk(f"crates/{crate}/src"):
        for name in files:
            if name.endswith(".rt"):
                with open(os.path.join(folder, name), encoding="utf-8") as f:
                    names.update(n for n in re.findall(r"[A-Za-z_][A-Za-z0-9_]*", f.read()) if "_" in n.strip("_"))
    return sorted(names | {"from_residual"}, key=len, reverse=True)


def turned(word, pairs):
    if "-" not in word:
        return word
    for old, new in pairs:
        word = re.sub(rf"(?:(?<=-)|(?<=\+)|^){re.escape(old)}(?=-|\+|$)", new, word)
    return word


def main():
    crates = sys.argv[1:] or sorted(os.listdir("crates"))
    for crate in crates:
        pairs = WORDS + [(n.replace("_", "-"), n) for n in source_names(crate)]
        for folder, dirs, files in os.walk(f"crates/{crate}/proofs"):
            for name in files:
                if name not in ("Answers.antt", "Invariants.antt"):
                    continue
                path = os.path.join(folder, name)
                with open(path, encoding="utf-8") as f:
                    old = f.read()
                lines = []
                for line in old.split("\n"):
                    if line.startswith("use Rattle.std") or line.startswith("use mathlib") or line.lstrip().startswith("--"):
                        lines.append(line)
                    else:
                        lines.append(WORD.sub(lambda m: turned(m.group(0), pairs), line))
                new = "\n".join(lines)
                if new != old:
                    with open(path, "w", encoding="utf-8") as f:
                        f.write(new)


main()
