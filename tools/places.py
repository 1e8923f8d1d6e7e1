#!/usr/bin/env python3
"""Lists the places in crates/*/src that an older Rattle would have written as they stand, point by point.

    python3 tools/places.py [POINT]     counts, or with a point each place of it

The patterns find candidates; docs/DESIGN-PASS.md says of each what became of it.
"""
import glob
import re
import sys
from collections import Counter, defaultdict

FILES = sorted(glob.glob("crates/*/src/**/*.rt", recursive=True))
SIGNATURE = re.compile(
    r"^(?P<indent> *)(?:pub(?:\(crate\))? )?(?:const )?fn (?P<name>\w+).*?(?=^(?P=indent)\{|;\n)", re.M | re.S
)


def crate(path):
    return path.split("/")[1]


def is_test(path):
    return crate(path).endswith("_tests")


def text_of(path):
    return open(path, encoding="utf-8").read()


def lines_matching(pattern, keep=lambda path: True):
    regex = re.compile(pattern)
    for path in FILES:
        if not keep(path):
            continue
        for number, line in enumerate(text_of(path).split("\n"), 1):
            code = line.split("//")[0]
            if "ghost " in code and "{" in code and "fn" not in code:
                continue
            if regex.search(code) and not code.lstrip().startswith(("requires", "ensures")):
                yield f"{path}:{number}", line.strip()


def signatures():
    for path in FILES:
        text = text_of(path)
        for match in SIGNATURE.finditer(text):
            number = text.count("\n", 0, match.start()) + 1
            yield f"{path}:{number}", match.group("name"), match.group(0)


def parameters(signature):
    head = re.split(r"\n\s*(?:requires|ensures)", signature)[0]
    inner = head[head.index("(") + 1 :]
    depth, count, seen = 1, 0, False
    for char in inner:
        if char in "([{<":
            depth += 1
        elif char in ")]}":
            depth -= 1
            if depth == 0:
                break
        elif char == ">":
            depth -= 1
        if char == "," and depth == 1:
            count += 1
            seen = False
        elif not char.isspace():
            seen = True
    return count + (1 if seen else 0)


def enums_like_options():
    """Enums of two or three variants of which at most two carry something and none has named fields, or of which one says that all the others are done."""
    for path in FILES:
        text = re.sub(r"//[^\n]*", "", text_of(path))
        for match in re.finditer(r"enum (\w+)[^{]*\{(.*?)^\}", text, re.M | re.S):
            variants = re.findall(r"^    (\w+)(\(|\{|,| \{)", match.group(2), re.M)
            carrying = [name for name, mark in variants if mark == "("]
            named = [name for name, mark in variants if "{" in mark]
            refuses = any(name in ("Refused", "Failed", "Error") for name, _ in variants)
            if refuses or (len(variants) <= 3 and 1 <= len(carrying) <= 2 and not named):
                number = text.count("\n", 0, match.start()) + 1
                yield f"{path}:{number}", f"enum {match.group(1)}: {', '.join(name for name, _ in variants)}"


def point_1():
    yield from enums_like_options()
    for place, name, signature in signatures():
        head = re.split(r"\n\s*(?:requires|ensures)", signature)[0]
        if re.search(r"-> bool\b", head) and "&mut" in head:
            yield place, f"fn {name}: bool for done or refused"
        if re.search(r"Result<[^>]*(?:<[^>]*>)?[^>]*, (usize|u32|u8)>", head):
            yield place, f"fn {name}: a bare number for an error"
    yield from lines_matching(r"^\s*(pub(\(crate\))? )?\w+: bool,")
    yield from lines_matching(r"\b(format|number): u8\b", lambda path: not is_test(path))
    yield from lines_matching(r"(== NONE|!= NONE|const NONE)")


def point_2():
    bodies = defaultdict(list)
    for path in FILES:
        text = text_of(path)
        for match in SIGNATURE.finditer(text):
            end = text.find("\n" + match.group("indent") + "}", match.end())
            body = text[match.end() : end]
            shape = re.sub(r"\w+", "x", re.sub(r'"[^"]*"|\'[^\']*\'', "s", re.sub(r"\s+", " ", body)))
            if len(shape) > 60:
                number = text.count("\n", 0, match.start()) + 1
                bodies[shape].append((f"{path}:{number}", match.group("name")))
    for shape, found in sorted(bodies.items(), key=lambda item: item[1]):
        if len(found) > 1:
            yield found[0][0], " ~ ".join(f"{crate(place)}::{name}" for place, name in found)


def point_3():
    yield from lines_matching(r"\bfor \w+ in \(?0\.\.|\bfor \w+ in \w+\.\.|\bwhile\b|\bloop \{")


def point_4():
    yield from lines_matching(
        r"fn (compare|comes_before|is_same|order|fill|number|name|returned|fault_text|name_text|total)\b"
    )
    yield from lines_matching(r"\bOk\((\w+)\) => Ok\(\1\)|Err\((\w+)\) => (return )?Err\(")
    yield from lines_matching(r"let (blank|empty|unused)\b|= ResultKey \{$|\[Node::Access \{|\[Cursor \{|\[Loop \{")


def point_5():
    facts = Counter()
    where = defaultdict(list)
    for place, name, signature in signatures():
        for clause in re.findall(r"requires (?:\w+ )?\{(.*)\}", signature):
            key = re.sub(r"\b(self|text|words|nodes|line)\.(old|now)\b", r"\1", clause.strip())
            facts[key] += 1
            where[key].append(f"{crate(place)}::{name}")
        if parameters(signature) > 6:
            yield place, f"fn {name}: {parameters(signature)} parameters"
    for key, count in facts.most_common():
        if count >= 3:
            yield "requires", f"{count} times {{ {key} }}: {', '.join(where[key])}"


def point_6():
    for path in FILES:
        text = text_of(path)
        for match in re.finditer(r"struct (\w+)[^;{]*\{(.*?)^\}", text, re.M | re.S):
            fields = match.group(2)
            number = text.count("\n", 0, match.start()) + 1
            has_array = re.search(r": \[[^\]]+; \w+\]", fields)
            has_length = re.search(r"\b(len|count|rank|depth|read): (usize|u8)", fields)
            if has_array and has_length:
                yield f"{path}:{number}", f"struct {match.group(1)}: an array with a length beside"
            if re.search(r"\bsecond: ", fields) or re.search(r"\bb: Option", fields):
                yield f"{path}:{number}", f"struct {match.group(1)}: named fields for an array"
    for place, name, signature in signatures():
        head = re.split(r"\n\s*(?:requires|ensures)", signature)[0]
        if re.search(r"owners: &\[", head) and re.search(r"coordinates: &\[", head):
            yield place, f"fn {name}: parallel slices of owners and coordinates"
        if re.search(r"&(mut )?\[ResultKey\]", head) and re.search(r"len: usize", head):
            yield place, f"fn {name}: a row with a length beside"
    yield from lines_matching(r"let mid(dle)? = ")


def point_7():
    yield from lines_matching(r"match (\(?self|step|operation|class|side|\(self, chain)\b.* \{$")
    yield from lines_matching(r"\bif \w+\.children\b")


def point_8():
    for folder in sorted(glob.glob("crates/*/")):
        count = sum(
            len(text_of(path).split("\n")) - 1 for path in glob.glob(folder + "proofs/**/*.antt", recursive=True)
        )
        if count:
            yield folder, f"{count} lines of proofs"


POINTS = [point_1, point_2, point_3, point_4, point_5, point_6, point_7, point_8]


def main():
    if len(sys.argv) > 1:
        for place, what in POINTS[int(sys.argv[1]) - 1]():
            print(f"{place}: {what}")
        return
    for number, point in enumerate(POINTS, 1):
        found = list(point())
        print(f"point {number}: {len(found)}")
    total = sum(int(what.split()[0]) for _, what in point_8())
    print(f"lines of proofs: {total}")


if __name__ == "__main__":
    main()
