#!/usr/bin/env python3
"""Writes a bound's ghost member with its type parameter: `V.algebra` where a clause had `algebra` alone.

usage: python3 tools/qualify.py      at the top of the checkout, once
"""
import os
import re

MEMBERS = {
    "Semiring": ["algebra", "reads", "stored", "laws", "test", "again"],
    "Format": ["wants", "births", "meaning", "kept", "lawful", "exact", "ample"],
    "Formats": ["wants", "births", "meaning", "kept", "lawful", "exact", "ample"],
    "Cursor": ["rest"],
    "Source": ["rest"],
    "Leg": ["worth"],
}
FN = re.compile(r"^\s*(?:pub(?:\([a-z]+\))? )?(?:const )?fn \w+(<.*)?")
IMPL = re.compile(r"^impl(<.*?>) ")
CLAUSE = re.compile(r"^\s*(requires|ensures|invariant)\b[^{]*\{")


def bounds(text):
    found = {}
    for m in re.finditer(r"(\w+): ([^,>(]+(?:<\w+>)?)", text):
        for bound in m.group(2).split("+"):
            bound = bound.strip().split("<")[0]
            for member in MEMBERS.get(bound, []):
                found.setdefault(member, m.group(1))
    return found


def turned(path):
    with open(path, encoding="utf-8") as f:
        lines = f.read().split("\n")
    text = "\n".join(lines)
    taken = set()
    for m in re.finditer(r"ghost use [^{]*\{([^}]*)\}", text):
        taken.update(w.strip() for w in m.group(1).split(","))
    out, of_impl, of_fn, bare = [], {}, {}, False
    for line in lines:
        if re.match(r"^(pub )?trait ", line):
            bare = True
        elif line == "}":
            bare, of_impl = False, {}
        m = IMPL.match(line)
        if m:
            of_impl = bounds(m.group(1))
        m = FN.match(line)
        if m:
            of_fn = bounds(m.group(1) or "")
        m = CLAUSE.match(line)
        if m and not bare:
            known = of_impl | of_fn
            head, body = line[:m.end()], line[m.end():]

            def one(w):
                name = w.group(0)
                return f"{known[name]}.{name}" if name in known and name not in taken else name

            body = re.sub(r"(?<![\w.'-])[a-z_]+(?![\w'-])", one, body)
            line = head + body
        out.append(line)
    return "\n".join(out), text


def main():
    for folder, dirs, files in os.walk("crates"):
        dirs[:] = [d for d in dirs if d != "out"]
        for name in files:
            if name.endswith(".rt"):
                path = os.path.join(folder, name)
                new, old = turned(path)
                if new != old:
                    with open(path, "w", encoding="utf-8") as f:
                        f.write(new)
                    print(path)


main()
