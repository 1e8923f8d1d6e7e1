#!/usr/bin/env python3
"""Brings the repository's own definitions and lemmas to today's spelling: values and lemmas in snake case, types in camel case.

usage: python3 tools/respell.py [--dry]       at the top of the checkout, once, after the kit's own script

A name is ours where specs/ or proofs/ declares it (a goal's answer is none of ours: its name is generated). Inside specs/ and the files of
lemmas the names that a declaration binds are turned too. A name that a file imports from the kit stays in that file. Strings, comments of
src/ and functions of src/ stay.
"""
import collections
import os
import re
import sys

KIT = "/opt/rattle/rattle"
IDENT = re.compile(r"[^\s(){}\[\];,.⌜⌝|\"]+")
SIGNATURE = re.compile(r"^\s*(?:abbrev |unfoldable |private |pub |axiom )*([^\s(){}\[\];,.:|]+)\s*:(?=\s|$)(.*)$")
HEAD = re.compile(r"^\s*(?:abbrev |unfoldable |pub )*(?:record|data)\s+([^\s(){}\[\];,.:|]+)")
IMPORT = re.compile(r"^\s*(?:pub )?(?:ghost )?use (?:Rattle\.)?(\w+)[^{]*\{([^}]*)\}")
HYPHENED = re.compile(r"^[A-Za-z][^\s]*-[^\s]*$")
CLAUSES = re.compile(r"^\s*(ghost\b|requires\b|ensures\b|invariant\b)")


def files(suffix):
    for folder, dirs, names in os.walk("crates"):
        dirs[:] = sorted(d for d in dirs if d != "out")
        for name in sorted(names):
            if name.endswith(suffix):
                yield os.path.join(folder, name)


def is_answers(path):
    return os.path.basename(path) in ("Answers.antt", "Invariants.antt", "Proof.antt")


def read(path):
    with open(path, encoding="utf-8") as f:
        return f.read()


def code(line):
    return "" if line.lstrip().startswith("--") else line


def kit_names():
    found = set()
    for folder, _, names in os.walk(KIT):
        for name in names:
            if name.endswith((".antt", ".rt")):
                with open(os.path.join(folder, name), encoding="utf-8", errors="replace") as f:
                    found.update(t for t in IDENT.findall(f.read()) if HYPHENED.match(t))
    return found


def declared():
    ours = set()
    for path in files(".antt"):
        for line in read(path).split("\n"):
            line = code(line)
            m = HEAD.match(line)
            if m:
                ours.add(m.group(1))
                continue
            m = SIGNATURE.match(line)
            if m and not (is_answers(path) and m.group(2).strip().startswith("goal.")):
                ours.add(m.group(1))
    return {n for n in ours if HYPHENED.match(n)}


def respelled(name):
    if name[0].isupper():
        return "".join(part[:1].upper() + part[1:] for part in name.split("-"))
    return name.replace("getD", "getd").replace("countBy", "count_by").replace("-", "_")


def from_kit(text, crates):
    names = set()
    for line in text.split("\n"):
        m = IMPORT.match(line)
        if m and m.group(1) not in crates:
            for item in m.group(2).split(","):
                names.update(item.split())
    return names


def turn(text, names, keep):
    def one(m):
        t = m.group(0)
        return respelled(t) if t in names and t not in keep else t
    return IDENT.sub(one, text)


def turn_antt(text, names, keep):
    return "\n".join(turn(line, names, keep) for line in text.split("\n"))


def turn_source(text, names, keep, crates):
    """Clauses and ghost items alone: they are the only places of src/ where a name has a hyphen."""
    out = []
    for line in text.split("\n"):
        body, dash, comment = line.partition("//")
        if '"' in body:
            out.append(line)
            continue
        out.append(turn(body, names, keep) + dash + comment)
    return "\n".join(out)


def main():
    dry = "--dry" in sys.argv
    crates = set(os.listdir("crates"))
    kit = kit_names()
    ours = declared()
    local = set()
    for path in files(".antt"):
        if not is_answers(path):
            for line in read(path).split("\n"):
                local.update(t for t in IDENT.findall(code(line)) if HYPHENED.match(t) and t not in kit)
    present = collections.defaultdict(set)
    for path in list(files(".antt")):
        for t in IDENT.findall("\n".join(code(l) for l in read(path).split("\n"))):
            present[t].add(path)
    for name in sorted(ours | local):
        if respelled(name) in present:
            both = present[name] & present[respelled(name)]
            print("falls together:", name, respelled(name), "in one file:" if both else "", *sorted(both))
    changed = 0
    for path in list(files(".antt")) + list(files(".rt")) + list(files(".edit")):
        text = read(path)
        keep = from_kit(text, crates)
        if path.endswith(".antt"):
            new = turn_antt(text, ours if is_answers(path) else ours | local, keep)
        elif path.endswith(".rt"):
            new = turn_source(text, ours | local, keep, crates)
        else:
            new = turn(text, ours | local, keep)
        if new != text:
            changed += 1
            if not dry:
                with open(path, "w", encoding="utf-8") as f:
                    f.write(new)
    print("names:", len(ours | local), "files:", changed)


main()
