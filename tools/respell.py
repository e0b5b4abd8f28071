#!/usr/bin/env python3
"""Brings the repository's own definitions, fields and lemmas to today's spelling.

usage: python3 tools/respell.py        at the top of the repository, once, after port.py

A word is in snake case, and a type or a fact in camel case: `field-bytes` becomes `field_bytes`, `Runs-join` becomes `RunsJoin`.
Only names that specs/ and proofs/ declare are touched. Names that the library has, names of generated goals and of steps, functions of src/, strings, inputs and outputs stay.
A name whose new spelling something else has already keeps its old one, and is printed.
"""
import os
import re

TOKEN = re.compile(r"[A-Za-z0-9_'◌⊎∥≡≤↔+\u2080-\u209c][\w'◌⊎∥≡≤↔+*-]*", re.UNICODE)
DECLARES = re.compile(r"^\s*(?:(?:abbrev|unfoldable)(?: pub)?|pub)?\s*([A-Za-z][\w'-]*)\s*:(?!=)\s")
TYPE = re.compile(r"^\s*(?:pub )?(?:record|data) ([A-Za-z][\w'-]*)")
LIBRARY = re.compile(r"^use (?:Rattle\.std|native|lib|borrow|mathlib|Prim|denote)[\w.'+-]*\.\{([^}]*)\}")
HELD = re.compile(r"^\s*(?:pub(?:\(crate\))? )?(?:ghost (\w+)(?::| =)|(\w+): [^=]*,$|(?:const|struct|enum|trait) (\w+))")
GHOST = re.compile(r"^\s*(?:ghost\b|requires\b|ensures\b)")


# Where a field or a lemma of another kind has the new spelling.
OTHERWISE = {"clash-free": "is_clash_free", "actions-within": "actions_within_lem"}


def files(*ends):
    for folder, dirs, names in os.walk("crates"):
        dirs[:] = sorted(d for d in dirs if d != "out")
        for name in sorted(names):
            if name.endswith(ends):
                yield os.path.join(folder, name)


def read(path):
    with open(path, encoding="utf-8") as f:
        return f.read()


def new_spelling(name):
    if name in OTHERWISE:
        return OTHERWISE[name]
    if name[0].isupper():
        return "".join(part[0].upper() + part[1:] for part in name.split("-"))
    return name.replace("-", "_")


def declared_and_library(paths):
    own, library = set(), set()
    for path in paths:
        for line in read(path).split("\n"):
            m = LIBRARY.match(line)
            if m:
                for item in m.group(1).split(","):
                    library.update(item.split(" as ")[0].split())
                continue
            if re.search(r":\s*(?:goal|given)\.", line):
                continue
            m = TYPE.match(line) or DECLARES.match(line)
            if m and "-" in m.group(1):
                own.add(m.group(1))
    return own - library, library


def clause_lines(text):
    """Which lines of a .rt file are ghost text: from `ghost`, `requires` or `ensures` on, as long as a bracket is open."""
    depth = 0
    for line in text.split("\n"):
        ghost = depth > 0 or bool(GHOST.match(line))
        code = line.split("//")[0]
        if ghost:
            depth = max(0, depth + code.count("{") - code.count("}"))
        yield ghost, line


def fields_and_constants(paths):
    """Names of src/ that would hide a definition of that name in a clause: fields, ghost fields and members, constants and types."""
    return {name for path in paths for line in read(path).split("\n") for name in (HELD.match(line).groups() if HELD.match(line) else ()) if name}


def main():
    antt, rt = list(files(".antt")), list(files(".rt"))
    own, library = declared_and_library(antt)
    taken = set(library) | fields_and_constants(rt)
    for path in antt:
        taken.update(TOKEN.findall(re.sub(r"(?m)^use .*$|--.*$", "", read(path))))
    turned, kept = {}, []
    for name in sorted(own):
        new = new_spelling(name)
        if new in taken or new in turned.values():
            kept.append((name, new))
        else:
            turned[name] = new

    def respell(line):
        comment = line.find("-- ")
        head, tail = (line, "") if comment < 0 else (line[:comment], line[comment:])

        def one(m):
            before = head[: m.start()]
            if before.endswith(("goal.", "given.")):
                return m.group(0)
            return turned.get(m.group(0), m.group(0))

        tail = re.sub(r"`([^`]*)`", lambda m: "`" + turned.get(m.group(1), m.group(1)) + "`", tail)
        return TOKEN.sub(one, head) + tail

    for path in antt:
        text = read(path)
        new = "\n".join(line if re.search(r"^pub \S+ : (?:goal|given)\.|^abbrev pub \S+ : (?:goal|given)\.", line) else respell(line) for line in text.split("\n"))
        if new != text:
            with open(path, "w", encoding="utf-8") as f:
                f.write(new)
    for path in rt:
        text = read(path)
        new = "\n".join(respell(line) if ghost else line for ghost, line in clause_lines(text))
        if new != text:
            with open(path, "w", encoding="utf-8") as f:
                f.write(new)
    print(len(turned), "names respelled")
    for name, new in kept:
        print("kept:", name, "since", new, "is taken")


if __name__ == "__main__":
    main()
