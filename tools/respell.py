#!/usr/bin/env python3
"""Brings the repository's own definitions, record fields and lemmas to the spelling of today's Rattle: words joined by
hyphens become snake case, or camel case where they begin with a capital.

usage: python3 tools/respell.py [FOLDER] [--list]

It was written for the text as the kit's own script leaves it, and has done its work there; it is no tool for later text.

Only names that the repository defines change: in specs/, in the lemma files of proofs/, as fields of records there, as
lemmas inside a function's proof folder, and as an alias of an import. What Rattle itself asks for (goals, invariants,
measures), what std names, and every name, comment and string of src/ stay. --list prints each name with its new spelling,
and whether the repository has that one already, and changes nothing.
"""

import os
import re
import sys

TOKEN = re.compile(r"[A-Za-z_][A-Za-z0-9_']*(?:[-≤<][A-Za-z0-9_'≤<]+)*(?![\w'])")
DEFINED = re.compile(r"^\s*(?:(?:abbrev|unfoldable|pub|record|data|mutual)\s+)*([A-Za-z_][\w'-]*)\s*(?::|\(|\{)(.*)$")
ALIAS = re.compile(r"\bas\s+([a-z]\w*(?:-\w+)+)")
STD_USE = re.compile(r"use\s+Rattle\.std\.[\w.+]*\.\{([^}]*)\}")
# names whose plain spelling has another meaning where they are used
OTHER = {"back-off": "back_off_octet", "length-octets": "octets_of_length"}


def files(root):
    for top in ("crates", "edits"):
        for folder, dirs, names in os.walk(os.path.join(root, top)):
            dirs[:] = sorted(d for d in dirs if d != "out")
            for name in sorted(names):
                if name.endswith((".rt", ".antt", ".edit")):
                    yield os.path.join(folder, name)


def spelt(name):
    if name in OTHER:
        return OTHER[name]
    parts = name.split("-")
    if name[0].isupper():
        return parts[0] + "".join(p[:1].upper() + p[1:] for p in parts[1:])
    return "_".join(parts)


def code_spans(path, text):
    """The stretches of the text that are code: not comments, and not strings of src/."""
    if path.endswith(".antt"):
        skip = re.compile(r"--(?=[\s-]|$).*|\"[^\"]*\"", re.M)
    elif path.endswith(".rt"):
        skip = re.compile(r"//.*|b?\"(?:\\.|[^\"\\])*\"|b?'(?:\\.[^']*|[^'\\])'", re.M)
    else:
        skip = re.compile(r"b?\"(?:\\.|[^\"\\])*\"|b?'(?:\\.[^']*|[^'\\])'", re.M)
    at = 0
    for m in skip.finditer(text):
        yield text[at : m.start()], True
        yield m.group(0), False
        at = m.end()
    yield text[at:], True


def own_names(texts):
    """What the repository defines with a hyphen, and in which file."""
    found = {}
    for path, text in texts.items():
        for line in text.split("\n"):
            if "use " in line:
                for alias in ALIAS.findall(line):
                    found.setdefault(alias, set()).add(path)
        if not path.endswith(".antt"):
            continue
        for line in text.split("\n"):
            m = DEFINED.match(line)
            if m and "-" in m[1] and not re.match(r"\s*goal\.", m[2]):
                found.setdefault(m[1], set()).add(path)
    return found


def main():
    args = [a for a in sys.argv[1:] if not a.startswith("--")]
    root = args[0] if args else "."
    texts = {p: open(p, encoding="utf-8").read() for p in files(root)}
    own = own_names(texts)
    seen = set()
    for path, text in texts.items():
        for part, is_code in code_spans(path, text):
            if is_code:
                seen.update(TOKEN.findall(part))
    if "--list" in sys.argv:
        for name in sorted(own):
            print(name, "->", spelt(name), "EXISTS" if spelt(name) in seen else "")
        return
    for path, text in texts.items():
        std = set()
        for m in STD_USE.finditer(text):
            std.update(n.strip() for n in m[1].split(","))
        std -= {n for n, where in own.items() if path in where}
        out = []
        for part, is_code in code_spans(path, text):
            if is_code:
                part = TOKEN.sub(lambda m: spelt(m[0]) if m[0] in own and m[0] not in std else m[0], part)
            out.append(part)
        new = "".join(out)
        if new != text:
            with open(path, "w", encoding="utf-8") as f:
                f.write(new)


main()
