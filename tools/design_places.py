#!/usr/bin/env python3
"""Lists the places in crates/*/src that the design pass looks at, one a line, under the point that they belong to.

usage: tools/design_places.py [COMMIT]      (no COMMIT: the files as they stand)

A place is found by its text alone: what is listed is read by people, who say in docs/DESIGN-PASS.md what became of it. The last
part is no list of places but the sizes of the proofs.
"""
import collections
import os
import re
import subprocess
import sys


def files_of(commit, pattern):
    """(path, text) of each file of git's whose path fits the pattern, in the order of their paths."""
    listed = ["git", "ls-tree", "-r", "--name-only", commit] if commit else ["git", "ls-files"]
    for name in sorted(subprocess.run(listed, capture_output=True, text=True, check=True).stdout.split("\n")):
        if not re.match(pattern, name):
            continue
        if commit:
            yield name, subprocess.run(["git", "show", f"{commit}:{name}"], capture_output=True, text=True, check=True).stdout
        elif os.path.exists(name):
            with open(name, encoding="utf-8") as file:
                yield name, file.read()


def sources(commit):
    """The files of src/, but for the crate of tests."""
    return files_of(commit, r"crates/(?!tests/)[^/]+/src/.*\.rt$")


class Function:
    def __init__(self, path, line, name, head, body):
        self.path, self.line, self.name, self.head, self.body = path, line, name, head, body

    def place(self):
        return f"{self.path[len('crates/'):]}:{self.line} {self.name}"


def functions(path, text):
    """The functions of a file, with what stands before the body and the body itself. A method without a body has an empty one."""
    lines = text.split("\n")
    i = 0
    while i < len(lines):
        match = re.match(r"(\s*)(?:pub(?:\(crate\))? )?fn (\w+)", lines[i])
        if not match:
            i += 1
            continue
        begin, indent = i, match.group(1)
        head = []
        while i < len(lines):
            head.append(lines[i])
            bare = re.sub(r"\{[^{}]*\}", "", lines[i]).rstrip()
            if bare.endswith("{") or (lines[i].strip() in ("{", "{}")) or bare.endswith(";"):
                break
            i += 1
        body = []
        ends = head[-1].strip() == "{}" or re.sub(r"\{[^{}]*\}", "", head[-1]).rstrip().endswith(";")
        while not ends and i + 1 < len(lines):
            i += 1
            if lines[i] == indent + "}":
                break
            body.append(lines[i])
        yield Function(path, begin + 1, match.group(2), "\n".join(head), "\n".join(body))
        i += 1


KEYWORDS = set("as break const continue else enum fn for if impl in let loop match mut pub ref return self Self struct trait type use where while true false Some None Ok Err".split())


def shape(text):
    """The words and signs of a function, with each own name and each number in the place of all others."""
    text = re.sub(r"//[^\n]*", "", text)
    words = re.findall(r"\w+|[^\w\s]", text)
    return tuple(w if w in KEYWORDS or not re.match(r"\w", w) else "x" for w in words)


def point_1(files, found):
    for path, text in files:
        for match in re.finditer(r"enum (\w+)[^{]*\{([^}]*)\}", text):
            cases = [c.strip() for c in re.sub(r"//[^\n]*", "", match.group(2)).split(",\n") if c.strip().strip(",")]
            carrying = [c for c in cases if "(" in c]
            if len(carrying) == 1 and len(cases) in (2, 3):
                found("an enum of the shape of Option or Result", path, text, match.start(), match.group(1))
        for match in re.finditer(r"(?m)^.*//.*(\bor 0\b|0 is none|is 0 where|counted from 1, or 0)", text):
            found("0 for none", path, text, match.start(), match.group(0).strip())
        for match in re.finditer(r"(?m)^.*//.*\b(True|False) where", text):
            found("a bool that says whether it was done", path, text, match.start(), match.group(0).strip())
        for match in re.finditer(r"(?m)^.*\b(kind|request): (Option<)?u8\b.*$", text):
            found("a number for a kind", path, text, match.start(), match.group(0).strip())
        for match in re.finditer(r"(?m)^\s*trait \w+|fn is_free\(&self\) -> bool\s*\n\s*ensures|fn key\(&self\) -> Self::Key", text):
            if "fn " in match.group(0):
                found("a flag with a value beside it", path, text, match.start(), match.group(0).split("\n")[0].strip())
        for match in re.finditer(r"(?m)^\s*(None|Err\(_\)|_) => (None|false|0|Ok\(None\)),$|^\s*Ok\(\(\)\) => .*,$|^\s*Err\((\w+)\) => (Some\(\3\)|Err\(.*\)|Outcome::Refused\(\3\)),$", text):
            found("a match that is a method of Option or Result", path, text, match.start(), match.group(0).strip())


def point_2(files, found):
    groups = collections.defaultdict(list)
    for path, text in files:
        for function in functions(path, text):
            if function.body.strip():
                key = shape(function.head.split("ensures")[0].split("requires")[0]) + ("|",) + shape(function.body)
                if len(key) > 24:
                    groups[key].append((path, text, function))
    for group in groups.values():
        if len(group) > 1:
            names = ", ".join(f.place() for _, _, f in group)
            found.line("functions of one shape", f"{len(group)}: {names}")
    types = collections.defaultdict(list)
    for path, text in files:
        for match in re.finditer(r"(?m)^(?:pub(?:\(crate\))? )?(struct|enum) (\w+)[^{;]*\{([^}]*)\}", text):
            fields = re.sub(r"ghost \w+: \{[^}]*\},?", "", re.sub(r"//[^\n]*", "", match.group(3)))
            names = tuple(re.findall(r"(\w+)(?::|\(|,|\s*$)", fields))
            types[(match.group(1), tuple(sorted(re.findall(r"(\w+)(?=:|\(|,)", fields))))].append(f"{path[7:]} {match.group(2)}")
    for key, group in types.items():
        if len(group) > 1 and key[1]:
            found.line("types of the same fields or cases", ", ".join(group))
    names = collections.defaultdict(list)
    for path, text in files:
        for function in functions(path, text):
            names[(function.name, function.body.strip())].append(function.place())
    for (name, body), group in names.items():
        if len(group) > 1 and body and len(body.split("\n")) > 1:
            found.line("functions of the same name and body", ", ".join(group))


def point_3(files, found):
    for path, text in files:
        for match in re.finditer(r"(?m)^\s*(for|while|loop)\b.*$", text):
            line = match.group(0).strip()
            rest = text[match.end() : match.end() + 400]
            counts = "enumerate()" in line or re.search(r"in [\w:]+\.\.", line) or re.match(r"(?:.*\n){0,4}?\s*\w+ \+= 1;", rest)
            kind = "a loop that counts" if counts else "another loop"
            found(kind, path, text, match.start(), line)


def point_4(files, found):
    pattern = r"(?m)^\s*(?:pub(?:\(crate\))? )?fn (number|from_\w+|of|is|is_word|has_key|same_\w+|digit_\w+|named|setup_error|not_made|refused_or_accepted|\w+_line|\w+_digits|request_number|context)\b.*$"
    for path, text in files:
        for match in re.finditer(pattern, text):
            found("a comparison, a conversion or a printing by hand", path, text, match.start(), match.group(0).strip())


def point_5(files, found):
    clauses, groups = collections.Counter(), collections.Counter()
    where = collections.defaultdict(list)
    for path, text in files:
        for function in functions(path, text):
            for clause in re.findall(r"ensures(?: \w+)? \{ (.*) \}", function.head):
                clauses[clause] += 1
            signature = re.search(r"\(([^)]*)\)", function.head, re.S)
            parameters = [" ".join(p.split()) for p in signature.group(1).split(",")] if signature else []
            parameters = [p for p in parameters if ":" in p]
            for a, b in zip(parameters, parameters[1:]):
                groups[(a, b)] += 1
                where[(a, b)].append(function.name)
    for clause, count in clauses.items():
        if count >= 3:
            found.line("a clause in three functions or more", f"{count} times: {clause}")
    for pair, count in groups.items():
        if count >= 3:
            found.line("parameters together in three functions or more", f"{count} times: {', '.join(pair)} ({', '.join(sorted(set(where[pair])))})")


def point_6(files, found):
    for path, text in files:
        for match in re.finditer(r"(?m)^.*\b\w+: \[[^\]]*; \d+\].*$", text):
            found("a fixed array in a type", path, text, match.start(), match.group(0).strip())
        for match in re.finditer(r"(?m)^.*\bfn \w+.*&mut \[\w+\], (at|len|end|start): usize.*$", text):
            found("a buffer with a number beside it", path, text, match.start(), match.group(0).strip())
        for match in re.finditer(r"(?m)^\s*(?:pub )?\w+: Vec<.*$", text):
            found("a list in a type", path, text, match.start(), match.group(0).strip())


def point_7(files, found):
    for path, text in files:
        for match in re.finditer(r"(?m)^.*match (verb|change|kind|command|self)\b.*$", text):
            found("a switch on what to do", path, text, match.start(), match.group(0).strip())
        for match in re.finditer(r"\bfn\(|\bdyn ", text):
            found("a function pointer or dyn", path, text, match.start(), match.group(0))


def point_8(commit, found):
    """Not places but sizes: of the proofs of each crate, how many answers, invariants, lemmas and lines there are."""
    sizes = collections.defaultdict(collections.Counter)
    for name, text in files_of(commit, r"crates/[^/]+/(proofs|specs)/.*\.antt$"):
        crate, folder, rest = re.match(r"crates/([^/]+)/(proofs|specs)/(.*)", name).groups()
        size = sizes[crate]
        size[f"lines of {folder}"] += text.count("\n")
        if folder == "proofs" and rest.endswith("/Answers.antt"):
            size["answers"] += len(re.findall(r"(?m)^pub [\w+-]+ : goal\.", text))
        elif folder == "proofs" and rest.endswith("/Invariants.antt"):
            size["invariants and measures"] += len(re.findall(r"(?m)^abbrev pub [\w+-]+ : goal\.", text))
        elif folder == "proofs":
            size["lemmas"] += len(re.findall(r"(?m)^ *(?:pub )?(?:abbrev |record |unfoldable )*(?:pub )?[A-Za-z_][^\s:({]*(?: [({][^:]*:[^)}]*[)}])* : ", text))
    order = ["answers", "invariants and measures", "lemmas", "lines of proofs", "lines of specs"]
    total = collections.Counter()
    for crate in sorted(sizes):
        total.update(sizes[crate])
        found.line("sizes of proofs", crate + ": " + ", ".join(f"{sizes[crate][key]} {key}" for key in order))
    found.line("sizes of proofs", "all: " + ", ".join(f"{total[key]} {key}" for key in order))


class Found:
    def __init__(self):
        self.kinds = collections.OrderedDict()

    def __call__(self, kind, path, text, at, words):
        self.line(kind, f"{path[len('crates/'):]}:{text.count(chr(10), 0, at + len(text[at:]) - len(text[at:].lstrip(chr(10)))) + 1}: {words}")

    def line(self, kind, words):
        self.kinds.setdefault(kind, []).append(words)


def main():
    commit = sys.argv[1] if len(sys.argv) > 1 else None
    files = list(sources(commit))
    for number, point in enumerate([point_1, point_2, point_3, point_4, point_5, point_6, point_7], 1):
        found = Found()
        point(files, found)
        for kind, lines in found.kinds.items():
            print(f"== {number}, {kind}: {len(lines)}")
            for line in lines:
                print(f"   {line}")
    found = Found()
    point_8(commit, found)
    for kind, lines in found.kinds.items():
        print(f"== 8, {kind}")
        for line in lines:
            print(f"   {line}")


main()
