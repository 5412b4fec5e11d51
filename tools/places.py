#!/usr/bin/env python3
"""Lists the places in crates/*/src that docs/DESIGN-PASS.md counts, a point at a time.

    python3 tools/places.py            the counts
    python3 tools/places.py POINT..    the places of these points, a line each
"""
import collections
import pathlib
import re
import sys

ROOT = pathlib.Path(__file__).resolve().parent.parent
FILES = sorted(ROOT.glob("crates/*/src/**/*.rt"))


def read(path):
    return path.read_text().splitlines()


def functions():
    """Each function: its place, name, parameters' names, clauses and body."""
    for path in FILES:
        text = path.read_text()
        for m in re.finditer(r"^([ ]*)(?:pub(?:\(crate\))? )?fn (\w+)(?:<[^>]*>)?\(", text, re.M):
            end = text.find("\n" + m[1] + "}", m.end())
            whole = text[m.start() : end]
            head, _, body = whole.partition("\n" + m[1] + "{\n")
            names = re.findall(r"(?:^|[(,])\s*(?:mut )?(\w+): ", head.split("requires")[0].split("ensures")[0], re.M)
            line = text.count("\n", 0, m.start()) + 1
            yield f"{path.relative_to(ROOT)}:{line}", m[2], names, head, body


def enums():
    for path in FILES:
        text = path.read_text()
        for m in re.finditer(r"^\s*(?:pub )?enum (\w+)(?:<[^>]*>)? \{\n(.*?)^\s*\}\n", text, re.M | re.S):
            inner = re.sub(r"//.*", "", m[2])
            inner = re.sub(r"\{[^}]*\}", "{}", inner)
            variants = re.findall(r"^\s*(\w+)(\(|\s*\{)?", inner, re.M)
            line = text.count("\n", 0, m.start()) + 1
            yield f"{path.relative_to(ROOT)}:{line}", m[1], variants


def point_1():
    """Enums that are an Option or a Result by shape; groups of numbers for kinds."""
    for at, name, variants in enums():
        full = [v for v, f in variants if f]
        if full and len(full) < len(variants) and len(full) <= 2:
            yield at, f"enum {name}: " + ", ".join(v for v, _ in variants)
        elif any(v in ("Refused", "BadLine") for v, _ in variants):
            yield at, f"enum {name}: " + ", ".join(v for v, _ in variants)
    for path in FILES:
        run = []
        for i, l in enumerate(read(path) + [""], 1):
            if re.match(r"\s*pub const \w+: (u8|u16|u32|usize) = \d+;", l):
                run.append(i)
            elif l.strip() and not l.strip().startswith("//"):
                if len(run) > 1:
                    yield f"{path.relative_to(ROOT)}:{run[0]}", f"{len(run)} numbers with names"
                run = []
        if len(run) > 1:
            yield f"{path.relative_to(ROOT)}:{run[0]}", f"{len(run)} numbers with names"


def shape(body):
    body = re.sub(r"//.*", "", body)
    body = re.sub(r"\b\d\w*\b", "0", body)
    body = re.sub(r"\b(u8|u16|u32|u64|usize)\b", "T", body)
    body = re.sub(r"b?'[^']*'", "'c'", body)
    return re.sub(r"\b(?!if|else|while|for|in|return|let|mut|match|loop|break|continue|as)[A-Za-z_]\w*", "x", body)


def point_2():
    """Functions whose bodies are the same but for names, types and numbers."""
    by = collections.defaultdict(list)
    for at, name, _, _, body in functions():
        if body.count("\n") >= 2:
            by[shape(body)].append((at, name))
    for twins in by.values():
        if len(twins) > 1:
            for at, name in twins:
                yield at, f"{name}: as " + ", ".join(n for a, n in twins if a != at)


def point_3():
    """Loops that are written with `while`."""
    for path in FILES:
        for i, l in enumerate(read(path), 1):
            if re.match(r"\s*('\w+: )?while ", l):
                yield f"{path.relative_to(ROOT)}:{i}", l.strip()


def point_4():
    """Functions that compare, copy, convert or print by hand, by their names and results."""
    for at, name, names, head, body in functions():
        if re.match(r"(same|equal|equals|differs?|less|copy|copied|wide|digit|print\w*|spell\w*|clear|wipe|blank|number_of|code_of)$", name):
            yield at, name
        elif len(names) == 1 and re.search(r"\n\s*match \w+ \{", "\n" + body) and re.search(r"-> u(8|16|32|64)\b", head):
            yield at, name + ": a number for each case"


def point_5():
    """Functions with more than six parameters; facts asked by three functions or more of a crate."""
    for at, name, names, _, _ in functions():
        if len(names) > 6:
            yield at, f"{name}: {len(names)} parameters"
    facts = collections.defaultdict(list)
    for at, name, _, head, _ in functions():
        for clause in re.findall(r"requires(?: \w+)? \{ (.*?) \}(?=\n|$)", head, re.S):
            for fact in re.split(r"\s+×\s+", clause):
                fact = re.sub(r"\s+", " ", fact).strip("() ")
                facts[at.split("/")[1], re.sub(r"\.(old|now|new)\b", "", fact)].append((at, name))
    for (crate, fact), where in sorted(facts.items()):
        if len(where) > 2:
            yield where[0][0], f"{len(where)} functions of {crate} ask: {fact}"


def point_6():
    """Arrays with a count beside them, and arrays whose cells have names."""
    for path in FILES:
        text = path.read_text()
        for m in re.finditer(r"struct (\w+)[^{;]*\{(.*?)\n\}", text, re.S):
            if re.search(r"\[\w+; \w+\]", m[2]) and re.search(r"\b(count|len|length|n): (usize|u\d+)", m[2]):
                yield f"{path.relative_to(ROOT)}:{text.count(chr(10), 0, m.start()) + 1}", f"struct {m[1]}"
        for i, l in enumerate(text.splitlines(), 1):
            if re.search(r"\b\w+\[[A-Z][A-Z_]+\]", l):
                yield f"{path.relative_to(ROOT)}:{i}", l.strip()


def point_7():
    """Function pointers, and matches on a number that says which step to run."""
    for path in FILES:
        for i, l in enumerate(read(path), 1):
            if re.search(r"\bfn\(", l) or re.search(r"match (which|step|mode|stage|turn)\b", l):
                yield f"{path.relative_to(ROOT)}:{i}", l.strip()


def point_8():
    """Goals that an answer proves by hand."""
    for path in sorted(ROOT.glob("crates/*/proofs/**/Answers.antt")):
        for i, l in enumerate(path.read_text().splitlines(), 1):
            if re.match(r"(abbrev )?pub [\w-]+ : goal\.", l):
                yield f"{path.relative_to(ROOT)}:{i}", l.split(" : ")[0]


POINTS = {str(n): globals()[f"point_{n}"] for n in range(1, 9)}


def main(wanted):
    for n, point in POINTS.items():
        places = list(point())
        if not wanted:
            print(f"{n}: {len(places):5}  {point.__doc__}")
        elif n in wanted:
            for at, what in places:
                print(f"{n} {at}: {what}")


if __name__ == "__main__":
    main(sys.argv[1:])
