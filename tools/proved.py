#!/usr/bin/env python3
"""proved.py: every name in backquotes that docs/PROVED.md gives for a sentence is declared in a file that the same row names.

A table's first column is the sentence; names are looked up in the others. The files of a name are those that its row and its column's heading name, else
those that the section names before the table: proofs/X and specs/X are crate definition's or crate theorems' where no crate stands before them, and a
crate alone stands for all its files. `P.x` is the x of crate definition's specs/Run. A column of law files names files of the folder in its heading.
"""
import re
import sys
from pathlib import Path

ROOT = Path(__file__).resolve().parent.parent
PATH = re.compile(r"(?:crates/(\w+)(?:/|\b))?((?:specs|proofs|src)/\w+(?:\.\w+)?)?")
WORDS = {"requires", "ensures"}
NAME = re.compile(r"`((?:P\.)?[A-Za-z][\w'-]*)`")


def files(text):
    """The files that a text names."""
    found = []
    for crate, part in PATH.findall(text):
        if part:
            stems = [ROOT / "crates" / c / part for c in ([crate] if crate else ["definition", "theorems"])]
            named = [s.with_name(s.name + ending) for s in stems for ending in ("", ".antt", ".rt")]
            found += [p for p in named if p.is_file()] or stems[:1]
        elif crate:
            folder = ROOT / "crates" / crate
            found += [p for part in ("specs", "proofs", "src") for ending in ("antt", "rt") for p in sorted((folder / part).rglob(f"*.{ending}"))]
    return found


def declared(name, path):
    """Whether the file declares the name: a definition, theorem, type or constructor, or a function of the code."""
    if not path.is_file():
        return False
    text = path.read_text()
    if path.suffix == ".rt":
        return re.search(rf"\b(?:fn|struct|enum|const) {re.escape(name)}\b", text) is not None
    head = r"^\s*(?!--)(?:(?:abbrev|unfoldable|pub) )*"
    several = rf"(?:[\w'-]+ )*{re.escape(name)}(?: [\w'-]+)* :(?: |$)"
    return re.search(rf"{head}(?:{several}|(?:record|data) {re.escape(name)}\b)", text, re.M) is not None


def cells(line):
    return [c.strip() for c in re.split(r"(?<!\\)\|", line.strip().strip("|"))]


def main():
    missing, count = [], 0
    section, header = "", None
    for number, line in enumerate((ROOT / "docs/PROVED.md").read_text().split("\n"), 1):
        if line.startswith("#"):
            section, header = "", None
        if not line.startswith("|"):
            section, header = section + " " + line, None if line.strip() else header
            continue
        row = cells(line)
        if header is None:
            header = row
            continue
        if set(line) <= set("|- "):
            continue
        for title, cell in zip(header[1:], row[1:]):
            folder = re.match(r"Law files \((\S+)\)", title)
            if folder:
                laws = [ROOT / folder[1] / f"{n.strip()}.antt" for n in cell.split(",")]
                count += len(laws)
                missing += [f"{number}: no file {p.relative_to(ROOT)}" for p in laws if not p.is_file()]
                continue
            places = files(" ".join(row)) + files(title) or files(section)
            for name in NAME.findall(cell):
                if name in WORDS:
                    continue
                at = files("specs/Run") if name.startswith("P.") else places
                count += 1
                if not any(declared(name.removeprefix("P."), p) for p in at):
                    missing.append(f"{number}: `{name}` is not in {', '.join(sorted({str(p.relative_to(ROOT)) for p in at})[:4]) or 'any file'}")
    for m in missing:
        print(f"docs/PROVED.md:{m}")
    print(f"PROVED: {count} names, {len(missing)} not found")
    sys.exit(1 if missing else 0)


main()
