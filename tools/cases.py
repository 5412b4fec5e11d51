#!/usr/bin/env python3
"""Writes crates/definition/specs/Cases.antt from a folder of cases: cases.py FOLDER [--check].

A case is NAME.yar (the source), NAME.rows (its rows, and the fuel) and NAME.raw (the listing, not merged, of a copy of the Rust that
keeps empty ERROR nodes). What the listing does not show is counted here: an event's depth from its begins and ends, and the item of an error record by
the rows. An item begins with a node of depth 1 whose first row is one of the five words, or with an error of form 10; the errors that follow are its own.
With --check nothing is written; the tool only says whether the file is what the folder gives.
"""
import sys
from pathlib import Path

OUT = Path(__file__).resolve().parent.parent / "crates" / "definition" / "specs" / "Cases.antt"
SORTS = {"B": 1, "T": 2, "E": 3}
WORDS = {"GLOBAL_KW", "PRIVATE_KW", "RULE_KW", "IMPORT_KW", "INCLUDE_KW"}
HEAD = """-- Answers to a dozen files, events and error records whole, of a copy of the Rust that keeps empty ERROR nodes (decision 1). But for these nodes they are
-- the Rust's own, which is run (compare/, `run cases`). tools/cases.py writes this file from the listings in compare/cases.
use Rattle.std.specs.Prelude.{ℕ, List, [], ◌∷◌, Bool, true, ◌&&◌}
use Rattle.kinds.specs.Kinds as k
use Rattle.definition.specs.Run.{base}
use Rattle.definition.specs.Answer.{after, filled}
use Rattle.definition.specs.Table.{same, Case, desk, agrees}

-- a case, and its events
abbrev pub Outside : Type 0
Outside = Case × List ℕ

abbrev pub outside : Outside → Bool
outside c = let a = after base (desk c.0 1024 64) in agrees c.0 a && same a.events (filled c.1 a.events)

abbrev pub each : List Outside → Bool
each [] = true
each (c ∷ cs) = outside c && each cs
"""


def name(word):
    """A kind, id or name of docs/KINDS.md as the definitions spell it."""
    return "k." + word.split()[-1].upper()


def chain(words, indent):
    """The list of the words; a line is broken between two words, before the sign that joins them."""
    lines, line = [], ""
    for word in [str(w) for w in words] + ["[]"]:
        if line and len(line) + len(word) > 130:
            lines.append(line)
            line = ""
        line += (" ∷ " if line else "∷ " if lines else "") + word
    return ("\n" + indent).join(lines + [line])


def fields(path):
    return [line.split("\t") for line in path.read_text().split("\n") if line]


def case(folder, stem):
    rows = fields(folder / f"{stem}.rows")
    words = {r[2] for r in rows[1:] if r[1].split()[-1] in WORDS}
    events, errors, records, depth, item = [], [], 0, 0, 0
    for f in fields(folder / f"{stem}.raw")[1:-1]:
        if f[0] == "X":
            names = [] if f[4] == "-" else f[4].split(",")
            item += f[1] == "10"
            events.append(f"4 ∷ {records} ∷ {f[2]} ∷ {f[3]} ∷ {depth}")
            errors += [f[2], f[3], f[1], item, len(names)] + [name(n) for n in names] + f[5:]
            records += 1
        else:
            depth -= f[0] == "E"
            item += f[0] == "B" and depth == 1 and f[2] in words
            events.append(f"{SORTS[f[0]]} ∷ {name(f[1])} ∷ {f[2]} ∷ {f[3]} ∷ {depth}")
            depth += f[0] == "B"
    outcome, covered, left = fields(folder / f"{stem}.raw")[-1][1:]
    text = (folder / f"{stem}.yar").read_text().replace("\\", "\\\\").replace('"', '\\"').replace("\n", "\\n")
    title = stem.split("-", 1)[1].replace("-", "_")
    parts = [
        f'text = "{text}"',
        "ids = " + chain([name(r[1]) for r in rows[1:]], " " * 8),
        "ends = " + chain([r[3] for r in rows[1:]], " " * 8),
        f"fuel = {rows[0][2]}",
        f"outcome = {outcome}",
        f"covered = {covered}",
        f"left = {left}",
        f"events = {len(events)}",
        f"records = {records}",
        "errors = " + chain(errors, " " * 8),
    ]
    body = "".join(f"    {part};\n" for part in parts)
    return title, f"\nabbrev {title} : Outside\n{title} = (\n  record {{\n{body}  }},\n  {chain(events, ' ' * 6)},\n)\n"


def written(folder):
    made = [case(folder, p.stem) for p in sorted(folder.glob("*.raw"))]
    cases = chain([title for title, _ in made], "    ")
    return HEAD + "".join(text for _, text in made) + f"\nabbrev pub cases : List Outside\ncases =\n    {cases}\n"


def main():
    words = [w for w in sys.argv[1:] if w != "--check"]
    if len(words) != 1:
        sys.exit(__doc__)
    text = written(Path(words[0]))
    if "--check" in sys.argv:
        if OUT.read_text() != text:
            sys.exit("Cases.antt is not what the folder gives")
    else:
        OUT.write_text(text)


main()
