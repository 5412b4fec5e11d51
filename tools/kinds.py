#!/usr/bin/env python3
"""Writes from docs/KINDS.md what must agree with it: Kinds.antt, Numbers.antt and Texts.antt in crates/kinds/specs, the enum in crates/kinds/src, and the
input of kinds_page.

With --check it writes nothing, and fails at the first that does not agree."""
import re
import sys
from pathlib import Path

ROOT = Path(__file__).resolve().parent.parent
PAGE = ROOT / "docs" / "KINDS.md"
SPECS = ROOT / "crates" / "kinds" / "specs"
ENUM = ROOT / "crates" / "kinds" / "src" / "kind.rt"
INPUT = ROOT / "crates" / "kinds_page" / "stdin"
NUMBERS_HEAD = """-- docs/KINDS.md as names for numbers; tools/kinds.py writes this file from that page.
use Rattle.std.specs.Prelude.{ℕ}
"""
ENUM_HEAD = """// The kinds, in the order of docs/KINDS.md, which numbers them from 0; tools/kinds.py writes this file from that page.
ghost use Rattle.std.specs.Prelude.{◌≡◌};
ghost use Rattle.kinds.specs.Numbers.{number};

#[derive(Clone, Copy, PartialEq, Eq)]
pub enum Kind {
"""
ENUM_TAIL = """}

impl From<Kind> for u32 {
    ghost from_gives = { λ kind n. n ≡ number kind };

    fn from(kind: Kind) -> u32 {
        kind as u32
    }
}
"""
OF_KIND_HEAD = """-- The kinds of the code by the numbers of docs/KINDS.md; tools/kinds.py writes this file from that page.
use Rattle.std.specs.Prelude.{ℕ}
use Rattle.kinds.specs.Kinds as k
use Rattle.kinds.specs.declared.kind.Kind.{Kind}
use Rattle.kinds.specs.declared.kind.Kind.TheVariants as K

abbrev pub number : Kind → ℕ
"""
TEXTS_HEAD = """-- docs/KINDS.md as texts by number; tools/kinds.py writes this file from that page.
use Prim.Native.String.{String}
use Rattle.std.specs.Prelude.{List, [], ◌∷◌}
"""


def tables(text):
    """The rows of each section of the page, as (number, name) pairs by the section's title."""
    found = {}
    for part in re.split(r"^## ", text, flags=re.M)[1:]:
        rows = re.findall(r"^\| (\d+) \| ([^|]+?) \|", part, flags=re.M)
        found[part.split("\n", 1)[0]] = [(int(n), name) for n, name in rows]
    return found


def numbers(t):
    described = [(n, name.split()[-1].upper()) for n, name in t["Names"] if name.islower()]
    kind_names = {name for _, name in t["Kinds"]}
    parts = [
        ("ids that are no kind of their own spelling", [r for r in t["Ids"] if r[1] not in kind_names]),
        ("kinds; an id that is spelled as a kind has its number", t["Kinds"]),
        ("names that are no ids", described),
    ]
    out = NUMBERS_HEAD + "\n"
    for title, rows in parts:
        out += f"-- {title}\n"
        for n, name in rows:
            out += f"abbrev pub {name} : ℕ\n{name} = {n}\n\n"
    return out.rstrip("\n") + "\n"


def variant(name):
    return "".join(word.capitalize() for word in name.split("_"))


def enum(t):
    titles = {"WHITESPACE": "Each has the number of its id.", "MINUS": "Kinds of ids that have one already.", "ERROR": "Nodes."}
    out = ENUM_HEAD
    for _, name in t["Kinds"]:
        if name in titles:
            out += f"    // {titles[name]}\n"
        out += f"    {variant(name)},\n"
    return out + ENUM_TAIL


def of_kind(t):
    return OF_KIND_HEAD + "".join(f"number K.{variant(name)} = k.{name}\n" for _, name in t["Kinds"])


def texts(t):
    out = TEXTS_HEAD
    for title in ["Kinds", "Names"]:
        name = title.lower()
        out += f"\nabbrev pub {name} : List String\n{name} =\n"
        out += "".join(f'    "{text}" ∷\n' for _, text in t[title]) + "    []\n"
    return out


def main():
    page = PAGE.read_text(encoding="utf-8")
    t = tables(page)
    for file, text in [(SPECS / "Kinds.antt", numbers(t)), (SPECS / "Numbers.antt", of_kind(t)), (SPECS / "Texts.antt", texts(t)), (ENUM, enum(t)), (INPUT, page)]:
        if sys.argv[1:] != ["--check"]:
            file.write_text(text, encoding="utf-8")
        elif file.read_text(encoding="utf-8") != text:
            sys.exit(f"docs/KINDS.md and {file.relative_to(ROOT)} differ")


if __name__ == "__main__":
    main()
