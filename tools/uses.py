#!/usr/bin/env python3
"""uses.py [--check] [CRATE..]: the names in `use` lines of .antt and .rt files that the rest of the file never mentions; all crates where none is named.
uses.py --fix CRATE..: takes them out. Then `rt check` in the crate's folder says whether one was needed after all.

--check ends with 1 where there is one. A mixfix name (`◌≡◌`) is mentioned where each of its parts stands; an alias (`as o`) where it stands before a dot.
Lines that pass a name on (`pub use`) are left alone.
"""
import re
import sys
from pathlib import Path

ROOT = Path(__file__).resolve().parent.parent
LIST = re.compile(r"^(\s*(?:ghost )?use [^{}]*\.)\{([^{}]*)\}(;?)$")
ALIAS = re.compile(r"^\s*(?:ghost )?use \S+ as (\S+?);?$")
PATH = re.compile(r"^use (?:\w+::)+(\w+);$")
COMMENT = {".antt": re.compile(r"(^|\s)--(?=\s|$).*"), ".rt": re.compile(r"(^|\s)//.*")}
BREAKS = re.compile(r"[\s(){}\[\],;.:&!*<>λ←]+")
# Traits of std whose methods are called and whose names stand nowhere else.
TRAITS = {"Env", "FileExt"}
USE = re.compile(r"^\s*(?:(?:ghost|pub|unfoldable) )*use ")


def mentioned(name, text, words):
    """Whether the text, cut into these words, mentions the name."""
    if name in words:
        return True
    parts = [p for p in name.split("◌") if p]
    return all(p in words or (not p.isidentifier() and re.search(r"\W", p) and p in text) for p in parts)


def called(entry):
    """The name that an entry of a list brings in."""
    return entry.split(" as ")[-1].strip()


def cleaned(path):
    """The lines of a file without the names that are not mentioned, and these names."""
    lines = path.read_text().split("\n")
    bare = [COMMENT[path.suffix].sub("", line) for line in lines]
    text = "\n".join(line for line in bare if not USE.match(line))
    words = set(BREAKS.split(text))
    kept, unused = [], []
    for number, line in enumerate(lines):
        several, alias, one = LIST.match(line), ALIAS.match(line), PATH.match(line)
        if several:
            entries = [e.strip() for e in several[2].split(",") if e.strip()]
            out = [e for e in entries if not mentioned(called(e), text, words)]
            unused += out
            left = [e for e in entries if e not in out]
            if left:
                kept.append(line if not out else f"{several[1]}{{{', '.join(left)}}}{several[3]}")
        elif alias:
            others = "\n".join(bare[:number] + bare[number + 1:])
            used = re.search(rf"(?<![\w'-]){re.escape(alias[1])}(?:\.|::|\b)", others)
            unused += [] if used else [alias[1]]
            kept += [line] if used else []
        elif one and one[1] not in words and one[1] not in TRAITS:
            unused.append(one[1])
        else:
            kept.append(line)
    return kept, unused


def main():
    words = sys.argv[1:]
    check, fix = "--check" in words, "--fix" in words
    crates = [w for w in words if not w.startswith("--")]
    if fix and not crates:
        sys.exit("uses.py --fix CRATE..")
    folders = [ROOT / "crates" / c for c in crates] or sorted((ROOT / "crates").iterdir())
    count = 0
    for path in sorted(p for f in folders for p in f.rglob("*") if p.suffix in COMMENT and p.is_file() and "out" not in p.relative_to(f).parts):
        kept, unused = cleaned(path)
        if not unused:
            continue
        count += len(unused)
        print(f"{path.relative_to(ROOT)}: {', '.join(unused)}")
        if fix:
            path.write_text("\n".join(kept))
    print(f"{count} names that are not mentioned{', taken out' if fix else ''}")
    sys.exit(1 if check and count else 0)


if __name__ == "__main__":
    main()
