#!/usr/bin/env python3
"""Writes the name text of crate messages, as specs/Texts.antt has its parts and as src/text.rt lays it out, from the descriptions of docs/KINDS.md.

Nothing of it is believed: a check computes that the two are the same. With --check it writes nothing, and fails at the first that does not agree."""
import re
import sys
import textwrap
from pathlib import Path

ROOT = Path(__file__).resolve().parent.parent
PAGE = ROOT / "docs" / "KINDS.md"
CRATE = ROOT / "crates" / "messages"
# The crate's wording around the names (`handle_errors`, `top_level_item`): joints, what opens, and the sentences of forms 4 to 10 in their order.
JOINTS = [", ", " or ", ", found `", "`", ", found end of file", "expecting ", "unexpected `", "unexpected end of file", "unclosed comment",
          "unclosed literal string", "unclosed regular expression", "invalid UTF-8 character",
          "expecting import statement or rule definition"]
TEXTS_HEAD = """-- The name text's parts by number: what a name is called, then joints and sentences; tools/texts.py writes this file from docs/KINDS.md.
use Prim.Native.String.{String}
use Rattle.std.specs.Prelude.{List, [], ◌∷◌}

-- a token id that has one spelling is described by it in backquotes; then "expression", "operator" and "pattern modifier"
"""
TEXT_HEAD = """// The name text; tools/texts.py writes this file from docs/KINDS.md.
ghost use Rattle.std.specs.Prelude.{◌≡◌, get_or};
ghost use Rattle.kinds.specs.Answers.{starts};
ghost use Rattle.messages.specs.Pieces.{texts};

"""


def descriptions():
    part = PAGE.read_text(encoding="utf-8").split("## Descriptions\n")[1]
    rows = re.findall(r"^\| (\d+) \| [^|]+? \| (.+) \|$", part, flags=re.M)
    if [int(n) for n, _ in rows] != list(range(len(rows))):
        sys.exit("docs/KINDS.md: descriptions out of order")
    return [text for _, text in rows]


def quoted(text):
    return text.replace("\\", "\\\\")


def listed(name, texts):
    return f"abbrev pub {name} : List String\n{name} =\n" + "".join(f'    "{quoted(t)}" ∷\n' for t in texts) + "    []\n"


def lines(texts):
    """The texts in lines of about 100 characters, broken between two; no line begins with a blank, which a continued line would drop."""
    out = [""]
    for t in texts:
        if len(out[-1]) + len(t) > 100 and not t.startswith(" "):
            out.append("")
        out[-1] += t
    return out


def laid_out(texts):
    begins = [0]
    for t in texts:
        begins.append(begins[-1] + len(t))
    body = "\\\n      ".join(quoted(line) for line in lines(texts))
    numbers = textwrap.fill(", ".join(map(str, begins)) + ",", 99, initial_indent="    ", subsequent_indent="    ")
    return (
        TEXT_HEAD + f"// Descriptions, joints and sentences, one after the other.\npub const TEXT: [u8; {begins[-1]}] =\n    *b\"{body}\";\n\n"
        f"// Where each begins; the last number is where the last ends.\nconst BEGINS: [usize; {len(begins)}] = [\n{numbers}\n];\n\n"
        "// Past the last there is 0.\npub fn begins(n: usize) -> usize\n    ensures { result ≡ get_or (starts 0 texts) n 0 }\n{\n"
        "    BEGINS.get(n).copied().unwrap_or(0)\n}\n")


def main():
    names = descriptions()
    specs = TEXTS_HEAD + listed("names", names) + "\n" + listed("joints", JOINTS)
    for file, text in [(CRATE / "specs" / "Texts.antt", specs), (CRATE / "src" / "text.rt", laid_out(names + JOINTS))]:
        if sys.argv[1:] != ["--check"]:
            file.write_text(text, encoding="utf-8")
        elif file.read_text(encoding="utf-8") != text:
            sys.exit(f"docs/KINDS.md and {file.relative_to(ROOT)} differ")


if __name__ == "__main__":
    main()
