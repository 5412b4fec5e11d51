#!/usr/bin/env python3
"""lines.py [--check]: writes the comment above each function that reads a part of the grammar, from the definition's own grammar
(crates/definition/specs/Grammar.antt) and the parts that the contracts name (specs/Parts.antt).

A production has its line: the part behind `if` is read only where such a row is next, `!` is a row that must not be there, and `recover` skips to such a
row after a failure. A function whose contract names no such part has a comment of its own."""
import re
import sys
import textwrap
from pathlib import Path

ROOT = Path(__file__).resolve().parent.parent
PARTS = tuple(f"crates/{crate}/specs/Parts.antt" for crate in ("parts", "expr", "patterns", "labels", "grammar"))
MODULES = ("parts/src/tuples", "expr/src/lib", "patterns/src/hex", "patterns/src/patterns", "labels/src/lib", "statements/src/lib", "grammar/src/rules")
FILES = tuple(f"crates/{module}.rt" for module in MODULES)


def text_of(path):
    return (ROOT / path).read_text(encoding="utf-8")


# Reading the definition's terms: cons binds least, then `/`, then `⨟`, all to the right, and a word before its arguments most.

def words(text):
    return re.findall(r"\(|\)|\[\]|[^\s()]+", text)


def term(ws, level=0):
    infix = ("∷", "⫽", "⨟")
    if level == len(infix):
        return application(ws)
    left = term(ws, level + 1)
    if ws and ws[0] == infix[level]:
        ws.pop(0)
        return (infix[level], [left, term(ws, level)])
    return left


def application(ws):
    parts = []
    while ws and ws[0] not in (")", "∷", "⫽", "⨟"):
        word = ws.pop(0)
        if word == "(":
            parts.append(term(ws))
            ws.pop(0)
        else:
            parts.append((word, []))
    (head, args), rest = parts[0], parts[1:]
    return (head, args + rest)


def defined():
    """The definition's abbreviations and those of the parts, as parameters and body, and its productions, entrypoint being a term."""
    short, lines = {}, {}
    for path in ("crates/definition/specs/Grammar.antt", *PARTS):
        for head, body in re.findall(r"^([a-z][^\n=]*?) =((?:[^\n]*\n)(?: [^\n]*\n)*)", text_of(path), flags=re.M):
            name, *rest = head.split()
            if name == "grammar":
                lines[rest[1]] = term(words(body))
            elif name == "plain_terms":
                if rest == ["true"]:
                    short[name] = (["E"], term(words(body)))
            elif name not in ("kind", "item_of", "listed", "optionally", "reach"):
                short[name] = (rest, term(words(body)))
    return short, lines


def opened(t, short, known=None):
    """The term with its abbreviations opened: as a part of a line, a list, or a kind's or production's name."""
    head, args = t
    if known and head in known and not args:
        return known[head]
    args = [opened(a, short, known) for a in args]
    if head in short:
        names, body = short[head]
        return opened(body, short, dict(zip(names, args)))
    if head == "[]":
        return ()
    if head == "∷":
        return (args[0],) + args[1]
    if head == "map":
        return args[1]
    if head == "id_of" and args:
        return args[0]
    if not args:
        return head.removeprefix("k.")
    made = {"eat": "Eat", "unless": "Unless", "ifnext": "When", "opt": "Opt", "many": "Many", "then": "Then", "last": "Last", "⨟": "Seq", "⫽": "Alt", "recover": "Recover", "node": "Node", "memo": "Memo"}
    return (made[head], *args)


# A line as a person reads it.

def spelled(kinds):
    return kinds[0] if len(kinds) == 1 else "(" + " | ".join(kinds) + ")"


def said(part, inner=False):
    op, rest = part[0], part[1:]
    if op in ("Node", "Memo"):
        return rest[0]
    if op == "Eat":
        return spelled(rest[0])
    if op == "Unless":
        return "!" + spelled(rest[0])
    if op == "Recover":
        return "recover " + spelled(rest[0])
    if op == "When":
        return f"if {spelled(rest[0])} {said(rest[1], True)}"
    if op in ("Then", "Last"):
        return said(rest[0], inner)
    if op in ("Opt", "Many"):
        return said(rest[0], True) + ("?" if op == "Opt" else "*")
    text = said(rest[0], op == "Seq" and rest[0][0] != "Seq" or rest[0][0] == "Alt") + (" / " if op == "Alt" else " ") + said(rest[1], op == "Seq" and rest[1][0] != "Seq")
    return f"({text})" if inner else text


# The comment of a function, by the part that its contract names.

def comment(reads, short, lines):
    node = re.fullmatch(r"\(?(?:then \()?node G\.([A-Z_]+)\)*", reads)
    if node:
        return node.group(1) + " <- " + said(opened(lines[node.group(1)], short))
    memo = re.fullmatch(r"\(then \(memo G\.([A-Z_]+)\)\)", reads)
    if memo:
        return memo.group(1) + ", which is not read again where it failed before."
    whole = re.fullmatch(r"\(grammar x\.now\.entrypoint G\.([A-Z_]+)\)", reads)
    if whole:
        return "The alternatives of " + whole.group(1) + "."
    return said(opened((reads, []), short)) if reads in short else None


def written(text, short, lines):
    def one(m):
        reads = re.search(r"Reads d \w+ (\(.*?\)|\S+)\s+x\.now", m.group(2))
        line = reads and comment(reads.group(1), short, lines)
        if not line:
            return m.group(0)
        return "\n".join("// " + part for part in textwrap.wrap(line, 150)) + "\n" + m.group(2)

    return re.sub(r"((?:^// [^\n]*\n)+)((?:^#\[[^\n]*\]\n)*^(?:pub )?fn \w+\(.*?^\{$)", one, text, flags=re.M | re.S)


def main():
    short, lines = defined()
    wrong = []
    for path in FILES:
        text = text_of(path)
        new = written(text, short, lines)
        if new != text:
            wrong.append(path)
            if sys.argv[1:] != ["--check"]:
                (ROOT / path).write_text(new, encoding="utf-8")
    if wrong and sys.argv[1:] == ["--check"]:
        raise SystemExit("comments that are not the definition's lines: " + ", ".join(wrong))
    print("lines: the comments of productions are the definition's")


main()
