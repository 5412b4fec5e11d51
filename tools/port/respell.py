"""Run once, behind Rattle's port.py: gives the repository's own definitions and lemmas today's spelling.

Words are in snake case, types and modules in camel case. Where two names would fall together in a file, the lemma's ends in `_lem`, and that is told.
respell.py --list prints the table and writes nothing. Functions of src/, exported names, strings, inputs and outputs keep their names."""
import re
import sys
from pathlib import Path

ROOT = Path(__file__).resolve().parent.parent.parent
TOKEN = re.compile(r"[^\s(){}.;,@\"«»\[\]\\]+")
DEFINED = re.compile(r"^( *)(?:(?:abbrev|unfoldable) )?(?:pub )?(data |record )?(?:pub )?([^\s(){}.;,@\"«»\[\]\\]+)((?: (?:\([^()]*\)|\{[^{}]*\}))*) : (.*)$", re.M)
# Names of two definitions that stand in one file.
ALSO = {"outcome-of": "mode_outcome", "noWants": "without_wants", "names-of": "choice_names", "Returns-but": "ReturnsBut"}
OWN = {path.name for path in (ROOT / "crates").iterdir()}
WORDS = {"goal", "use", "pub", "let", "in", "module", "where", "elim", "unfolding", "abbrev", "data", "record"}


def antt(walks):
    for path in sorted(ROOT.glob("crates/*/*/**/*.antt")):
        if walks or path.name != "Proof.antt":
            yield path


def snake(name):
    name = name.replace("′", "'")
    if re.fullmatch(r"[A-Z0-9-]+", name):
        return name.replace("-", "_")
    return re.sub(r"(?<=[a-z0-9])([A-Z])(?=[a-z]|$|-|_)", lambda m: "_" + m[1].lower(), name).replace("-", "_")


def camel(name):
    parts = re.split(r"[-_]", name)
    return "".join(p[:1].upper() + p[1:] for p in parts)


def is_type(kind, result):
    return bool(kind) or re.search(r"(^|→ )Type \d+( where)?$", result.strip()) is not None


def table():
    """The new name of each definition that is spelled the old way."""
    found, together, special = {}, [], {}
    for path in antt(False):
        text = path.read_text(encoding="utf-8")
        lines = text.split("\n")
        for m in DEFINED.finditer(text):
            _, kind, name, _, result = m.groups()
            if name in WORDS or name.startswith("--"):
                continue
            # A signature may go on for some lines, and the last says what it gives.
            row, rest = text.count("\n", 0, m.start()), [result]
            for line in lines[row + 1:]:
                if not re.match(r" +→", line):
                    break
                rest.append(line)
            found.setdefault(name, set()).add(is_type(kind, rest[-1]))
    out = {}
    for name, types in found.items():
        if name[:1].isupper() and not re.fullmatch(r"[A-Z0-9-]+", name):
            new = camel(name) if types == {True} else name
        elif types == {True}:
            new = camel(snake(name))
        else:
            new = snake(name)
        if new != name:
            out[name] = new
    out.update(ALSO)
    # Names that would fall together in a file: the lemma gets `_lem`, as one that would have its function's name.
    for path in list(antt(False)) + sorted(ROOT.glob("crates/*/src/**/*.rt")):
        text = re.sub(r"(?m)(^|(?<=\s))(--|//).*$|\"(?:[^\"\\]|\\.)*\"", "", path.read_text(encoding="utf-8"))
        if path.suffix == ".rt":
            text = "".join(re.findall(r"ghost use [^;]*;|(?:requires|ensures)[^{]*\{.*", text))
        here = set(TOKEN.findall(text))
        by_new = {}
        for name in sorted(here):
            by_new.setdefault(out.get(name, name), []).append(name)
        for new, names in by_new.items():
            if len(names) > 1:
                for name in names:
                    if "-" in name and name in out and name not in ALSO:
                        together.append((name, new, path.relative_to(ROOT)))
                        special.setdefault(path.relative_to(ROOT).parts[1], {})[name] = new + "_lem"
    return out, special, together


def foreign(text):
    """The names that a file brings in from elsewhere: these are not ours."""
    names = set()
    for m in re.finditer(r"use ([^\s;{]+)\.\{([^}]*)\}", text):
        parts = m[1].split(".")
        if len(parts) > 1 and parts[0] == "Rattle" and parts[1] in OWN:
            continue
        for it in m[2].split(","):
            names.add(it.split(" as ")[-1].strip())
    return names


def put(text, names):
    theirs = foreign(text)

    def one(m):
        return m[0] if m[0] in theirs else names.get(m[0], m[0])

    return TOKEN.sub(one, text)


def clauses(text, names):
    """The clauses, ghost imports and ghost members of a source file: the rest is code, comments or strings."""
    names = {a: b for a, b in names.items() if "-" in a or re.search(r"[a-z0-9][A-Z]", a) or "′" in a}
    out = []
    ghost = False
    depth = 0
    for line in text.split("\n"):
        bare = line.split("//")[0]
        if not ghost and re.match(r"\s*(ghost|requires|ensures)\b", bare):
            ghost, depth = True, 0
        if ghost:
            line = put(line, names)
            depth += bare.count("{") - bare.count("}")
            if depth <= 0 and (bare.rstrip().endswith(("}", ";", "},"))):
                ghost = False
        out.append(line)
    return "\n".join(out)


def main():
    names, special, together = table()
    for name, new, path in together:
        print(f"together: {name} and {new} in {path}")
    if sys.argv[1:] == ["--list"]:
        for name, new in sorted(names.items()):
            print(name, new)
        return
    for path in antt(True):
        text = path.read_text(encoding="utf-8")
        new = put(text, names | special.get(path.relative_to(ROOT).parts[1], {}))
        if new != text:
            path.write_text(new, encoding="utf-8")
    for path in sorted(ROOT.glob("crates/*/src/**/*.rt")):
        text = path.read_text(encoding="utf-8")
        new = clauses(text, names | special.get(path.relative_to(ROOT).parts[1], {}))
        if new != text:
            path.write_text(new, encoding="utf-8")


main()
