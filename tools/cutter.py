#!/usr/bin/env python3
"""cutter.py [--check]: writes the cutter's tables, crates/tokens/src/table.rt, specs/Classes.antt and specs/Table.antt, from the classes and expressions below.

The definition has a byte's class by ranges (specs/Classes) and the expressions (specs/Tokens); the code has tables. Each state has a word that leads to it, and
that the tables follow the definition is proved, so nothing of what is worked out here has to be believed. With --check it writes nothing, and fails where a
file is not as it would be written. Ids are those of docs/KINDS.md."""
import re
import sys
import textwrap
from pathlib import Path

ROOT = Path(__file__).resolve().parent.parent
CRATE = ROOT / "crates" / "tokens"
PAGE = (ROOT / "docs" / "KINDS.md").read_text(encoding="utf-8")

CLASSES = """OTHER INVALID SPACE BLANK LF CR DIGIT ZERO OCTAL DECIMAL HEX BIG_B KILO X O LETTER UNDERSCORE BANG QUOTE HASH DOLLAR PERCENT
AMPERSAND L_PAREN R_PAREN STAR PLUS COMMA MINUS DOT SLASH COLON LESS EQUALS GREATER AT L_BRACKET BACKSLASH R_BRACKET CARET L_BRACE PIPE R_BRACE
TILDE NIBBLE LEAD""".split()
C = {n: i for i, n in enumerate(CLASSES)}
COLUMNS = C["LEAD"]

KEYWORDS = """all and any ascii at base64 base64wide condition contains defined endswith entrypoint false filesize for fullword global icontains
iendswith iequals import in include istartswith matches meta nocase none not of or private rule startswith strings them true wide xor with""".split()

IDS = re.search(r"^## Ids\n(.*?)^## ", PAGE, flags=re.M | re.S).group(1)
K = {name: int(n) for n, name in re.findall(r"^\| (\d+) \| (\w+) \|", IDS, flags=re.M)}

ch = ord
WHITE = [(0x09, 0x09, "SPACE"), (0x0A, 0x0A, "LF"), (0x0B, 0x0C, "BLANK"), (0x0D, 0x0D, "CR"), (0x20, 0x20, "SPACE")]
LEADS = [(0x80, 0xC1, "INVALID"), (0xC2, 0xF4, "LEAD"), (0xF5, 0xFF, "INVALID")]
one = lambda c, n: (ch(c), ch(c), n)
NORMAL = WHITE + [
    one("!", "BANG"), one('"', "QUOTE"), one("#", "HASH"), one("$", "DOLLAR"), one("%", "PERCENT"), one("&", "AMPERSAND"),
    one("(", "L_PAREN"), one(")", "R_PAREN"), one("*", "STAR"), one("+", "PLUS"), one(",", "COMMA"), one("-", "MINUS"), one(".", "DOT"),
    one("/", "SLASH"), one("0", "ZERO"), (ch("1"), ch("7"), "OCTAL"), (ch("8"), ch("9"), "DECIMAL"), one(":", "COLON"), one("<", "LESS"),
    one("=", "EQUALS"), one(">", "GREATER"), one("@", "AT"), one("A", "HEX"), one("B", "BIG_B"), (ch("C"), ch("F"), "HEX"),
    (ch("G"), ch("J"), "LETTER"), one("K", "KILO"), one("L", "LETTER"), one("M", "KILO"), (ch("N"), ch("Z"), "LETTER"), one("[", "L_BRACKET"),
    one("\\", "BACKSLASH"), one("]", "R_BRACKET"), one("^", "CARET"), one("_", "UNDERSCORE"), (ch("a"), ch("f"), "HEX"),
    (ch("g"), ch("n"), "LETTER"), one("o", "O"), (ch("p"), ch("w"), "LETTER"), one("x", "X"), (ch("y"), ch("z"), "LETTER"), one("{", "L_BRACE"),
    one("|", "PIPE"), one("}", "R_BRACE"), one("~", "TILDE")] + LEADS
HEXMODE = WHITE + [
    one("(", "L_PAREN"), one(")", "R_PAREN"), one("*", "STAR"), one("/", "SLASH"), (ch("0"), ch("9"), "NIBBLE"), one("?", "NIBBLE"),
    (ch("A"), ch("F"), "NIBBLE"), one("[", "L_BRACKET"), one("]", "R_BRACKET"), (ch("a"), ch("f"), "NIBBLE"), one("|", "PIPE"),
    one("~", "TILDE")] + LEADS
JUMPMODE = WHITE + [
    one("-", "MINUS"), one("0", "ZERO"), (ch("1"), ch("7"), "OCTAL"), (ch("8"), ch("9"), "DECIMAL"), (ch("A"), ch("F"), "HEX"),
    (ch("a"), ch("f"), "HEX"), one("o", "O"), one("x", "X")] + LEADS
MODES = [("normal", NORMAL), ("hex", HEXMODE), ("jump", JUMPMODE)]

ZEROS = [0x660, 0x6f0, 0x7c0, 0x966, 0x9e6, 0xa66, 0xae6, 0xb66, 0xbe6, 0xc66,
    0xce6, 0xd66, 0xde6, 0xe50, 0xed0, 0xf20, 0x1040, 0x1090, 0x17e0, 0x1810,
    0x1946, 0x19d0, 0x1a80, 0x1a90, 0x1b50, 0x1bb0, 0x1c40, 0x1c50, 0xa620,
    0xa8d0, 0xa900, 0xa9d0, 0xa9f0, 0xaa50, 0xabf0, 0xff10, 0x104a0, 0x10d30,
    0x11066, 0x110f0, 0x11136, 0x111d0, 0x112f0, 0x11450, 0x114d0, 0x11650,
    0x116c0, 0x11730, 0x118e0, 0x11950, 0x11c50, 0x11d50, 0x11da0, 0x16a60,
    0x16ac0, 0x16b50, 0x1d7ce, 0x1d7d8, 0x1d7e2, 0x1d7ec, 0x1d7f6, 0x1e140,
    0x1e2f0, 0x1e950, 0x1fbf0]
WIDE = [(0x85, 0x85, "BLANK"), (0xA0, 0xA0, "SPACE"), (0x1680, 0x1680, "BLANK"), (0x2000, 0x200A, "SPACE"), (0x2028, 0x2029, "BLANK"),
    (0x202F, 0x202F, "SPACE"), (0x205F, 0x205F, "SPACE"), (0x3000, 0x3000, "BLANK")] + [(z, z + 9, "DIGIT") for z in ZEROS]


def class_in(rows, x):
    for lo, hi, c in rows:
        if lo <= x <= hi:
            return C[c]
    return C["OTHER"]


# Expressions: as specs/Expr.antt has them.
EPS = ("eps",)
NONE = ("set", ())
def one_of(*names): return ("set", tuple(C[n] for n in names))
def but(*names): return ("but", tuple(C[n] for n in names))
def seq(*rs):
    rs = list(rs)
    return rs[0] if len(rs) == 1 else ("seq", rs[0], seq(*rs[1:]))
def alt(*rs):
    rs = list(rs)
    return rs[0] if len(rs) == 1 else ("alt", rs[0], alt(*rs[1:]))
def star(r): return ("star", r)
def plus(r): return seq(r, star(r))
def opt(r): return alt(EPS, r)

def nullable(r):
    t = r[0]
    if t == "eps" or t == "star": return True
    if t in ("set", "but"): return False
    if t == "seq": return nullable(r[1]) and nullable(r[2])
    return nullable(r[1]) or nullable(r[2])
def then(r, s):
    if r == EPS: return s
    if r == NONE: return NONE
    return ("seq", r, s)
def either(r, s):
    if r == NONE: return s
    if s == NONE: return r
    return ("alt", r, s)
def derive(c, r):
    t = r[0]
    if t == "eps": return NONE
    if t == "set": return EPS if c in r[1] else NONE
    if t == "but": return NONE if c in r[1] else EPS
    if t == "seq":
        return either(then(derive(c, r[1]), r[2]), derive(c, r[2]) if nullable(r[1]) else NONE)
    if t == "alt": return either(derive(c, r[1]), derive(c, r[2]))
    return then(derive(c, r[1]), r)

DIGITS = ("ZERO", "OCTAL", "DECIMAL")
HEXES = DIGITS + ("HEX", "BIG_B")
ALPHA = ("HEX", "BIG_B", "KILO", "X", "O", "LETTER")
WORD = ALPHA + DIGITS + ("DIGIT", "UNDERSCORE")
name = star(one_of(*WORD))
line_comment = seq(one_of("SLASH"), one_of("SLASH"), star(but("LF")))
def block_comment(*no):
    return seq(one_of("SLASH"), one_of("STAR"), star(but("STAR", *no)), plus(one_of("STAR")),
        star(seq(but("SLASH", "STAR", *no), seq(star(but("STAR", *no)), plus(one_of("STAR"))))), one_of("SLASH"))
def sign(*names): return seq(*[one_of(n) for n in names])
whitespace = [("WHITESPACE", plus(one_of("SPACE"))), ("NEWLINE", sign("LF")), ("NEWLINE", seq(one_of("CR"), opt(one_of("LF"))))]
decimal = seq(one_of(*DIGITS), star(one_of(*DIGITS, "UNDERSCORE")))
escape = seq(one_of("BACKSLASH"), but("LF"))
TOKENS = {
    "normal": [("SHL", sign("LESS", "LESS")), ("SHR", sign("GREATER", "GREATER")), ("EQ", sign("EQUALS", "EQUALS")), ("NE", sign("BANG", "EQUALS")),
        ("LE", sign("LESS", "EQUALS")), ("GE", sign("GREATER", "EQUALS")), ("LT", sign("LESS")), ("GT", sign("GREATER")),
        ("AMPERSAND", sign("AMPERSAND")), ("ASTERISK", sign("STAR")), ("BACKSLASH", sign("BACKSLASH")), ("COLON", sign("COLON")),
        ("COMMA", sign("COMMA")), ("DOT", sign("DOT")), ("EQUAL", sign("EQUALS")), ("PLUS", sign("PLUS")), ("HYPHEN", sign("MINUS")),
        ("PERCENT", sign("PERCENT")), ("PIPE", sign("PIPE")), ("CARET", sign("CARET")), ("TILDE", sign("TILDE")), ("L_BRACE", sign("L_BRACE")),
        ("R_BRACE", sign("R_BRACE")), ("L_PAREN", sign("L_PAREN")), ("R_PAREN", sign("R_PAREN")), ("L_BRACKET", sign("L_BRACKET")),
        ("R_BRACKET", sign("R_BRACKET")),
        ("PATTERN_IDENT", seq(one_of("DOLLAR"), name)), ("PATTERN_COUNT", seq(one_of("HASH"), name)), ("PATTERN_OFFSET", seq(one_of("AT"), name)),
        ("PATTERN_LENGTH", seq(one_of("BANG"), name)), ("IDENT", seq(one_of(*ALPHA, "UNDERSCORE"), name)),
        ("FLOAT_LIT", seq(decimal, seq(one_of("DOT"), plus(one_of(*DIGITS, "UNDERSCORE"))))),
        ("INTEGER_LIT", alt(seq(one_of("ZERO"), one_of("X"), one_of(*HEXES), star(one_of(*HEXES, "UNDERSCORE"))),
            seq(one_of("ZERO"), one_of("O"), one_of("ZERO", "OCTAL"), star(one_of("ZERO", "OCTAL", "UNDERSCORE"))),
            seq(decimal, opt(sign("KILO", "BIG_B"))))),
        ("STRING_LIT", seq(one_of("QUOTE"), star(alt(escape, but("QUOTE", "LF", "BACKSLASH"))), one_of("QUOTE"))),
        ("STRING_LIT", seq(one_of("QUOTE"), one_of("QUOTE"), one_of("QUOTE"), star(alt(escape, but("QUOTE", "BACKSLASH"))),
            one_of("QUOTE"), one_of("QUOTE"), one_of("QUOTE"))),
        ("REGEXP", seq(one_of("SLASH"), alt(escape, but("STAR", "SLASH", "BACKSLASH", "LF")), star(alt(escape, but("BACKSLASH", "SLASH", "LF"))),
            one_of("SLASH"), opt(seq(one_of(*ALPHA), opt(one_of(*ALPHA)))))),
        ("COMMENT", block_comment()), ("COMMENT", line_comment)] + whitespace,
    "hex": [("HEX_BYTE", seq(opt(one_of("TILDE")), one_of("NIBBLE"), one_of("NIBBLE"))), ("PIPE", sign("PIPE")), ("L_PAREN", sign("L_PAREN")),
        ("R_PAREN", sign("R_PAREN")), ("L_BRACKET", sign("L_BRACKET")), ("R_BRACKET", sign("R_BRACKET"))] + whitespace
        + [("COMMENT", block_comment("INVALID")), ("COMMENT", line_comment)],
    "jump": [("HYPHEN", sign("MINUS")), ("INTEGER_LIT", alt(seq(one_of("ZERO"), one_of("X"), plus(one_of("ZERO", "OCTAL", "DECIMAL", "HEX"))),
            seq(one_of("ZERO"), one_of("O"), plus(one_of("ZERO", "OCTAL"))), plus(one_of(*DIGITS))))] + whitespace,
    "unknown": [("UNKNOWN", plus(but("INVALID", "SPACE", "BLANK", "LF", "CR")))],
}
STARTS = ["normal", "hex", "jump", "unknown"]

def derive_all(c, ts):
    out = []
    for k, r in ts:
        d = derive(c, r)
        if d != NONE:
            out.append((k, d))
    return tuple(out)
def accepts(ts):
    for k, r in ts:
        if nullable(r):
            return K[k]
    return 255

labels = [()]          # state 0: nothing matches any more
words = [None]
index = {(): 0}
for n in STARTS:
    index[tuple(TOKENS[n])] = len(labels)
    labels.append(tuple(TOKENS[n]))
    words.append((n, ()))
i = 1
nxt = {}
while i < len(labels):
    for c in range(COLUMNS):
        d = derive_all(c, labels[i])
        if d not in index:
            index[d] = len(labels)
            labels.append(d)
            words.append((words[i][0], words[i][1] + (c,)))
            assert len(labels) < 250, "too many states"
        nxt[i, c] = index[d]
    i += 1
for c in range(COLUMNS):
    nxt[0, c] = 0
S = len(labels)
ACCEPT = [accepts(l) for l in labels]


def reached(start, text):
    """The state behind a text of the start's mode."""
    state = 1 + STARTS.index(start)
    for c in text:
        state = nxt[state, class_in(dict(MODES)[start], ord(c))]
    return state


# A failed match that stands behind the first text covers a fresh one behind the second: whatever row the second may end, the first ends no later.
COVERING = [("normal", "/a\\", "/\\"), ("normal", "/**", "/*"), ("normal", "/**a", "/*"), ("normal", "/**a*", "/*"), ("normal", "/**a*", "/**"),
    ("hex", "/**", "/*"), ("hex", "/**a", "/*"), ("hex", "/**a*", "/*"), ("hex", "/**a*", "/**")]
PAIRS = [reached(mode, a) * S + reached(mode, b) for mode, a, b in COVERING]


def folded(items, tail, indent="    ", width=140):
    """items joined by tail, folded into lines"""
    lines, line = [], indent
    for x in items:
        piece = x + tail
        if len(line) + len(piece) > width:
            lines.append(line.rstrip())
            line = indent
        line += piece
    lines.append(line.rstrip())
    return "\n".join(lines)

def shown(b):
    return chr(b) if 0x21 <= b <= 0x7E else "%02X" % b

def ranges(rows, digits):
    out = []
    for lo, hi, c in rows:
        text = "    %s ∷ %s ∷ %s ∷" % (("0x%%0%dX" % digits) % lo, ("0x%%0%dX" % digits) % hi, c)
        if digits == 2 and lo < 0x80:
            text += "  -- " + (shown(lo) if lo == hi else shown(lo) + " to " + shown(hi))
        out.append(text)
    return "\n".join(out) + "\n    []"

CLASSES_HEAD = """-- The classes of characters, and of the bytes in each mode: ranges, of which the first that fits counts. Written by tools/cutter.py.
use Rattle.std.specs.Prelude.{ℕ, zero, suc, List, [], ◌∷◌, cond, ◌&&◌, leb}

"""
NOTES = {"OTHER": "a character that no expression names", "INVALID": "a byte that begins no character", "SPACE": "white space as the crate's expression lists it",
    "BLANK": "other white space", "DIGIT": "a decimal digit of another script", "OCTAL": "1 to 7", "DECIMAL": "8 and 9", "HEX": "a letter that is a hex digit, B left out (in jump mode B too)",
    "BIG_B": "B, which ends KB and MB", "KILO": "K and M", "X": "x", "O": "o", "LETTER": "the other letters", "NIBBLE": "in hex mode: a hex digit or ?",
    "LEAD": "in the tables of bytes only: begins a character of several bytes"}

def classes_antt():
    out = CLASSES_HEAD
    for n in CLASSES:
        if n in NOTES:
            out += "-- " + NOTES[n] + "\n"
        out += "abbrev pub %s : ℕ\n%s = %d\n\n" % (n, n, C[n])
    out += """-- least, greatest and class of each range, one after the other
abbrev pub class_in : List ℕ → ℕ → ℕ
class_in [] x = OTHER
class_in (lo ∷ []) x = OTHER
class_in (lo ∷ hi ∷ []) x = OTHER
class_in (lo ∷ hi ∷ c ∷ rows) x = cond (leb lo x && leb x hi) c (class_in rows x)

"""
    for n, rows in MODES:
        out += "unfoldable pub %s : List ℕ\n%s =\n%s\n\n" % (n, n, ranges(rows, 2))
    out += """-- the three modes: 0 normal, 1 hex pattern, 2 hex jump
abbrev pub bytes_of : ℕ → List ℕ
bytes_of zero = normal
bytes_of (suc zero) = hex
bytes_of (suc (suc m)) = jump

-- the class of a byte
unfoldable pub class : ℕ → ℕ → ℕ
class m b = class_in (bytes_of m) b

-- characters past ASCII, in every mode: white space, and the decimal digits (Unicode's Nd) in runs of ten
unfoldable pub wides : List ℕ
wides =
%s

unfoldable pub wide_class : ℕ → ℕ
wide_class x = class_in wides x
""" % ranges(WIDE, 4)
    return out

def numbers(name, ty, xs):
    """As the formatter lays an array out: a row to a line."""
    line = "static %s: [%s; %d] = [%s];\n" % (name, ty, len(xs), ", ".join(map(str, xs)))
    if len(line) < 100:
        return line
    lines = textwrap.fill(", ".join(map(str, xs)) + ",", 99, initial_indent="    ", subsequent_indent="    ")
    if "(" in str(xs[0]):
        lines = "\n".join("    %s," % x for x in xs)
    return "static %s: [%s; %d] = [\n%s\n];\n" % (name, ty, len(xs), lines)

CLASS_TABLE = [class_in(rows, b) for _, rows in MODES for b in range(256)]
NEXT = [nxt[s, c] for s in range(S) for c in range(COLUMNS)]
WIDES = ["(%d, %d, %d)" % (lo, hi, C[c]) for lo, hi, c in WIDE]
STRIDE = 12
SLOTS = [0] * 128
for j, w in enumerate(KEYWORDS):
    at = (ord(w[0]) + ord(w[-1]) * 38 + len(w) * 29) % 128
    assert SLOTS[at] == 0, "two keywords in one slot"
    SLOTS[at] = j
KEYS = [x for w in KEYWORDS for x in ([len(w)] + [ord(c) for c in w] + [0] * (STRIDE - 1 - len(w)))] + SLOTS

def printed(name, xs, per):
    """A table of bytes as a byte string, so many to a line."""
    lines = []
    for i in range(0, len(xs), per):
        lines.append("".join(chr(x) if 0x61 <= x <= 0x7A else "\\x%02X" % x for x in xs[i:i + per]))
    return 'static %s: [u8; %d] = *b"\\\n%s";\n' % (name, len(xs), "\\\n".join(lines))

def table_rt():
    out = "// The cutter's tables. Written by tools/cutter.py; that they follow the definition is proved. They are statics, so that none is laid out where it is read.\n\n"
    out += "// A byte's class: 256 entries for each mode.\npub " + printed("CLASSES", CLASS_TABLE, 32) + "\n"
    out += "// Where a state goes by a class: %d entries for each of %d states. State 0 matches nothing any more.\npub " % (COLUMNS, S) + printed("NEXT", NEXT, COLUMNS // 3) + "\n"
    out += "// The id of a row that may end in a state, or 255.\npub " + printed("FINALS", ACCEPT, 22) + "\n"
    out += "// Least, greatest and class of ranges of characters past ASCII.\npub " + numbers("WIDES", "(u32, u32, usize)", WIDES) + "\n"
    out += "// The keywords: %d bytes for each, its length and its letters. Behind them 128 slots: which keyword a text can be, by its first and last letter and\n// its length.\npub " % STRIDE + printed("KEYS", KEYS, STRIDE) + "\n"
    out += "// Pairs of states, %d times the first and the second: a failed match in the first state covers a fresh one in the second.\npub " % S + numbers("PAIRS", "u32", PAIRS)
    return out

def listed(name, xs):
    return "unfoldable pub %s : List ℕ\n%s =\n%s []\n" % (name, name, folded([str(x) for x in xs], " ∷ "))

def words_antt():
    out = """-- The code's tables as lists, and a word that leads to each state. Written by tools/cutter.py; nothing of it has to be believed.
use Rattle.std.specs.Prelude.{ℕ, List, [], ◌∷◌}

"""
    out += listed("class_table", CLASS_TABLE) + "\n" + listed("next_table", NEXT) + "\n" + listed("end_table", ACCEPT) + "\n" + listed("key_table", KEYS) + "\n"
    out += "-- pairs of states: %d times the first, and the second\n" % S + listed("pairs", PAIRS) + "\n"
    out += "-- of each state: the start (0 normal, 1 hex, 2 jump, 3 unknown) and the classes from there\nunfoldable pub words : List (List ℕ)\nwords =\n    [] ∷\n"
    for w in words[1:]:
        out += "    (%s) ∷\n" % " ∷ ".join([str(STARTS.index(w[0]))] + [str(c) for c in w[1]] + ["[]"])
    out += "    []\n"
    return out



def main():
    wrong = []
    for path, text in (("specs/Classes.antt", classes_antt()), ("src/table.rt", table_rt()), ("specs/Table.antt", words_antt())):
        if "--check" in sys.argv:
            if (CRATE / path).read_text(encoding="utf-8") != text:
                wrong.append(path)
        else:
            (CRATE / path).write_text(text, encoding="utf-8")
    if wrong:
        raise SystemExit("not as tools/cutter.py writes them: " + ", ".join(wrong))
    print(f"cutter: {S} states, {COLUMNS} classes")


main()
