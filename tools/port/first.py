"""Run once, before Rattle's port.py: makes the generated proof files short enough for its scripts, which read a file many times.

Takes out the chains of `.before`, three quarters of these files: today's records of what is known are flat, so a fact is named by its
step alone. The longest proof, of the cycle of expressions, is taken out whole: it is written anew from short answers."""
import re
from pathlib import Path

ROOT = Path(__file__).resolve().parent.parent.parent

for path in sorted(ROOT.glob("crates/*/proofs/**/Proof.antt")):
    text = path.read_text(encoding="utf-8")
    if len(text) > 2000000:
        path.unlink()
        continue
    flat = re.sub(r"(?: \.before(?![\w-]))+", "", text)
    if flat != text:
        path.write_text(flat, encoding="utf-8")
