#!/usr/bin/env python3
"""What tools/spelling.py passes over: fields of records and lemmas inside modules, whose words are joined by `_` too; and the repository's
own choice, which is written `when b then x else y`, as the library's operator has the name `if`.
Run after tools/spelling.py, at the top of the repository; it may be run again."""
import glob
import re

INNER = """
awake-also calls-bytes cgram-adr command-run csr-dir csr-form equal-later grey-scale hdot-scr memory-bytes memory-full memory-left no-memory
no-sleep nothing-held number-left opcode-on order-ten put-settling rest-parts rest-run run-strided runs-cons runs-sends
settling-all settling-run stays-csrw stores-inside system-set ten-run write-begun
""".split()
# Lists of edges at an address.
EDGES = {"right_at7_fff": "right_at_7fff", "left_at0000": "left_at_0000", "up_at0010": "up_at_0010"}
INNER_NAME = re.compile(r"(?<![A-Za-z0-9_'\-])(" + "|".join(INNER) + r")(?![A-Za-z0-9_'\-])")
EDGE_NAME = re.compile(r"\b(" + "|".join(EDGES) + r")\b")
IF = re.compile(r"(?<![A-Za-z0-9_'\-])if(?![A-Za-z0-9_'\-])")


def turned(line):
    code, dash, comment = line.partition("-- ")
    code = INNER_NAME.sub(lambda m: m.group(1).replace("-", "_"), code)
    code = EDGE_NAME.sub(lambda m: EDGES[m.group(1)], code)
    return IF.sub("when", code) + dash + comment


def main():
    for path in sorted(glob.glob("crates/*/**/*.antt", recursive=True) + glob.glob("crates/*/must-fail/*.edit")):
        text = open(path, encoding="utf-8").read()
        edit = path.endswith(".edit")
        if "/out/" in path or edit and not re.search("^file: (specs|proofs)/", text, re.M):
            continue
        lines = text.split("\n")
        new = "\n".join(turned(line) if not edit or line.startswith(("old:", "new:")) else line for line in lines)
        if new != text:
            open(path, "w", encoding="utf-8").write(new)


main()
