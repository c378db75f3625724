#!/usr/bin/env python3
"""Spells the repository's own definitions and lemmas as Rattle's standard library does: words in snake case, and a dash only where
it joins two names. Run once, after the kit's port.py, at the top of the repository. Types, modules, fields, what src/ declares,
strings, inputs and outputs keep their names. Prints each renaming; stops before any change where two names would fall together."""
import glob
import re
import sys

DEFINES = re.compile(r"^(?:(?:abbrev|unfoldable|pub)\s+)*([^\s:(){}]+)(?:\s+[({].*)?\s:(?:\s|$)")
WORD = r"[A-Za-z0-9_']"
# A law about an append or a length joins the names of two functions.
JOINED = ("-append", "-length")
# The library's word for getD; and where a definition and the lemma about it would be one name, the library's ending for the lemma.
CHOSEN = {
    "getD-from": "get_or-from",
    "getD-table": "get_or-table",
    "all-below": "all_below_lem",
    "byte-at": "byte_at_lem",
    "decimal-digits": "decimal_digits_lem",
    "font-index": "font_index_lem",
    "half-dot": "half_dot_lem",
    "row-refusal": "row_refusal_lem",
    "send-saved": "send_saved_lem",
    "written_out": "written_out_lem",
}

# What definitions and lemmas bind.
BOUND = ("bufferLength", "cgRamAddressOf", "fontIndexOf", "fontLength", "layerDot", "memoryLength", "sentData", "twoDot")


def files(*patterns):
    return sorted({f for p in patterns for f in glob.glob(p, recursive=True)})


def defined(paths):
    names = set()
    for path in paths:
        for line in open(path, encoding="utf-8"):
            found = DEFINES.match(line)
            if found and found.group(1) not in ("use", "mod", "record", "data", "infix", "infixr"):
                names.add(found.group(1))
    return names


def snake(name):
    return re.sub(r"(?<=[a-z0-9])([A-Z]+)", lambda m: "_" + m.group(1).lower(), name)


def main():
    specs = files("crates/*/specs/**/*.antt")
    lemmas = files("crates/*/proofs/*.antt")
    names = defined(specs + lemmas)
    camel = {n: snake(n) for n in names if re.fullmatch(r"[a-z][A-Za-z0-9_]*", n) and re.search(r"[A-Z]", n)}
    camel |= {n: snake(n) for n in BOUND} | {"allHold": "each_holds"}
    dashed = {}
    for n in names:
        if n in CHOSEN or "-" in n and not n.endswith(JOINED) and re.fullmatch(r"[A-Za-z0-9_'\-]+", n):
            dashed[n] = CHOSEN.get(n, n.replace("-", "_"))
    texts = files("crates/*/specs/**/*.antt", "crates/*/proofs/**/*.antt", "crates/*/src/**/*.rt", "crates/*/must-fail/*.edit",
                  "README.md", "docs/**/*.md")
    old = {f: open(f, encoding="utf-8").read() for f in texts}
    words = set()
    for f, text in old.items():
        if not f.endswith(".md"):
            words |= set(re.findall(r"[A-Za-z0-9_'\-]+", text)) | set(re.findall(r"[A-Za-z0-9_']+", text))
    bad = False
    taken = {}
    for n, new in {**camel, **dashed}.items():
        new = new if n in camel else "-".join(camel.get(part, part) for part in new.split("-"))
        if new in words:
            print(f"stands already: {n} -> {new}: "
                  + " ".join(sorted(f for f, t in old.items() if re.search(rf"(?<!{WORD}){re.escape(new)}(?!{WORD})", t))[:6]))
        if new in taken:
            print(f"falls together: {n} and {taken[new]} -> {new}")
            bad = True
        taken[new] = n
    bad |= bool({n for n in dashed if dashed[n] in names})
    for n in dashed:
        if dashed[n] in names:
            print(f"falls together: {n} and {dashed[n]}")
    if bad or "--dry" in sys.argv:
        return 1
    dash = re.compile(r"(?<![A-Za-z0-9_'\-.])(" + "|".join(sorted(map(re.escape, dashed), key=len, reverse=True)) + r")(?![A-Za-z0-9_'\-])")
    hump = re.compile(rf"(?<!{WORD})(" + "|".join(sorted(camel, key=len, reverse=True)) + rf")(?!{WORD})")
    for f, text in old.items():
        new = text if f.endswith(".rt") else dash.sub(lambda m: dashed[m.group(1)], text)
        new = hump.sub(lambda m: camel[m.group(1)], new)
        if new != text:
            open(f, "w", encoding="utf-8").write(new)
    for n, new in sorted({**camel, **dashed}.items()):
        print(f"{n} -> {new}")
    return 0


sys.exit(main())
