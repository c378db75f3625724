#!/usr/bin/env python3
"""Holds the header to the crates: it declares each exported function as the crate has it, and each refusal with its number.

    declared.py ROOT
"""
import pathlib
import re
import sys

TYPES = {"&mut [u8]": ("uint8_t *{0}", "size_t {0}_length"), "&[u8]": ("const uint8_t *{0}", "size_t {0}_length"),
         "u8": ("uint8_t {0}",), "u32": ("uint32_t {0}",)}


def prototype(name, parameters, answer):
    made = []
    for parameter in filter(None, (part.strip() for part in parameters.split(","))):
        word, kind = parameter.split(": ")
        made += [part.format(word) for part in TYPES[kind]]
    return TYPES[answer][0].format(name) + "(" + ", ".join(made) + ");"


def constant(name, number):
    return "GRANIVOLCHE_REFUSED" + re.sub("([A-Z])", r"_\1", name).upper() + " = " + number


def compare(what, crates, header):
    for one in sorted(crates ^ header):
        print(f"{what}: only {'the crates have' if one in crates else 'the header has'} {one}")
    return bool(crates) and crates == header


def main():
    root = pathlib.Path(sys.argv[1])
    header = re.sub(r"\s+", " ", re.sub(r"/\*.*?\*/", "", (root / "include/granivolche.h").read_text(), flags=re.S))
    source = "".join(path.read_text() for path in sorted((root / "crates/host/src").glob("**/*.rt")))
    exported = re.findall(r'pub extern "C" fn (\w+)\((.*?)\) -> (\w+)', source, flags=re.S)
    declared = re.findall(r"\w+ granivolche_\w+\(.*?\);", header)
    numbered = re.findall(r"^number (\w+) = (\d+)$", (root / "crates/registers/specs/Refusals.antt").read_text(), flags=re.M)
    named = re.findall(r"GRANIVOLCHE_REFUSED_\w+ = \d+", header)
    same = [compare("functions", {prototype(*one) for one in exported}, set(declared)),
            compare("refusals", {constant(*one) for one in numbered}, set(named))]
    sys.exit(0 if all(same) else 1)


main()
