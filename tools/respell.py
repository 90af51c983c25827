#!/usr/bin/env python3
"""Brings the repository's own names in specs/, proofs/ and clauses to today's spelling, once, after the kit's port.py.

usage: tools/respell.py [--list] [FOLDER]

Functions and lemmas are in snake case, facts in upper camel case, and a dash stands only between two names that are defined.
Names that the check makes (goals, invariants, measures) and names of src/ stay. --list prints the table and writes nothing.
"""

import glob
import os
import re
import sys

ENDS = r"[^\s(){}.,;:\[\]\"]"
DEFINED = re.compile(r"^ *(?:(?:abbrev|unfoldable|pub|data|record) )*(" + ENDS + r"+) :[ \n]", re.M)
RECORD = re.compile(r"^(?:pub )?record [^\n]* where\n((?:(?:  [^\n]*)?\n)+)", re.M)
MADE = re.compile(r"^(?:(?:abbrev|unfoldable|pub) )*(" + ENDS + r"+) : goal\.", re.M)

# Words of the library that a dash may stand beside.
WORDS = set(
    "le_z lt_z length take drop append map reverse slice_set slice_index get_or bit_and bit_or bit_xor cond eqb not".split()
)

# Names that the rules alone would give the name of another, definitions that the rules would leave with a dash, and a module that was dotted.
GIVEN = {
    "One-outcome": "OneSmallest",
    "record·of": "RecordOf",
    "getD-seen": "get_or-seen",
    "bit-and": "bit-bit_and",
    "bit-xor": "bit-bit_xor",
    "bit-of": "bit-of_bits",
    "mode-number": "mode_number-mode_at",
    "style-number": "style_number-style_at",
    "seen-record": "shown_record",
    "device-rect": "device_rect",
    "found-end": "found_end",
    "found-outcome": "found_outcome",
    "has-row": "has_row",
    "row-there": "row_there",
    "first-refused": "first_refused",
    "packed-spare": "packed_spare",
    "bytes-spare": "bytes_spare",
    "planes-spare": "planes_spare",
    "planes-fit": "planes_fit_lem",
    "stop-of": "stop_of_lem",
}

# Lemmas that name a plain idea although both parts are names too.
GIVEN.update(
    (name, name.replace("-", "_"))
    for name in """
    binary-more binary-small block-bounds broken-listed bytes-painted bytes-stays bytewise-rest down-kept fits-memory
    front-more held-bounding hull-least kept-after kept-both kept-none kept-one left-kept left-more lowest-more
    none-bounding not-over one-draughts opens-inside packed-rest part-painted planar-rest planes-stays planes-there
    planes-whole reached-part rect-more refused-not seen-cause shut-down sides-small solid-out some-draughts some-none
    some-step spans-out step-rightly step-says still-here still-next strip-here told-ended
    """.split()
)


def texts(root, ends):
    for p in sorted(glob.glob(os.path.join(root, "crates", "**", "*"), recursive=True)):
        if p.endswith(ends) and "/out/" not in p and os.path.isfile(p):
            with open(p, encoding="utf-8") as f:
                yield p, f.read()


def snake(name):
    return re.sub(r"(?<=[a-z0-9])([A-Z])", lambda m: "_" + m[1].lower(), name)


def spelled(name, names):
    if name in GIVEN:
        return GIVEN[name]
    if re.match(r"[A-Z]", name):
        if name.startswith("T_"):
            return name
        return "".join(p[0].upper() + p[1:] for p in re.split(r"[-_]", name) if p)
    name = re.sub(r"^(le|lt)Z-", r"\1_z-", name)
    name = snake(name)
    parts = name.split("-")
    whole = parts[0]
    for before, part in zip(parts, parts[1:]):
        whole += ("-" if before in names and part in names else "_") + part
    return whole


def fields(root):
    """The fields of the records of specs/, which stand behind a dot too."""
    found = set()
    for p, text in texts(root, ".antt"):
        for block in RECORD.findall(text):
            found |= {n for n in re.findall(r"^ +(?:pub )?(" + ENDS + r"+) : ", block, re.M) if "-" in n}
    return found


def table(root):
    defined, made = set(), set()
    for p, text in texts(root, ".antt"):
        here = set(DEFINED.findall(text))
        there = set(MADE.findall(text))
        made |= there
        defined |= here - there
    names = {n for n in defined if re.fullmatch(r"[a-z][a-z0-9_]*", n)} | WORDS
    rows = {}
    for n in sorted(defined - made - fields(root)):
        if re.search(r"[A-Za-z]", n):
            new = spelled(n, names)
            if new != n:
                rows[n] = new
    rows.update({k: v for k, v in GIVEN.items()})
    return rows


def main():
    args = [a for a in sys.argv[1:] if a != "--list"]
    root = args[0] if args else "."
    rows = table(root)
    turned = re.compile(
        r"(?<![\w.'-])(" + "|".join(re.escape(n) for n in sorted(rows, key=len, reverse=True)) + r")(?![\w'-])"
    )
    fielded = {n: spelled(n, set()) for n in fields(root)}
    projected = re.compile(r"(?<![\w'-])(" + "|".join(re.escape(n) for n in sorted(fielded, key=len, reverse=True) or ["$^"]) + r")(?![\w'-])")
    tokens = re.compile(r"[^\s(){}.,;:\[\]\"]+")
    held = {}
    for p, text in texts(root, (".antt", ".rt")):
        for t in set(tokens.findall(text)):
            held.setdefault(t, set()).add(p)
    for old, new in sorted(rows.items()):
        if new in held:
            print(f"falls together: {old} -> {new}: {sorted(held[new])[:3]}", file=sys.stderr)
    if "--list" in sys.argv:
        for old, new in sorted(rows.items()):
            print(f"{old}\t{new}")
        return
    for p, text in texts(root, (".antt", ".rt", ".edit")):
        # A name turns in the files that define or import it: elsewhere it is a local's.
        mine = set(re.findall(ENDS + "+", "\n".join(re.findall(r"^(?:ghost )?use [^\n]*", text, re.M)))) | set(DEFINED.findall(text))
        new = turned.sub(lambda m: rows[m[1]] if m[1] in mine or p.endswith(".edit") else m[1], text)
        new = projected.sub(lambda m: fielded[m[1]], new)
        if new != text:
            with open(p, "w", encoding="utf-8") as f:
                f.write(new)


main()
