#!/usr/bin/env python3
"""Brings the names that the check makes, in proofs/, to today's spelling, once: a source's name keeps its underscores, and the check's own words are in snake case.

usage: tools/respell_steps.py [FOLDER]
"""

import glob
import os
import re
import sys

OWN = {
    "in-err": "in_err", "in-ok": "in_ok", "in-default": "in_default",
    "overflow-add": "overflow_add", "overflow-sub": "overflow_sub", "overflow-mul": "overflow_mul", "overflow-cast": "overflow_cast",
    "overflow-shl": "overflow_shl", "overflow-shr": "overflow_shr", "overflow-step": "overflow_step",
    "nonzero-div": "nonzero_div", "nonzero-rem": "nonzero_rem", "slice-bounds": "slice_bounds", "offset-bounds": "offset_bounds",
    "invariant-of": "invariant_of", "type-inv": "type_inv", "yielded-by": "yielded_by",
}
# Methods of the library that the sources call are found in the sources too.
IDENTIFIER = re.compile(r"[a-z][a-z0-9]*(?:_[a-z0-9]+)+")


def turner(root):
    words = {}
    for p in glob.glob(os.path.join(root, "crates", "*", "src", "**", "*.rt"), recursive=True):
        with open(p, encoding="utf-8") as f:
            for w in IDENTIFIER.findall(f.read()):
                words[w.replace("_", "-")] = w
    for w in ("from_residual", "into_iter"):
        words[w.replace("_", "-")] = w
    words.update(OWN)
    one = re.compile(r"(?<![A-Za-z0-9_'])(" + "|".join(sorted(map(re.escape, words), key=len, reverse=True)) + r")(?![A-Za-z0-9_'])")
    return lambda token: one.sub(lambda m: words[m[1]], token)


def main():
    root = sys.argv[1] if len(sys.argv) > 1 else "."
    turn = turner(root)
    for p in sorted(glob.glob(os.path.join(root, "crates", "*", "proofs", "**", "*.antt"), recursive=True)):
        if not p.endswith(("Answers.antt", "Invariants.antt", "Proof.antt")):
            continue
        with open(p, encoding="utf-8") as f:
            text = f.read()
        # the goals that this file answers, wherever they stand
        goals = set(re.findall(r"^(?:(?:abbrev|pub) )*([^\s:]+) : goal\.", text, re.M))
        new = re.sub(r"(?<=\.)[A-Za-z][\w'-]*", lambda m: turn(m[0]), text)
        new = re.sub(r"(?<![\w.'-])[A-Za-z][\w'-]*", lambda m: turn(m[0]) if m[0] in goals else m[0], new)
        # arms of a join, imported from Goals
        lines = []
        arms = set()
        for line in new.split("\n"):
            m = re.match(r"use Rattle\.\S+\.(?:Goals|Given)\.\{(.*)\}$", line)
            if m:
                arms |= {a.strip() for a in m[1].split(",")}
        new = re.sub(r"(?<![\w.'-])[A-Za-z][\w'-]*", lambda m: turn(m[0]) if m[0] in arms else m[0], new)
        if new != text:
            with open(p, "w", encoding="utf-8") as f:
                f.write(new)


main()
