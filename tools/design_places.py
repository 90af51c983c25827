#!/usr/bin/env python3
"""Lists the places in src/ that docs/DESIGN-PASS.md counts, point by point: tools/design_places.py [COMMIT]

Without COMMIT the working tree is read. Each point has one or more patterns or a comparison of functions; what is listed is what a
reader has to judge, and the page says which of the lines are places. The proofs (point 8) are counted by files and lines.
"""
import collections
import difflib
import re
import subprocess
import sys

COMMIT = sys.argv[1] if len(sys.argv) > 1 else None


def files(pattern):
    if COMMIT:
        names = subprocess.run(["git", "ls-tree", "-r", "--name-only", COMMIT], capture_output=True, text=True, check=True).stdout.split()
    else:
        names = subprocess.run(["git", "ls-files"], capture_output=True, text=True, check=True).stdout.split()
    for name in names:
        if re.fullmatch(pattern, name):
            if COMMIT:
                text = subprocess.run(["git", "show", f"{COMMIT}:{name}"], capture_output=True, text=True, check=True).stdout
            else:
                text = open(name, encoding="utf-8").read()
            yield name, text


SOURCES = list(files(r"crates/[^/]+/src/.*\.rt"))


def grep(title, pattern):
    found = [(name, n, line.strip()) for name, text in SOURCES for n, line in enumerate(text.split("\n"), 1) if re.search(pattern, line)]
    print(f"{title}: {len(found)}    {pattern}")
    for name, n, line in found:
        print(f"    {name[7:]}:{n}: {line[:110]}")
    return found


FUNCTION = re.compile(r"^( *)(?:pub(?:\([a-z]+\))? )?(?:extern \"C\" )?fn (\w+)", re.M)


def functions():
    """(file, name, head, clauses, body) of each function."""
    for name, text in SOURCES:
        starts = list(FUNCTION.finditer(text))
        for at, match in enumerate(starts):
            end = starts[at + 1].start() if at + 1 < len(starts) else len(text)
            whole = text[match.start():end]
            close = re.search(rf"^{match.group(1)}\}}", whole, re.M)
            whole = whole[: close.end()] if close else whole
            opening = re.search(rf"^{match.group(1)}\{{|\{{$|\{{\}}|;$", whole, re.M)
            head = whole[: opening.start()] if opening else whole
            body = whole[opening.start():] if opening else ""
            clauses = re.findall(r"(requires|ensures)\s+(?:\w+\s+)?\{(.*?)\}\s*(?=\n\s*(?:requires|ensures|\{|;)|$|;)", head, re.S)
            parameters = re.split(r"\n\s*(?:requires|ensures)\b", head)[0]
            yield name, match.group(2), parameters, [(k, " ".join(c.split())) for k, c in clauses], body


def shape(text):
    """A function's text with numbers, types and constants made alike."""
    text = re.sub(r"//.*", "", text)
    text = re.sub(r"\b(0x)?[0-9][0-9a-zA-Z_]*\b", "0", text)
    text = re.sub(r"\b[A-Z]\w*\b", "T", text)
    text = re.sub(r"\b(u8|u16|u32|u64|usize|i16|i32|i64)\b", "t", text)
    return re.findall(r"\w+|\S", text)


def twins():
    listed = [(f, n, shape(p + b)) for f, n, p, _, b in functions() if len(shape(b)) >= 12]
    pairs = []
    for i, (f, n, s) in enumerate(listed):
        for g, m, t in listed[i + 1:]:
            small, large = sorted((len(s), len(t)))
            if small * 1.35 >= large:
                matcher = difflib.SequenceMatcher(None, s, t, autojunk=False)
                if matcher.quick_ratio() >= 0.8 and matcher.ratio() >= 0.8:
                    pairs.append((matcher.ratio(), f, n, g, m))
    print(f"2 functions of 12 words or more that are alike to four fifths once numbers and types are taken out: {len(pairs)} pairs")
    for ratio, f, n, g, m in sorted(pairs, reverse=True):
        print(f"    {ratio:.2f} {f[7:]}:{n} ~ {g[7:]}:{m}")


def clauses():
    seen = collections.defaultdict(list)
    for f, n, _, cs, _ in functions():
        for kind, clause in cs:
            seen[(kind, clause)].append(f"{f[7:]}:{n}")
    often = {k: v for k, v in seen.items() if len(v) >= 3}
    print(f"5 clauses that stand word for word in three functions or more: {len(often)}")
    for (kind, clause), where in sorted(often.items(), key=lambda kv: -len(kv[1])):
        print(f"    {len(where)} {kind} {clause[:110]}    {', '.join(where)}")


def parameters():
    groups = collections.defaultdict(list)
    for f, n, p, _, _ in functions():
        crate = f.split("/")[1]
        inside = p[p.find("(") + 1:]
        names = [x for x in re.findall(r"(\w+): ", inside) if x not in ("surface", "self", "rt", "result")]
        for i in range(len(names)):
            for j in range(i + 2, len(names) + 1):
                groups[(crate, tuple(names[i:j]))].append(f"{f.split('/')[-1]}:{n}")
    often = {k: v for k, v in groups.items() if len(v) >= 3}
    top = {k: v for k, v in often.items() if not any(o[0] == k[0] and len(o[1]) > len(k[1]) and ".".join(k[1]) in ".".join(o[1]) and len(often[o]) >= len(v) for o in often)}
    print(f"5 parameters that stand beside one another in three functions of a crate or more: {len(top)}")
    for (crate, names), where in sorted(top.items(), key=lambda kv: -len(kv[1])):
        print(f"    {len(where)} {crate}: {', '.join(names)}    {', '.join(where)}")


grep("1 own enums", r"^(pub(\([a-z]+\))? )?enum ")
grep("1 constants that number kinds", r"^(pub(\([a-z]+\))? )?const [A-Z]\w*_\w+: u16")
grep("1 numbers that stand for kinds or for no value", r"\b(style|hatch|layer|function|code|number): u(8|16|32)\b|, or 0\.|\) -> u(8|32)$")
twins()
grep("3 loops", r"^\s*('[a-z]+: )?(for|while|loop)\b")
grep("4 conversion, comparison and printing by hand", r"^impl.* (From|TryFrom|PartialEq|Clone|Display|Default|Error)\b|fn (cause|tell|print_\w+|of_\w+|bare|same\w*|\w+_at)\b|fn new\(\w+: u16\)")
grep("4 casts by `as`", r"\bas (u8|u16|u32|u64|usize|i16|i32|i64)\b")
clauses()
parameters()
grep("6 fixed arrays", r"\[\w+; [0-9A-Z]+\]")
grep("6 lengths, places and counts beside a buffer", r"\b(count|first|place|end|n|len): usize\b")
grep("7 closures, functions as values, dyn", r"\bdyn\b|\bfn\(|\bFn(Mut|Once)?\(")
proofs = [(name, text) for name, text in files(r"crates/[^/]+/proofs/.*\.antt") if text]
answers = [(name, text) for name, text in proofs if name.endswith(("/Answers.antt", "/Invariants.antt"))]
print(f"8 proof files: {len(proofs)}, {sum(t.count(chr(10)) for _, t in proofs)} lines; of these answers and invariants: "
      f"{len(answers)}, {sum(t.count(chr(10)) for _, t in answers)} lines")
