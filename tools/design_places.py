#!/usr/bin/env python3
"""Counts in src/ the places that docs/DESIGN-PASS.md speaks of. `tools/design_places.py [COMMIT] [-v]`: of a commit or, without one, of the checkout; -v lists each place."""
import collections, re, subprocess, sys

args = [a for a in sys.argv[1:] if a != "-v"]
verbose = "-v" in sys.argv
commit = args[0] if args else None


def run(*command):
    return subprocess.run(command, capture_output=True, text=True, check=True).stdout


def files(pattern):
    if commit:
        names = run("git", "ls-tree", "-r", "--name-only", commit).split("\n")
    else:
        names = run("git", "ls-files").split("\n")
    for name in names:
        if re.fullmatch(pattern, name):
            yield name, run("git", "show", f"{commit}:{name}") if commit else open(name).read()


SOURCES = list(files(r"crates/\w+/src/.*\.rt"))
ANSWERS = list(files(r"crates/\w+/proofs/.*/(Answers|Invariants)\.antt"))
found = collections.OrderedDict()


def place(point, name, what):
    found.setdefault(point, []).append(f"{name}: {what}")


def functions(text):
    for m in re.finditer(r"^( *)(?:pub(?:\(crate\))? )?(?:extern \"C\" )?fn (\w+)(.*?)^\1\}$", text, re.S | re.M):
        head, _, body = m.group(3).partition("\n" + m.group(1) + "{\n")
        yield m.group(2), head, body


def parameters(head):
    m = re.search(r"\((.*?)\)\s*(?:->|$|\n)", head, re.S)
    return [p.strip() for p in re.split(r",(?![^<\[]*[>\]])", m.group(1)) if p.strip()] if m else []


clauses, groups, shapes = collections.defaultdict(set), collections.defaultdict(set), collections.defaultdict(list)
for name, text in SOURCES:
    code = re.sub(r"//[^\n]*", "", text)
    for m in re.finditer(r"enum (\w+)[^{]*\{(.*?)^\}", code, re.S | re.M):
        variants = [v for v in re.findall(r"^    (\w+[^\n]*(?:\n        [^\n]*)*)", m.group(2), re.M) if not v.startswith("}")]
        full = [v for v in variants if re.match(r"\w+ ?[({]", v)]
        if len(variants) == 2 and full or len(variants) > 2 and len(full) == 1:
            place("1 enums of the shape of Option or Result", name, m.group(1))
    for function, head, body in functions(code):
        arms = re.findall(r"^\s+[\w:|() _]*\w+::\w+[\w:|() _]* => ([^,\n]*),", body, re.M)
        if len(arms) > 1 and all(re.fullmatch(r"0?x?\d+", a) for a in arms):
            place("1 numbers for kinds or refusals", name, function)
        if len(arms) > 1 and all(a in ("true", "false") for a in arms):
            place("4 tests of a kind written case by case", name, function)
        if re.search(r"^\s+if [^\n]*\{\n\s+return (true|false);\n", body, re.M) and "-> bool" in head:
            place("4 a truth returned branch by branch", name, function)
        if len(re.findall(r"^\s+[^\n]*\bErr\(\w+\) => (?:return )?Err\(|^\s+[\w:]+::(?:No|Bad)\w+(?:\(\w+\))? => (?:return )?[\w:]+::(?:No|Bad)\w+", body, re.M)):
            place("1 a refusal passed on by a match", name, function)
        for loop in re.finditer(r"^( +)(while [^\n]*|loop) \{\n(.*?)^\1\}", body, re.S | re.M):
            inside = loop.group(3)
            if re.search(r"\b(\w+) [+-]= 1;", inside) and "while" in loop.group(2):
                place("3 loops that count by hand", name, function)
            elif re.search(r"record_at\(", inside):
                place("3 loops over records by their offsets", name, function)
            else:
                place("3 other while and loop", name, function)
        for kind, clause in re.findall(r"^\s+(requires|ensures)\b[^{]*\{ (.*) \}$", head, re.M):
            for part in re.split(r" × ", clause):
                part = part.strip("() ")
                if "result ≡" in part or len(part) < 8:
                    continue
                clauses[re.sub(r"\b\w+(?=\.(now|old|new)\b)", "_", part)].add((name, function))
        names = [re.sub(r"&'a ", "&", p) for p in parameters(head)]
        for size in (3, 4, 5):
            for i in range(len(names) - size + 1):
                groups[", ".join(names[i : i + size])].add((name, function))
        tokens = re.findall(r"[A-Za-z_]\w*|0x\w+|\d+|\S", body)
        if len(body.strip().split("\n")) >= 4:
            ids = {}
            shape = tuple("#" if re.match(r"0x|\d", t) else (ids.setdefault(t, f"v{len(ids)}") if re.match(r"[A-Za-z_]", t) and t not in ("if", "else", "return", "match", "let", "mut", "while", "for", "in", "loop", "true", "false") else t) for t in tokens)
            shapes[shape].append((name, function))
    for m in re.finditer(r"= \[0\w*; [^\]]+\]", code):
        place("6 buffers and arrays", name, m.group(0)[2:])
    for m in re.finditer(r"\b(\w+) as (u64|u32|usize|i32|i64)\b", code):
        place("4 conversions by `as`", name, m.group(0))
    for m in re.finditer(r"\b(any|negated|same|whole|allowed|octets|grouped|null): bool", code):
        place("7 a switch handed on as bool", name, m.group(0))
for clause, where in clauses.items():
    if len(where) >= 3:
        place("5 facts in the contracts of three or more functions", f"{len(where)} contracts", clause)
kept = []
for group, where in sorted(groups.items(), key=lambda x: -len(x[0])):
    if len(where) >= 3 and not any(group in g and where <= w for g, w in kept):
        kept.append((group, where))
        place("5 parameters that travel together in three or more functions", f"{len(where)} functions", group)
for shape, where in shapes.items():
    if len(where) > 1:
        place("2 functions of one shape (but for names and numbers)", where[0][0], ", ".join(f"{n.split('/')[1]}::{f}" for n, f in where))
answers = [(n, m) for n, t in ANSWERS for m in re.findall(r"^pub \S+ : ", t, re.M)]
lines = sum(t.count("\n") for _, t in ANSWERS)
for point in sorted(found):
    print(f"{len(found[point]):5} {point}")
    if verbose:
        for p in found[point]:
            print("        ", p)
print(f"{len(answers):5} 8 answers and invariants in {len(ANSWERS)} files of {lines} lines")
