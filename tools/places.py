#!/usr/bin/env python3
"""Counts the places that docs/DESIGN-PASS.md speaks of, in the tree as it stands or in that of a commit: python3 tools/places.py [COMMIT] [-v]"""
import difflib
import itertools
import re
import subprocess
import sys

ARGS = [a for a in sys.argv[1:] if a != "-v"]
VERBOSE = "-v" in sys.argv
COMMIT = ARGS[0] if ARGS else None


def run(*args):
    return subprocess.run(args, check=True, capture_output=True, text=True).stdout


def read(path):
    return run("git", "show", f"{COMMIT}:{path}") if COMMIT else open(path).read()


def paths(*globs):
    if COMMIT:
        found = run("git", "ls-tree", "-r", "--name-only", COMMIT).split("\n")
        tests = [re.compile(g.replace("*", ".*") + "$") for g in globs]
        return [p for p in found if any(t.match(p) for t in tests)]
    return [p for p in run("git", "ls-files", *globs).split("\n") if p]


def bare(text):
    return re.sub(r"//[^\n]*", "", text)


SOURCES = {p: bare(read(p)) for p in paths("crates/*/src/*.rt")}

def functions():
    for path, text in SOURCES.items():
        for m in re.finditer(r'^( *)((?:pub )?(?:extern "C" )?fn \w+)', text, re.M):
            indent, start = m.group(1), m.start()
            # The body begins at a brace that ends a line; a line that ends in `;` before one is a method that has none.
            brace = re.compile(r"\{$|;$", re.M).search(text, m.end())
            if not brace or brace.group() == ";":
                continue
            end = re.compile(r"^" + indent + r"\}$", re.M).search(text, brace.end())
            head, body = text[start : brace.start()], text[brace.end() : end.end()]
            name = re.search(r"fn (\w+)", head).group(1)
            params = re.search(r"\((.*?)\)(?:\s*->|\s*$|\s*\n)", head, re.S)
            params = [p.strip() for p in params.group(1).split(",") if p.strip()] if params else []
            yield path, name, head, params, body


def show(title, places):
    places = list(places)
    print(f"{title}: {len(places)}")
    if VERBOSE:
        for p in places:
            print("   ", p)


def lines(pattern, only=None):
    for path, text in SOURCES.items():
        if only and not re.search(only, path):
            continue
        for line in text.split("\n"):
            if re.search(pattern, line):
                yield f"{path}: {line.strip()}"


FUNCTIONS = list(functions())

print("1. Numbers for refusals and kinds, flags beside values")
show("  functions that answer a refusal as a number", (f"{p}: {n}" for p, n, h, _, _ in FUNCTIONS if re.search(r"-> u32", h) and re.search(r"first \(|_number\b|outcome_number|Judged", h)))
show("  tests of a number against 0 that stand for `?`", lines(r"if \S*(number|off|open|\bn)\b != 0"))
show("  constants that number refusals, rules or kinds", lines(r"const [A-Z_]+: u32 = \d+;"))
show("  tests of a rule or a kind by its number", lines(r"\b(rule|kind) == |first == b'"))
show("  fields that are a flag or a refusal's number beside values", lines(r"^    pub (number: u32|full: bool),"))

print("2. Twins")
WORDS = re.compile(r"\w+|[^\w\s]")
KEEP = set("fn pub let mut if else while for in match return self Self true false as".split())
SIZES = set("u8 u16 u32 u64 usize".split())


def shape(text):
    names, out = {}, []
    for w in WORDS.findall(text):
        if w in KEEP or not re.match(r"\w", w):
            out.append(w)
        elif w in SIZES:
            out.append("T")
        elif w.isdigit():
            out.append("0")
        else:
            out.append(names.setdefault(w, f"v{len(names)}"))
    return out


SHAPES = [(p, n, shape(",".join(params) + b)) for p, n, h, params, b in FUNCTIONS if 'extern "C"' not in h]
TWINS = []
for (p, n, a), (q, m, b) in itertools.combinations(SHAPES, 2):
    if min(len(a), len(b)) < 30:
        continue
    matcher = difflib.SequenceMatcher(None, a, b, autojunk=False)
    if matcher.real_quick_ratio() > 0.9 and matcher.quick_ratio() > 0.9 and matcher.ratio() > 0.9:
        TWINS.append(f"{p}: {n} ~ {q}: {m} ({matcher.ratio():.2f})")
show("  pairs of functions alike but for names, types and numbers", TWINS)
STRUCTS = [(p, m.group(1), re.sub(r"\s+", " ", m.group(2))) for p, t in SOURCES.items() for m in re.finditer(r"struct (\w+)(?:<[^>]*>)? \{(.*?)\n\}", t, re.S)]
show("  pairs of structs with the same fields", (f"{p}: {n} = {q}: {m}" for (p, n, a), (q, m, b) in itertools.combinations(STRUCTS, 2) if a == b))

print("3. Loops that count by hand")
show("  while loops", lines(r"^\s*while\b"))

print("4. Copies, comparisons, conversions and printing by hand")
show("  functions that copy, compare or convert", (f"{p}: {n}" for p, n, h, _, b in FUNCTIONS if re.fullmatch(r"copy|copy_into|put_bytes|same_name|least|less|wide|read8|read16|read32|last_digit|spell|digit_at|is_graphic|in_order|rising|clear|all_zeros?|behind_first|hand_to|of_weight|letter_count|line_end", n) and not re.search(r"copy_from_slice|saturating|from_le_bytes|\.\.self|is_sorted|u32::from|take_while|windows", b)))
show("  calls of check::same", lines(r"check::same"))
show("  structs copied field by field (`name: name`)", lines(r"^\s*(\w+): \1,"))

print("5. Facts and parameters that travel together")
CLAUSES = {}
for p, n, h, _, _ in FUNCTIONS:
    m = re.search(r"requires[^{]*\{(.*?)\}\s*(?:\n\s*ensures|$)", h, re.S)
    for fact in re.split(r" × |\n", m.group(1)) if m else []:
        fact = re.sub(r"\.(now|old)\b", "", fact).strip().strip("()").strip()
        if fact:
            CLAUSES.setdefault(fact, []).append(f"{p}: {n}")
show("  facts in the contracts of three functions or more", (f"{f}: {len(u)}" for f, u in sorted(CLAUSES.items(), key=lambda x: -len(x[1])) if len(u) >= 3))
PAIRS = {}
for p, n, h, params, _ in FUNCTIONS:
    if 'extern "C"' in h:
        continue
    names = [re.sub(r"&(mut )?('\w+ )?", "", x) for x in params if ":" in x]
    for a, b in itertools.combinations(sorted(names), 2):
        PAIRS.setdefault((a, b), []).append(f"{p}: {n}")
show("  pairs of parameters in four functions or more", (f"{a}, {b}: {len(u)}" for (a, b), u in sorted(PAIRS.items(), key=lambda x: -len(x[1])) if len(u) >= 4))

print("6. Buffers with a length or a place beside them")
BESIDE = []
for p, n, h, params, _ in FUNCTIONS:
    slices = [x.split(":")[0].strip() for x in params if re.search(r": &(mut )?('\w+ )?\[", x)]
    counts = [x.split(":")[0].strip() for x in params if re.search(r": (usize|u32)$", x)]
    m = re.search(r"requires(.*?)(?:\n\s*ensures|$)", h, re.S)
    if m and any(re.search(rf"\b{c}\b[^×]*≤ length {s}\b", m.group(1)) for s in slices for c in counts):
        BESIDE.append(f"{p}: {n}")
show("  functions over a slice and a count or a place in it", BESIDE)

print("7. Switches on which step to run")
ENUMS = [m.group(1) for t in SOURCES.values() for m in re.finditer(r"enum (\w+)", t)]
show("  matches on an enum of our own", (f"{p}: {n} on {e}" for p, n, _, _, b in FUNCTIONS for e in ENUMS if e != "Refusal" and re.search(rf"match .*\{{[^}}]*\b{e}::\w+", b, re.S)))

print("8. Proofs")
PROOFS = {p: re.sub(r"--[^\n]*", "", read(p)) for p in paths("crates/*/proofs/*.antt")}


def count(pattern, test):
    return sum(len(re.findall(pattern, t, re.M)) for p, t in PROOFS.items() if test(p))


print("  lines:", sum(read(p).count("\n") for p in PROOFS))
print("  answers:", count(r"^pub \S+ : goal[.]", lambda p: p.endswith("Answers.antt")))
print("  invariants and measures:", count(r"^abbrev pub \S+ : goal[.]", lambda p: p.endswith("Invariants.antt")))
print("  lemmas:", count(r"^ *(?:pub )?[a-z]\S* :(?!:)", lambda p: not p.endswith(("Answers.antt", "Invariants.antt"))))
