#!/usr/bin/env python3
"""Counts the older forms in src/ (and the answers in proofs/), point by point: the counts of docs/DESIGN-PASS.md.

usage: tools/count_forms.py [-v]      in the repository; -v names each place
"""
import collections
import pathlib
import re
import sys

VERBOSE = "-v" in sys.argv
SOURCES = sorted(p for p in pathlib.Path("crates").glob("*/src/**/*.rt"))
TEXT = {p: p.read_text() for p in SOURCES}


def code(text):
    return re.sub(r"//[^\n]*", "", text)


def show(point, what, places):
    print(f"{point}  {len(places):3}  {what}")
    if VERBOSE:
        for place in places:
            print(f"          {place}")


def name(path):
    return f"{path.parts[1]}/{'/'.join(path.parts[3:])}"


def matches(pattern, flags=0):
    return [f"{name(p)}: {m.group(0).strip().splitlines()[0]}" for p in SOURCES for m in re.finditer(pattern, code(TEXT[p]), flags)]


def items(kind):
    for p in SOURCES:
        for m in re.finditer(rf"{kind} (\w+)[^{{;]*\{{(.*?)\n\}}", code(TEXT[p]), re.S):
            yield p, m.group(1), m.group(2)


# ---- 1

shaped = []
for p, enum, body in items("enum"):
    variants = [v.strip() for v in re.split(r",\s*\n", body) if v.strip()]
    full = [v for v in variants if "(" in v or "{" in v]
    if len(full) == 1 and len(variants) > 1:
        shaped.append(f"{name(p)}: enum {enum}")
show(1, "enums of the shape of Option or Result", shaped)
show(1, "structs with a number or a flag beside the value", [
    f"{name(p)}: struct {s}" for p, s, body in items("struct") if re.search(r"\b(number: u32|found: bool)", body)])
show(1, "numbers for refusals", matches(r"const [A-Z_]+: u32 = \d+;"))
show(1, "tests of such a number or flag", matches(r"if [^{\n]*\b(number|n|check) [!=]= 0 \{|if !\w+\.found"))
show(1, "tests of a number that is a kind", matches(
    r"if [^{\n]*(\b(kind|stage|code|precision|offset) (==|<|<=|>=) \w+|\w+ <=? (f\.)?precision)[^\n]*|match [\w.]+ \{\n\s+\d[^\n]*"))

# ---- 2

SHAPE = re.compile(r"\"(?:\\.|[^\"])*\"|b'.'|[A-Za-z_]\w*|\d[\w]*|\S")
KEEP = {"if", "else", "match", "while", "for", "return", "let", "mut", "fn", "loop", "in"}
shapes = collections.defaultdict(list)
for p in SOURCES:
    for m in re.finditer(r"\n( *)(?:pub(?:\(crate\))? )?(?:extern \"C\" )?fn (\w+)(.*?)\n\1\}", code(TEXT[p]), re.S):
        body = re.sub(r"\n\s*(requires|ensures)[^\n]*(\n\s{8,}[^\n]*)*", "", m.group(3))
        words = [w if w in KEEP or not re.match(r"\w", w) else "_" for w in SHAPE.findall(body)]
        if len(words) >= 24:
            shapes[" ".join(words)].append(f"{name(p)}: {m.group(2)}")
twins = [g for g in shapes.values() if len(g) > 1]
show(2, f"functions of one shape with another ({len(twins)} groups)", [f for g in twins for f in g])
show(2, "structs of one shape with another", [
    f"{name(p)}: struct {s}" for same in [collections.defaultdict(list)]
    for _ in [[same[re.sub(r"\s+", " ", body)].append((p, s)) for p, s, body in items("struct")]]
    for group in same.values() if len(group) > 1 for p, s in group])

# ---- 3

show(3, "loops `while` and `loop`", matches(r"\b(while [^{\n]*|loop) \{"))
show(3, "loops `for` over indices of a slice", matches(r"for \w+ in [^{\n]*\.\.[^{\n]*\{"))

# ---- 4

show(4, "equalities field by field", matches(r"\(?\w+\.(packed_fields|tag|guard|attoseconds) == \w+\.(packed_fields|tag|guard|attoseconds)\)?"))
show(4, "orders as numbers", matches(r"-> i32|order: i32|sign: i32"))
show(4, "numbers of an enum and back by hand", matches(r"fn (precision_number|precision_of|is_known|flag_of|one_if|from_local)\b[^\n]*"))
copies = []
for p in SOURCES:
    for m in re.finditer(r"\b[A-Z]\w+ \{\n((?:\s*\w+: \w+(?:\.\w+)*\.?\w*,\n){3,})", code(TEXT[p])):
        rows = re.findall(r"(\w+): (\w+)\.(\w+),", m.group(1))
        if sum(1 for a, _, b in rows if a == b) >= 3:
            copies.append(f"{name(p)}: {m.group(0).splitlines()[0]}")
show(4, "record literals that copy three or more fields of another", copies)
show(4, "fields set from a variable of their own name", matches(r"\n\s+(\w+): \1,"))

# ---- 5

facts = collections.defaultdict(set)
for p in SOURCES:
    for m in re.finditer(r"fn (\w+)[^{]*?\n(\s+requires [^\n]*\n(?:\s+requires [^\n]*\n)*)", TEXT[p]):
        for clause in re.findall(r"requires (?:\w+ )?\{(.*)\}", m.group(2)):
            for fact in clause.split("×"):
                words = re.sub(r"\b(buf\.old|s\.now|words\.old)\b", "_", fact.strip(" ()"))
                facts[words].add(f"{name(p)}: {m.group(1)}")
show(5, "facts in the contracts of three or more functions", [f"{fact} ({len(w)})" for fact, w in facts.items() if len(w) >= 3])
show(5, "functions with a buffer and a position", matches(r"fn \w+[^(]*\(\s*(?:\w+: \w+, )*(?:buf|room): &mut \[u8\],\s*(?:at|end): usize"))
show(5, "functions with the two numbers of a count twice", matches(r"fn \w+\([^)]*m: u64, a: u64, n: u64, b: u64"))

# ---- 6

show(6, "structs that hold arrays, a length or a count beside", [
    f"{name(p)}: struct {s}" for p, s, body in items("struct") if re.search(r": \[[^\]]+; ", body)])

# ---- 7

show(7, "switches on a code", matches(r"match (kind|code)\b[^{\n]*\{|match x\.(stage|fraction|offset) \{\n\s+\d[^\n]*"))

# ---- 8

answers = sorted(pathlib.Path("crates").glob("*/proofs/**/Answers.antt"))
goals = sum(len(re.findall(r"^pub [^\n]* : goal\.", p.read_text(), re.M)) for p in answers)
laws = [p for p in pathlib.Path("crates").glob("*/proofs/**/*.antt") if p.name not in ("Answers.antt", "Invariants.antt", "Lib.antt")]
print(f"8  {len(answers):3}  files of answers, of {goals} goals; {sum(len(p.read_text().splitlines()) for p in laws)} lines of laws")
