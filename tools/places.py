#!/usr/bin/env python3
"""places.py [COMMIT] [--list]: counts in crates/*/src, of a commit or of the working tree, the places that docs/DESIGN-PASS.md goes by, a
line for each kind; with --list also where they stand. It reads text, by the rules beside each kind below, and judges nothing."""
import collections
import glob
import re
import subprocess
import sys

COMMIT = next((a for a in sys.argv[1:] if not a.startswith("--")), None)
LIST = "--list" in sys.argv


def texts(pattern):
    """The files of a pattern, name and text."""
    if COMMIT is None:
        return [(f, open(f, encoding="utf8").read()) for f in sorted(glob.glob(pattern, recursive=True))]
    said = subprocess.run(["git", "ls-tree", "-r", "--name-only", COMMIT, "crates"], capture_output=True, text=True, check=True).stdout
    fits = re.compile(pattern.replace("**/", "@").replace("*", "[^/]*").replace("@", "(.*/)?") + "$")
    return [(f, subprocess.run(["git", "show", f"{COMMIT}:{f}"], capture_output=True, text=True, check=True).stdout)
            for f in said.split("\n") if fits.match(f)]


def blocks(text, head):
    """What begins in a line that `head` fits, with its lines up to the bracket that closes it at the same depth."""
    lines = text.split("\n")
    for i, line in enumerate(lines):
        if re.match(head, line):
            depth = len(line) - len(line.lstrip())
            end = next((j for j in range(i, len(lines)) if j > i and lines[j] == " " * depth + "}"), i)
            yield i + 1, "\n".join(lines[i:end + 1])


SRC = texts("crates/*/src/*.rt")
FUNCTION = r"\s*(pub(\([a-z]+\))? )?fn "
FUNCTIONS = [(f, n, b) for f, t in SRC for n, b in blocks(t, FUNCTION)]
found = collections.defaultdict(list)


def name(block):
    return re.search(r"(?:fn|enum|struct) (\w+)", block).group(1)


def signature(block):
    return re.sub(r"\s+", " ", re.split(r"\n\s*(?:requires|ensures)|\{\n|\{$", block, maxsplit=1)[0])


# 1: an enum of two variants, of which one holds something; or of more, of which one holds a refusal
for f, t in SRC:
    for n, b in blocks(t, r"(pub(\([a-z]+\))? )?enum "):
        body = re.sub(r"//.*", "", b[b.index("{") + 1:])
        variants = re.findall(r"^    (\w+)( ?\{|\(.*\))?,?", body, re.M)
        if len(variants) == 2 and any(v[1] for v in variants):
            found["1 enum like Option or Result"].append((f, n, name(b)))
        elif not name(b).endswith("Refusal") and any("Refusal" in v[1] or "Error" in v[1] for v in variants):
            found["1 enum like Option or Result"].append((f, n, name(b)))
# 1: a refusal by its number: a literal handed to a function of refusals, or compared with one
for f, t in SRC:
    for i, line in enumerate(t.split("\n")):
        if re.search(r"\b(refused|placed|number)\w*\((\w+, )?\d+,|\bn == \d\d\b", line.split("//")[0]) and "fn " not in line:
            found["1 number for a refusal"].append((f, i + 1, line.strip()))
# 2: functions that are one where types, numbers and names are left out
shapes = collections.defaultdict(list)
for f, n, b in FUNCTIONS:
    code = re.sub(r"//.*", "", b)
    code = re.sub(r"\n\s*(requires|ensures)\b.*", "", code)
    ids = {}
    words = re.findall(r"\w+|[^\w\s]", code)
    keep = {"fn", "pub", "let", "mut", "if", "else", "while", "for", "in", "match", "return", "loop", "true", "false", "self"}
    shape = " ".join(w if w in keep or not re.match(r"\w", w) else "T" if re.fullmatch(r"[ui](8|16|32|64|size)", w) else "N" if w[0].isdigit()
                     else ids.setdefault(w, f"i{len(ids)}") for w in words)
    if len(words) > 25:
        shapes[shape].append((f, n, name(b)))
for twins in shapes.values():
    if len(twins) > 1:
        found["2 functions of one shape"].extend(twins)
# 3: a while loop that moves a number of its condition by a constant
for f, t in SRC:
    for n, b in blocks(t, r"\s*while "):
        moved = re.findall(r"^\s*(\w+) [+-]= \w+;", b, re.M)
        if any(re.search(rf"\b{m}\b", b.split("\n")[0]) for m in moved):
            found["3 loop that counts by hand"].append((f, n, b.split("\n")[0].strip()))
# 4: a function that compares, converts or tells by hand
for f, n, b in FUNCTIONS:
    if re.match(r"(same|begins|ends|holds|comes_before|joined|wide|number|told|place|by_\w+|refused_by|reader_number|reader_place)$", name(b)) and "pub fn part" not in b:
        found["4 comparing or converting by hand"].append((f, n, name(b)))
# 5: parameters that travel together
for f, n, b in FUNCTIONS:
    s = signature(b)
    if re.search(r"\bstructure: &", s) and re.search(r"\b(strings|place|work): ", s):
        found["5 a block by its parts"].append((f, n, name(b)))
    if re.search(r"\bwork: &(mut )?'?\w* ?\[u32\]", s) and re.search(r"\bcount: usize", s):
        found["5 a table and its count"].append((f, n, name(b)))
    if re.search(r"\b(configured|conf): &", s) and re.search(r"\b(excluded|excl): &", s):
        found["5 the lists of a request"].append((f, n, name(b)))
# 6: an array with a count beside it; strings in one table, told apart by NULs; halving by hand
for f, n, b in FUNCTIONS:
    if re.search(r": \[\w+; \w+\], (count|n): usize", signature(b)):
        found["6 an array and a count"].append((f, n, name(b)))
    if re.search(r"while low < high", b):
        found["6 searched by hand"].append((f, n, name(b)))
for f, t in SRC:
    for i, line in enumerate(t.split("\n")):
        if re.match(r"(pub )?const \w+: \[u8; \d+\] = \*b", line):
            found["6 strings in one table"].append((f, i + 1, line))
# 7: a parameter that says which step to take
for f, n, b in FUNCTIONS:
    for p in re.findall(r"(\w+): bool", signature(b)):
        if re.search(rf"\bif !?{p}\b|=> !?{p},", b):
            found["7 a bool that picks a step"].append((f, n, f"{name(b)} {p}"))
    if len(re.findall(r"^\s+b'\w' => ", b, re.M)) > 3 or len(re.findall(r"^\s+\d+ => \{", b, re.M)) > 3:
        found["7 a switch on which step"].append((f, n, name(b)))
# 8: what is written of proofs
ANSWERS = [(f, t) for f, t in texts("crates/*/proofs/**/*.antt") if "/rules/" not in f]
answers = sum(len(re.findall(r"^(?:abbrev )?pub [\w:-]+ : goal\.", t, re.M)) for f, t in ANSWERS)
KINDS = ["1 enum like Option or Result", "1 number for a refusal", "2 functions of one shape", "3 loop that counts by hand",
         "4 comparing or converting by hand", "5 a block by its parts", "5 a table and its count", "5 the lists of a request",
         "6 an array and a count", "6 searched by hand", "6 strings in one table", "7 a bool that picks a step", "7 a switch on which step"]
for kind in KINDS:
    print(f"{len(found[kind]):4} {kind}")
    for place in found[kind] if LIST else []:
        print("       {}:{}: {}".format(*place))
print(f"{answers:4} 8 invariants, measures and answers (but those of rules), in {sum(t.count(chr(10)) for f, t in ANSWERS)} lines")
