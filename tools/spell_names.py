#!/usr/bin/env python3
"""spell_names.py: brings this repository's own definitions and lemmas to snake case, once, right after the toolchain's own port script:
`firstFault` and `first-fault` to `first_fault`. Functions, constants, types and strings of src/ keep their names, and so do types and
modules of specs/ and proofs/. Where two names would fall together, the definition has the plain name and the lemma `_lem` behind it.
Run at the top of the repository; prints each name that it respells to a name which does not follow from its spelling alone."""
import glob
import re

LETTERS = r"A-Za-z0-9_'\u0370-\u03ff\u2080-\u209c\u207f"
WORD = rf"(?:[A-Za-z_\u0370-\u03ff][{LETTERS}\-]*)"
TOKEN = re.compile(rf"(?<![{LETTERS}\-]){WORD}")
DECLARED = re.compile(rf"^ {{0,4}}(?:(?:abbrev|unfoldable|pub) )*({WORD})(?: \{{[^}}]*\}})? :(?= |$)", re.M)
BLOCK = re.compile(r"^(?:pub )?(?:data|record) [^\n]*(?:\n  [^\n]*)*?\bwhere\n((?:  [^\n]*\n|\n)*)", re.M)
MEMBER = re.compile(rf"^  (?:pub )?((?:{WORD} )+):(?= |$)", re.M)
# Lemmas that the toolchain's script brought to the very name of a definition of another spelling.
LEMMAS = {"block_in", "chunk_start", "closed_all", "list_at", "list_length", "node_in", "stack_at"}
# Names that a definition or another lemma has, by what they say.
TAKEN = {
    "begin-judged": "begin_verdict",
    "node-judged": "node_verdict",
    "one-of-end": "one_of_take_end",
    "one-of-here": "one_of_take_here",
    "property-at": "property_shared_at",
    "size-at": "wrong_size_at",
}


def snake(name):
    return re.sub(r"(?<=[a-z0-9\u2080-\u2089'])([A-Z])", lambda m: "_" + m.group(1).lower(), name).replace("-", "_")


def ours():
    """The names that specs/ and proofs/ declare, but for the answers that a proof file gives under names of the prover's."""
    names = set()
    for path in glob.glob("crates/*/specs/**/*.antt", recursive=True) + glob.glob("crates/*/proofs/**/*.antt", recursive=True):
        text = open(path, encoding="utf8").read()
        for m in DECLARED.finditer(text):
            if not re.match(r"\s*(?:tie|goal)\.", text[m.end():m.end() + 40]):
                names.add(m.group(1))
        for block in BLOCK.finditer(text):
            for m in MEMBER.finditer(block.group(1)):
                names |= set(m.group(1).split())
    return names


def respelled(names):
    """Old name to new name."""
    new = {n: snake(n) for n in names if (n[0].islower() or n[0] == "_" or n.isupper() or "\u0370" <= n[0] <= "\u03ff")}
    new = {n: s for n, s in new.items() if s != n}
    taken = {}
    for n, s in new.items():
        if n not in TAKEN:
            taken.setdefault(s, set()).add(n)
    for s, olds in sorted(taken.items()):
        if s in LEMMAS & names:
            new[s] = s + "_lem"
        elif len(olds) > 1 or s in names:
            for n in olds:
                if "-" in n:
                    new[n] = s + "_lem"
    for s in LEMMAS & names:
        new.setdefault(s, s + "_lem")
    new.update((n, s) for n, s in TAKEN.items() if n in names)
    return new


def foreign(text):
    """The names that a file imports from the toolchain's own modules."""
    names = set()
    for path, last, items in re.findall(r"^(?:pub )?(?:ghost )?use ([^\s{;]+)\.(?:([^\s{};.]+)|\{([^}]*)\})", text, re.M):
        if not re.match(r"Rattle\.", path) or re.match(r"Rattle\.std\b", path):
            names |= {last} | {one.strip().split(" as ")[-1] for one in items.split(",")}
    return names


def turned(text, new, comment, kebab):
    """The text with its names respelled; in comments, only those that no English word has the form of."""
    out = []
    known = foreign(text)
    new = {n: s for n, s in new.items() if n not in known}
    # behind the name of a module of the toolchain's stands a name of that module's
    of_module = re.compile(r"(?:^|[\s(){}\[\],;])([A-Z][^\s(){}\[\],;.]*)\.$")
    for line in text.split("\n"):
        at = line.find(comment)
        at = len(line) if at < 0 else at
        code, said = line[:at], line[at:]

        def one(m):
            word = m.group(0)
            module = of_module.search(m.string[:m.start()])
            if module and module.group(1) in known or not kebab and ("-" in word or word in LEMMAS):
                return word
            return new.get(word, word)

        plain = lambda m: m.group(0) if "-" in m.group(0) or m.group(0) in LEMMAS else new.get(m.group(0), m.group(0))
        parts = re.split(r'("(?:[^"\\]|\\.)*")', code)
        out.append("".join(p if i % 2 else TOKEN.sub(one, p) for i, p in enumerate(parts)) + TOKEN.sub(plain, said))
    return "\n".join(out)


def main():
    names = ours()
    new = respelled(names)
    for n, s in sorted(new.items()):
        if s != snake(n) or n in LEMMAS:
            print(f"{n} -> {s}")
    back = {}
    for n in names:
        back.setdefault(new.get(n, n), set()).add(n)
    for s, olds in sorted(back.items()):
        if len(olds) > 1:
            raise SystemExit(f"fall together: {s} of {sorted(olds)}")
    files = 0
    for pattern, comment, kebab in (("specs/**/*.antt", "--", True), ("proofs/**/*.antt", "--", True), ("src/**/*.rt", "//", False)):
        for path in glob.glob("crates/*/" + pattern, recursive=True):
            text = open(path, encoding="utf8").read()
            after = turned(text, new, comment, kebab)
            if after != text:
                files += 1
                open(path, "w", encoding="utf8").write(after)
    print(f"{len(new)} names, {files} files")


if __name__ == "__main__":
    main()
