#!/usr/bin/env python3
"""doubt.py [--in FOLDER] [CRATE | CRATE/NAME ...]: tries the wrong programs that crates/*/doubts hold, each in the form of a must-fail
edit, and says of each whether the prover refuses it. The gate tries the edits under must-fail; doubts has the others, so that the gate
stays short. Each crate is checked over what was checked before (rt check), several edits at once where no changed function calls another,
in a copy of the repository: a temporary one, or FOLDER, which stays, so that the next run is short, and whose folder `said` has what the
prover said. Of an edit that is refused only since a proof file names what it took away, which says little of the contract, it says so.
Exit status 1 where one is not refused, or a crate is refused as it stands. Run from the root of the repository, after rt check.
doubt.py --few: the public functions of the libraries whose text fewer than two wrong programs (of must-fail or doubts) change."""
import glob
import os
import re
import shutil
import subprocess
import sys
import tempfile

# What the prover says of a function: that it is proved, or how it is refused.
SAID = re.compile(r"fn ([\w:]+): (.*)")
# How it refuses a function for its own sake: by its proof files, or by the search that stands for one.
REFUSED = re.compile(r"not proved|no proof: (?!it calls )")
# What it says of a place in the sources or in a proof: an error, or a goal that is left.
TOLD = re.compile(r"(?:note: )?(?:\./)?(\S+?):\d+:\d+: (error: )?(.*)")
# How a proof file is at fault that names what a function no longer has.
NAMES = re.compile(r"has no field|is not in scope|has no `|was not admitted")
# What it says of a goal that is left where it found values at which the goal is false. Another goal that is left, beside an answer for a
# goal that is gone, may be that goal by another name.
FALSE = re.compile(r"allow values at which this goal is false")


def pairs(edit):
    """The replacements that an edit asks for: file, old text, new text."""
    file = old = None
    for line in open(edit, encoding="utf8").read().split("\n"):
        if line.startswith("file: "):
            file = line[6:]
        elif line.startswith("old: "):
            old = line[5:]
        elif line.startswith("new:"):
            yield file, old, line[4:].removeprefix(" ")


def said_of(root, crate, name):
    """What the prover says of the crate as it stands in the copy, in lines."""
    ran = subprocess.run(["rt", "check"], cwd=os.path.join(root, "crates", crate), capture_output=True, text=True)
    os.makedirs(os.path.join(root, "said"), exist_ok=True)
    open(os.path.join(root, "said", f"{crate}.{name}"), "w", encoding="utf8").write(ran.stdout + ran.stderr)
    return (ran.stdout + ran.stderr).split("\n")


def refused(lines):
    """The functions that these lines refuse for their own sake: name, and whether only a name that is gone is at fault."""
    found = {}
    goals = 0
    errors = [m.group(1, 3) for m in map(TOLD.match, lines) if m and m.group(2)]
    lemmas = any(path.count("/") == 1 and not NAMES.search(text) for path, text in errors)
    for line in lines:
        told = TOLD.match(line)
        goals += bool(told and line.startswith("note: ") and told.group(1).startswith("src/") and FALSE.search(told.group(3)))
        said = SAID.match(line)
        if said and REFUSED.match(said.group(2)):
            folder = f"proofs/{'/'.join(said.group(1).split('::')[1:])}/"
            own = [text for path, text in errors if path.startswith(folder)]
            found[said.group(1)] = not goals and not lemmas and bool(own) and all(map(NAMES.search, own))
        if said:
            goals = 0
    return found


def said_as(function, by_name):
    return f"refused ({function}{', by a name that is gone' if by_name else ''})"


def unread(line, changed):
    """Whether the prover could not read the text of this line: of the sources, or of a file that the edit changes."""
    told = TOLD.match(line)
    if not told or not told.group(2) or not (told.group(1) in changed or told.group(1).startswith(("src/", "specs/"))):
        return False
    of, said = re.match(r"(`[^`]*`: )?(.*)", told.group(3)).groups()
    return not of or bool(re.search(r"is not in scope|has no field|is no name|operand is missing|expected the end|cannot continue", re.sub("`[^`]*`", "", said)))


def verdict(lines, changed=()):
    """What these lines come to: 'refused', 'proved' or why the prover could not tell."""
    bad = [line for line in lines if unread(line, changed)]
    if any(line.startswith("logic=not-proved") for line in lines) and not bad:
        first = next(iter(refused(lines).items()), None)
        law = next((re.match("`([^`]*)`", m.group(3)) for m in map(TOLD.match, lines) if m and m.group(2)), None)
        return said_as(*first) if first else f"refused ({law.group(1)})" if law else "refused"
    if any(line.startswith("logic=proved") for line in lines):
        return "proved"
    return "BAD: it did not reach the prover: " + next(iter(bad or [x for x in lines if "error" in x]), "")


def applied(root, crate, edits, name):
    """What the prover says of the crate with these edits, in lines; or, of a bad edit, what is wrong with it."""
    before = {}
    try:
        for edit in edits:
            for file, old, new in pairs(edit):
                path = os.path.join(root, "crates", crate, file)
                text = open(path, encoding="utf8").read()
                before.setdefault(path, text)
                if text.count(old) != 1:
                    return f"BAD: {text.count(old)} times in {file}: {old}"
                open(path, "w", encoding="utf8").write(text.replace(old, new))
        return said_of(root, crate, name)
    finally:
        for path, text in before.items():
            open(path, "w", encoding="utf8").write(text)


def alone(root, crate, edit):
    """What the prover says of the crate with this edit, or what is wrong with the edit."""
    said = applied(root, crate, [edit], label(edit))
    said = said if isinstance(said, str) else verdict(said, {file for file, _, _ in pairs(edit)})
    return "NOT REFUSED" if said == "proved" else said


def label(edit):
    return os.path.basename(edit).removesuffix(".edit")


def rounds(crate, edits):
    """Parts the edits that change one function each into rounds, so that in a round no function is changed twice, and none calls
    another, even through others: then each is refused for its own sake, and one check tells of all. Answers the rounds, each a
    dictionary from edit to the start and the end of the function's name as the prover prints it; and the edits that are left."""
    of = {}
    texts = {}
    for path in sorted(glob.glob(f"crates/{crate}/src/**/*.rt", recursive=True)):
        file = os.path.relpath(path, f"crates/{crate}")
        module = file.removeprefix("src/").removesuffix(".rt").replace("/", "::")
        start = crate if module == "lib" else f"{crate}::{module}"
        for name, _, text in functions(path):
            of.setdefault(file, []).append((start, name, text))
            texts[name] = texts.get(name, "") + text
    calls = {f: {g for g in texts if g != f and re.search(rf"(?<![a-z_]::)\b{g}\(", text)} for f, text in texts.items()}
    for _ in calls:
        for f in calls:
            calls[f] |= set().union(*(calls[g] for g in calls[f]))
    parted = []
    left = []
    for edit in edits:
        places = {(start, name) for file, old, _ in pairs(edit) for start, name, text in of.get(file, ()) if old in text}
        inside = all(any(old in text for _, _, text in of.get(file, ())) for file, old, _ in pairs(edit))
        if len(places) != 1 or not inside:
            left.append(edit)
            continue
        (start, name), = places
        for one in parted:
            if all(name != g and name not in calls[g] and g not in calls[name] for _, g in one.values()):
                one[edit] = (start, name)
                break
        else:
            parted.append({edit: (start, name)})
    left += [edit for one in parted if len(one) == 1 for edit in one]
    return [one for one in parted if len(one) > 1], left


def tried_crate(root, crate, edits):
    """Tries the edits of a crate, prints what the prover says of each, and answers how many faults there were."""
    parted, left = rounds(crate, edits)
    faults = 0
    for i, one in enumerate(parted):
        lines = applied(root, crate, one, f"round{i}")
        for edit, (start, name) in one.items():
            named = re.compile(rf"{start}::(\w+::)?{name}")
            found = [it for it in refused(lines).items() if named.fullmatch(it[0])] if isinstance(lines, list) else []
            if found:
                print(f"{crate}/{label(edit)}: {said_as(*found[0])}", flush=True)
            else:
                left.append(edit)
    for edit in left:
        said = alone(root, crate, edit)
        faults += not said.startswith("refused")
        print(f"{crate}/{label(edit)}: {said}", flush=True)
    return faults


def tried_all(root, wanted):
    """Tries what is wanted in a copy of the repository at root, and answers how many faults there were."""
    shutil.copy("crates.txt", root)
    for crate in os.listdir("crates"):
        # what an earlier run checked there stays
        to = os.path.join(root, "crates", crate)
        kept = os.path.isdir(os.path.join(to, "out"))
        for part in os.listdir(to) if os.path.isdir(to) else []:
            if part != "out":
                shutil.rmtree(os.path.join(to, part)) if os.path.isdir(os.path.join(to, part)) else os.remove(os.path.join(to, part))
        shutil.copytree(f"crates/{crate}", to, symlinks=True, dirs_exist_ok=True, ignore=shutil.ignore_patterns("out") if kept else None)
    faults = 0
    for crate in dict.fromkeys(one.split("/")[0] for one in wanted):
        said = verdict(said_of(root, crate, ""))
        if said != "proved":
            print(f"{crate} as it stands: {said}", flush=True)
            faults += 1
            continue
        edits = sorted(glob.glob(f"crates/{crate}/doubts/*.edit"))
        faults += tried_crate(root, crate, [e for e in edits if crate in wanted or f"{crate}/{label(e)}" in wanted])
    return faults


def functions(path):
    """The functions of a file: name, whether it is public, text."""
    text = open(path, encoding="utf8").read()
    for m in re.finditer(r"^( *)(pub )?fn (\w+)", text, re.M):
        end = re.compile("^" + m.group(1) + r"\}$", re.M).search(text, m.end())
        yield m.group(3), bool(m.group(2)), text[m.start() : end.end() if end else len(text)]


def few():
    """Prints the public functions of the libraries that fewer than two wrong programs change, and answers how many there are."""
    count = 0
    for folder in sorted(glob.glob("crates/*/src/lib.rt")):
        crate = folder.split("/")[1]
        olds = {}
        for edit in glob.glob(f"crates/{crate}/must-fail/*.edit") + glob.glob(f"crates/{crate}/doubts/*.edit"):
            for file, old, _ in pairs(edit):
                olds.setdefault(file, set()).add((os.path.basename(edit).removesuffix(".edit"), old))
        for path in sorted(glob.glob(f"crates/{crate}/src/**/*.rt", recursive=True)):
            file = os.path.relpath(path, f"crates/{crate}")
            for name, public, text in functions(path):
                has = sorted({edit for edit, old in olds.get(file, ()) if old in text})
                if public and len(has) < 2:
                    count += 1
                    print(f"{crate} {file} {name}: {' '.join(has) or 'none'}")
    print(f"{count} functions with fewer than two")
    return count


def main(args):
    if args == ["--few"]:
        return 1 if few() else 0
    kept = args[1] if args[:1] == ["--in"] else None
    wanted = args[2:] if kept else args
    wanted = wanted or sorted(c for c in os.listdir("crates") if os.path.isdir(f"crates/{c}/doubts"))
    if kept:
        os.makedirs(kept, exist_ok=True)
        faults = tried_all(kept, wanted)
    else:
        with tempfile.TemporaryDirectory() as root:
            faults = tried_all(root, wanted)
    print(f"{faults} faults")
    return 1 if faults else 0


sys.exit(main(sys.argv[1:]))
