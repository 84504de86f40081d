#!/usr/bin/env python3
"""Runs guestdt on real board trees and holds each answer to an independent reading of document 01.

  board_check.py BINARY FOLDER

For each blob below FOLDER three requests are drawn from its own paths (by a fixed seed), and one that names no node. What is printed
and the guest's bytes must be what tools/deriving.py says; each guest must be listed by dtc without an error and pass libfdt's full
check. Needs dtc, gcc and libfdt (Debian: device-tree-compiler, gcc, libfdt-dev). Prints counts; status 1 on a fault."""
import collections, os, random, re, shutil, subprocess, sys, tempfile
sys.path.insert(0, os.path.dirname(os.path.abspath(__file__)))
import deriving, reading

CHECK = r"""
#include <libfdt.h>
#include <stdio.h>
int main(int argc, char **argv)
{
    static char blob[1 << 21] __attribute__((aligned(8)));
    FILE *f = fopen(argv[1], "rb");
    size_t n = f ? fread(blob, 1, sizeof blob, f) : 0;
    return fdt_check_full(blob, n) != 0;
}
"""


def paths_of(blob):
    """The paths of a blob's nodes, and its CPUs' numbers; nothing where the reader refuses it."""
    try:
        nodes = reading.walk(*reading.header(blob))
    except reading.Refused:
        return [], []
    paths, ids = [], []
    for i, n in enumerate(nodes):
        above = paths[n["parent"]] if i else b""
        paths.append(above + b"/" + n["name"] if n["parent"] or not i else b"/" + n["name"])
        props = {name: value for _, name, value in n["props"]}
        if i and above == b"/cpus" and re.match(rb"cpu(@|$)", n["name"]) and len(props.get(b"reg", b"")) in (4, 8):
            ids.append(int.from_bytes(props[b"reg"], "big"))
    return paths, ids


def requests(blob, draw):
    paths, ids = paths_of(blob)
    yield b"c /no/such/node\n"
    if len(paths) < 4:
        return
    devices = [p for p in paths if b"@" in p] or paths[1:]
    yield b"c " + draw.choice(devices) + b"\n"
    some = draw.sample(devices, min(4, len(devices)))
    yield b"".join(b"c %s\n" % p for p in some[:2]) + b"".join(b"x %s\n" % p for p in some[2:]) + b"".join(b"i %d\n" % i for i in ids[:64])
    yield b"c " + draw.choice(paths[1:]) + b"\nx " + draw.choice(paths[1:]) + b"\n" + b"".join(b"i %d\n" % i for i in ids[:1])


def main():
    binary, folder = os.path.abspath(sys.argv[1]), sys.argv[2]
    blobs = sorted(os.path.join(base, f) for base, _, files in os.walk(folder) for f in files if f.endswith(".dtb"))
    draw = random.Random(1)
    counts, faults = collections.Counter(), 0
    with tempfile.TemporaryDirectory() as desk:
        with open(os.path.join(desk, "check.c"), "w") as f:
            f.write(CHECK)
        subprocess.run(["gcc", "-O1", "-o", os.path.join(desk, "check"), os.path.join(desk, "check.c"), "-lfdt"], check=True)
        guest = os.path.join(desk, "guest.dtb")
        for name in blobs:
            with open(name, "rb") as f:
                blob = f.read()
            shutil.copyfile(name, os.path.join(desk, "host.dtb"))
            for text in requests(blob, draw):
                if os.path.exists(guest):
                    os.remove(guest)
                said = subprocess.run([binary], cwd=desk, input=text, stdout=subprocess.PIPE).stdout
                made = open(guest, "rb").read() if os.path.exists(guest) else None
                want = deriving.program(blob, text)
                wrong = []
                if (said, made) != tuple(want):
                    wrong.append("answer")
                if made is not None:
                    listed = subprocess.run(["dtc", "-q", "-I", "dtb", "-O", "dts", guest], stdout=subprocess.DEVNULL, stderr=subprocess.DEVNULL).returncode
                    if listed:
                        wrong.append("dtc")
                    if subprocess.run([os.path.join(desk, "check"), guest]).returncode:
                        wrong.append("libfdt")
                    counts["guests"] += 1
                else:
                    counts["refused " + said.split()[1].decode()] += 1
                counts["runs"] += 1
                if wrong:
                    faults += 1
                    print(os.path.basename(name), text, wrong, said[:60], want[0][:60])
    print(len(blobs), "blobs,", ", ".join(f"{k} {v}" for k, v in sorted(counts.items())), f"; {faults} faults")
    sys.exit(1 if faults else 0)


main()
