#!/usr/bin/env python3
"""dtc_check.py: asks dtc about what the case programs print. Run from the root of the repository; needs dtc.
- Of each tree that dtc built (trees/*.dtb), the node count in dtc's own listing is the one in crates/reader_cases/stdout.
- Of each blob that the script of crates/writer_cases finishes and that is a tree by 01's reader, dtc reads it without complaint.
- Of each finished blob in crates/again_cases/stdout, dtc's listing is that of the blob that was read: of the tree in trees/ whose
  name is the label, or of the hand-made one in crates/again_cases/stdin if dtc reads that."""
import os, re, struct, subprocess, sys
sys.path.insert(0, os.path.dirname(os.path.abspath(__file__)))
import again_cases
import reading
import writer_cases

faults = 0


def dtc(data, *words):
    return subprocess.run(["dtc", *words, "-I", "dtb", "-O", "dts"], input=data, stdout=subprocess.PIPE, stderr=subprocess.PIPE)


def lines(crate):
    path = os.path.join("crates", crate, "stdout")
    return open(path, encoding="utf-8").read().splitlines() if os.path.exists(path) else []


counts = {m.group(1): int(m.group(2)) for m in (re.match(r"(\S+\.dtb): nodes (\d+),", l) for l in lines("reader_cases")) if m}
for name, count in sorted(counts.items()):
    listing = dtc(open(os.path.join("trees", name), "rb").read()).stdout.decode()
    got = len(re.findall(r"\{\s*$", listing, re.M))
    if got != count:
        print(f"{name}: dtc lists {got} nodes, the reader counts {count}")
        faults += 1
# of the blobs that the writer's script finishes, those that are trees; the program has told of each
blobs = [(label, data) for label, data in writer_cases.finished() if reading.read(data)[0] == "nodes"]
told = [l.split() for l in lines("writer_cases") if l.startswith("finish 0 ")]
for label, data in blobs:
    if str(len(data)) not in [t[3] for t in told]:
        print(f"{label}: the program tells of no blob of {len(data)} bytes")
        faults += 1
    got = dtc(data, "-q")
    if got.returncode or got.stderr:
        print(f"{label}: dtc says {got.stderr.decode().strip() or got.returncode}")
        faults += 1


def given():
    """The blobs of crates/again_cases/stdin by their labels without spaces: what the program is lent."""
    path, blobs, at = os.path.join("crates", "again_cases", "stdin"), {}, 0
    data = open(path, "rb").read() if os.path.exists(path) else b""
    while at < len(data):
        label, front, zeros, rest, _ = struct.unpack_from(">5I", data, at)
        begin = at + 20 + label
        at = begin + front + rest
        blobs[data[begin - label:begin].decode().replace(" ", "_")] = data[begin:begin + front] + bytes(zeros) + data[begin + front:at]
    return blobs


again, originals, trees, others = [l.split()[1:] for l in lines("again_cases") if l.startswith("blob ")], given(), 0, 0
for label, text in again:
    first, path = originals[label], os.path.join("trees", label)
    if os.path.exists(path):
        with open(path, "rb") as f:
            first = f.read()
        trees += 1
    listed = dtc(first, "-q")
    if listed.returncode and not os.path.exists(path):
        continue
    others += not os.path.exists(path)
    relisted = dtc(bytes.fromhex(text), "-q")
    if (listed.returncode, listed.stdout) != (relisted.returncode, relisted.stdout):
        print(f"{label}: written again, dtc lists it otherwise")
        faults += 1
# trees whose second blob is too long to be printed: the model's bytes, which have the length and the events that the program tells
shown = {label for label, _ in again}
for l in lines("again_cases"):
    m = re.match(r"(\S+\.dtb): nodes \d+, again (\d+), events (\w+) \3, same$", l)
    if m and m.group(1) not in shown:
        with open(os.path.join("trees", m.group(1)), "rb") as f:
            first = f.read()
        says = again_cases.events(first)
        second = again_cases.encode(again_cases.reservations(first), struct.unpack_from(">I", first, 28)[0], says, again_cases.ROOM)
        if (len(second), "%08x" % again_cases.digest(says)) != (int(m.group(2)), m.group(3)) or dtc(first, "-q").stdout != dtc(second, "-q").stdout:
            print(f"{m.group(1)}: written again, dtc lists it otherwise")
            faults += 1
        trees += 1
print(f"dtc_check: {len(counts)} trees counted, {len(blobs)} written blobs read, {trees} trees and {others} other blobs written again, {faults} faults")
sys.exit(1 if faults else 0)
