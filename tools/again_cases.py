#!/usr/bin/env python3
"""again_cases.py: makes crates/again_cases/stdin and stdout, the blobs that the program reads, writes again and reads again, and
the lines that it must print. What is expected comes from reading.py and from the encoder below, both written from document 01
and the DTSpec alone. Run from the root of the repository after trees.py; needs dtc (by reader_cases.py)."""
import os, re, struct, sys
sys.path.insert(0, os.path.dirname(os.path.abspath(__file__)))
import reader_cases, reading
from reader_cases import CELLS, END, END_NODE, LINUX, NOP, P, PHANDLE, ROOT, S, blob, node, padded, prop, tree, w

ROOM, STRINGS, SHOWN = 1048640, 65536, 2048


def events(data):
    """What an accepted blob says, in order: ('begin', name), ('prop', name, value), ('end',)."""
    nodes = reading.walk(*reading.header(data))
    out, depth = [], []
    for number, n in enumerate(nodes):
        while depth and (number > 0 and depth[-1] != n["parent"]):
            depth.pop()
            out.append(("end",))
        out.append(("begin", n["name"]))
        out += [("prop", name, value) for _, name, value in n["props"]]
        depth.append(number)
    return out + [("end",)] * len(depth)


def reservations(data):
    at, out = struct.unpack_from(">I", data, 16)[0], []
    while data[at:at + 16] != bytes(16):
        out.append(struct.unpack_from(">QQ", data, at))
        at += 16
    return out


class Refused(Exception):
    pass


def encode(regions, boot, says, room):
    """The bytes that the writer leaves of these events, or the number of its refusal."""
    if len(regions) > 32:
        raise Refused(33)
    if any(size == 0 or address + size >= 1 << 64 for address, size in regions):
        raise Refused(27)
    ordered = sorted(regions)
    if any(a + n > b for (a, n), (b, _) in zip(ordered, ordered[1:])):
        raise Refused(28)
    front = 40 + 16 * len(regions) + 16
    structure, strings, names = b"", b"", {}
    for e in says:
        if e[0] == "begin":
            structure += w(1) + padded(e[1] + b"\0")
        elif e[0] == "end":
            structure += w(2)
        else:
            # a name stands where its bytes and NUL first stand at the start of a string
            if e[1] not in names:
                names[e[1]] = len(strings)
                strings += e[1] + b"\0"
            structure += w(3, len(e[2]), names[e[1]]) + padded(e[2])
    structure += w(9)
    total = front + len(structure) + len(strings)
    if len(strings) > STRINGS or total > min(room, 1 << 20):
        raise Refused(33)
    head = w(0xD00DFEED, total, front, front + len(structure), 40, 17, 16, boot, len(strings), len(structure))
    return head + b"".join(struct.pack(">QQ", *r) for r in regions) + bytes(16) + structure + strings


def digest(says):
    h = 0

    def mix(values):
        nonlocal h
        for v in values:
            h = (h * 16777619 + v % 65536 + 1) % (1 << 32)
    for e in says:
        mix([("begin", "end", "prop").index(e[0]) + 1])
        for part in e[1:]:
            mix(part)
            mix([len(part)])
    return h


def region(*pairs):
    return b"".join(struct.pack(">QQ", *p) for p in pairs)


def written():
    """Blobs for the sake of the writer: what a reading accepts and a writing turns into other bytes, or refuses."""
    def with_regions(*pairs):
        return tree(node(b"memory@0", prop(P, b"m")), reservations=region(*pairs))
    yield "reservation", with_regions((0x1000, 0x1000))
    yield "reservations unsorted", with_regions((0x3000, 0x1000), (0x1000, 0x1000), (0x2000, 0x1000))
    yield "reservations that touch", with_regions((0, 4096), (4096, 1))
    yield "reservations that overlap", with_regions((0, 4097), (4096, 1))
    yield "reservations that overlap, unsorted", with_regions((4096, 1), (8192, 1), (0, 4097))
    yield "reservations alike", with_regions((4096, 1), (4096, 1))
    yield "reservations one in another", with_regions((0, 1 << 40), (4096, 1))
    yield "reservation of size 0", with_regions((4096, 0))
    yield "reservation of size 0 behind one", with_regions((4096, 1), (8192, 0), (12288, 1))
    yield "reservation at 0", with_regions((0, 1))
    yield "reservation to 2^64-1", with_regions(((1 << 64) - 2, 1))
    yield "reservation to 2^64", with_regions(((1 << 64) - 1, 1))
    yield "reservation past 2^64", with_regions((1 << 63, 1 << 63))
    yield "reservation of all", with_regions((0, (1 << 64) - 1))
    yield "reservations past 2^64 and overlapping", with_regions((5, 5), (5, 5), ((1 << 64) - 1, 9))
    for n in (31, 32, 33, 200):
        yield "%d reservations" % n, with_regions(*[(4096 * (n - i), 4096) for i in range(n)])
    yield "33 reservations, one of size 0", with_regions(*[(4096 * i, min(i, 1)) for i in range(1, 33)], (7, 0))
    yield "32 reservations, the last overlapping", with_regions(*[(4096 * i, 4096) for i in range(31)], (4095, 1))
    for cpu in (1, 0x80000000, 0xFFFFFFFF):
        yield "boot CPU %d" % cpu, tree(node(b"cpus"), boot=cpu)
    yield "boot CPU 7 and reservations", tree(node(b"cpus"), boot=7, reservations=region((1, 1), (3, 1)))
    yield "NOPs between all", blob(NOP * 3 + ROOT + NOP + prop(P, b"v") + NOP * 2 + node(b"a", NOP, prop(P, b"v"), NOP) + NOP + END_NODE + NOP * 5 + END, S)
    yield "NOPs inside", tree(NOP, prop(P, b"v"), NOP * 2, prop(CELLS, w(2)), node(b"a", NOP, prop(P, b"v"), NOP), NOP, node(b"b", NOP), NOP * 3)
    yield "gaps of 64", blob(ROOT + prop(P, b"v") + node(b"a") + END_NODE + END, S, gap=b"\xff" * 64, boot=3)
    yield "bytes behind, with a boot CPU", tree(prop(P), boot=9) + b"\xee" * 100
    # padding that is not zero is not kept
    yield "padding of a value", tree(w(3, 1, P) + b"v\xee\xee\xee")
    yield "padding of a name", blob(ROOT + w(1) + b"a\0\xee\xee" + END_NODE + END_NODE + END)
    yield "values of 0 to 9", blob(ROOT + b"".join(prop(2 * i, bytes(range(i))) for i in range(10)) + END_NODE + END, b"".join(b"abcdefghij"[i:i + 1] + b"\0" for i in range(10)))
    yield "value of 5000", tree(prop(P, bytes(i % 251 for i in range(5000))))
    yield "values with NULs", tree(prop(P, b"\0a\0\0b\0"), prop(CELLS, bytes(4)), node(b"a", prop(P, b"\0")))
    # names: one string used twice, one in another's end, the same string twice, strings never used
    yield "names shared", tree(prop(P, b"1"), node(b"a", prop(P, b"2")), node(b"b", prop(P, b"3"), prop(PHANDLE, w(4))), node(b"c", prop(P)))
    yield "names overlapping", tree(prop(LINUX, w(5)), prop(LINUX + 6, w(5)), node(b"a", prop(LINUX + 8, b"andle"), prop(LINUX + 9)), node(b"b", prop(LINUX + 10), prop(LINUX + 12), prop(LINUX + 11)))
    yield "names overlapping, short first", tree(prop(4), prop(2), prop(0), strings=b"abcde\0")
    yield "names doubled", tree(prop(0, b"1"), node(b"a", prop(2, b"2")), node(b"b", prop(4, b"3")), strings=b"p\0p\0p\0")
    yield "names unused", tree(prop(12, b"1"), strings=b"unused\0more\0p\0")
    yield "names in another order", tree(prop(4), prop(2), prop(0), strings=b"a\0b\0c\0")
    yield "names that begin alike", tree(prop(0), prop(2), prop(5), prop(9), strings=b"a\0ab\0abc\0a?\0")
    yield "names of nodes and properties alike", tree(prop(0), node(b"p", prop(0), node(b"p")), strings=b"p\0")
    yield "strings not closed at the end", tree(prop(0), strings=b"p\0rest")
    yield "hundred names", blob(ROOT + b"".join(prop(4 * i, w(i)) for i in range(100)) + END_NODE + END, b"".join(b"n%02d\0" % i for i in range(100)))
    yield "names of 31", tree(prop(0), prop(32), strings=b"x" * 31 + b"\0" + b"y" * 31 + b"\0")
    yield "a ladder", blob(ROOT + b"".join(begin + prop(P, b"%d" % i) for i, begin in enumerate([w(1) + padded(b"n%d\0" % i) for i in range(63)])) + END_NODE * 64 + END, S)


def lent():
    """Blobs and how many bytes are lent for the second one."""
    small = tree(prop(P, b"x"), node(b"a"), reservations=region((1, 1)), boot=2)
    size = len(encode(reservations(small), 2, events(small), ROOM))
    for room in (0, 55, 56, 71, 72, 73, 79, 80, 100, size - 3, size - 2, size - 1, size, size + 1):
        yield "room for %d of %d" % (room, size), small, room
    for n in (-1, 0, 1):
        # the end of the name stands once more in the second blob
        value = bytes((1 << 20) - 72 - 12 - 12 - 16 + n)
        yield "the ceiling and %d" % n, blob(ROOT + prop(0, value) + prop(4) + END_NODE + END, b"long-name\0"), ROOM


def cases():
    for label, data, words in reader_cases.cases():
        if words == 16384 and reading.read(data)[0] == "nodes":
            yield label, data, ROOM
    refused = {}
    for label, data, words in reader_cases.cases():
        kind, number, _ = reading.read(data)
        if words == 16384 and kind == "refused" and refused.setdefault(number, label) == label:
            yield label, data, ROOM
    for label, data in written():
        yield label, data, ROOM
    yield from lent()


def answer(label, data, room):
    kind, number, rest = reading.read(data)
    if kind == "refused":
        return "%s: refused %d at %d\n" % (label, number, rest), None
    says, boot = events(data), struct.unpack_from(">I", data, 28)[0]
    try:
        second = encode(reservations(data), boot, says, room)
    except Refused as r:
        return "%s: nodes %d, refused %d\n" % (label, number, r.args[0]), None
    assert reading.read(second)[:2] == ("nodes", number) and events(second) == says, label
    assert reservations(second) == reservations(data), label
    line = "%s: nodes %d, again %d, events %08x %08x, same\n" % (label, number, len(second), digest(says), digest(events(second)))
    if len(second) <= SHOWN:
        line += "blob %s %s\n" % (label.replace(" ", "_"), second.hex())
    return line, second


def main():
    given, wanted, seen, blobs = b"", [], set(), 0
    for label, data, room in cases():
        assert label not in seen, label
        seen.add(label)
        text, zeros = label.encode(), max(re.findall(rb"\0*", data), key=len)
        front, rest = data.split(zeros, 1) if zeros else (data, b"")
        given += w(len(text), len(front), len(zeros), len(rest), room) + text + front + rest
        line, second = answer(label, data, room)
        wanted.append(line)
        blobs += second is not None
    folder = os.path.join("crates", "again_cases")
    with open(os.path.join(folder, "stdin"), "wb") as f:
        f.write(given)
    with open(os.path.join(folder, "stdout"), "w", encoding="utf-8") as f:
        f.write("".join(wanted))
    print(len(wanted), "cases,", blobs, "written again,", len(given), "bytes")


if __name__ == "__main__":
    main()
