#!/usr/bin/env python3
"""reader_cases.py: makes crates/reader_cases/stdin and stdout, the blobs that the program runs the reader on and the lines that it
must print. What is expected comes from reading.py, an independent reading of document 01, and of dtc's trees the node count from
dtc's own listing too. Run from the root of the repository after trees.py; needs dtc."""
import os, re, struct, subprocess, sys
sys.path.insert(0, os.path.dirname(os.path.abspath(__file__)))
import reading

FILL = 0xA5A5A5A5


def w(*values):
    return b"".join(struct.pack(">I", v & 0xFFFFFFFF) for v in values)


def padded(b):
    return b + bytes(-len(b) % 4)


def begin(name):
    return w(1) + padded(name + b"\0")


def prop(offset, value=b""):
    return w(3, len(value), offset) + padded(value)


END_NODE, NOP, END = w(2), w(4), w(9)


def blob(structure, strings=b"", reservations=b"", gap=b"", **fields):
    """A blob of these blocks; a field of the header may be given another value, by its name or as a difference (`d_` + name)."""
    reserve_at = 40
    struct_at = reserve_at + len(reservations) + 16 + len(gap)
    strings_at = struct_at + len(structure) + len(gap)
    h = dict(magic=0xD00DFEED, total=strings_at + len(strings), off_struct=struct_at, off_strings=strings_at, off_rsv=reserve_at,
             version=17, compatible=16, boot=0, size_strings=len(strings), size_struct=len(structure))
    for name, value in fields.items():
        h[name[2:] if name.startswith("d_") else name] = h[name[2:]] + value if name.startswith("d_") else value
    return w(*h.values()) + reservations + bytes(16) + gap + structure + gap + strings


ROOT = begin(b"")
S = b"p\0#clock-cells\0phandle\0linux,phandle\0"
P, CELLS, PHANDLE, LINUX = 0, 2, 15, 23


def tree(*inside, strings=S, **fields):
    return blob(ROOT + b"".join(inside) + END_NODE + END, strings, **fields)


def node(name, *inside):
    return begin(name) + b"".join(inside) + END_NODE


def cases():
    good = tree(node(b"a", prop(P, b"x")), node(b"b", prop(PHANDLE, w(7))))
    yield "good", good, 16384
    yield "good words 16383", good, 16383
    yield "good words 0", good, 0
    yield "good words 16400", good, 16400
    yield "empty words 16383", b"", 16383
    # 1 to 5
    yield "no bytes", b"", 16384
    yield "39 bytes", good[:39], 16384
    yield "40 zeros", bytes(40), 16384
    yield "magic", b"\xd0\x0d\xfe\xee" + good[4:], 16384
    yield "magic swapped", b"\xed\xfe\x0d\xd0" + good[4:], 16384
    yield "total 39", tree(total=39), 16384
    yield "total 40", tree(total=40), 16384
    yield "total one over", tree(d_total=1), 16384
    yield "total one under", tree(d_total=-1), 16384
    yield "total 2^32-1", tree(total=0xFFFFFFFF), 16384
    yield "bytes behind", good + b"\xff" * 9, 16384
    big = blob(ROOT + END_NODE + END, bytes((1 << 20) - 72))
    yield "ceiling", big, 16384
    yield "ceiling and one", blob(ROOT + END_NODE + END, bytes((1 << 20) - 71)), 16384
    yield "version 16", tree(version=16), 16384
    yield "version 18", tree(version=18), 16384
    yield "compatible 17", tree(compatible=17), 16384
    yield "reservations 32", tree(off_rsv=32), 16384
    yield "reservations 44", tree(off_rsv=44), 16384
    yield "reservations 48", tree(off_rsv=48), 16384
    yield "reservations 2^32-8", tree(off_rsv=0xFFFFFFF8), 16384
    yield "reservation of one", blob(ROOT + END_NODE + END, reservations=bytes(8) + b"\0" * 7 + b"\1"), 16384
    yield "forty reservations", blob(ROOT + END_NODE + END, reservations=b"\1" * 640), 16384
    yield "zero pair cut", tree(d_off_struct=-8), 16384
    unclosed = bytearray(tree())
    unclosed[47] = 1
    yield "no zero pair", bytes(unclosed), 16384
    yield "structure off by 2", tree(d_off_struct=2), 16384
    yield "structure size off by 2", tree(d_size_struct=-2), 16384
    yield "structure into strings", tree(d_off_strings=-1), 16384
    yield "strings past total", tree(d_size_strings=1), 16384
    yield "strings size 2^32-1", tree(size_strings=0xFFFFFFFF), 16384
    yield "structure size 2^32-4", tree(size_struct=0xFFFFFFFC), 16384
    yield "structure 2^32-4", tree(off_struct=0xFFFFFFFC), 16384
    yield "strings 2^32-1", tree(off_strings=0xFFFFFFFF), 16384
    yield "gaps", blob(ROOT + prop(P) + END_NODE + END, S, gap=b"\xee" * 16), 16384
    yield "strings at total", blob(ROOT + END_NODE + END), 16384
    # 6
    yield "structure of none", blob(b""), 16384
    yield "END alone", blob(END), 16384
    yield "NOP alone", blob(NOP), 16384
    yield "no END", blob(ROOT + END_NODE), 16384
    yield "no END, a NOP", blob(ROOT + END_NODE + NOP), 16384
    yield "unclosed", blob(ROOT + END), 16384
    yield "unclosed, no END", blob(ROOT), 16384
    yield "closed twice", blob(ROOT + END_NODE + END_NODE + END), 16384
    yield "END twice", blob(ROOT + END_NODE + END + END), 16384
    yield "END then NOP", blob(ROOT + END_NODE + END + NOP), 16384
    yield "END in a node", blob(ROOT + begin(b"a") + END + END_NODE + END_NODE + END), 16384
    yield "two roots", blob(ROOT + END_NODE + ROOT + END_NODE + END), 16384
    yield "second root named", blob(ROOT + END_NODE + begin(b"a/b") + END_NODE + END), 16384
    yield "END_NODE first", blob(END_NODE + END), 16384
    yield "token 0", blob(ROOT + w(0) + END_NODE + END), 16384
    yield "token 5", blob(ROOT + w(5) + END_NODE + END), 16384
    yield "token 2^24", blob(ROOT + w(1 << 24) + END_NODE + END), 16384
    yield "NOPs", blob(NOP + NOP + ROOT + NOP + prop(P, b"abc") + NOP + prop(CELLS, w(1)) + node(b"a", NOP) + NOP + node(b"b") + NOP + END_NODE + NOP + END, S), 16384
    yield "PROP first", blob(prop(P) + ROOT + END_NODE + END, S), 16384
    yield "PROP last", blob(ROOT + END_NODE + prop(99) + END, S), 16384
    yield "PROP after a child", tree(node(b"a"), prop(P)), 16384
    yield "PROP after a child, bad name", tree(node(b"a"), prop(99)), 16384
    yield "PROP without length", blob(ROOT + w(3), S), 16384
    yield "PROP without offset", blob(ROOT + w(3, 0), S), 16384
    yield "PROP one short", blob(ROOT + w(3, 5, 0, 0), S), 16384
    yield "PROP 2^32-1", blob(ROOT + w(3, 0xFFFFFFFF, 0) + END_NODE + END, S), 16384
    yield "PROP 2^32-3", blob(ROOT + w(3, 0xFFFFFFFD, 99) + END_NODE + END, S), 16384
    yield "name without NUL", blob(ROOT + w(1) + b"abcd", S), 16384
    yield "name to the end", blob(ROOT + w(1) + b"abc\0", S), 16384
    # 7
    yield "root named", blob(begin(b"a") + END_NODE + END), 16384
    yield "child unnamed", tree(node(b"")), 16384
    for name in (b"a/b", b"@1", b"a@b@c", b"a ", b"a\xc3\xa4", b"a#b", b"a?", b"\x7f"):
        yield "node name " + repr(name)[2:-1], tree(node(name)), 16384
    for name in (b"a@", b"1a", b".", b"..", b"a,b.c_d+e-f@A0,b"):
        yield "node name " + repr(name)[2:-1], tree(node(name)), 16384
    for n in (31, 32):
        yield "node name of %d" % n, tree(node(b"n" * n)), 16384
        yield "node name of %d and unit" % n, tree(node(b"n" * n + b"@" + b"1" * 300)), 16384
        yield "property name of %d" % n, tree(prop(0), strings=b"p" * n + b"\0"), 16384
    for name in (b"a@b", b"a/b", b"a b", b"\x80", b""):
        yield "property name " + repr(name)[2:-1], tree(prop(0), strings=name + b"\0"), 16384
    for name in (b"#a", b"a?", b"0", b"a,b.c_d+e-f"):
        yield "property name " + repr(name)[2:-1], tree(prop(0), strings=name + b"\0"), 16384
    yield "offset at the end", tree(prop(len(S))), 16384
    yield "offset one before", tree(prop(len(S) - 1)), 16384
    yield "offset two before", tree(prop(len(S) - 2)), 16384
    yield "offset 2^32-1", tree(prop(0xFFFFFFFF)), 16384
    yield "offset in a name", tree(prop(LINUX + 6, w(5))), 16384
    yield "name unclosed", tree(prop(0), strings=b"abc"), 16384
    yield "name closed behind the block", tree(prop(0), strings=b"abc\0", d_size_strings=-1), 16384
    yield "no strings", tree(prop(0), strings=b""), 16384
    # 8 and 9
    for n in (63, 64):
        yield "open %d" % (n + 1), blob(ROOT + begin(b"a") * n + END_NODE * (n + 1) + END), 16384
    yield "open 65, bad name", blob(ROOT + begin(b"a") * 63 + begin(b"/") + END_NODE * 65 + END), 16384
    many = [node(b"n%d" % i) for i in range(2048)]
    yield "nodes 2048", tree(*many[:2047]), 16384
    yield "nodes 2049", tree(*many), 16384
    yield "nodes 2049, in pairs", tree(*[node(b"n%d" % i, node(b"a")) for i in range(1024)]), 16384
    yield "nodes 2049, bad name", tree(*(many[:2047] + [node(b"/")])), 16384
    deep = blob(ROOT + b"".join(many[:1984]) + begin(b"a") * 64 + END_NODE * 65 + END)
    yield "open 65 and nodes 2049", deep, 16384
    # 10
    yield "siblings", tree(node(b"a"), node(b"b"), node(b"a")), 16384
    yield "siblings apart", tree(node(b"a", node(b"x")), node(b"b", node(b"x"))), 16384
    yield "siblings below", tree(node(b"a", node(b"x"), node(b"y"), node(b"x"))), 16384
    yield "siblings with unit", tree(node(b"a"), node(b"a@"), node(b"a@1"), node(b"a@10")), 16384
    yield "properties", tree(prop(P), prop(CELLS, w(1)), prop(P)), 16384
    yield "properties at two offsets", tree(prop(PHANDLE, w(1)), prop(LINUX + 6, w(1))), 16384
    yield "earliest of both", tree(node(b"a"), node(b"b", prop(P), prop(P)), node(b"a")), 16384
    yield "earliest sibling", tree(node(b"a"), node(b"a"), node(b"b", prop(P), prop(P))), 16384
    yield "6 before 10", tree(node(b"a"), node(b"a"), w(5)), 16384
    yield "last of many", tree(*(many[:2000] + [node(b"n0")])), 16384
    # 11 and 12
    for name, offset in (("cells", CELLS), ("phandle", PHANDLE), ("linux,phandle", LINUX)):
        for n in (0, 3, 4, 5, 8):
            yield "%s of %d" % (name, n), tree(node(b"a", prop(offset, b"\1" * n))), 16384
    for name in reading.CELLS:
        yield name.decode() + " of 3", tree(prop(0, b"abc"), strings=name + b"\0"), 16384
    for name in (b"#foo-cells", b"#clock-cell", b"clock-cells", b"#clock-cells2", b"phandles", b"linux,phandl"):
        yield name.decode() + " of 3", tree(prop(0, b"abc"), strings=name + b"\0"), 16384
    yield "phandles agree", tree(prop(PHANDLE, w(1)), prop(LINUX, w(1))), 16384
    yield "phandles disagree", tree(prop(PHANDLE, w(1)), prop(LINUX, w(2))), 16384
    yield "phandles disagree, other order", tree(node(b"a", prop(LINUX, w(1)), prop(P), prop(PHANDLE, w(2)))), 16384
    yield "phandles shared", tree(node(b"a", prop(PHANDLE, w(1))), node(b"b", prop(P), prop(LINUX, w(1)), prop(PHANDLE, w(1)))), 16384
    yield "phandles 0", tree(prop(PHANDLE, w(0)), node(b"b", prop(PHANDLE, w(0)))), 16384
    yield "phandles 2^32-1", tree(prop(PHANDLE, w(-1)), node(b"b", prop(PHANDLE, w(0)))), 16384
    yield "10 before 11", tree(node(b"a", prop(PHANDLE, b"")), node(b"a")), 16384
    yield "11 before 12", tree(node(b"a", prop(PHANDLE, w(1))), node(b"b", prop(PHANDLE, w(1))), node(b"c", prop(CELLS))), 16384
    # what others made
    for name in sorted(os.listdir("trees")):
        if name.endswith(".dtb"):
            path = os.path.join("trees", name)
            with open(path, "rb") as f:
                data = f.read()
            listing = subprocess.run(["dtc", "-q", "-I", "dtb", "-O", "dts", path], check=True, stdout=subprocess.PIPE, text=True).stdout
            count = len(re.findall(r"\{\s*$", listing, re.M))
            kind, number, _ = reading.read(data)
            assert (kind, number) == ("nodes", count), (name, kind, number, count)
            yield name, data, 16384
            # a byte changed here and there
            for k in range(3):
                at = (len(data) * (2 * k + 1)) // 6
                yield "%s with byte %d changed" % (name, at), data[:at] + bytes([data[at] ^ (1 << k)]) + data[at + 1:], 16384


def digest(words):
    h = 0
    for v in words:
        h = (h * 16777619 + v + 1) % (1 << 32)
    return h


def main():
    given, wanted = b"", []
    for label, data, words in cases():
        text = label.encode()
        kept = data.rstrip(b"\0")
        given += w(len(text), len(kept), len(data) - len(kept), words) + text + kept
        kind, number, rest = reading.read(data, words)
        if words < 16384:
            work = [FILL] * words
        else:
            table = rest if kind == "nodes" else []
            work = table + [0] * (16384 - len(table)) + [FILL] * (words - 16384)
        says = "nodes %d" % number if kind == "nodes" else "refused %d at %d" % (number, rest)
        wanted.append("%s: %s, work %08x\n" % (label, says, digest(work)))
    folder = os.path.join("crates", "reader_cases")
    with open(os.path.join(folder, "stdin"), "wb") as f:
        f.write(given)
    with open(os.path.join(folder, "stdout"), "w") as f:
        f.write("".join(wanted))
    print(len(wanted), "cases,", len(given), "bytes")


if __name__ == "__main__":
    main()
