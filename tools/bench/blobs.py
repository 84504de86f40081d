#!/usr/bin/env python3
"""blobs.py DIR: writes the blobs that the benchmark reads: a host of 900 nodes and some 60 KB, and the worst that a hostile maker can
send within the ceilings of document 01. For the derivation: hosts as a board has them, and hostile ones, each with its request beside
it, NAME.asked, in the lines that the command program takes."""
import os, random, struct, sys
sys.path.insert(0, os.path.join(os.path.dirname(os.path.abspath(__file__)), ".."))
import board
from reader_cases import blob, begin, prop, w, END, END_NODE, ROOT

CEILING, PROGRAM = 1 << 20, 1 << 16


class Strings:
    def __init__(self):
        self.bytes, self.at = b"", {}

    def __call__(self, name):
        if name not in self.at:
            self.at[name] = len(self.bytes)
            self.bytes += name + b"\0"
        return self.at[name]


def host():
    rng, names, out, count = random.Random(900), Strings(), [ROOT], 1
    plain = [b"compatible", b"reg", b"status", b"interrupts", b"clock-names", b"label"]
    phandle = 0
    for bus in range(25):
        out.append(begin(b"bus@%x" % (bus << 20)))
        out.append(prop(names(b"#address-cells"), w(1)) + prop(names(b"#size-cells"), w(1)))
        count += 1
        for dev in range(35 if bus < 24 else 34):
            out.append(begin(b"%s@%x" % (rng.choice([b"uart", b"spi", b"i2c", b"dma", b"gpio", b"ethernet"]), dev << 12)))
            count += 1
            for name in rng.sample(plain, 1 + rng.randrange(2)):
                out.append(prop(names(name), bytes(rng.randrange(1, 20))))
            if rng.random() < 0.4:
                phandle += 1
                out.append(prop(names(b"phandle"), w(phandle)) + prop(names(b"#clock-cells"), w(1)))
            if phandle and rng.random() < 0.3:
                out.append(prop(names(b"clocks"), w(rng.randrange(1, phandle + 1), 0)))
            out.append(END_NODE)
        out.append(END_NODE)
    out += [END_NODE, END]
    assert count == 900, count
    return blob(b"".join(out), names.bytes)


def name_of(i, n):
    digits = b"0123456789abcdefghijklmnopqrstuvwxyzABCDEFGHIJKLMNOPQRSTUVWXYZ"
    out = b""
    for _ in range(n):
        out = digits[i % 62:i % 62 + 1] + out
        i //= 62
    return out


def many_properties(ceiling=CEILING):
    """One node with as many properties as fit. Names share their bytes: of a string of 31 characters each ending is a name too."""
    offsets, strings, seen, i = [], b"", set(), 0
    while True:
        name = name_of(i, 4) + b"-" * 23 + name_of(i, 4)
        base = len(strings)
        fresh = [k for k in range(len(name)) if name[k:] not in seen]
        if 56 + 8 + 12 * (len(offsets) + len(fresh)) + 8 + len(strings) + 32 > ceiling:
            break
        seen.update(name[k:] for k in fresh)
        offsets += [base + k for k in fresh]
        strings += name + b"\0"
        i += 1
    return blob(ROOT + b"".join(prop(o) for o in offsets) + END_NODE + END, strings), len(offsets)


def one_name_each(ceiling=CEILING):
    """As many properties as fit, each with a string of its own, alike but in the last bytes."""
    n = (ceiling - 72) // (12 + 32)
    names = [b"a-property-with-common-name" + name_of(i, 4) for i in range(n)]
    offsets, at = [], 0
    for name in names:
        offsets.append(at)
        at += len(name) + 1
    return blob(ROOT + b"".join(prop(o) for o in offsets) + END_NODE + END, b"".join(x + b"\0" for x in names)), n


def siblings():
    """2,047 siblings whose names are alike but in the last bytes, as long as fit."""
    size = (CEILING - 72) // 2047 - 12
    return blob(ROOT + b"".join(begin(b"node@" + b"0" * (size - 9) + b"%04d" % i) + END_NODE for i in range(2047)) + END_NODE + END)


def phandles():
    names = b"phandle\0"
    return blob(ROOT + b"".join(begin(b"n%d" % i) + prop(0, w(i)) + END_NODE for i in range(2047)) + END_NODE + END, names)


def references(n):
    """n nodes with a phandle each, each of which references the last ones: all n, or as many as fit."""
    each = min(n, (CEILING - 200 - n * 44) // (4 * n))
    value = w(*range(n, n - each, -1))
    body = b"".join(begin(b"n%04d" % i) + prop(0, w(i)) + prop(8, value) + END_NODE for i in range(1, n + 1))
    return blob(ROOT + body + END_NODE + END, b"phandle\0iommus\0"), each


def cells(ceiling=CEILING):
    """A node with many properties and no `#clock-cells`, and a node with many references that ask it for them."""
    offsets, strings, half = [], b"phandle\0clocks\0", ceiling // 24
    for i in range(half // 28 + 1):
        name = name_of(i, 4) + b"-" * 23 + name_of(i, 4)
        offsets += [len(strings) + k for k in range(28)]
        strings += name + b"\0"
    many = begin(b"a") + prop(0, w(1)) + b"".join(prop(o) for o in offsets[:half]) + END_NODE
    count = (ceiling - 200 - len(many) - len(strings)) // 4
    return blob(ROOT + many + begin(b"b") + prop(8, w(*[1] * count)) + END_NODE + END_NODE + END, strings), half, count


def asked():
    """Hosts with their requests."""
    for nodes, each in ((900, 4), (2048, 64)):
        root = board.board(nodes)
        yield "board-%d" % nodes, board.packed(root), board.request(root, each)
    for n in (500, 2047):
        data, each = references(n)
        yield "references-%d-of-%d" % (n, each), data, ["c /"]
    for ceiling, size in ((PROGRAM, "64k"), (CEILING, "1m")):
        data, properties, count = cells(ceiling)
        yield "cells-%d-by-%d-%s" % (count, properties, size), data, ["c /b", "x /a"]
        data, count = one_name_each(ceiling)
        yield "own-names-%d-%s" % (count, size), data, []
        data, count = many_properties(ceiling)
        yield "many-names-%d-%s" % (count, size), data, []


def main():
    folder = sys.argv[1]
    os.makedirs(folder, exist_ok=True)
    props, count = many_properties()
    own, n = one_name_each()
    hosts = list(asked())
    for name, _, lines in hosts:
        with open(os.path.join(folder, name + ".asked"), "w") as f:
            f.write("".join(line + "\n" for line in lines))
    for name, data in [("host-900", host()), ("properties-%d" % count, props), ("properties-%d-own-names" % n, own),
                       ("siblings-2047", siblings()), ("phandles-2047", phandles())] + [h[:2] for h in hosts]:
        assert len(data) <= CEILING, (name, len(data))
        with open(os.path.join(folder, name + ".dtb"), "wb") as f:
            f.write(data)
        print(name, len(data), "bytes")


if __name__ == "__main__":
    main()
