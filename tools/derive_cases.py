#!/usr/bin/env python3
"""derive_cases.py: makes crates/derive_cases/stdin and stdout, the cases that the program runs the derivation on and the lines that
it must print. What is expected comes from deriving.py, an independent reading of document 01. Run from the root of the repository
after trees.py.

A case with runs says which bytes of the host to change: its spans are the withheld values (so deriving.py finds them), and no run
may differ; a control's spans are values that are not withheld, and its runs must differ."""
import os, random, struct, sys
sys.path.insert(0, os.path.dirname(os.path.abspath(__file__)))
import deriving, reading

FILL, FILL_BYTE, ALL = 0xA5A5A5A5, 0xA5, 0xFFFFFFFF


def w(*values):
    return b"".join(struct.pack(">I", v & 0xFFFFFFFF) for v in values)


def padded(b):
    return b + bytes(-len(b) % 4)


def node(name, props=(), *children):
    return name, list(props), children


def structure(tree, names):
    name, props, children = tree
    out = w(1) + padded(name + b"\0")
    for p, value in props:
        if p + b"\0" not in names:
            names.append(p + b"\0")
        out += w(3, len(value), sum(map(len, names[:names.index(p + b"\0")]))) + padded(value)
    return out + b"".join(structure(c, names) for c in children) + w(2)


def blob_of(block, strings, **fields):
    h = dict(magic=0xD00DFEED, total=56 + len(block) + len(strings), off_struct=56, off_strings=56 + len(block), off_rsv=40, version=17,
             compatible=16, boot=3, size_strings=len(strings), size_struct=len(block))
    h.update(fields)
    return w(*h.values()) + bytes(16) + block + strings


def blob(*children, props=(), **fields):
    names = []
    block = structure(node(b"", props, *children), names) + w(9)
    return blob_of(block, b"".join(names), **fields)


def closed(*paths):
    return b"".join(p + b"\0" for p in paths)


PH = b"phandle"


def handle(n):
    return (PH, w(n))


def bench(*props):
    return blob(node(b"clk", [handle(1), (b"#clock-cells", w(1))]), node(b"pd", [handle(2)]),
                node(b"soc", [], node(b"uart@100", props), node(b"dma@200", [handle(3)])))


T = bench((b"clocks", w(1, 5)), (b"power-domains", w(2)))
UART = b"/soc/uart@100"


class Case:
    def __init__(self, label, host, c=(), x=(), i=(), words=16384, list=512, guest=4096, spans=(), runs=()):
        self.label, self.host, self.ids = label, host, [n for n in i]
        self.configured = c if isinstance(c, bytes) else closed(*c)
        self.excluded = x if isinstance(x, bytes) else closed(*x)
        self.words, self.list, self.guest, self.spans, self.runs = words, list, guest, spans, runs

    def derived(self, host):
        return deriving.derive(host, self.configured, self.excluded, self.ids, self.words, self.list, self.guest)

    def given(self):
        label, at, n = self.label.encode(), *longest_zeros(self.host)
        spans, runs = b"".join(w(*s) for s in self.spans), b"".join(w(*r) for r in self.runs)
        front, rest = self.host[:at], self.host[at + n:]
        case = (w(len(label), len(front), n, len(rest), len(self.configured), len(self.excluded), len(self.ids), self.words, self.list,
                  self.guest, len(spans), len(runs))
                + label + front + rest + self.configured + self.excluded + b"".join(struct.pack(">Q", n) for n in self.ids) + spans + runs)
        assert len(case) + n <= 1048640 + 66000 and len(self.ids) <= 66 and self.list <= 66000
        assert not runs or len(case) + n <= 66000 and self.list + self.guest <= 66000
        return case

    def wanted(self):
        answer = self.derived(self.host)
        if answer[0] == "derived":
            _, count, text, guest = answer
            says = "paths %d list %d guest %d" % (count, len(text), len(guest))
        else:
            text = guest = b""
            says = "refused %d at %d" % answer[1:]
        lists = text + bytes([FILL_BYTE]) * (self.list - len(text))
        guests = guest + bytes([FILL_BYTE]) * (self.guest - len(guest))
        line = "%s: %s, left %08x %08x %s" % (self.label, says, digest(lists), digest(guests), digest_work(self.words))
        if self.runs:
            differ = sum(self.derived(changed(self.host, self.spans, run)) != answer for run in self.runs)
            assert (differ > 0) == self.label.startswith("control"), line
            line += ", bytes %d runs %d differ %d" % (sum(n for _, n in self.spans), len(self.runs), differ)
        return line + "\n"


def longest_zeros(host):
    """The place and length of a long run of zeros, which the script need not hold."""
    at = host.find(bytes(4096))
    if at < 0:
        return len(host), 0
    return at, len(host) - at - len(host[at:].lstrip(b"\0"))


def digest(values):
    h = 0
    for v in values:
        h = (h * 16777619 + v + 1) % (1 << 32)
    return h


WORK = {}


def digest_work(words):
    if words not in WORK:
        zero = 16384 if words >= 16384 else 0
        WORK[words] = "%08x" % digest([0] * zero + [FILL] * (words - zero))
    return WORK[words]


def changed(host, spans, run):
    place, how = run
    out = bytearray(host)
    for at in ([place] if place != ALL else [p for s, n in spans for p in range(s, s + n)]):
        out[at] = (0, 255, host[at] ^ 0x55)[how]
    return bytes(out)


# ---- the papers' own trees


def bench_cases():
    yield Case("T", T, [UART])
    yield Case("T excluding /clk", T, [UART], [b"/clk"])
    for words in ((1,), (1, 5), (1, 2, 2), (9, 1, 5)):
        yield Case("clocks " + " ".join(map(str, words)), bench((b"clocks", w(*words))), [UART])
    yield Case("power-domains 1", bench((b"power-domains", w(1))), [UART])
    yield Case("nothing configured", T)
    yield Case("nothing configured, empty tree", blob())
    yield Case("nothing configured, root with properties", blob(node(b"a"), props=[(b"model", b"x\0"), (b"clocks", w(1))]))
    yield Case("T, the root configured", T, [b"/"])
    yield Case("T, /soc configured", T, [b"/soc"])
    yield Case("T, all configured backwards", T, [b"/soc/dma@200", UART, b"/soc", b"/pd", b"/clk", b"/"])
    for words in (16385, 16400):
        yield Case("T words %d" % words, T, [UART], words=words)


# ---- refusals 40 to 46, and their order

CPU = node(b"cpus", [(b"#address-cells", w(1))], node(b"cpu@0", [(b"reg", w(0))]), node(b"cpu@1", [(b"reg", w(1))], node(b"l2")))
BAD_CPU = node(b"cpus", [], node(b"cpu@0", [(b"reg", w(0))]), node(b"cpu@1", [(b"reg", w(0, 0, 1))]), node(b"cpu@2"))


def refusals():
    for words in (0, 1, 16383):
        yield Case("40: words %d" % words, T, [UART], words=words)
    yield Case("40 before 1", b"", b"x", words=16383)
    bad = dict(c=b"x", x=b"y", i=[0] * 65)
    yield Case("1 before 41", T[:39], **bad)
    yield Case("2 before 41", b"\0" + T[1:], **bad)
    yield Case("3 before 41", T[:-1], **bad)
    yield Case("4 before 41", blob(version=16), **bad)
    yield Case("5 before 41", blob(off_rsv=44), **bad)
    yield Case("6 before 41", blob_of(w(1, 0, 2), b""), **bad)
    yield Case("7 before 41", blob(node(b"a/b")), **bad)
    deep = node(b"a")
    for _ in range(63):
        deep = node(b"a", [], deep)
    yield Case("8 before 41", blob(deep), **bad)
    yield Case("10 before 41", blob(node(b"a"), node(b"a")), **bad)
    yield Case("11 before 41", blob(node(b"a", [(PH, b"abc")])), **bad)
    yield Case("12 before 41", blob(node(b"a", [handle(1)]), node(b"b", [handle(1)])), **bad)
    # 41
    some = [b"/n%d" % k for k in range(66)]
    many = blob(*[node(p[1:]) for p in some])
    yield Case("41: a path without NUL", T, b"/soc")
    yield Case("41: a second path without NUL", T, closed(b"/soc") + b"/pd")
    yield Case("41: an empty path", T, [b"/soc", b""])
    yield Case("41: a lone NUL", T, b"\0")
    yield Case("41: no slash", T, [UART, b"soc", b"pd"])
    yield Case("41: no slash in an exclusion", T, [UART], [b"/clk", b"soc"])
    yield Case("41: configured before excluded", T, [UART, b"soc"], [b"soc"])
    yield Case("41: excluded before ids", T, [UART], [b"/clk", b"soc"], [0] * 65)
    yield Case("41: ids before 42", T, [b"/none"], [], [0] * 65)
    yield Case("41: exclusion before 42", T, [b"/none"], [b"/clk", b"/pd", b"x"])
    yield Case("41: 65 ids, with cpus", blob(CPU), [], [], [0, 1] * 32 + [0])
    yield Case("64 ids", blob(CPU), [], [], [0, 1] * 32)
    yield Case("64 configured", many, some[:64])
    yield Case("41: 65 configured", many, some[:65])
    yield Case("41: 66 configured", many, some)
    yield Case("41: 65 configured, the third at fault", many, some[:2] + [b"x"] + some[2:64])
    yield Case("41: 64 configured and a piece without NUL", many, closed(*some[:64]) + b"/")
    yield Case("41: 65 before 42", many, [some[0]] * 65)
    yield Case("64 excluded", many, [b"/n65"], some[:64])
    yield Case("41: 65 excluded", many, [b"/n65"], some[:65])
    yield Case("41: 65 exclusions of one node", many, [b"/n65"], [b"/n0"] * 65)
    yield Case("64 exclusions of one node", many, [b"/"], [b"/n0"] * 64)
    long = blob(node(b"n@" + b"a" * 1021, [], node(b"child")), node(b"m@" + b"a" * 1022))
    at = b"/n@" + b"a" * 1021, b"/m@" + b"a" * 1022
    yield Case("a path of 1024", long, [at[0]], list=4096)
    yield Case("a path of 1024 excluded", long, [b"/"], [at[0]], list=4096)
    yield Case("41: a path of 1025", long, [at[1]], list=4096)
    yield Case("41: a path of 1025 excluded", long, [at[0]], [b"/x", at[1]], list=4096)
    yield Case("41: a path of 1025, no node", T, [b"/" + b"a" * 1024])
    yield Case("42: a path of 1024, no node", T, [UART, b"/" + b"a" * 1023])
    yield Case("a path of 1025 answered", long, [b"/"], list=4096)
    # 42
    for path in (b"/none", b"/soc/", b"//soc", b"/soc/uart", b"/soc/uart@1000", b"/so", b"/soc2", b"/uart@100", b"/soc/uart@100/x", b"/ ", b"//"):
        yield Case("42: " + path.decode(), T, [UART, path])
    yield Case("42: a repeat", T, [UART, b"/pd", UART, b"/none"])
    yield Case("42: a repeated root", T, [b"/", b"/"])
    yield Case("42: the first of two", T, [UART, b"/none", UART])
    yield Case("42 before 43", blob(BAD_CPU), [b"/none"], [], [7])
    yield Case("42 before 45", T, [UART, b"/x"], list=0, guest=0)
    # 43 and 44
    yield Case("43: 12 bytes, before a missing one", blob(BAD_CPU), [], [], [0])
    yield Case("43 before 44", blob(BAD_CPU), [], [], [9])
    yield Case("43 before 45", blob(BAD_CPU, node(b"a")), [b"/a"], [], [0], list=0, guest=0)
    yield Case("a reg of 12 bytes, no ids", blob(BAD_CPU), [b"/cpus"])
    for n in (0, 1, 3, 4, 5, 7, 8, 9, 12, 16):
        cpus = node(b"cpus", [], node(b"cpu@0", [(b"reg", bytes(n))]))
        yield Case("reg of %d bytes" % n, blob(cpus), [], [], [0])
        yield Case("reg of %d bytes, no ids" % n, blob(cpus))
    yield Case("43: a cpu met by no id", blob(node(b"cpus", [], node(b"cpu@0", [(b"reg", w(0))]), node(b"cpu@1", [(b"reg", b"")]))), [], [], [0])
    yield Case("43: plain cpu without reg", blob(node(b"cpus", [], node(b"cpu-map"), node(b"cpu"))), [], [], [0])
    yield Case("44: no /cpus", T, [UART], [], [0])
    yield Case("44: /cpus without children", blob(node(b"cpus")), [], [], [5])
    yield Case("44: the first of two", blob(CPU), [], [], [1, 7, 8])
    yield Case("44: high bits count", blob(CPU), [], [], [0, 1 << 32])
    yield Case("44 before 45", blob(CPU), [b"/cpus"], [], [9], list=0, guest=0)
    # 45 and 46
    need = len(closed(UART, b"/clk", b"/pd"))
    yield Case("list room full", T, [UART], list=need)
    yield Case("45: list room one short", T, [UART], list=need - 1)
    yield Case("45: no list room", T, [UART], list=0)
    yield Case("45 before 46", T, [UART], list=need - 1, guest=0)
    yield Case("guest room full", T, [UART], guest=254)
    yield Case("46: guest room one short", T, [UART], guest=253)
    yield Case("46: no guest room", T, [UART], guest=0)
    yield Case("both rooms full", T, [UART], list=need, guest=254)
    yield Case("no list room, nothing listed", T, [UART], [b"/"], list=0, guest=72)
    yield Case("46: root alone, one short", T, [UART], [b"/"], list=0, guest=71)
    # a guest at the ceiling and one past it, whose names the host shares: the names are written out, so it is the longer one
    for over, count in ((0, 8), (1, 3)):
        def big(n):
            props = [w(3, n, 0) + padded(bytes(n))] + [w(3, 0, k) for k in range(1, count)]
            return blob_of(w(1, 0) + b"".join(props) + w(2, 9), b"p" * 31 + b"\0")
        host = big((1 << 20) + over - len(deriving.derive(big(0))[3]))
        for room in ((1 << 20) - 1, 1 << 20, (1 << 20) + 64):
            yield Case("guest of ceiling + %d, room %d" % (over, room), host, list=0, guest=room)


# ---- names, references, exclusions, the CPU rule


def orders():
    around = [b"a0", b"a-b", b"a", b"a.b", b"a+b", b"a,b", b"aa", b"A", b"a@", b"a_"]
    inside = [node(n, [], node(b"b", [], node(b"c")), node(b"-")) for n in around]
    t = blob(node(b"s", [], *inside), *inside)
    yield Case("around the slash, /", t, [b"/"], list=4096)
    yield Case("around the slash, /s", t, [b"/s"], list=4096)
    yield Case("around the slash, /a and /s/a", t, [b"/s/a", b"/a"], list=4096)
    yield Case("new nodes below each", t, [b"/s/a/b", b"/s", b"/a/b/c", b"/a"], list=4096)
    rng = random.Random(6)
    most = [node(b"%x" % k) for k in rng.sample(range(4096), 2047)]
    yield Case("2048 nodes, the root configured", blob(*most), [b"/"], [b"/" + most[9][0]], list=16384, guest=32768)
    yield Case("soc2 beside soc", blob(node(b"soc", [], node(b"a")), node(b"soc2", [], node(b"b")), node(b"soc-x", [], node(b"c"))), [b"/soc"])
    yield Case("soc2 beside an excluded soc", blob(node(b"soc", [], node(b"a")), node(b"soc2", [], node(b"b"))), [b"/"], [b"/soc"])
    # references from all of a start's nodes, in an order that only a stack gives
    f = [node(b"f%d" % k, [handle(k), (b"regmap", w(*to))]) for k, to in ((1, (2, 3)), (2, (4, 5)), (3, (6,)), (4, ()), (5, (1,)), (6, (2, 7)), (7, ()))]
    yield Case("last found first taken", blob(*f), [b"/f1"])
    yield Case("from two starts", blob(*f), [b"/f4", b"/f3"])
    yield Case("starts descending", blob(*f, node(b"a", [(b"clocks", w(1))]), node(b"b", [(b"clocks", w(2))])), [b"/a", b"/b"])
    slash = blob(node(b"a", [(b"clocks", w(1))], node(b"b", [(b"clocks", w(2))])), node(b"a-b", [(b"clocks", w(3))]), node(b"a0", [(b"clocks", w(4))]),
                 *[node(b"d%d" % k, [handle(k)]) for k in (1, 2, 3, 4)])
    yield Case("starts around the slash", slash, [b"/a", b"/a0", b"/a-b"])
    twice = blob(node(b"a", [(b"clocks", w(1, 2))]), node(b"d1", [handle(1)]), node(b"d2", [handle(2), (b"clocks", w(3, 1))]), node(b"d3", [handle(3)]))
    yield Case("noted when found", twice, [b"/a"])
    yield Case("a start is no dependency", blob(*f), [b"/f6", b"/f2"])
    yield Case("a cycle", blob(node(b"a", [handle(1), (b"clocks", w(2))]), node(b"b", [handle(2), (b"clocks", w(1))])), [b"/a"])
    yield Case("self reference", blob(node(b"a", [handle(1), (b"clocks", w(1))])), [b"/a"])
    yield Case("the root as target", blob(node(b"a", [(b"clocks", w(9))]), node(b"b", [handle(3)]), props=[handle(9), (b"resets", w(3))]), [b"/a"])
    yield Case("property and word order", blob(node(b"a", [(b"resets", w(3, 2)), (b"clocks", w(1, 3))]), *[node(b"t%d" % k, [handle(k)]) for k in (1, 2, 3)]), [b"/a"])
    below = blob(node(b"a", [(b"clocks", w(1))]), node(b"x", [], node(b"y", [handle(1), (b"clocks", w(2))], node(b"z"))), node(b"d", [handle(2)], node(b"e", [(b"clocks", w(3))])), node(b"f", [handle(3)]))
    yield Case("a dependency with nodes around", below, [b"/a"])
    yield Case("a dependency below an exclusion", below, [b"/a"], [b"/x"])
    yield Case("a dependency excluded", below, [b"/a"], [b"/x/y"])
    yield Case("excluded below a dependency", below, [b"/a"], [b"/x/y/z", b"/d/e"])
    yield Case("a configured node excluded", below, [b"/a"], [b"/a"])
    yield Case("the root excluded", below, [b"/a"], [b"/"])
    yield Case("exclusions that name no node", below, [b"/a"], [b"/none", b"/x/", b"/d/e/f"])
    yield Case("exclusions repeated", below, [b"/a"], [b"/x", b"/x/y", b"/x"])
    yield Case("an exclusion below a configured node", below, [b"/x"], [b"/x/y"])
    yield Case("configured below an exclusion", below, [b"/x/y/z", b"/d"], [b"/x"])
    yield Case("an excluded ancestor of a dependency", below, [b"/f", b"/a"], [b"/d"])
    # phandles of the other name, and at the bounds
    yield Case("linux,phandle", blob(node(b"a", [(b"clocks", w(7))]), node(b"b", [(b"linux,phandle", w(7))])), [b"/a"])
    yield Case("phandles 0 and 2^32-1", blob(node(b"a", [(b"clocks", w(0, -1))]), node(b"b", [handle(0)]), node(b"c", [handle(-1)])), [b"/a"])
    for n in (0, 1, 3, 5, 6, 7):
        yield Case("a value of %d bytes" % n, blob(node(b"a", [(b"clocks", w(1, 1)[:n])]), node(b"b", [handle(1)])), [b"/a"])
    # the bound i + c < n
    for c in (0, 1, 2, 3, 4, 5, 1 << 31, (1 << 32) - 2, (1 << 32) - 1):
        t = blob(node(b"a", [(b"clocks", w(8, 1, 2, 2, 2))]), node(b"b", [handle(1), (b"#clock-cells", w(c))]), node(b"d", [handle(2)]))
        yield Case("i 1, n 5, c %d" % c, t, [b"/a"])


NEAR = b"""pwms interrupts interrupts-extended clock clocksx power-domain phy resets, dma gpio gpios -gpio -gpios x-gpio x-gpios
    x-gpiosx supply -supply vdd-supply vdd-supply2 cells #cells x-cells xcellsx #x-cells x#cells cell pinctrl-5 pinctrl-10 cells-gpios
    nvmem-cell-names interrupt-map""".split()


def names():
    cells = [(n, w(k + 1)) for k, n in enumerate(reading.CELLS)]
    targets = [node(b"t%d" % k, [handle(k)] + (cells if k == 1 else [])) for k in range(1, 18)]
    for name in sorted(deriving.REFERENCES) + NEAR:
        yield Case("property " + name.decode(), blob(node(b"a", [(name, w(*range(1, 18)))]), *targets), [b"/a"])


def cpus():
    def reg(*words):
        return [(b"reg", w(*words))]
    t = blob(node(b"a", [(b"clocks", w(1)), (b"syscon", w(2))]),
             node(b"cpus", [(b"#size-cells", w(0))],
                  node(b"cpu-map", [], node(b"core0", [(b"cpu", w(1))])),
                  node(b"cpu@0", reg(0) + [handle(1)], node(b"l2", [handle(4)])),
                  node(b"cpu@1", reg(0, 1), node(b"l2", [handle(5)], node(b"l3"))),
                  node(b"cpu@2", reg(1, 2)),
                  node(b"cpu", reg(0x1FFFFFFFF >> 1)),
                  node(b"cpux@0"), node(b"cluster", [], node(b"cpu@9"))),
             node(b"cpusets", [handle(2)]), node(b"soc", [], node(b"cpus", [], node(b"cpu@0"))))
    yield Case("no ids", t, [b"/a"])
    yield Case("id 0", t, [b"/a"], [], [0])
    yield Case("id 1 of 8 bytes", t, [], [], [1])
    yield Case("id above 2^32", t, [], [], [(1 << 32) + 2])
    yield Case("44: its low bits", t, [], [], [2])
    yield Case("plain cpu", t, [], [], [(1 << 32) - 1])
    yield Case("all ids, one twice", t, [b"/soc"], [], [1, (1 << 32) - 1, 0, 1, (1 << 32) + 2])
    yield Case("ids 2^64-1", blob(node(b"cpus", [], node(b"cpu@f", reg(-1, -1)))), [], [], [(1 << 64) - 1])
    yield Case("44: 2^64-1", t, [], [], [(1 << 64) - 1])
    yield Case("two of one number", blob(node(b"cpus", [], node(b"cpu@0", reg(5)), node(b"cpu@1", reg(0, 5)), node(b"cpu@2", reg(6)))), [], [], [5])
    yield Case("/cpus configured, no ids", t, [b"/cpus"])
    yield Case("a cpu configured, another's id", t, [b"/cpus/cpu@1"], [], [0])
    yield Case("/cpus excluded, ids", t, [b"/a"], [b"/cpus", b"/cpus/cpu@0"], [0])
    yield Case("the root excluded, ids", t, [b"/a"], [b"/"], [0])
    yield Case("below a kept cpu excluded", t, [b"/a"], [b"/cpus/cpu@0/l2"], [0, 1])
    yield Case("below a dropped cpu configured", t, [b"/cpus/cpu@1/l2"], [], [0])
    yield Case("cpus elsewhere", t, [b"/soc", b"/cpusets"], [], [0])
    yield Case("all configured, one id", t, [b"/"], [], [1])


# ---- drawn by a fixed seed


def drawn(rng):
    count, used = rng.randint(6, 16), [0]
    handles = rng.sample(range(1, 15), 12)
    linked = handles + [0, 1, 2, 3]

    def make(depth, name):
        props = []
        if handles and rng.random() < 0.6:
            props.append((rng.choice([PH, PH, b"linux,phandle"]), w(handles.pop())))
        for p in rng.sample(USED, rng.randint(0, 4)):
            if p in reading.CELLS:
                props.append((p, w(rng.choice([0, 1, 1, 2, 3]))))
            elif p == b"reg":
                props.append((p, w(*[rng.randrange(3)] * rng.choice([1, 2]))))
            else:
                props.append((p, w(*[rng.choice(linked) for _ in range(rng.randint(0, 5))]) + bytes(rng.choice([0, 0, 0, 0, 2]))))
        children = []
        while used[0] < count and depth < 4 and (depth == 0 or rng.random() < 0.6):
            used[0] += 1
            kind = rng.choice(KINDS) if name != b"cpus" else rng.choice([b"cpu@0", b"cpu@1", b"cpu", b"cpu-map"])
            if kind in [c[0] for c in children]:
                continue
            child = make(depth + 1, kind)
            if name == b"cpus" and kind != b"cpu-map" and b"reg" not in [p for p, _ in child[1]] and rng.random() < 0.9:
                child[1].append((b"reg", w(rng.randrange(3))))
            children.append(child)
        return node(name, props, *children)
    return make(0, b"")


USED = sorted(deriving.REFERENCES | set(NEAR) | {b"reg", b"status"} | set(reading.CELLS))
KINDS = [b"a", b"a-b", b"a.b", b"a0", b"b", b"soc", b"soc2", b"cpus", b"cpus", b"x@1", b"x@2"]


def draws():
    rng, k = random.Random(20), 0
    while k < 30:
        tree = drawn(rng)
        host = blob(*tree[2], props=tree[1])
        paths = deriving.Host(host).path
        c = rng.sample(paths, min(len(paths), rng.randint(1, 3)))
        x = [rng.choice(paths[1:] + [b"/none"]) for _ in range(rng.choice([0, 1, 1, 2]))]
        i = [rng.randrange(3) for _ in range(rng.choice([0, 0, 1, 2]))]
        case = Case("drawn %d" % k, host, c, x, i)
        answer = case.derived(host)
        if (answer[0] == "derived" and answer[1] > 1) or k % 8 == 0:
            if answer[0] == "derived" and k % 9 == 0:
                case.list, case.guest = len(answer[2]) - (k % 2 and len(answer[2]) > 0), len(answer[3]) - k % 3 % 2
            k += 1
            yield case


# ---- leaks


def runs_for(spans, count=16):
    places = [p for s, n in spans for p in range(s, s + n)]
    some = [places[(2 * k + 1) * len(places) // (2 * count)] for k in range(count)] if len(places) > count else places
    return [(ALL, how) for how in range(3)] + [(p, how) for p in some for how in range(3)]


def leak(label, host, c=(), x=(), i=(), **rooms):
    case = Case("leak: " + label, host, c, x, i, **rooms)
    case.spans = deriving.withheld(host, case.configured, case.excluded, case.ids)
    case.runs = runs_for(case.spans)
    return case


def control(label, host, path, name, c=(), x=(), i=(), **rooms):
    """One value that is not withheld, all of it changed, and its last byte alone."""
    tree = deriving.Host(host)
    spans = [(place + 12, len(value)) for place, p, value in tree.nodes[tree.named[path]]["props"] if p == name]
    case = Case("control: " + label, host, c, x, i, spans=spans, **rooms)
    assert spans[0] not in deriving.withheld(host, case.configured, case.excluded, case.ids)
    case.runs = [(ALL, how) for how in range(3)] + [(sum(spans[0]) - 1, how) for how in range(3)]
    return case


def asks(host, rng):
    """Two requests for a tree: the node that references most, and two others with an exclusion."""
    tree = deriving.Host(host)
    rest = range(1, len(tree.nodes))
    if not rest:
        yield [], [], []
        return
    most = max(rest, key=lambda i: (len(list(tree.references(i))), -len([j for j in rest if i in tree.above[j]])))
    yield [tree.path[most]], [], []
    ids = [tree.number(i) for i in tree.cpu_children][:1]
    picked = rng.sample(rest, min(len(rest), 3))
    yield [tree.path[i] for i in picked[:2]], [tree.path[i] for i in picked[2:]], [n for n in ids if n is not None]


def leaks():
    rich = [(b"clocks", w(1, 5)), (b"power-domains", w(2)), (b"status", b"okay\0")]
    t = blob(node(b"clk", [handle(1), (b"#clock-cells", w(1)), (b"rate", w(24000000))]), node(b"pd", [handle(2)]),
             node(b"soc", [], node(b"uart@100", rich), node(b"dma@200", [handle(3), (b"clocks", w(1, 7)), (b"secret", b"key material\0")])),
             node(b"cpus", [(b"x", b"yz")], node(b"cpu@0", [(b"reg", w(0)), (b"y", b"z")]), node(b"cpu@1", [(b"reg", w(0, 1)), (b"w", b"v")], node(b"l2", [(b"reg", w(8))]))),
             node(b"chosen", [(b"bootargs", b"quiet\0"), (b"kaslr-seed", bytes(range(8)))]))
    yield leak("T", T, [UART])
    yield leak("T excluding /clk", T, [UART], [b"/clk"])
    for words in ((1,), (1, 5), (1, 2, 2), (9, 1, 5)):
        yield leak("clocks " + " ".join(map(str, words)), bench((b"clocks", w(*words))), [b"/pd"])
    yield leak("power-domains 1", bench((b"power-domains", w(1))), [b"/clk"])
    yield leak("secrets", t, [UART])
    yield leak("secrets, id 0", t, [UART], [], [0])
    yield leak("secrets, clk excluded", t, [UART], [b"/clk"])
    yield leak("secrets, uart excluded", t, [UART], [UART], [1])
    yield leak("secrets, root excluded", t, [b"/"], [b"/"])
    yield leak("secrets, nothing configured", t)
    yield leak("secrets, 44", t, [UART], [], [0, 9])
    yield leak("secrets, 45", t, [UART], list=5)
    yield leak("secrets, 46", t, [UART], guest=99)
    yield leak("43", blob(BAD_CPU, node(b"a", [(b"secret", b"abc")])), [], [], [0])
    for label, path, name, c, i in (
            ("a copied value", UART, b"status", [UART], []), ("a copied value of /cpus", b"/cpus", b"x", [UART], [1]),
            ("references of a reached node", UART, b"clocks", [UART], []), ("a phandle", b"/clk", PH, [UART], []),
            ("cells", b"/clk", b"#clock-cells", [UART], []), ("reg of a CPU child", b"/cpus/cpu@1", b"reg", [UART], [0, 1])):
        yield control(label, t, path, name, c, [], i)
    yield control("references of an excluded node", t, UART, b"clocks", [UART], [UART])
    rng = random.Random(8)
    for name in sorted(os.listdir("trees")):
        if name.endswith(".dtb") and name != "properties.dtb":
            with open(os.path.join("trees", name), "rb") as f:
                host = f.read()
            for k, (c, x, i) in enumerate(asks(host, rng)):
                if k == 0 or len(host) < 2400:
                    yield leak("%s, request %d" % (name, k + 1), host, c, x, i, list=8192, guest=16384)


def main():
    given, wanted = [], []
    for part in (bench_cases, refusals, orders, names, cpus, draws, leaks):
        had = sum(map(len, given)), len(given)
        for case in part():
            given.append(case.given())
            wanted.append(case.wanted())
        print("%s: %d cases, %d bytes" % (part.__name__, len(given) - had[1], sum(map(len, given)) - had[0]))
    folder = os.path.join("crates", "derive_cases")
    with open(os.path.join(folder, "stdin"), "wb") as f:
        f.write(b"".join(given))
    with open(os.path.join(folder, "stdout"), "w") as f:
        f.write("".join(wanted))
    print(len(wanted), "cases,", sum(map(len, given)), "bytes")


if __name__ == "__main__":
    main()
