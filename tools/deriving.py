#!/usr/bin/env python3
"""An independent reading of document 01's derivation, for making expected answers. It shares nothing with the proved code or its
definitions but the paper. derive(...) gives ('derived', paths, list, guest) or ('refused', number, place); withheld(...) gives the
places of the bytes that 01 calls withheld.

  deriving.py FOLDER

runs it as the command program on each case of FOLDER (host.dtb, request, stdout, and guest.dtb where one is written) and compares."""
import os, re, struct, sys
sys.path.insert(0, os.path.dirname(os.path.abspath(__file__)))
import reading
from reading import Refused

ENTRIES, PATH, PROGRAM = 64, 1024, 65536
# The 23 names of source 000, and its endings and part.
REFERENCES = set(b"""clocks power-domains phys resets dmas thermal-sensors mboxes assigned-clocks interrupt-parent phy-handle msi-parent
    memory-region syscon regmap iommus interconnects nvmem-cells sound-dai pinctrl-0 pinctrl-1 pinctrl-2 pinctrl-3
    pinctrl-4""".split())
CELLS_OF = {b"clocks": b"clock", b"assigned-clocks": b"clock", b"resets": b"reset", b"power-domains": b"power-domain", b"phys": b"phy",
            b"gpios": b"gpio", b"dmas": b"dma", b"thermal-sensors": b"thermal-sensor", b"sound-dai": b"sound-dai", b"mboxes": b"mbox"}


def refers(name):
    """Whether a property of this name is a reference property."""
    return (name in REFERENCES or name == b"gpios" or name.endswith((b"-supply", b"-gpios", b"-gpio"))
            or (b"cells" in name and not name.startswith(b"#")))


def words(value):
    return [w for w, in struct.iter_unpack(">I", value)]


class Host:
    """The nodes of a blob that the reader accepts, by number in blob order; the root is 0."""

    def __init__(self, blob):
        self.nodes = reading.walk(*reading.header(blob))
        reading.passes(self.nodes)
        self.path, self.above = [b"/"], [()]
        for n in self.nodes[1:]:
            p = n["parent"]
            self.path.append((self.path[p] if p else b"") + b"/" + n["name"])
            self.above.append(self.above[p] + (p,))
        self.named = {p: i for i, p in enumerate(self.path)}
        self.known = {n["phandle"]: i for i, n in enumerate(self.nodes) if n["phandle"] is not None}
        self.cpus = self.named.get(b"/cpus")
        self.cpu_children = [i for i, n in enumerate(self.nodes) if i and n["parent"] == self.cpus and
                             (n["name"] == b"cpu" or n["name"].startswith(b"cpu@"))]

    def value(self, i, wanted):
        for _, name, value in self.nodes[i]["props"]:
            if name == wanted:
                return value
        return None

    def cells(self, name, target):
        row = b"gpio" if name.endswith((b"-gpios", b"-gpio")) else CELLS_OF.get(name)
        value = self.value(target, b"#" + row + b"-cells") if row else None
        return int.from_bytes(value, "big") if value else 0

    def references(self, i):
        """What the reference properties of node i reference, in property and word order."""
        for _, name, value in self.nodes[i]["props"]:
            if not refers(name) or not value or len(value) % 4:
                continue
            ws, at = words(value), 0
            while at < len(ws):
                target = self.known.get(ws[at])
                if target is None:
                    at += 1
                    continue
                c = self.cells(name, target)
                if not at + c < len(ws):
                    break
                yield target
                at += c + 1

    def within(self, i, tops):
        """Whether node i is one of these or below one."""
        return i in tops or any(a in tops for a in self.above[i])

    def number(self, cpu):
        """A CPU child's number, or None."""
        reg = self.value(cpu, b"reg")
        return int.from_bytes(reg, "big") if reg is not None and len(reg) in (4, 8) else None


def entries(given):
    """The paths of a given list: offset, path, and whether a NUL closes it."""
    at = 0
    while at < len(given):
        end = given.find(b"\0", at)
        yield (at, given[at:], False) if end < 0 else (at, given[at:end], True)
        at = len(given) if end < 0 else end + 1


def paths_given(given):
    for k, (at, path, closed) in enumerate(entries(given)):
        if k >= ENTRIES or not closed or not path.startswith(b"/") or len(path) > PATH:
            raise Refused(41, at)
    return [(at, path) for at, path, _ in entries(given)]


def asked(host, configured, excluded, ids):
    """Refusals 41 and 42: the configured nodes in their order, and the excluded ones."""
    configured, excluded = paths_given(configured), paths_given(excluded)
    if len(ids) > ENTRIES:
        raise Refused(41, ENTRIES)
    starts = []
    for at, path in configured:
        if path not in host.named or host.named[path] in starts:
            raise Refused(42, at)
        starts.append(host.named[path])
    return starts, {host.named[path] for _, path in excluded if path in host.named}


def cpus_asked(host, ids):
    """Refusals 43 and 44."""
    if ids:
        for i in host.cpu_children:
            if host.number(i) is None:
                raise Refused(43, host.nodes[i]["place"])
    met = {host.number(i) for i in host.cpu_children}
    for k, n in enumerate(ids):
        if n not in met:
            raise Refused(44, k)


def reached(host, starts):
    """All that is reached, in the list's order."""
    order = list(starts)
    for s in starts:
        below = [i for i in range(len(host.nodes)) if s in host.above[i] and i not in order]
        order += sorted(below, key=lambda i: host.path[i])
    noted, work, found = set(order), sorted(order, key=lambda i: host.path[i]), []
    while work:
        for target in host.references(work.pop()):
            if target not in noted:
                noted.add(target)
                found.append(target)
                work.append(target)
    return order + found


def copied(host, listed, excluded, ids):
    """Which nodes are copied."""
    dropped = {i for i in host.cpu_children if host.number(i) not in set(ids)}
    needed = set(listed) | {a for i in listed for a in host.above[i]}

    def keeps(i):
        if i == 0:
            return True
        if host.cpus is not None and host.within(i, {host.cpus}):
            return bool(ids) and not host.within(i, dropped)
        return (i in needed or host.within(i, set(listed))) and not host.within(i, excluded)
    return {i for i in range(len(host.nodes)) if keeps(i)}


def padded(b):
    return b + bytes(-len(b) % 4)


def blob_of(host, kept):
    """What the writer leaves: no reservations, boot CPU 0, these nodes in host order with all properties."""
    out, names, at, opened = b"", b"", {}, []
    for i in sorted(kept):
        while opened and opened[-1] not in host.above[i]:
            out += struct.pack(">I", 2)
            opened.pop()
        opened.append(i)
        out += struct.pack(">I", 1) + padded(host.nodes[i]["name"] + b"\0")
        for _, name, value in host.nodes[i]["props"]:
            if name not in at:
                at[name] = len(names)
                names += name + b"\0"
            out += struct.pack(">3I", 3, len(value), at[name]) + padded(value)
    out += struct.pack(">I", 2) * len(opened) + struct.pack(">I", 9)
    total = 56 + len(out) + len(names)
    header = struct.pack(">10I", 0xD00DFEED, total, 56, 56 + len(out), 40, 17, 16, 0, len(names), len(out))
    return header + bytes(16) + out + names


def derive(blob, configured=b"", excluded=b"", ids=(), space=reading.WORDS, list_room=PROGRAM, guest_room=PROGRAM):
    try:
        if space < reading.WORDS:
            raise Refused(40)
        host = Host(blob)
        starts, out = asked(host, configured, excluded, ids)
        cpus_asked(host, ids)
        listed = [i for i in reached(host, starts) if i and not host.within(i, out)]
        text = b"".join(host.path[i] + b"\0" for i in listed)
        if len(text) > list_room:
            raise Refused(45, len(text))
        guest = blob_of(host, copied(host, listed, out, ids))
        if len(guest) > min(guest_room, reading.CEILING):
            raise Refused(46, len(guest))
    except Refused as r:
        return ("refused", r.number, r.place)
    return ("derived", len(listed), text, guest)


def withheld(blob, configured=b"", excluded=b"", ids=()):
    """The places of the withheld bytes, as pairs of a value's place and length; of a blob and lists that pass their checks."""
    host = Host(blob)
    starts, out = asked(host, configured, excluded, ids)
    walked = reached(host, starts)
    kept = copied(host, [i for i in walked if i and not host.within(i, out)], out, ids)
    spans = []
    for i, n in enumerate(host.nodes):
        for place, name, value in n["props"]:
            judged = (name in reading.PHANDLES + reading.CELLS or (i in walked and refers(name))
                      or (i in host.cpu_children and name == b"reg"))
            if i not in kept and value and not judged:
                spans.append((place + 12, len(value)))
    return spans


def request(text):
    """The command program's lines: configured, excluded, ids; or a refusal."""
    if len(text) > PROGRAM:
        raise Refused(41, PROGRAM)
    configured, excluded, ids, at = b"", b"", [], 0
    while at < len(text):
        end = text.find(b"\n", at)
        line = text[at:] if end < 0 else text[at:end]
        if line[:2] == b"c " and b"\0" not in line:
            configured += line[2:] + b"\0"
        elif line[:2] == b"x " and b"\0" not in line:
            excluded += line[2:] + b"\0"
        elif re.fullmatch(rb"i [0-9]+", line) and int(line[2:]) < 1 << 64:
            ids.append(int(line[2:]))
        else:
            raise Refused(41, at)
        at = len(text) if end < 0 else end + 1
    return configured, excluded, ids


def program(host, text):
    """What the command program prints, and the guest or None."""
    try:
        lists = request(text)
        if len(host) > PROGRAM:
            raise Refused(3)
    except Refused as r:
        return b"refused %d at %d\n" % (r.number, r.place), None
    answer = derive(host, *lists)
    if answer[0] == "refused":
        return b"refused %d at %d\n" % answer[1:], None
    _, count, listed, guest = answer
    return b"paths %d\n" % count + listed.replace(b"\0", b"\n") + b"guest %d\n" % len(guest), guest


def main():
    if len(sys.argv) != 2:
        sys.exit(__doc__)

    def part(case, name):
        path = os.path.join(sys.argv[1], case, name)
        if not os.path.exists(path):
            return None
        with open(path, "rb") as f:
            return f.read()
    wrong = 0
    cases = sorted(os.listdir(sys.argv[1]))
    for case in cases:
        seen = program(part(case, "host.dtb"), part(case, "request"))
        right = part(case, "stdout"), part(case, "guest.dtb")
        if seen != right:
            wrong += 1
            print("%s: says %r, wanted %r%s" % (case, seen[0][:80], right[0][:80], "" if seen[1] == right[1] else "; guests differ"))
    print("%d cases, %d wrong" % (len(cases), wrong))
    sys.exit(1 if wrong else 0)


if __name__ == "__main__":
    main()
