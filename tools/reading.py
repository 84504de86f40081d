"""An independent reading of document 01's reader, for making expected answers. It shares nothing with the proved code or its
definitions but the paper: read(blob, words) gives ('nodes', count, table) or ('refused', number, place)."""
import struct

HEADER, CEILING, NODES, OPEN, WORDS = 40, 1 << 20, 2048, 64, 16384
NODE_CHARS = set(b"0123456789abcdefghijklmnopqrstuvwxyzABCDEFGHIJKLMNOPQRSTUVWXYZ,._+-")
PROPERTY_CHARS = NODE_CHARS | set(b"?#")
PHANDLES = (b"phandle", b"linux,phandle")
CELLS = tuple(b"#" + n + b"-cells" for n in (
    b"address", b"size", b"clock", b"reset", b"gpio", b"interrupt", b"power-domain", b"thermal-sensor", b"phy", b"dma",
    b"sound-dai", b"mbox", b"pwm", b"iommu"))


class Refused(Exception):
    def __init__(self, number, place=0):
        self.number, self.place = number, place


def node_name_valid(name):
    if name == b"":
        return True
    head, _, unit = name.partition(b"@")
    return 1 <= len(head) <= 31 and set(head) <= NODE_CHARS and set(unit) <= NODE_CHARS


def property_name_valid(name):
    return 1 <= len(name) <= 31 and set(name) <= PROPERTY_CHARS


def header(blob):
    if len(blob) < HEADER:
        raise Refused(1)
    magic, total, struct_at, strings_at, reserve_at, version, compatible, _, strings_size, struct_size = struct.unpack(">10I", blob[:40])
    if magic != 0xD00DFEED:
        raise Refused(2)
    if total < HEADER or total > len(blob) or total > CEILING:
        raise Refused(3)
    if version != 17 or compatible != 16:
        raise Refused(4)
    if reserve_at < HEADER or reserve_at % 8 or struct_at % 4 or struct_size % 4:
        raise Refused(5)
    if struct_at + struct_size > strings_at or strings_at + strings_size > total:
        raise Refused(5)
    at = reserve_at
    while True:
        if at + 16 > struct_at:
            raise Refused(5)
        if blob[at:at + 16] == bytes(16):
            break
        at += 16
    return struct_at, blob[struct_at:struct_at + struct_size], blob[strings_at:strings_at + strings_size]


def walk(base, block, strings):
    """The nodes of the structure: each a dict of place, parent, name and properties (place, name, value)."""
    nodes, stack, had_child, at = [], [], False, 0

    def word(i):
        return struct.unpack_from(">I", block, i)[0]
    while True:
        if at + 4 > len(block):
            raise Refused(6, base + at)
        tag, place = word(at), base + at
        if tag == 1:
            end = block.find(b"\0", at + 4)
            if end < 0 or (not stack and nodes):
                raise Refused(6, place)
            name = block[at + 4:end]
            if not stack:
                if name:
                    raise Refused(7, place)
            else:
                if not name or not node_name_valid(name):
                    raise Refused(7, place)
                if len(stack) >= OPEN:
                    raise Refused(8, place)
                if len(nodes) >= NODES:
                    raise Refused(9, place)
            nodes.append(dict(place=place, parent=stack[-1] if stack else 0, name=name, props=[]))
            stack.append(len(nodes) - 1)
            had_child = False
            at = (end + 4) & ~3
        elif tag == 2:
            if not stack:
                raise Refused(6, place)
            stack.pop()
            had_child = True
            at += 4
        elif tag == 3:
            if at + 12 > len(block):
                raise Refused(6, place)
            size, offset = word(at + 4), word(at + 8)
            if at + 12 + (size + 3) // 4 * 4 > len(block) or not stack or had_child:
                raise Refused(6, place)
            end = strings.find(b"\0", offset) if offset < len(strings) else -1
            if end < 0 or not property_name_valid(strings[offset:end]):
                raise Refused(7, place)
            nodes[stack[-1]]["props"].append((place, strings[offset:end], block[at + 12:at + 12 + size]))
            at += 12 + (size + 3) // 4 * 4
        elif tag == 4:
            at += 4
        elif tag == 9:
            if stack or not nodes or at + 4 != len(block):
                raise Refused(6, place)
            return nodes
        else:
            raise Refused(6, place)


def passes(nodes):
    seen = set()
    for n in nodes:
        key = (n["parent"], n["name"])
        if key in seen:
            raise Refused(10, n["place"])
        seen.add(key)
        names = set()
        for place, name, _ in n["props"]:
            if name in names:
                raise Refused(10, place)
            names.add(name)
    for n in nodes:
        had = None
        for place, name, value in n["props"]:
            if name in PHANDLES + CELLS and len(value) != 4:
                raise Refused(11, place)
            if name in PHANDLES:
                if had is not None and had != value:
                    raise Refused(11, place)
                had = value
    phandles = set()
    for n in nodes:
        first = [(place, value) for place, name, value in n["props"] if name in PHANDLES][:1]
        n["phandle"] = int.from_bytes(first[0][1], "big") if first else None
        if first:
            if n["phandle"] in phandles:
                raise Refused(12, first[0][0])
            phandles.add(n["phandle"])


def read(blob, words=WORDS):
    try:
        if words < WORDS:
            raise Refused(40)
        nodes = walk(*header(blob))
        passes(nodes)
    except Refused as r:
        return ("refused", r.number, r.place)
    table = []
    for n in nodes:
        table += [n["place"], n["parent"], int(n["phandle"] is not None), n["phandle"] or 0]
    return ("nodes", len(nodes), table)
