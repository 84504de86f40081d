#!/usr/bin/env python3
"""device_cases.py: what crates/device_cases must print, from a reading of document 01 by hand: the answer of each case, and digests
of the list's room (bytes of 0x5a before the call) and of the work space (words of 0xa5a5a5a5). Writes the program's stdout.
Run from the root of the repository."""


def digest(numbers):
    h = 0
    for x in numbers:
        h = (h * 16777619 + x + 1) % 2**32
    return f"{h:08x}"


def left(paths, words, room, cleared=True):
    text = b"".join(p + b"\0" for p in paths)
    lent = text + b"\x5a" * (room - len(text))
    work = [0] * 16384 + [0xA5A5A5A5] * (words - 16384) if cleared else [0xA5A5A5A5] * words
    return f", left {digest(lent)} {digest(work)}"


def listed(label, *paths, words=16384, room=64):
    return f"{label}: paths {len(paths)} list {sum(len(p) + 1 for p in paths)}{left(paths, words, room)}"


def refused(label, number, place, words=16384, room=64, cleared=True):
    return f"{label}: refused {number} at {place}{left([], words, room, cleared)}"


UART, CLK, PD, SOC, DMA = b"/soc/uart@100", b"/clk", b"/pd", b"/soc", b"/soc/dma@200"
LINES = [
    listed("T", UART, CLK, PD),
    listed("T excluding /clk", UART, PD),
    listed("T, nothing configured"),
    # the root itself is not listed; what is below it comes in byte order of path
    listed("T, the root configured", CLK, PD, SOC, DMA, UART, words=16400),
    listed("T, an exclusion that names no node", UART, CLK, PD, room=23),
    refused("40", 40, 0, words=16383, cleared=False),
    refused("1", 1, 0),
    refused("3", 3, 0),
    refused("41, a path without its NUL", 41, 5),
    refused("41, an exclusion without its slash", 41, 0),
    refused("42, no such node", 42, 5),
    refused("42, a repeat", 42, 9),
    refused("45, one byte short", 45, 23, room=22),
]
open("crates/device_cases/stdout", "w", encoding="ascii").write("\n".join(LINES) + "\n")
