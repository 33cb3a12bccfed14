#!/usr/bin/env python3
"""Draws the pictures of docs/machine.md: python3 docs/pictures/draw.py writes the .svg files beside it.

Addresses grow upwards in each picture. The calls are those of samples/pascal with 1024 KiB of RAM.
"""

from html import escape
from pathlib import Path

FOLDER = Path(__file__).parent
FONT = "DejaVu Sans Mono, Menlo, Consolas, monospace"
SIZE = 13
LINE = 22

PLAIN = "#ffffff"
ARGUMENT = "#fdf1c7"
FRAME = "#d5e4f7"
CLEARED = "#eeeeee"
GATE = "#f7dcd5"
HEAP = "#e0f0dc"
INK = "#222222"
QUIET = "#555555"


class Picture:
    """Shapes and lines of text, in the order in which they are drawn."""

    def __init__(self, width, height, title):
        self.parts = [
            f'<svg xmlns="http://www.w3.org/2000/svg" width="{width}" height="{height}" '
            f'viewBox="0 0 {width} {height}" font-family="{FONT}" font-size="{SIZE}">',
            f"<title>{escape(title)}</title>",
            f'<rect width="{width}" height="{height}" fill="#ffffff"/>',
        ]

    def box(self, x, y, width, height, fill):
        self.parts.append(
            f'<rect x="{x}" y="{y}" width="{width}" height="{height}" fill="{fill}" stroke="{INK}"/>'
        )

    def line(self, x1, y1, x2, y2):
        self.parts.append(f'<line x1="{x1}" y1="{y1}" x2="{x2}" y2="{y2}" stroke="{QUIET}"/>')

    def text(self, x, y, words, anchor="start", fill=INK, bold=False):
        weight = ' font-weight="bold"' if bold else ""
        self.parts.append(
            f'<text x="{x}" y="{y}" text-anchor="{anchor}" fill="{fill}"{weight} xml:space="preserve">'
            f"{escape(words)}</text>"
        )

    def write(self, name):
        (FOLDER / name).write_text("\n".join(self.parts + ["</svg>"]) + "\n")


def column(picture, x, y, width, rows):
    """Draws rows from the top down. A row has its height in lines, its fill, the words in it, the address of
    its first byte and a note. Answers where the column ends."""
    for lines, fill, words, address, note in rows:
        height = lines * LINE
        picture.box(x, y, width, height, fill)
        first = y + height / 2 + 5 - (len(words) - 1) * 8
        for k, word in enumerate(words):
            picture.text(x + width / 2, first + 16 * k, word, "middle")
        picture.text(x - 10, y + height - 6, address, "end", QUIET)
        for k, word in enumerate(note):
            picture.text(x + width + 12, y + height - 6 - 16 * (len(note) - 1 - k), word)
        y += height
    return y


def memory_map():
    picture = Picture(1010, 520, "Memory from address 0 to len")
    x, width, top = 200, 250, 40
    picture.text(x + width / 2, 24, "memory", "middle", bold=True)
    picture.text(x - 10, top + 5, "len", "end", QUIET)
    rows = [
        (5, FRAME, ["stack, downwards", "switch frames in it"], "floor", []),
        (5, HEAP, ["heap"], "end, rounded up to 16", []),
        (4, ARGUMENT, ["the loaded program"], "$10000", []),
        (2, PLAIN, ["zero at the start"], "$2000", []),
        (3, GATE, ["gate page: no stores"], "$1000", []),
        (2, PLAIN, ["zero at the start"], "$0000", []),
    ]
    column(picture, x, top, width, rows)
    gates = [
        ("$1800 + 4k", "code address of library function k"),
        ("$1400 + 8k", "transition vector of library function k"),
        ("$102C", "len"),
        ("$1028", "the program's A5"),
        ("$1024", "main vector of the PowerPC program"),
        ("$1020", "start of the 68K program"),
        ("$1018", "return gate of PowerPC code"),
        ("$1010", "exit gate of PowerPC code"),
        ("$1008", "return gate of 68K code"),
        ("$1000", "exit gate of 68K code"),
    ]
    left, first = 520, 224
    page = top + 16 * LINE
    picture.text(left + 110, first - 12, "in the gate page", bold=True)
    for k, (address, words) in enumerate(gates):
        picture.text(left + 100, first + 14 + 20 * k, address, "end", QUIET)
        picture.text(left + 110, first + 14 + 20 * k, words)
    last = first + 20 * len(gates)
    picture.line(left, first, left, last)
    picture.line(x + width, page, left, first)
    picture.line(x + width, page + 3 * LINE, left, last)
    picture.text(x + width + 12, top + 18, "floor is three quarters of len")
    picture.text(x + width + 12, top + 36, "1024 KiB: floor $C0000, len $100000")
    picture.write("memory-map.svg")


def registers(picture, x, y, title, names):
    picture.text(x, y, title, bold=True)
    for k, (name, value) in enumerate(names):
        picture.text(x + 50, y + 24 + 20 * k, name, "end")
        picture.text(x + 62, y + 24 + 20 * k, value)


def stack_to_powerpc():
    picture = Picture(940, 510, "A Pascal call from 68K code to PowerPC code")
    x, width, top = 110, 190, 50
    picture.text(x + width / 2, 26, "the stack", "middle", bold=True)
    rows = [
        (1, PLAIN, ["00001000"], "000FFFFC", ["exit gate, put there at the start"]),
        (1, PLAIN, ["room"], "000FFFF8", ["for the result       ← A7 after the return"]),
        (1, ARGUMENT, ["A5  .."], "000FFFF6", ["parameter 1, a byte"]),
        (1, ARGUMENT, ["BEEF"], "000FFFF4", ["parameter 2, a word"]),
        (1, ARGUMENT, ["12345678"], "000FFFF0", ["parameter 3, a long"]),
        (1, PLAIN, ["00010014"], "000FFFEC", ["return address       ← A7 at the crossing (S)"]),
        (1, PLAIN, ["12 bytes"], "000FFFE0", ["hi: S rounded down to a multiple of 16"]),
        (6, FRAME, ["switch frame:", "registers of", "the 68K caller", "112 bytes"], "000FFF70", ["lo"]),
        (4, CLEARED, ["64 bytes of zeros:", "linkage area,", "8 argument words"], "000FFF30", ["← r1 of the callee, expected at its return"]),
    ]
    column(picture, x, top, width, rows)
    names = [
        ("r3", "000000A5"),
        ("r4", "0000BEEF"),
        ("r5", "12345678"),
        ("r1", "000FFF30"),
        ("r2", "00010050  TOC"),
        ("LR", "00001018  return gate"),
        ("pc", "00010080"),
        ("else", "0"),
    ]
    registers(picture, 620, 222, "what the PowerPC routine begins with", names)
    picture.text(110, 460, "procInfo 00000E70: Pascal; gives four bytes; a byte, a word, a long", fill=QUIET)
    picture.text(110, 484, "call 68k ppc 00010070 00000E70 A5 BEEF 12345678")
    picture.write("stack-to-powerpc.svg")


def stack_to_68k():
    picture = Picture(940, 480, "A Pascal call from PowerPC code to 68K code")
    x, width, top = 110, 190, 50
    picture.text(x + width / 2, 26, "the stack", "middle", bold=True)
    rows = [
        (2, PLAIN, ["64 bytes of", "the PowerPC caller"], "000FFEF0", ["hi = r1 of the caller"]),
        (8, FRAME, ["switch frame:", "registers of", "the PowerPC caller", "192 bytes"], "000FFE30", ["lo"]),
        (1, CLEARED, ["00000000"], "000FFE2C", ["room for the result  ← A7 expected at the return"]),
        (1, ARGUMENT, ["A5  00"], "000FFE2A", ["parameter 1, a byte"]),
        (1, ARGUMENT, ["BEEF"], "000FFE28", ["parameter 2, a word"]),
        (1, ARGUMENT, ["12345678"], "000FFE24", ["parameter 3, a long"]),
        (1, PLAIN, ["00001008"], "000FFE20", ["return gate          ← A7 of the callee (S)"]),
    ]
    column(picture, x, top, width, rows)
    names = [
        ("A7", "000FFE20"),
        ("A5", "that of the program"),
        ("pc", "00010018"),
        ("else", "0"),
    ]
    registers(picture, 620, 130, "what the 68K routine begins with", names)
    picture.text(110, 436, "procInfo 00000E70: Pascal; gives four bytes; a byte, a word, a long", fill=QUIET)
    picture.text(110, 460, "call ppc 68k 00010018 00000E70 A5 BEEF 12345678")
    picture.write("stack-to-68k.svg")


def frame():
    picture = Picture(960, 560, "The bytes of a switch frame")
    of_68k = [
        (1, CLEARED, ["0"], "104", []),
        (1, PLAIN, ["X N Z V C"], "100", []),
        (1, PLAIN, ["pc behind the call"], "96", []),
        (3, PLAIN, ["A0 to A7"], "64", []),
        (3, PLAIN, ["D0 to D7"], "32", []),
    ]
    of_powerpc = [
        (1, CLEARED, ["0"], "180", []),
        (1, PLAIN, ["pc behind the call"], "176", []),
        (1, PLAIN, ["XER"], "172", []),
        (1, PLAIN, ["CTR"], "168", []),
        (1, PLAIN, ["LR"], "164", []),
        (1, PLAIN, ["CR"], "160", []),
        (8, PLAIN, ["r0 to r31"], "32", []),
    ]
    fields = [
        ("28", "number of live frames"),
        ("24", "expected SP of the callee"),
        ("20", "hi"),
        ("16", "target"),
        ("12", "selector"),
        ("8", "procInfo"),
        ("4", "kind"),
        ("0", "lo of the frame outside"),
    ]
    # what the two frames of samples/pascal have in these fields
    outer = ["00000001", "000FFF30", "000FFFE0", "00010070", "00000000", "00000E70", "00000001", "00000000"]
    inner = ["00000002", "000FFE2C", "000FFEF0", "00010018", "00000000", "00000E70", "00000002", "000FFF70"]
    width, bottom = 240, 528
    for x, title, size, above, values in [
        (90, "68K caller", "112", of_68k, outer),
        (550, "PowerPC caller", "192", of_powerpc, inner),
    ]:
        head = [(1, FRAME, [name], at, [value]) for (at, name), value in zip(fields, values)]
        rows = above + head
        top = bottom - LINE * sum(lines for lines, *_ in rows)
        picture.text(x + width / 2, top - 14, f"{title}: {size} bytes", "middle", bold=True)
        picture.text(x + width + 12, top + 5, "hi")
        picture.text(x + width + 12, bottom + 14, "lo")
        picture.text(x + width + 12, bottom - 8 * LINE - 10, "in samples/pascal:", fill=QUIET)
        column(picture, x, top, width, rows)
    picture.write("frame.svg")


memory_map()
stack_to_powerpc()
stack_to_68k()
frame()
