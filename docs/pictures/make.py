#!/usr/bin/env python3
"""Writes the pictures of docs/ as SVG, beside this script; with --check compares what stands there with what it would write.

It needs Python 3 and nothing else. The bit numbers in missed-tail.svg are not typed in: a small receiver below, which
has nothing of the repository's code, runs over the symbols that are drawn, and the script stops where what it answers
is not what the picture says."""

import os
import sys
from html import escape

# ---- a codeblock, its verdict, and a receiver in correcting mode, written in plain lists


def divided(bits, divisor):
    """The remainder of a polynomial, highest coefficient first, by another."""
    bits = list(bits)
    for i in range(len(bits) - len(divisor) + 1):
        if bits[i]:
            for j, d in enumerate(divisor):
                bits[i + j] ^= d
    return bits[-(len(divisor) - 1):]


def bits_of(octets):
    return [octet >> (7 - i) & 1 for octet in octets for i in range(8)]


def codeblock(octets):
    information = bits_of(octets)
    check = divided(information + [0] * 7, [1, 1, 0, 0, 0, 1, 0, 1])
    return information + [1 - c for c in check] + [0]


def is_accepted(block):
    """Accepted, and whether one bit was turned; None where it is rejected."""
    received = block[:56] + [1 - b for b in block[56:63]]
    parity = sum(received) % 2
    syndrome = divided([0] * 6 + received, [1, 0, 0, 0, 0, 1, 1])
    if parity == 0 and not any(syndrome):
        return 0
    if parity == 1 and any(syndrome):
        return 1
    return None


START = bits_of([0xEB, 0x90])
TAIL = bits_of([0xC5] * 7 + [0x79])


def cltu(octets):
    return START + codeblock(octets) + TAIL


def idle(first, count):
    return [first ^ i & 1 for i in range(count)]


def received(symbols, limit):
    """What happens at which symbol, counted from 1: starts, accepted codeblocks, reports."""
    told, window, block, added = [], [], None, 0
    for place, bit in enumerate(symbols, 1):
        if block is None:
            window = (window + [bit])[-16:]
            if len(window) == 16 and sum(a != b for a, b in zip(window, START)) <= 1:
                told.append((place, "start"))
                block, added = [], 0
            continue
        block.append(bit)
        if len(block) < 64:
            continue
        verdict = is_accepted(block)
        if verdict is None:
            told.append((place, "closed" if added else "empty"))
            window, block = [], None
        elif added == limit:
            told.append((place, "long"))
            window, block = [], None
        else:
            added += 1
            told.append((place, "corrected" if verdict else "accepted"))
            block = []
    return told


# ---- drawing

INK, GREY, LINE = "#1a1a1a", "#595959", "#8c8c8c"
GOOD, BAD, WAIT, PLAIN, SENT = "#d9efd9", "#f7d6d3", "#fdf0c8", "#ffffff", "#dbe7f5"


class Picture:
    def __init__(self, width, height, title, description):
        self.parts = [
            f'<svg xmlns="http://www.w3.org/2000/svg" viewBox="0 0 {width} {height}" width="{width}" height="{height}" role="img"'
            ' aria-labelledby="title description" font-family="Helvetica, Arial, \'DejaVu Sans\', sans-serif">',
            f'<title id="title">{escape(title)}</title>',
            f'<desc id="description">{escape(description)}</desc>',
            '<defs><marker id="tip" viewBox="0 0 10 10" refX="9" refY="5" markerWidth="8" markerHeight="8" orient="auto">'
            f'<path d="M0 0 L10 5 L0 10 z" fill="{INK}"/></marker></defs>',
            f'<rect width="{width}" height="{height}" fill="#ffffff"/>',
        ]

    def text(self, x, y, words, size=14, anchor="middle", weight="normal", ink=INK):
        self.parts.append(
            f'<text x="{x:g}" y="{y:g}" font-size="{size}" text-anchor="{anchor}" font-weight="{weight}" fill="{ink}">{escape(words)}</text>'
        )

    def box(self, x, y, width, height, fill=PLAIN, ink=INK, round_by=0, dashed=False):
        dash = ' stroke-dasharray="4 3"' if dashed else ""
        self.parts.append(
            f'<rect x="{x:g}" y="{y:g}" width="{width:g}" height="{height:g}" rx="{round_by}" fill="{fill}" stroke="{ink}"{dash}/>'
        )

    def lines_in(self, x, y, width, height, lines, size=13):
        """Lines of text in the middle of a box."""
        step = size * 1.25
        first = y + height / 2 - step * (len(lines) - 1) / 2 + size * 0.35
        for i, words in enumerate(lines):
            self.text(x + width / 2, first + i * step, words, size)

    def line(self, x1, y1, x2, y2, ink=INK, width=1, dashed=False):
        dash = ' stroke-dasharray="4 3"' if dashed else ""
        self.parts.append(
            f'<line x1="{x1:g}" y1="{y1:g}" x2="{x2:g}" y2="{y2:g}" stroke="{ink}" stroke-width="{width}"{dash}/>'
        )

    def arrow(self, path):
        self.parts.append(f'<path d="{path}" fill="none" stroke="{INK}" stroke-width="1.6" marker-end="url(#tip)"/>')

    def whole(self):
        return "\n".join(self.parts + ["</svg>", ""])


# ---- the three states


def states():
    p = Picture(
        960, 430, "The three states of a receiver",
        "INACTIVE, SEARCH and DECODE, what leads from one to another, and the report that each end of a candidate makes.",
    )
    for x, name, what in (
        (40, "INACTIVE", "the carrier is down"),
        (355, "SEARCH", "looks for a start"),
        (740, "DECODE", "64 bits at a time"),
    ):
        p.box(x, 150, 180, 90, SENT, round_by=12)
        p.text(x + 90, 190, name, 20, weight="bold")
        p.text(x + 90, 216, what, 15)
    p.arrow("M220 175 L353 175")
    p.text(287, 165, "carrier up", 15)
    p.arrow("M355 215 L222 215")
    p.text(288, 235, "carrier down", 15)
    p.arrow("M535 175 L738 175")
    p.text(637, 142, "start found:", 15)
    p.text(637, 162, "a candidate is opened", 15)
    p.arrow("M740 215 L537 215")
    for i, (when, report) in enumerate((
        ("rejected, some accepted before", "closed"),
        ("rejected, none accepted before", "empty"),
        ("accepted, but L are already", "long"),
        ("accepted, but the hold is full", "full"),
    )):
        y = 262 + 24 * i
        p.text(610, y, when, 15, anchor="end")
        p.text(624, y, report, 15, anchor="start", weight="bold")
    p.text(500, 365, "closed finishes the candidate; every other report abandons it", 14, ink=GREY)
    p.arrow("M800 150 C770 85 880 85 860 148")
    p.text(830, 62, "codeblock accepted:", 15)
    p.text(830, 82, "its 7 octets are added", 15)
    p.arrow("M830 240 L830 395 L130 395 L130 242")
    p.text(850, 320, "carrier down", 15, anchor="start")
    p.text(850, 342, "down", 15, anchor="start", weight="bold")
    return p.whole()


# ---- a missed tail

LIMIT = 4
FIRST = [0, 0, 0, 0, 0, 0, 1]
SECOND = [0x22, 0x31, 0xA0, 0x0C, 0x01, 0x55, 0x55]
GUARD = 64 * LIMIT + 67
LEFT, UNIT = 20, 1.66


def spoiled():
    """The first command, with two wrong bits in its tail."""
    symbols = cltu(FIRST)
    for place in (80, 81):
        symbols[place] ^= 1
    return symbols


def at(bit):
    """Where a bit stands, the first bit of the idle being 1."""
    return LEFT + (bit + 143) * UNIT


def span(p, y, first, last, lines, fill, height=46, dashed=False):
    x = at(first)
    p.box(x, y, (last - first + 1) * UNIT, height, fill, dashed=dashed)
    p.lines_in(x, y, (last - first + 1) * UNIT, height, lines, 13)


def told_by_idle(first, guard):
    """What a receiver tells of the spoiled command, idle and the second command; the first idle bit is 1."""
    symbols = spoiled() + idle(first, guard) + cltu(SECOND)
    return [(place - 144, what) for place, what in received(symbols, LIMIT)]


def sent(p, y, guard, name):
    span(p, y, -143, -128, ["S"], SENT, 30)
    span(p, y, -127, -64, ["codeblock"], SENT, 30)
    span(p, y, -63, 0, ["tail, spoiled"], BAD, 30)
    span(p, y, 1, guard, [name], PLAIN, 30)
    span(p, y, guard + 1, guard + 16, ["S"], SENT, 30)
    if guard < 200:
        span(p, y, guard + 17, guard + 80, ["codeblock"], SENT, 30)
        span(p, y, guard + 81, guard + 144, ["tail"], SENT, 30)
    else:
        span(p, y, guard + 17, guard + 64, ["block .."], SENT, 30)


def numbers(p, y, bits):
    for bit in bits:
        x = at(bit + 1)
        p.line(x, y - 12, x, y, LINE)
        p.text(x, y + 13, f"{bit:,}", 13)


def read(p, y):
    span(p, y, -143, -128, ["S"], GOOD)
    span(p, y, -127, -64, ["accepted,", "1 added"], GOOD)
    span(p, y, -63, 0, ["tail accepted,", "2 added"], BAD)


def missed_tail():
    p = Picture(
        960, 640, "A missed tail, and where SEARCH is back",
        "Idle that begins with a one is taken for codeblocks up to the limit; a command that comes meanwhile is lost. "
        "Idle that begins with a zero is rejected at once.",
    )
    p.text(LEFT, 28, f"A tail is missed. What the receiver makes of the idle behind it (correcting, L = {LIMIT})", 19, "start", "bold")
    p.text(LEFT, 52, "Above: what is sent. Below: what the receiver makes of it. Numbers count idle bits; S is a start sequence.", 14, "start", ink=GREY)

    # sixteen octets AA
    assert told_by_idle(1, 128) == [
        (-128, "start"), (-64, "accepted"), (0, "corrected"), (64, "corrected"), (128, "corrected"), (192, "closed"),
    ]
    y = 90
    p.text(LEFT, y, "16 octets of idle AA: the second command is lost", 16, "start", "bold")
    sent(p, y + 12, 128, "idle 1010.., 128 bits")
    read(p, y + 48)
    span(p, y + 48, 1, 64, ["idle accepted,", "3 added"], BAD)
    span(p, y + 48, 65, 128, ["idle accepted,", "4 added"], BAD)
    span(p, y + 48, 129, 192, ["S is inside:", "rejected"], BAD)
    span(p, y + 48, 193, 272, ["SEARCH, but", "S has passed"], WAIT)
    numbers(p, y + 106, (0, 64, 128, 192))

    # as many bits as the guard time
    assert told_by_idle(1, GUARD) == [
        (-128, "start"), (-64, "accepted"), (0, "corrected"), (64, "corrected"), (128, "corrected"), (192, "long"),
        (GUARD + 16, "start"), (GUARD + 80, "accepted"), (GUARD + 144, "closed"),
    ]
    y = 270
    p.text(LEFT, y, f"64 · L + 67 = {GUARD} bits of the same idle: the second command is received", 16, "start", "bold")
    sent(p, y + 12, GUARD, f"idle 1010.., {GUARD} bits")
    read(p, y + 48)
    span(p, y + 48, 1, 64, ["idle accepted,", "3 added"], BAD)
    span(p, y + 48, 65, 128, ["idle accepted,", "4 added"], BAD)
    span(p, y + 48, 129, 192, ["accepted, but", "4 are: long"], WAIT)
    span(p, y + 48, 193, GUARD, ["SEARCH is back", "since bit 192"], GOOD)
    span(p, y + 48, GUARD + 1, GUARD + 16, ["S"], GOOD)
    span(p, y + 48, GUARD + 17, GUARD + 64, ["accepted"], GOOD)
    numbers(p, y + 106, (0, 64, 128, 192, GUARD))

    # idle that begins with a zero
    assert told_by_idle(0, 128) == [
        (-128, "start"), (-64, "accepted"), (0, "corrected"), (64, "closed"), (144, "start"), (208, "accepted"), (272, "closed"),
    ]
    y = 450
    p.text(LEFT, y, "16 octets of idle 55: here the 64 bits begin with a zero, and are rejected at once", 16, "start", "bold")
    sent(p, y + 12, 128, "idle 0101.., 128 bits")
    read(p, y + 48)
    span(p, y + 48, 1, 64, ["rejected:", "closed"], WAIT)
    span(p, y + 48, 65, 128, ["SEARCH since", "bit 64"], GOOD)
    span(p, y + 48, 129, 144, ["S"], GOOD)
    span(p, y + 48, 145, 208, ["accepted,", "1 added"], GOOD)
    span(p, y + 48, 209, 272, ["tail:", "closed"], GOOD)
    numbers(p, y + 106, (0, 64, 128))
    p.text(LEFT, 596, "Which of the two it is depends on where the 64 bits begin, and so on what came before: idle 55 is as dangerous as AA.", 14, "start", ink=GREY)
    p.text(LEFT, 618, "So the guard time is counted for the worst: 64 · L + 67 bits when correcting, 127 when detecting.", 14, "start", ink=GREY)
    return p.whole()


# ---- the way of a frame


def column(p, x, rows, down):
    """Boxes below one another, with what leads from each to the next."""
    for i, (name, note, step) in enumerate(rows):
        y = 78 + 86 * i
        p.box(x, y, 200, 44, SENT, round_by=8)
        p.text(x + 100, y + 20, name, 16, weight="bold")
        p.text(x + 100, y + 37, note, 13, ink=GREY)
        if step:
            p.arrow(f"M{x + 100} {y + 44} L{x + 100} {y + 84}" if down else f"M{x + 100} {y + 86} L{x + 100} {y + 46}")
            side, anchor = (x + 112, "start")
            p.text(side, y + 61, step[0], 14, anchor)
            p.text(side, y + 78, step[1], 12, anchor, ink=GREY)


def way_of_a_frame():
    p = Picture(
        960, 630, "The way of a frame",
        "On the ground a frame becomes a filled frame, codeblocks, a CLTU and symbols; on board symbols become codeblocks, a candidate and frames.",
    )
    p.text(50, 48, "on the ground", 18, "start", "bold")
    p.text(540, 48, "on board", 18, "start", "bold")
    column(p, 50, (
        ("frame", "1 to 1,024 octets", ("fill", "octets 55 behind it: crate cltu")),
        ("filled frame", "7 · N octets", ("randomizer, or nothing", "a fixed sequence is added: crate randomizer")),
        ("information", "7 · N octets", ("coding", "7 octets become 8: crate coding")),
        ("codeblocks", "8 · N octets", ("start before, tail behind", "crate cltu, program encode")),
        ("CLTU", "10 + 8 · N octets", ("session", "acquisition, idle: crate session")),
        ("symbols", "what the radio sends", None),
    ), True)
    column(p, 540, (
        ("frames", "and the fill behind them", ("cutting", "crate cutting, program frames")),
        ("candidate", "7 · N octets", ("derandomizing, or nothing", "crate derandomizing")),
        ("hold", "a ring or a chain of cells", ("the tail is rejected: closed", "crates hold, ring, chain")),
        ("information", "7 octets each", ("verdict", "accepted, corrected, rejected: crate coding")),
        ("64 bits each", "DECODE", ("search for the start", "crates searching, decoding, receiver")),
        ("symbols", "bits, or soft levels", None),
    ), False)
    p.arrow("M250 530 L538 530")
    p.text(394, 518, "radio", 15, weight="bold")
    p.text(394, 550, "some bits arrive wrong", 13, ink=GREY)
    p.text(480, 612, "A frame that arrives within the allowance comes back with its fill and no other change.", 15)
    return p.whole()


PICTURES = {"states.svg": states, "missed-tail.svg": missed_tail, "frame.svg": way_of_a_frame}


def main():
    arguments = sys.argv[1:]
    if arguments not in ([], ["--check"]):
        sys.exit("make.py: its only argument is --check")
    here = os.path.dirname(os.path.abspath(__file__))
    stale = []
    for name, make in PICTURES.items():
        path, picture = os.path.join(here, name), make()
        if arguments:
            if not os.path.exists(path) or open(path, encoding="utf-8").read() != picture:
                stale.append(name)
        else:
            with open(path, "w", encoding="utf-8") as out:
                out.write(picture)
    if stale:
        sys.exit("make.py: not as it would be written: " + ", ".join(stale))


main()
