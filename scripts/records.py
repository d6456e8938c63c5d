#!/usr/bin/env python3
"""Prints the tables of crates/op_record/src/tests.rt: records of every kind, smallest and largest, rounds of both
versions, and wrong bytes.

It knows the format from docs/FORMATS.md alone and shares nothing with the crate: a byte is wrong where no number
between the least and the greatest that begin with the bytes so far is allowed. `records.py check` tries every cut and
every byte at every place of the rounds against this rule and against the grammar itself, and prints nothing else.
"""

import sys

LAST = 253402300799999


class Short(Exception):
    pass


class Bad(Exception):
    pass


class Reader:
    def __init__(self, data):
        self.data, self.at = data, 0

    def number(self, width, ranges):
        low, high = 0, 256 ** width - 1
        for left in reversed(range(width)):
            if self.at == len(self.data):
                raise Short
            low += self.data[self.at] * 256 ** left
            high = low + 256 ** left - 1
            if not any(a <= high and low <= b for a, b in ranges):
                raise Bad(self.at)
            self.at += 1
        return low

    def word(self, width, limit=None):
        return self.number(width, [(0, 256 ** width - 1 if limit is None else limit)])

    def take(self, n):
        if self.at + n > len(self.data):
            raise Short
        self.at += n

    def text(self, limit):
        self.take(self.word(2, limit))

    def option(self, field):
        if self.number(1, [(0, 1)]):
            field()

    def account(self):
        self.number(1, [(1, 3)])
        self.word(4)

    def limits(self):
        self.option(lambda: self.word(8))
        if self.number(1, [(0, 2)]):
            self.word(4)
            self.word(8)
        self.option(lambda: self.text(128))

    def items(self):
        count = self.number(1, [(1, 3)])
        above = 0
        for left in reversed(range(count)):
            above = self.number(1, [(above + 1, 3 - left)])
            mask = {1: 63, 2: 13, 3: 61}[above]
            self.number(1, [(b, b) for b in range(1, 64) if b & ~mask == 0])
            self.option(lambda: self.word(4))
            self.option(self.limits)

    def finish(self):
        self.text(512)
        self.text(128)

    def act(self, highest):
        kind = self.number(1, [(1, highest)])
        for step in ROWS[kind]:
            step(self)

    def entry(self):
        self.word(8, LAST)
        self.act(24)

    def round(self):
        """A payload: version 2 where the first byte is 2, else version 1. It is filled by one entry or more."""
        second = self.data[:1] == b"\x02"
        if second:
            self.at = 1
            self.word(8, LAST)
        while True:
            if second:
                self.act(25)
            else:
                self.entry()
            if self.at == len(self.data):
                return


def u(width):
    return lambda r: r.word(width)


def t(limit):
    return lambda r: r.text(limit)


def o(field):
    return lambda r: r.option(lambda: field(r))


account, word = Reader.account, lambda r: r.take(16)
ROWS = {
    1: [t(200)], 2: [t(8), u(1), u(1)], 3: [t(128), u(4), o(t(128))], 4: [t(64), account, u(8)], 5: [t(64), account, u(8)],
    6: [u(4), u(4), u(8), u(8)], 7: [u(8), u(4), o(u(8)), lambda r: r.word(8, LAST), o(t(1024))], 8: [u(8), u(8)], 9: [u(8)],
    10: [u(8), u(4), u(8), lambda r: r.number(1, [(1, 3)])] + [u(8)] * 7,
    11: [t(256), Reader.items, o(Reader.finish), word], 12: [u(8), word], 13: [u(8), word], 14: [u(8)], 15: [u(8), word],
    16: [u(8)], 17: [u(8), word], 18: [u(8)], 19: [u(8), u(8), o(t(1024))], 20: [u(8), u(8)], 21: [u(8), u(8)],
    22: [u(8), u(8)], 23: [u(8), u(8), lambda r: r.number(1, [(1, 3)])], 24: [u(8), lambda r: r.number(2, [(0, 0), (100, 999)])],
    25: [u(8), u(4)] + [u(8)] * 7 + [o(t(1024))],
}


def answer(data, read=Reader.entry):
    r = Reader(data)
    try:
        read(r)
    except Short:
        return "short"
    except Bad as bad:
        return bad.args[0]
    return "whole" if r.at == len(data) else "more"


def spell(pieces):
    return b"".join(bytes.fromhex(p.split("*")[0]) * int((p.split("*") + ["1"])[1]) for p in pieces.split(" "))


Z8, F8, Z4, F4, W = "00*8", "ff*8", "00*4", "ff*4", "a5*16"
M0, M1 = "00*8", "0000e677d21fdbff"
SMALL = {
    1: "0000", 2: "0000 00 00", 3: "0000 " + Z4 + " 00", 4: "0000 01 " + Z4 + " " + Z8, 5: "0000 01 " + Z4 + " " + Z8,
    6: f"{Z4} {Z4} {Z8} {Z8}", 7: f"{Z8} {Z4} 00 {M0} 00", 8: f"{Z8} {Z8}", 9: Z8,
    10: f"{Z8} {Z4} {Z8} 01" + f" {Z8}" * 7, 11: f"0000 01 01 01 00 00 00 {W}", 12: f"{Z8} {W}", 13: f"{Z8} {W}", 14: Z8,
    15: f"{Z8} {W}", 16: Z8, 17: f"{Z8} {W}", 18: Z8, 19: f"{Z8} {Z8} 00", 20: f"{Z8} {Z8}", 21: f"{Z8} {Z8}",
    22: f"{Z8} {Z8}", 23: f"{Z8} {Z8} 01", 24: f"{Z8} 0000", 25: f"{Z8} {Z4}" + f" {Z8}" * 7 + " 00",
}
LIMITS = f"01 01 {F8} 02 {F4} {F8} 01 0080 50*128"
LARGE = {
    1: "00c8 68*200", 2: "0008 ff*8 ff ff", 3: f"0080 2f*128 {F4} 01 0080 c3*128", 4: f"0040 7e*64 03 {F4} {F8}",
    5: f"0040 7e*64 03 {F4} {F8}", 6: f"{F4} {F4} {F8} {F8}", 7: f"{F8} {F4} 01 {F8} {M1} 01 0400 7b*1024", 8: f"{F8} {F8}",
    9: F8, 10: f"{F8} {F4} {F8} 03" + f" {F8}" * 7,
    11: f"0100 63*256 03 01 3f 01 {F4} {LIMITS} 02 0d 01 {F4} {LIMITS} 03 3d 01 {F4} {LIMITS} 01 0200 75*512 0080 6e*128 {W}",
    12: f"{F8} {W}", 13: f"{F8} {W}", 14: F8, 15: f"{F8} {W}", 16: F8, 17: f"{F8} {W}", 18: F8,
    19: f"{F8} {F8} 01 0400 7b*1024", 20: f"{F8} {F8}", 21: f"{F8} {F8}", 22: f"{F8} {F8}", 23: f"{F8} {F8} 03", 24: f"{F8} 03e7",
    25: f"{F8} {F4}" + f" {F8}" * 7 + " 01 0400 7b*1024",
}


def wrong(record, read=Reader.entry):
    """For each place where some byte is wrong: the least and the greatest such byte there."""
    for place in range(len(record)):
        bad = [b for b in range(256) if answer(record[:place] + bytes([b]), read) == place]
        for b in sorted({min(bad), max(bad)} if bad else []):
            yield place, b


def rounds():
    """Rounds, as a name, their pieces, and the lengths at which a cut of them is a round itself."""
    ones = [f"{kind:02x} {fields}" for kind, fields in SMALL.items()]
    first = [f"{M0} {one}" for one in ones[:24]]
    yield "each kind of version 1", first
    yield "each kind of version 2", ["02 " + M1] + ones
    yield "two entries of version 1", [f"{M1} {ones[0]}", f"{M0} {ones[23]}"]
    yield "two entries of version 2", ["02 " + M1, ones[0], f"19 {LARGE[25]}"]
    yield "one entry of version 2", ["02 " + M0, "14 " + SMALL[20]]


def whole_lengths(pieces):
    """Where a round may end: behind each piece but the opening of version 2."""
    length, ends = 0, []
    for piece in pieces:
        length += len(spell(piece))
        if not piece.startswith("02 " + "0") or length > 9:
            ends.append(length)
    return ends


def check():
    """Every cut, and every byte at every place, of each round."""
    for name, pieces in rounds():
        data = b"".join(spell(piece) for piece in pieces)
        ends = whole_lengths(pieces)
        for end in range(len(data)):
            assert answer(data[:end], Reader.round) == ("whole" if end in ends else "short"), (name, end)
        assert answer(data, Reader.round) == "whole", name
        for place in range(len(data)):
            for b in range(256):
                told = answer(data[:place] + bytes([b]), Reader.round)
                assert told in ("whole", "short") or told == place, (name, place, b, told)


def listed(pairs):
    return ", ".join(f"({a}, {b})" for a, b in pairs)


def main():
    print("// rows")
    for moment, table in ((M0, SMALL), (M1, LARGE)):
        for kind, fields in table.items():
            if kind <= 24:
                pieces = f"{moment} {kind:02x} {fields}"
                assert answer(spell(pieces)) == "whole", kind
                print(f'    "{pieces}",')
    print("// wrong")
    for kind, fields in LARGE.items():
        if kind <= 24:
            pieces = f"{M1} {kind:02x} {fields}"
            places = [(p, b) for p, b in wrong(spell(pieces)) if kind == 1 or p > 8]
            if places:
                print(f'    ("{pieces}", &[{listed(places)}]),')
    print("// rounds")
    for name, pieces in rounds():
        ends = ", ".join(str(end) for end in whole_lengths(pieces))
        print(f'    ("{" ".join(pieces)}", &[{ends}]),')
    print("// wrong rounds")
    for name, pieces in rounds():
        data = b"".join(spell(piece) for piece in pieces)
        places = list(wrong(data, Reader.round))
        print(f'    ("{" ".join(pieces)}", &[{listed(places)}]),')


if sys.argv[1:] == ["check"]:
    check()
else:
    main()
