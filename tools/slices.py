#!/usr/bin/env python3
"""What the program `slices` has to print, by a reader of its own, written from document 01's layout and from none of the project's code.

For every byte string of length 0, 1 and 2: how often the reader refuses with each number at each place ("number place times").
A sheet has at least five bytes, so none of these is accepted.
"""
from collections import Counter

class Refused(Exception):
    pass

class Reader:
    def __init__(self, data):
        self.data, self.at = data, 0

    def number(self, limit, why):
        """A number below the limit, or a refusal at its first byte."""
        data, start = self.data, self.at
        if start >= len(data):
            raise Refused(1, len(data))
        value, size = data[start], 1
        if value >= 128:
            if start + 1 >= len(data):
                raise Refused(1, start)
            second = data[start + 1]
            if second == 0 or second >= 128:
                raise Refused(2, start)
            value, size = value - 128 + 128 * second, 2
        if value >= limit:
            raise Refused(why, start)
        self.at = start + size
        return value

    def line(self, own):
        kind = self.number(8, 4)
        if kind == 2:
            self.number(32, 4)
        elif kind == 3:
            self.number(own, 5)
        elif kind in (4, 5):
            self.number(own, 5)
            self.number(own, 5)
        elif kind in (6, 7):
            self.number(8, 4)
            self.number(own, 5)

    def sheet(self):
        lines = self.number(33, 3)
        for own in range(lines):
            self.line(own)
        for _ in range(self.number(13, 3)):
            self.number(lines, 5)
            self.number(lines, 5)
        ports = self.number(9, 3)
        for _ in range(self.number(17, 3)):
            self.number(ports, 5)
            self.number(lines, 5)
        for _ in range(self.number(17, 3)):
            self.number(8, 4)
            self.number(ports, 5)
            self.number(ports, 5)
        if self.at < len(self.data):
            raise Refused(6, self.at)

times = Counter()
strings = [b""] + [bytes([a]) for a in range(256)] + [bytes([a, b]) for a in range(256) for b in range(256)]
for data in strings:
    try:
        Reader(data).sheet()
    except Refused as fault:
        times[fault.args] += 1
for (number, place), n in sorted(times.items()):
    print(number, place, n)
