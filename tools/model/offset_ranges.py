#!/usr/bin/env python3
"""Ranges of a space in plain Python, what the list machine over a shadow makes of the same calls, and what the code returns for them.

usage: offset_ranges.py RUNS STEPS              makes runs of calls drawn at random, and prints the first difference, with status 1
       offset_ranges.py RUNS STEPS PROGRAM      makes them of the code: of a program that reads scripts (`rlsf_example_offsets`)

A `Space` has a list of free ranges of units, the newest first, and the live ranges: no shadow, no header, no bitmap. An `OffsetTlsf` is proved
to return what the list machine returns for the payloads of its shadow. This compares both, in units of 1, 256, 4096 and 65536 bytes. The runs of
the code also have calls that a `CheckedOffsets` refuses, each with its error.
"""
import random
import subprocess
import sys

from list_machine import Machine

# where the shadow of the first unit begins
START = 2**62 - 32


def class_of(n):
    k = n.bit_length() - 1
    return (k, (n - 2**k) * 8 // 2**k)


def reaches(c, n):
    return 2 ** c[0] * (8 + c[1]) >= 8 * n


class Space:
    """Free ranges as (start, end), and live ones by offset as (start, first, end), all in units; `first` is a multiple of the alignment."""

    def __init__(self, units, unit, limit):
        self.unit, self.units, self.limit = unit, units, max(units, limit)
        self.free, self.live = [(0, units)] if units else [], {}

    def units_for(self, n):
        return max(1, -(-n // self.unit))

    def join(self, start, end):
        for f in [f for f in self.free if f[1] == start or f[0] == end]:
            self.free.remove(f)
            start, end = min(start, f[0]), max(end, f[1])
        self.free.insert(0, (start, end))

    def allocate(self, length, align):
        n, step = self.units_for(length), self.units_for(align)
        found = [c for c in (class_of(e - s) for s, e in self.free) if reaches(c, n + step - 1)]
        if not found:
            return None
        least = min(found)
        s, e = f = next(f for f in self.free if class_of(f[1] - f[0]) == least)
        self.free.remove(f)
        first = -(-s // step) * step
        self.live[first * self.unit] = (s, first, first + n)
        if first + n < e:
            self.free.insert(0, (first + n, e))
        return first * self.unit

    def deallocate(self, offset):
        s, _, e = self.live.pop(offset)
        self.join(s, e)

    def reallocate_in_place(self, offset, length):
        s, first, e = self.live[offset]
        end = first + self.units_for(length)
        behind = next((f for f in self.free if f[0] == e), (e, e))
        if end > behind[1]:
            return False
        if end < e:
            self.join(end, e)
        elif end > e:
            self.free.remove(behind)
            if end < behind[1]:
                self.free.insert(0, (end, behind[1]))
        self.live[offset] = (s, first, end)
        return True

    def grow(self, length):
        units = length // self.unit
        if not self.units <= units <= self.limit:
            return False
        if self.units < units:
            self.join(self.units, units)
        self.units = units
        return True

    def pieces(self):
        used = [(s, e, "") for s, _, e in self.live.values()]
        return sorted(used + [(s, e, "*") for s, e in self.free])


class Refusing(Space):
    """The same by lines, with errors in place of conditions."""

    def reply(self, line):
        word, *numbers = line.split()
        return str(getattr(self, "call_" + word)(*map(int, numbers)))

    def call_allocate(self, length, align):
        if align & (align - 1) or align == 0:
            return "BadAlign"
        if length > self.units * self.unit:
            return "TooLong"
        offset = self.allocate(length, align)
        return "NoRoom" if offset is None else offset

    def call_deallocate(self, offset):
        if offset not in self.live:
            return "UnknownOffset"
        self.deallocate(offset)
        return "done"

    def call_resize(self, offset, length):
        if offset not in self.live:
            return "UnknownOffset"
        return "done" if self.reallocate_in_place(offset, length) else "NoRoom"

    def call_grow(self, length):
        if length // self.unit < self.units:
            return "TooShort"
        return "done" if self.grow(length) else "TooLong"

    def call_len(self, offset):
        if offset not in self.live:
            return "UnknownOffset"
        _, first, end = self.live[offset]
        return (end - first) * self.unit

    def call_pieces(self):
        return "".join(f"{s * self.unit} {(e - s) * self.unit}{star} " for s, e, star in self.pieces())


class Bare(Machine):
    """The list machine without the bytes of payloads."""

    def _place(self, f, b, length, align, payload, data):
        super()._place(f, b, length, align, payload, None)

    def _keep(self, old, usable):
        return None


class Shadow:
    """An `OffsetTlsf` as its contracts describe it: a range of k units is a payload of 32 * (k - 1) bytes, 32 bytes past the range's shadow."""

    def __init__(self, units, unit, limit):
        self.unit, self.units, self.limit, self.machine = unit, units, max(units, limit), Bare(59, 8)
        self.machine.insert(START, 32 * units + 32)

    def size(self, length):
        return 32 * (max(1, -(-length // self.unit)) - 1)

    def allocate(self, length, align):
        addr = self.machine.allocate(self.size(length), 32 * max(1, -(-align // self.unit)))
        return None if addr is None else (addr - 2**62) // 32 * self.unit

    def deallocate(self, offset):
        self.machine.deallocate(2**62 + offset // self.unit * 32)

    def reallocate_in_place(self, offset, length):
        return self.machine.reallocate_in_place(2**62 + offset // self.unit * 32, self.size(length)) is not None

    def grow(self, length):
        units = length // self.unit
        if not self.units <= units <= self.limit:
            return False
        if self.units == 0:
            self.machine.insert(START, 32 * units + 32)
        else:
            self.machine.append(2**62 + 32 * self.units, 32 * (units - self.units))
        self.units = units
        return True

    def free(self):
        return [((s - START) // 32, (e - START) // 32) for s, e in self.machine.free]


def lengths(draw, unit):
    """The units of a space, how many it can have, and the longest range that is asked for."""
    units = draw.choice([0, 1, 7, 64, 1000, 4096])
    limit = units * draw.choice([0, 1, 2, 3]) + draw.choice([0, 5])
    return units, limit, max(1, max(units, limit) * unit // draw.choice([2, 8, 32, 128]))


def run(seed, unit, steps):
    """Makes one run, and returns the numbers of ranges that were made, refused, resized and not resized."""
    draw = random.Random(seed)
    units, limit, most = lengths(draw, unit)
    space, shadow, counts = Space(units, unit, limit), Shadow(units, unit, limit), [0, 0, 0, 0]
    for step in range(steps):
        kind = draw.randrange(5)
        length = draw.randrange(most + 1)
        if draw.randrange(100) == 0:
            longer = draw.randrange(2 * space.units * unit + 10 * unit)
            one, two = space.grow(longer), shadow.grow(longer)
        elif kind < 2 or not space.live:
            align = 2 ** draw.choice([0, 0, 0, 4, unit.bit_length() - 1, unit.bit_length() + draw.randrange(5)])
            one, two = space.allocate(length, align), shadow.allocate(length, align)
            counts[one is None] += 1
        else:
            offset = draw.choice(list(space.live))
            if kind < 4:
                one, two = space.deallocate(offset), shadow.deallocate(offset)
            else:
                one, two = space.reallocate_in_place(offset, length), shadow.reallocate_in_place(offset, length)
                counts[3 - one] += 1
        if one != two or space.free != shadow.free():
            sys.exit(f"seed {seed}, unit {unit}, step {step}: {one} and {two}, {space.free} and {shadow.free()}")
    return counts


def script(seed, unit, steps):
    """The lines of a run of the code, and their replies."""
    draw = random.Random(seed)
    units, limit, most = lengths(draw, unit)
    space = Refusing(units, unit, limit)
    lines = [f"space {unit} {units * unit + draw.randrange(unit)} {limit * unit}"]
    replies = []
    for _ in range(steps):
        kind, length = draw.randrange(100), draw.randrange(most + 1)
        offset = draw.choice(list(space.live)) if space.live and draw.randrange(20) else draw.randrange(space.units * unit + 1)
        if kind < 40:
            align = 2 ** draw.choice([0, 0, 0, 4, unit.bit_length() - 1, unit.bit_length() + draw.randrange(5)])
            if draw.randrange(50) == 0:
                align, length = draw.choice([(0, 1), (3, 1), (align, 2**64 - 1), (2**63, length)])
            line = f"allocate {length} {align}"
        elif kind < 75:
            line = f"deallocate {offset}"
        elif kind < 95:
            line = f"resize {offset} {length}"
        elif kind < 98:
            line = f"len {offset}"
        else:
            line = f"grow {draw.randrange(2 * space.units * unit + 10 * unit)}"
        lines.append(line)
        replies.append(space.reply(line))
    return [*lines, "pieces"], [*replies, space.reply("pieces")]


def compare(program, runs, steps):
    """Makes runs of the code, and compares the replies of each line."""
    kinds = {}
    for seed in range(runs):
        lines, replies = script(seed, (1, 256, 4096, 65536)[seed % 4], steps)
        said = subprocess.run([program], input="\n".join(lines) + "\n", capture_output=True, text=True, check=True).stdout
        given = said.split("\n")[-len(replies) - 1:-1]
        for line, reply, other in zip(lines[1:], replies, given, strict=True):
            if reply != other:
                sys.exit(f"seed {seed}, {lines[0]}, {line}: {reply} and {other}")
            kind = line.split()[0] + (" " + reply if reply.isalpha() and reply != "done" else "")
            kinds[kind] = kinds.get(kind, 0) + 1
    print(", ".join(f"{count} {kind}" for kind, count in sorted(kinds.items())) + ": equal")


def main(runs, steps):
    totals = [0, 0, 0, 0]
    for seed in range(runs):
        counts = run(seed, (1, 256, 4096, 65536)[seed % 4], steps)
        totals = [a + b for a, b in zip(totals, counts)]
    print("{} made, {} refused, {} resized, {} not: equal".format(*totals))


if __name__ == "__main__":
    if len(sys.argv) not in (3, 4):
        sys.exit(__doc__)
    if len(sys.argv) == 4:
        compare(sys.argv[3], int(sys.argv[1]), int(sys.argv[2]))
    else:
        main(int(sys.argv[1]), int(sys.argv[2]))
