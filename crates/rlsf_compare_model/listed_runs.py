"""Runs over sources with fixed answers: each op on a payload, each refusal, ranges that grow, and trims over each kind of source."""
from machine_runs import CAPABILITIES, Run, Source


class ListedSource(Source):
    """Gives the next answer of a list, if it is a range or a length that it may give, and else none. Its space is 16384 bytes
    from 4096 on, and what it was given back isn't given again."""

    def __init__(self, capabilities, min_align, given):
        super().__init__(capabilities, min_align)
        self.start, self.end = 4096, 20480
        self.given, self.taken = list(given), []

    def next(self):
        return self.given.pop(0) if self.given else None

    def hand_out(self, start, length):
        if start < self.start or start + length > self.end or any(s < start + length and start < s + n for s, n in self.taken):
            return False
        self.taken.append((start, length))
        return True

    def choose_range(self, n):
        a = self.next()
        ok = isinstance(a, tuple) and a[1] >= n and a[0] % self.min_align == 0 and self.hand_out(*a)
        return a if ok else None

    def choose_length(self, r, n):
        a = self.next()
        return a if isinstance(a, int) and a >= n and self.hand_out(r[0] + r[1], a - r[1]) else None


class ListedRun(Run):
    """A run whose source answers from a list, all of which the program reads, also where nothing asks for it."""

    def __init__(self, config, capabilities, min_align, given, lines):
        super().__init__(config, ListedSource(capabilities, min_align, given))
        self.given = given
        for line in lines:
            op, *ns = line.split()
            self.do(op, *map(int, ns))

    def texts(self):
        read, said = super().texts()
        asked = [line for line in read if line.startswith("answer ")]
        return read[:1] + [f"answer {words(a)}" for a in self.given] + read[1 + len(asked):], said


def words(given):
    return "none" if given is None else " ".join(map(str, given if isinstance(given, tuple) else (given,)))


UNKNOWN = ["free 1", "ufree 1", "realloc 1 8", "fill 1 1", "put 1 0 1", "get 1 0", "usable 1"]

# Over a source that gives one range of so many bytes.
ONE_RANGE = [
    # Each op on a payload.
    (160, ["alloc 1 16 1", "fill 1 7", "put 1 3 9", "get 1 3", "get 1 4", "usable 1", "realloc 1 40", "usable 1", "get 1 3",
           "get 1 15", "nrealloc 1 60", "usable 1", "get 1 3", "free 1", "alloc 1 16 1", "ufree 1"]),
    # Ops on ranges.
    (96, ["insert 4192 96", "alloc 1 1 1", "insert 4192 96", "append 4192 96", "block 4096 96 0", "block 4192 96 0", "usable 1",
          "alloc 2 1 1", "alloc 3 1 1", "free 1"]),
    # Unknown names.
    (96, ["free 1", "alloc 1 16 1", "fill 1 7", "free 2", "ufree 2", "realloc 2 8", "nrealloc 2 8", "fill 2 1", "put 2 0 1",
          "get 2 0", "usable 2", "get 1 0", "get 1 15", "free 1", *UNKNOWN, "alloc 1 16 1"]),
    # Names that are taken.
    (96, ["alloc 1 1 1", "fill 1 7", "alloc 1 1 1", "get 1 0", "alloc 2 1 1", "free 1", "alloc 1 1 1"]),
    # Offsets from the usable size on.
    (96, ["alloc 1 1 1", "fill 1 7", "put 1 16 8", "get 1 16", "put 1 18446744073709551615 8", "get 1 15", "put 1 15 9",
          "get 1 15", "get 1 14"]),
    # Sizes that no layout has.
    (96, ["alloc 1 1 16", "fill 1 7", "realloc 1 9223372036854775808", "realloc 1 9223372036854775793",
          "nrealloc 1 9223372036854775793", "usable 1", "get 1 15", "alloc 2 1 1"]),
    # A payload that may not move: the free block before its own would suffice.
    (96, ["alloc 1 1 1", "alloc 2 16 1", "fill 2 7", "free 1", "nrealloc 2 40", "usable 2", "get 2 15", "nrealloc 2 3",
          "realloc 2 40"]),
    # A payload that finds no other room.
    (96, ["alloc 1 16 1", "fill 1 7", "realloc 1 1000", "usable 1", "get 1 0", "get 1 15", "alloc 1 1 1", "free 1"]),
]

GROWN = [(4097, 96), 159]

OTHERS = [
    # A range grows; so does a chunk of any length.
    ("12x16", ["grow", "contiguous"], 1, GROWN, ["alloc 1 1 1", "alloc 2 1 1"]),
    ("59x8", ["grow", "contiguous"], 1, GROWN, ["alloc 1 1 1", "alloc 2 1 1"]),
    # Ranges go back one after another.
    ("8x8", ["dealloc"], 1024, [(4096, 1024), (5120, 3072)],
     ["alloc 1 1 1", "alloc 2 2000 1", "trim", "free 2", "trim", "free 1", "trim"]),
    # A range that grew goes back.
    ("8x8", ["dealloc", "grow"], 1, GROWN, ["alloc 1 1 1", "alloc 2 1 1", "free 2", "trim", "free 1", "trim"]),
    # The range before grows.
    ("8x8", ["dealloc", "grow"], 32, [(4096, 101), None, (8192, 101), 160],
     ["alloc 1 1 1", "alloc 2 1 1", "alloc 3 1 1", "free 3", "trim", "alloc 4 1 1"]),
]

# Trims among other ops, the last of them where nothing is outstanding any more if ranges go back.
TRIMS = ["alloc 1 1 1", "fill 1 7", "trim", "alloc 2 100 1", "alloc 3 40 1", "free 3", "trim", "free 2", "trim", "get 1 0",
         "alloc 4 200 1", "free 1", "trim", "free 4", "trim", "trim", "alloc 5 1 1", "alloc 6 1 1"]
FOR_TRIMS = [(4096, 101), 288, (8192, 192), (12288, 256), 352, (16384, 512), (18432, 128), (19456, 128)]


def listed_runs():
    runs = [ListedRun("8x8", [], 32, [(4096, length)], lines) for length, lines in ONE_RANGE]
    runs += [ListedRun(*run) for run in OTHERS]
    for kind in range(8):
        capabilities = [word for i, word in enumerate(CAPABILITIES) if kind >> i & 1]
        runs.append(ListedRun("8x8", capabilities, 32, FOR_TRIMS, TRIMS))
    return runs
