#!/usr/bin/env python3
"""Prints refusals/tables.rt but for its head, before `rt fmt`: what the list machine over a source answers and asks, for a list of answers as it is and
with each of them replaced by None in turn.

usage: tables.py
"""
import copy
import pathlib
import sys

sys.dont_write_bytecode = True
sys.path.insert(0, str(pathlib.Path(__file__).resolve().parents[4] / "tools/model"))
from flex_machine import FlexMachine

SPACE = (4096, 16384)


class ListedSource:
    """Answers from a list; what a source may not give is none."""

    def __init__(self, answers, dealloc, grow, contiguous, min_align):
        self.answers, self.taken = list(answers), []
        self.dealloc, self.grow, self.contiguous, self.min_align = dealloc, grow, contiguous, min_align

    def _next(self):
        return self.answers.pop(0) if self.answers else None

    def _take(self, start, length):
        if start < SPACE[0] or start + length > SPACE[0] + SPACE[1]:
            return False
        if any(max(start, s) < min(start + length, s + n) for s, n in self.taken):
            return False
        self.taken.append((start, length))
        return True

    def alloc(self, n):
        a = self._next()
        ok = isinstance(a, tuple) and a[1] >= n and a[0] % self.min_align == 0 and self._take(*a)
        return a if ok else None

    def realloc_inplace_grow(self, r, n):
        a = self._next()
        ok = isinstance(a, int) and a >= n and self._take(r[0] + r[1], a - r[1])
        return a if ok else None


def state(f):
    m = f.m
    return copy.deepcopy((m.chunks, {k: vars(u) for k, u in m.used.items()}, m.free, f.pools, f.kept))


def run(calls, answers, terms):
    f, names, replies = FlexMachine(8, 8, ListedSource(answers, *terms)), {}, []
    for call, name, *rest in calls:
        if call != "Alloc" and name not in names:
            replies.append("unknown")
        elif call == "Free":
            f.deallocate(names.pop(name))
            replies.append(0)
        else:
            before, count = state(f), len(f.notes)
            to = f.allocate(*rest) if call == "Alloc" else f.reallocate(names[name], *rest)
            if to is None:
                assert state(f) == before and all(n[-1] is None for n in f.notes[count:])
            else:
                names[name] = to
            replies.append(to or 0)
        f.m.check()
    f.into_parts()
    return replies, f.notes


def asked(note):
    kind, *rest = note
    if kind == "alloc":
        n, given = rest
        return f"asked {n} got {'{} {}'.format(*given) if given else 'none'}"
    if kind == "grow":
        (s, l), n, given = rest
        return f"asked {s} {l} to grow to {n} got {given or 'none'}"
    return f"given back {rest[0][0]} {rest[0][1]}"


def answered(call, name, reply):
    if reply == "unknown":
        return "refused 1 UnknownName"
    if call == "Free":
        return f"free {name} done"
    return f"{call.lower()} {name} {f'at {reply}' if reply else 'none'}"


def runs(calls, answers, terms):
    for i in range(-1, len(answers)):
        yield i, run(calls, [None if k == i else a for k, a in enumerate(answers)], terms)


LISTS = {
    "GROWS_AND_TAKES_BACK": (
        (True, True, False, 1),
        [
            (4103, 781), 1756, 2460, 3449, 3932, None, (8042, 417), 1433, 2492, 3479, None, (11528, 557),
        ],
        [
            ("Alloc", 1, 600, 1), ("Realloc", 1, 900), ("Free", 1), ("Alloc", 2, 400, 8),
            ("Alloc", 3, 100, 64), ("Alloc", 4, 600, 16), ("Realloc", 2, 100), ("Alloc", 5, 600, 16),
            ("Alloc", 6, 17, 1), ("Alloc", 7, 900, 1), ("Realloc", 2, 150), ("Alloc", 8, 333, 64),
            ("Alloc", 9, 333, 16), ("Alloc", 10, 900, 16), ("Alloc", 11, 40, 8), ("Free", 4),
            ("Alloc", 12, 150, 64), ("Realloc", 7, 333), ("Alloc", 13, 333, 32), ("Realloc", 12, 333),
            ("Alloc", 14, 220, 64), ("Alloc", 15, 1, 128), ("Realloc", 12, 40), ("Alloc", 16, 220, 32),
            ("Alloc", 17, 900, 1), ("Alloc", 18, 100, 64), ("Alloc", 19, 900, 8), ("Realloc", 5, 400),
            ("Alloc", 20, 400, 1), ("Realloc", 5, 333), ("Alloc", 21, 1, 8), ("Realloc", 16, 17), ("Free", 3),
            ("Realloc", 14, 600), ("Alloc", 22, 150, 32), ("Realloc", 5, 150), ("Free", 7),
            ("Alloc", 23, 1, 1), ("Alloc", 24, 150, 32), ("Realloc", 5, 220), ("Realloc", 9, 333),
            ("Realloc", 21, 333), ("Alloc", 25, 900, 64), ("Alloc", 26, 900, 128),
        ],
    ),
    "CLAIMS_CONTIGUITY": (
        (False, True, True, 1),
        [
            (4101, 421), 699, 993, 1147, 1534,
        ],
        [
            ("Alloc", 1, 333, 1), ("Realloc", 1, 1), ("Alloc", 2, 150, 1), ("Alloc", 3, 1, 64),
            ("Alloc", 4, 100, 128), ("Alloc", 5, 150, 32), ("Realloc", 1, 100), ("Alloc", 6, 17, 16),
            ("Alloc", 7, 220, 128), ("Realloc", 6, 333), ("Alloc", 8, 900, 32), ("Free", 7),
            ("Alloc", 9, 900, 1), ("Alloc", 10, 17, 32),
        ],
    ),
    "TAKES_BACK": (
        (True, False, False, 64),
        [
            (4160, 192), (4352, 229), (4608, 288), (4928, 673), (5696, 579),
        ],
        [
            ("Alloc", 1, 1, 128), ("Alloc", 2, 150, 1), ("Free", 1), ("Realloc", 2, 220), ("Alloc", 3, 600, 1),
            ("Alloc", 4, 400, 16), ("Realloc", 3, 100), ("Realloc", 2, 600), ("Alloc", 5, 100, 32),
            ("Realloc", 5, 900), ("Realloc", 3, 1), ("Alloc", 6, 333, 16), ("Free", 3), ("Alloc", 7, 220, 128),
        ],
    ),
}


def answer(a):
    if isinstance(a, tuple):
        return f"SourceAnswer::Range(Range {{ start: {a[0]}, len: {a[1]} }})"
    return "SourceAnswer::None" if a is None else f"SourceAnswer::Len({a})"


def text(lines):
    return '"' + "".join(line + "\\n" for line in lines) + '"'


def show(name, terms, answers, calls):
    trace = [f"8x8 {SPACE[0]} {SPACE[1]}"] + [" ".join(map(str, (c.lower(), *rest))) for c, *rest in calls]
    print(f"pub static {name}: List = List {{ answers: &[{', '.join(map(answer, answers))}], trace: {text(trace)}, runs: &[")
    for _, (replies, notes) in runs(calls, answers, terms):
        print(text([answered(*call[:2], reply) for call, reply in zip(calls, replies)] + [asked(note) for note in notes]) + ",")
    print("]};\n")


for name, (terms, answers, calls) in LISTS.items():
    show(name, terms, answers, calls)
