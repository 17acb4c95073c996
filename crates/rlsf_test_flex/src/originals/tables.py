#!/usr/bin/env python3
"""Prints originals/lists.rt, originals/system.rt, originals/contiguous.rt or originals/shapes.rt but for their heads, before `rt fmt`: what the list machine over a source answers and asks in the original's tests, over its two sources and in its
thirty configurations.

usage: tables.py lists|system|contiguous|shapes
"""
import pathlib
import random
import sys

sys.dont_write_bytecode = True
ROOT = pathlib.Path(__file__).resolve().parents[4]
sys.path[:0] = [str(ROOT / "tools/model"), str(ROOT / "crates/rlsf_compare_model")]
from machine_runs import Run, START
from original_runs import AADAADARAAADR, MINIMAL, OFFSET, ContiguousSource, Original, SystemSource, fixed_run

SHAPES = ("1x1 1x2 1x4 1x8 3x4 5x4 8x1 8x8 11x4 16x4 3x16 11x16 16x16 3x32 11x32 16x32 "
          "20x32 27x32 28x32 29x32 32x32 58x8 59x8 60x8 61x8 64x8").split()
SOURCES = {"system": SystemSource, "contiguous": ContiguousSource}
# List `n` is `random.Random(n).randbytes(160)`; the first byte of the vector that is used and the bound of sizes, which is below the
# number beside it, are that generator's next two numbers. These lists tell many configurations apart.
LISTS = [(36, 65536), (134, 65536), (165, 65536), (1241, 65536), (53, 600), (108, 600)]
FIXED = {"MINIMAL": MINIMAL, "AADAADARAAADR": AADAADARAAADR}
STEP = 61


class Sampled(Original):
    """Writes each 61st byte and the last one of a payload, as originals/script.rt does, and makes sure that what is read there is
    what was written."""

    def __init__(self, *given):
        super().__init__(*given)
        self.written = {}

    def fill(self, name, length):
        self.written[name] = offsets(length)
        for i in self.written[name]:
            self.run.used(name).data[i] = reversed_bits(i)

    def verify(self, name, length):
        data = self.run.used(name).data
        assert all(data[i] == reversed_bits(i) for i in self.written[name] if i < length)


def offsets(length):
    return [*range(0, length, STEP), length - 1] if length else []


def reversed_bits(i):
    return int(f"{i % 256:08b}"[::-1], 2)


def drawn(n, greatest):
    rng = random.Random(n)
    return rng.randbytes(160), rng.randrange(256), rng.randrange(greatest)


def runs(shape, source):
    for calls in FIXED.values():
        yield fixed_run(Run(shape, SOURCES[source](OFFSET)), calls), SOURCES[source](OFFSET)
    for n, greatest in LISTS:
        code, offset, most = drawn(n, greatest)
        yield Sampled(shape, SOURCES[source](offset), most, code).all(), SOURCES[source](offset)


def outcome(run, fresh):
    """The address of each payload, less the space's start, 0 for none; and how much the source was asked for."""
    run.flex.into_parts()
    placed = [line.rsplit(" ", 1)[1] for line in run.answers if line.split()[0] in ("alloc", "realloc")]
    asked = [note[1] if note[0] == "alloc" else note[2] for note in run.flex.notes if note[0] != "dealloc"]
    assert run.flex.notes == questions(fresh, asked)
    return tuple(0 if word == "none" else int(word) - START for word in placed), tuple(asked)


def questions(fresh, asked):
    """All questions with their answers, which follow from what was asked for, as originals/asked.rt makes them."""
    notes, owed = [], []
    for n in asked:
        if owed and fresh.grow:
            given = fresh.realloc_inplace_grow(owed[-1], n)
            notes.append(("grow", owed[-1], n, given))
            owed[-1] = (owed[-1][0], given or owed[-1][1])
        else:
            given = fresh.alloc(n)
            notes.append(("alloc", n, given))
            owed += [given] if given else []
    return notes + [("dealloc", r) for r in reversed(owed) if fresh.dealloc]


def outcomes(source):
    """For each shape the outcomes of its runs."""
    return {shape: [outcome(*run) for run in runs(shape, source)] for shape in SHAPES}


def distinct(column):
    return list(dict.fromkeys(column))


def show_lists():
    for n, greatest in LISTS:
        code, offset, most = drawn(n, greatest)
        print(f"pub static LIST_{n}: List = List {{ bytes: [{', '.join(map(str, code))}], skipped: {offset}, bound: {most} }};\n")


def show_outcomes(source):
    names = [*FIXED, *(f"LIST_{n}" for n, _ in LISTS)]
    for name, column in zip(names, zip(*outcomes(source).values())):
        rows = distinct(column)
        print(f"pub static {name}: [Outcome; {len(rows)}] = [")
        for placed, asked in rows:
            print(f"Outcome {{ placed: &[{', '.join(map(str, placed))}], asked: &[{', '.join(map(str, asked))}] }},")
        print("];\n")


def show_shapes():
    by_choice = {}
    columns = [[*zip(*outcomes(source).values())] for source in SOURCES]
    for place, shape in enumerate(SHAPES):
        choice = tuple(tuple(distinct(column).index(column[place]) for column in half) for half in columns)
        by_choice.setdefault(choice, []).append(shape)
    for i, shapes in enumerate(by_choice.values()):
        fllen, sllen = shapes[0].split("x")
        print(f"/// {', '.join(shapes)}")
        print(f"pub const LIKE_{fllen}_BY_{sllen}: usize = {i};\n")
    print(f"pub static CHOICES: [Choice; {len(by_choice)}] = [")
    for system, contiguous in by_choice:
        print(f"Choice {{ system: {list(system)}, contiguous: {list(contiguous)} }},")
    print("];")


if sys.argv[1] == "lists":
    show_lists()
elif sys.argv[1] == "shapes":
    show_shapes()
else:
    show_outcomes(sys.argv[1])
