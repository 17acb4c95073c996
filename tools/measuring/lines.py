"""Counts the distinct lines of 64 bytes, which processors cache as one, that each single call of malloc, free and realloc touches.

valgrind's lackey prints every instruction and every access to memory of a program, and the program marks each call (examples/marked.h).
Counted are lines of code, of the allocator and of the C library's functions that it calls, and lines of data: those of the heap's handle, of
its blocks, payloads and headers alike, and all others but the stack's. What the program itself touches isn't counted. Of a preloaded heap,
those that the heap and the C library's functions touch, and those that only the functions around it do, are also told apart: the functions of
include/rlsf.h, and of tools/measuring/preload.c or c/malloc.c."""
import collections
import dataclasses
import os
import pathlib
import re
import subprocess
import sys

from measuring.allocators import chosen, complete_malloc, example, others, pools, title
from measuring.options import missing

LINE = 64
# Where the linker places the marks, each of 8 bytes, and which call each begins; the last one ends it.
MARKS, CALLS = 0x600000, ["malloc", "realloc", "free"]
FLAGS = ["-DMARKED", "-fno-builtin", "-fno-pie", "-no-pie", f"-Wl,--section-start=.marks={MARKS:#x}", "-ldl"]
# The rows of the tables: what they are called, their load and their call.
ROWS = [("`malloc`", "live:{}", "malloc"), ("`free`", "live:{}", "free")]
ROWS += [(f"`realloc`, `{load}`", load, "realloc") for load in ("byte", "word", "double")]
# What is counted of a call: what of all, what of that the heap touches, and what only the functions around it do.
PARTS = ["code", "data", "code of the heap", "data of the heap", "of these in the handle", "of these in blocks", "other code", "other data"]


def add_words(parser):
    parser.add_argument("--live", type=int, default=2_000, help="how many payloads are live where malloc and free are counted")
    parser.add_argument("--calls", type=int, default=3_000, help="how many calls of each load are counted")


class Places:
    """What lies at which address."""

    def __init__(self, text, program, preload):
        """The text has the lines of examples/marked.h, and those of the mappings."""
        self.ranges, self.bases, self.found, mappings, stack = [], {}, {}, [], 0
        for words in map(str.split, text.splitlines()):
            if "-" in words[0]:
                start, end = (int(word, 16) for word in words[0].split("-"))
                path = words[5] if len(words) > 5 else ""
                self.bases.setdefault(path, start)
                mappings.append((start, end, "program" if path == os.path.realpath(program) else "other"))
            elif words[0] == "stack":
                stack = int(words[1], 16)
            else:
                self.ranges.append((int(words[1], 16), int(words[1], 16) + int(words[2], 16), words[0]))
        self.ranges += [(start, end, "stack" if start <= stack < end else name) for start, end, name in mappings]
        self.ranges[:0] = [(start, end, "wrapper") for start, end in self.code_of_wrapper(preload)]

    def code_of_wrapper(self, preload):
        """Where the machine code of a preloaded object lies that isn't of an archive, as the linker's map has it."""
        file = pathlib.Path(f"{preload}.map")
        found = re.findall(r"^ \.text\S*\s+(0x\w+)\s+(0x\w+) (.+)$", file.read_text(), re.M) if file.exists() else []
        base, sections = self.bases.get(os.path.realpath(preload), 0), [(int(start, 16), int(size, 16), path) for start, size, path in found]
        return [(base + start, base + start + size) for start, size, path in sections if start and size and not path.endswith(")")]

    def name(self, address):
        """The narrowest place that an address lies in: the ranges are in this order."""
        if address not in self.found:
            inside = (name for start, end, name in self.ranges if start <= address < end)
            self.found[address] = next(inside, "other")
        return self.found[address]


def lines_at(address, size):
    return range(address // LINE, (address + size - 1) // LINE + 1)


def counted(events, places):
    """The numbers of distinct lines that a call touches: of each of PARTS."""
    lines, by = collections.defaultdict(set), "program"
    for is_code, address, size in events:
        place = places.name(address)
        if is_code:
            by = place if place in ("program", "wrapper") else "library"
        if by != "program" and place != "stack":
            for kind in {"code" if is_code else "data", place, by}:
                lines[kind].update(lines_at(address, size))
    code, data, own = lines["code"], lines["data"], lines["library"]
    return list(map(len, (code, data, code & own, data & own, lines["handle"] & own, lines["blocks"] & own, code - own, data - own)))


def calls_in(trace):
    """The calls of a trace, each with its kind and its events, in order: whether it is an instruction, an address and a size."""
    marks = {b" S %08x,8\n" % (MARKS + 8 * n): call for n, call in enumerate([*CALLS, "end"])}
    kind, events = None, []
    for line in trace:
        mark = marks.get(line)
        if mark == "end" and kind:
            yield kind, events
            kind = None
        elif mark and mark != "end":
            kind, events = mark, []
        elif kind and line[:3] in (b"I  ", b" L ", b" S ", b" M "):
            address, size = line[3:].split(b",")
            events.append((line[:1] == b"I", int(address, 16), int(size)))


def traced(program, allocator, load, options, folder):
    """The calls of a load, what lies at which address, and what the program prints."""
    file, environment = folder / "places", {**allocator.environment(), "LD_BIND_NOW": "1"}
    reads, writes = os.pipe()
    words = ["valgrind", "--tool=lackey", "--trace-mem=yes", f"--log-fd={writes}", str(program), load, str(options.calls), "fresh", str(file)]
    with subprocess.Popen(words, env=environment, stdout=subprocess.PIPE, text=True, pass_fds=[writes]) as run:
        os.close(writes)
        with os.fdopen(reads, "rb") as trace:
            calls = list(calls_in(trace))
        said = run.stdout.read()
    if run.returncode:
        raise subprocess.CalledProcessError(run.returncode, words)
    return calls, Places(file.read_text(), program, allocator.preload), said


def entry(numbers):
    """The mean, and the most."""
    return f"{sum(numbers) / len(numbers):.2f} / **{max(numbers)}**"


def numbers_of(program, allocators, options, folder):
    """For each load, call and allocator, the numbers of each call."""
    numbers = collections.defaultdict(list)
    for load in sorted({load for _, load, _ in options.rows}):
        said = set()
        for allocator in allocators:
            calls, places, line = traced(program, allocator, load.format(options.live), options, folder)
            said.add(line)
            for kind, events in calls:
                numbers[load, kind, allocator.name].append(counted(events, places))
        if len(said) != 1:
            sys.exit(f"{load}: the runs don't print the same: {said}")
    return numbers


def table(heading, allocators, rows):
    print(f"\n| {heading} | " + " | ".join(title(allocator.name) for allocator in allocators) + " |\n" + "|---" * (len(allocators) + 1) + "|")
    for head, cells in rows:
        print(f"| {head} | " + " | ".join(cells) + " |", flush=True)


def measure(options, folder: pathlib.Path):
    options.rows = ROWS
    if options.quick:
        # One load that makes calls of each kind.
        options.calls, options.rows = 100, [(head, "double", call) for head, _, call in (*ROWS[:2], ROWS[-1])]
    try:
        program = example(folder, "loads.c", "loads_marked", *FLAGS, "-lpthread")
        subprocess.run(["valgrind", "--version"], check=True, capture_output=True)
    except FileNotFoundError:
        return missing("lines", "install the package valgrind")
    complete = [dataclasses.replace(each, name="ours with c/malloc.c") for each in complete_malloc(options, folder, "tools/measuring/named.c")]
    heaps = [*pools(options, folder, "-DNAMED"), *complete]
    found = chosen(options, heaps + others())
    numbers = numbers_of(program, found, options, folder)

    def rows(first, last, allocators):
        for head, load, call in options.rows:
            for part in range(first, last):
                yield f"{head}: {PARTS[part]}", [entry([each[part] for each in numbers[load, call, allocator.name]]) for allocator in allocators]

    table("Lines a call: mean / worst", found, rows(0, 2, found))
    inside = [allocator for allocator in found if allocator in heaps]
    table("Of these", inside, rows(2, len(PARTS), inside))
