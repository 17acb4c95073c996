"""Counts the instructions of an owner's calls: beside those of a `Heap` on average, and one by one beside those of other allocators.

A pair is an allocation and a deallocation of `rlsf_bench_threads` in one thread, with the loop around them, as callgrind counts it: the
difference of two runs, one of which makes more pairs. Then one thread allocates payloads and four threads free them. Each allocation is
counted by the processor's trap flag (stepped_calls.c). `rt run` proves and builds the program; --quick takes the one that is there.

With --original it also counts and times a model of an owner, tools/original/two_lists.rs: with one list of returned payloads, and with two."""
import os
import platform
import re
import statistics
import subprocess
import sys

from measuring.allocators import chosen, compiled, others, title
from measuring.bench import instructions, run_once, there
from measuring.options import ROOT, missing

NAME = "rlsf_bench_threads"
PAIRS = (100_000, 300_000)
GIVERS = 4
LIVE = 1_000
# What is allocated of, and the function of the program that does.
LENT = {"lent": "lent::allocate_lent", "lent_shared": "lent::allocate_shared", "lent_malloc": "lent::allocate_zeros"}


def add_words(parser):
    parser.add_argument("--calls", type=int, help="how many allocations are counted one by one: 100,000 if left out, or 300 with --quick")


def a_pair(program, allocator, quick):
    few, many = (1_000, 3_000) if quick else PAIRS
    counts = [instructions([program, allocator, 1, pairs, 1])[0] for pairs in (few, many)]
    return (counts[1] - counts[0]) / (many - few)


def address_of(program, function):
    """The address of a function in the program's file, in hexadecimal."""
    names = subprocess.run(["nm", program], capture_output=True, text=True, check=True).stdout.splitlines()
    return next(line.split()[0] for line in names if function in line)


def single_calls(words, function, counter, preloaded, calls):
    """What the library prints of so many calls of a function, once some were made."""
    environment = {**os.environ, "STEPPED": f"{address_of(words[0], function)} {LIVE} {calls}"}
    environment["LD_PRELOAD"] = " ".join(filter(None, [str(counter), preloaded]))
    said = subprocess.run(list(map(str, words)), env=environment, capture_output=True, text=True, check=True).stderr.strip()
    return said if said.startswith(f"{calls} calls") else sys.exit(f"{words[0]} {words[1]} ended before {calls} calls of {function} were counted\n{said}")


def print_model(program, counter, quick):
    """What the model's allocations take. Each time is the median of some runs, of all forms in turn."""
    calls, runs = (300, 1) if quick else (10_000, 9)
    forms = [(lists, how) for lists in ("one", "two") for how in ("yields", "sleeps")]
    times = {form: [] for form in forms}
    for form in forms * runs:
        run = subprocess.run(list(map(str, [program, *form, 20 * calls])), capture_output=True, text=True, check=True)
        times[form].append(list(map(int, re.findall(r" (\d+)(?=,|$)", run.stdout.strip()))))
    print(f"\na model's allocation, counted as above, and {20 * calls} at full speed, medians of {runs} runs:", flush=True)
    for lists, how in forms:
        counted = single_calls([program, lists, how, calls + 2 * LIVE], f"allocate_with_{lists}", counter, "", calls)
        half, most, longest = map(statistics.median, zip(*times[lists, how]))
        print(f"{lists}, a thread {how}: {counted}; nanoseconds: half {half}, 99.9% {most}, longest {longest}", flush=True)


def measure(options, folder):
    program = there(NAME) if options.quick else run_once(ROOT / "crates" / NAME, "both 10 10 1")
    if not program:
        return
    heap, owner = (a_pair(program, name, options.quick) for name in ("heap", "owner"))
    print(f"\ninstructions of an allocation and a deallocation: `Heap` {heap:.1f}, `OwnerHeap` with nothing lent {owner:.1f}", flush=True)
    if platform.machine() != "x86_64":
        missing("counts of single calls", "the trap flag is x86-64's")
        return
    counter = compiled([ROOT / "tools/measuring/stepped_calls.c"], folder / "stepped_calls.so", "-shared", "-fPIC")
    print(f"\ninstructions of an allocation, with {GIVERS} threads that free the payloads:", flush=True)
    rows = [("`OwnerHeap`", "lent", ""), ("`SharedHeap`", "lent_shared", "")]
    rows += [(title(allocator.name), "lent_malloc", allocator.preload) for allocator in chosen(options, others())]
    for name, kind, preloaded in rows:
        calls = options.calls or (300 if options.quick else 100_000)
        words = [program, kind, LIVE, calls + 2 * LIVE, GIVERS]
        print(f"{name}: {single_calls(words, LENT[kind], counter, preloaded, calls)}", flush=True)
    if options.original:
        print_model(options.original / "rlsf_two_lists", counter, options.quick)
