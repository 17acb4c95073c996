"""Compares a `Heap`, whose payloads own their bytes, with a `Tlsf`, which returns addresses, and prints the table of docs/MEASURED.md.

It counts the instructions of a step of `rlsf_bench_heap` and of `rlsf_bench_aligned`, as callgrind counts them: the difference of two runs, one
of which does more steps. Both print the same line, so both return the same addresses. `rt run` proves and builds them."""
import sys

from measuring.bench import COUNTED, QUICK, SLOTS, built, instructions, run_once
from measuring.options import ROOT


def add_words(_):
    pass


def measure(options, folder):
    heap, tlsf = run_once(ROOT / "crates/rlsf_bench_heap", "10 10"), built("rlsf_bench_aligned", folder)
    few, many = QUICK if options.quick else COUNTED
    print("\n| Slots | `Heap` | `Tlsf` | `Heap` / `Tlsf` |\n|---|---|---|---|", flush=True)
    for slots in SLOTS[:1] if options.quick else SLOTS:
        costs, lines = [], []
        for words, rest in (([heap, slots], []), ([tlsf, "64x64", slots], ["free"])):
            (first, _), (second, line) = (instructions([*words, steps, *rest]) for steps in (few, many))
            costs.append((second - first) / (many - few))
            lines.append(line)
        if lines[0] != lines[1]:
            sys.exit(f"{slots} slots: the two print {lines[0]} and {lines[1]}")
        print(f"| {slots:,} | {costs[0]:.1f} | {costs[1]:.1f} | {costs[0] / costs[1]:.2f} |", flush=True)
