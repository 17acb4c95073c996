"""Counts and times a step of examples/steps_in_place.c, over heaps of both kinds, the original behind the same calls, and the C library's malloc.

A step chooses one of 1,000 slots at random. If the slot has a payload, the step frees it; else it allocates one of a length below a bound.
The count is callgrind's: of a run of 300,000 steps less one of 100,000. The time is the least of the runs, of which each allocator does one
in turn, on one core. Both have the test loop in them, which is the row `the loop alone`."""
import pathlib
import re
import subprocess

from measuring.allocators import compiled
from measuring.options import ROOT, missing

BOUNDS = [64, 512, 4_096, 65_536]
COUNTED = (100_000, 300_000)
TIMED = 3_000_000
HEAPS = ["small", "large"]


def add_words(parser):
    parser.add_argument("--runs", type=int, default=15, help="how many runs are timed, of which the least counts")


def programs(options, folder: pathlib.Path):
    """What is measured: a program and its first word, by the name of a row."""
    source, headers = ROOT / "examples/steps_in_place.c", f"-I{ROOT / 'include'}"
    ours = compiled([source, options.ours], folder / "steps", headers)
    found = {f"{kind} heap": (ours, kind) for kind in HEAPS}
    if options.original:
        theirs = compiled([source, options.original / "liboriginal_in_place.a"], folder / "original", headers)
        found |= {f"rlsf 0.2.3, {kind}": (theirs, kind) for kind in HEAPS}
    else:
        missing("the original", "--original names the folder that tools/original/build filled")
    return found | {"malloc of the C library": (ours, "malloc"), "the loop alone": (ours, "nothing")}


def counted_by_callgrind(command):
    """The number of instructions of a program's run."""
    words = ["valgrind", "--tool=callgrind", "--callgrind-out-file=/dev/null", *map(str, command)]
    run = subprocess.run(words, capture_output=True, text=True, check=True)
    return int(re.search(r"Collected : (\d+)", run.stderr).group(1))


def instructions(program, over, bound, steps):
    return counted_by_callgrind([program, over, bound, steps])


def nanoseconds(program, over, bound, steps, core):
    words = ["taskset", "-c", str(core), str(program), over, str(bound), str(steps)]
    run = subprocess.run(words, capture_output=True, text=True, check=True)
    return float(re.search(r"([\d.]+) ns a step", run.stdout).group(1))


def table(heading, found, cell):
    print(f"\n| {heading} | " + " | ".join(f"{bound:,}" for bound in BOUNDS) + " |\n" + "|---" * (len(BOUNDS) + 1) + "|")
    for name, (program, over) in found.items():
        print(f"| {name} | " + " | ".join(cell(name, program, over, bound) for bound in BOUNDS) + " |", flush=True)


def measure(options, folder: pathlib.Path):
    found = programs(options, folder)
    few, many = (1_000, 3_000) if options.quick else COUNTED
    steps, runs = (10_000, 2) if options.quick else (TIMED, options.runs)

    def counted(_, program, over, bound):
        return f"{(instructions(program, over, bound, many) - instructions(program, over, bound, few)) / (many - few):.1f}"

    table("Instructions a step, lengths below", found, counted)
    least = {}
    for _ in range(runs):
        for bound in BOUNDS:
            for name, (program, over) in found.items():
                time = nanoseconds(program, over, bound, steps, options.core)
                least[name, bound] = min(time, least.get((name, bound), time))
    table("Nanoseconds a step, lengths below", found, lambda name, program, over, bound: f"{least[name, bound]:.1f}")
