"""Counts the instructions that each single call of malloc, realloc and free executes.

The processor traps after each instruction of a call (examples/stepped.h), so the count is exact, has none of the kernel's instructions, and
doesn't depend on what else the system does. It includes the allocator's own function of that name. Before the counting begins, a load makes
many calls. Of the last three loads only the calls of realloc are counted. Then four threads allocate and free on the malloc of c/malloc.c and
on the others, and the calls of one thread are counted: with `own` each thread frees what it allocated, with `cross` a random thread does."""
import array
import pathlib
import platform
import subprocess
import sys

from measuring.allocators import chosen, compiled, complete_malloc, example, others, pools, title
from measuring.latency import LOADS, works
from measuring.options import ROOT, missing

# A call of `vectors` copies up to 32 KiB, step by step, so it isn't one of these.
COUNTED = [*(load for load in LOADS if load != "vectors"), "byte", "word", "double"]
# All calls of `freed` are made in so many, and then again.
PERIOD = 45_000


def add_words(parser):
    parser.add_argument("--calls", type=int, default=15_000, help=f"how many calls of each load are counted, of `freed` at least {PERIOD:,}")
    parser.add_argument("--loads", nargs="+", default=COUNTED, choices=[*COUNTED, "vectors"])
    parser.add_argument("--sharing", action="store_true", help="only `own` and `cross`, with four threads")


def counts(program, allocator, load, calls, folder):
    """The instructions of each call, in ascending order, and what the program prints."""
    file = folder / "counts"
    command = [*(["setarch", "-R"] if works("setarch", "-R") else []), str(program), load, str(calls), "touched", str(file)]
    run = subprocess.run(command, env=allocator.environment(), capture_output=True, text=True, check=True)
    return sorted(count for count in array.array("I", file.read_bytes()) if count), run.stdout


def entry(ordered):
    """The mean, what 999 of 1,000 calls don't exceed, and the worst."""
    return f"{sum(ordered) / len(ordered):.1f} / {ordered[int(len(ordered) * 0.999)]:,} / **{ordered[-1]:,}**"


def own_and_cross(options, folder):
    """Both ways with four threads. A step is a call of malloc or of free, and some calls of malloc are followed by one of free."""
    program = compiled([ROOT / "tools/measuring/own_and_cross.c"], folder / "own_and_cross_stepped", "-DSTEPPED", "-lpthread")
    allocators = chosen(options, complete_malloc(options, folder) + others())
    print("\nfour threads, instructions of a call: mean / worst one in which the system neither maps nor unmaps memory\n")
    print("| | up to | call | " + " | ".join(title(allocator.name) for allocator in allocators) + " |\n" + "|---" * (len(allocators) + 3) + "|", flush=True)
    for way, most in [("own", 512), ("cross", 512), ("own", 65536), ("cross", 65536)]:
        rows = {"malloc": [], "free": []}
        for allocator in allocators:
            command = [*(["setarch", "-R"] if works("setarch", "-R") else []), str(program), "4", str(2 * options.calls + 1000), way, str(most)]
            run = subprocess.run(command, env=allocator.environment(), capture_output=True, text=True, check=True)
            for row, line in zip(rows.values(), run.stdout.splitlines(), strict=True):
                calls, mean, worst = line.split()
                if int(calls) < options.calls:
                    sys.exit(f"{allocator.name} made {calls} calls")
                row.append(f"{mean} / **{int(worst):,}**")
        for call, row in rows.items():
            print(f"| `{way}` | {most:,} bytes | `{call}` | " + " | ".join(row) + " |", flush=True)


def measure(options, folder: pathlib.Path):
    if platform.machine() != "x86_64":
        return missing("counts of single calls", "the trap flag is x86-64's")
    if options.quick:
        options.calls, options.loads = 300, ["small", "byte"]
    if options.sharing:
        return own_and_cross(options, folder)
    program = example(folder, "loads.c", "loads_stepped", "-DSTEPPED", "-lpthread")
    found = chosen(options, pools(options, folder, "-DTOUCHED") + others())
    print("\ninstructions of a call: mean / 99.9% / worst\n")
    print("| Load | " + " | ".join(title(allocator.name) for allocator in found) + " |\n" + "|---" * (len(found) + 1) + "|", flush=True)
    for load in options.loads:
        calls = max(options.calls, PERIOD) if load == "freed" else options.calls
        print(f"| `{load}` ", end="", flush=True)
        said = set()
        for allocator in found:
            ordered, line = counts(program, allocator, load, calls, folder)
            said.add(line)
            print(f"| {entry(ordered)} ", end="", flush=True)
        print("|", flush=True)
        if len(said) != 1:
            sys.exit(f"{load}: the runs don't print the same: {said}")
    own_and_cross(options, folder)
    return print("\nthe programs printed the same with each allocator")
