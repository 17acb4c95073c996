"""Counts how many calls of malloc, realloc and free a second are made, with one to four threads.

Each thread makes the calls of a load on slots of its own. The fastest of several runs counts. The library is measured without a lock (one
thread), with a mutex in each call, and with a heap for each thread. Then the malloc of c/malloc.c runs beside the others: with `own` each thread
frees what it allocated, with `cross` a random thread does. A number counts only on a system that does nothing else."""
import os
import pathlib
import re
import subprocess
import sys

from measuring.allocators import Allocator, chosen, compiled, complete_malloc, loads, others, pools, title
from measuring.latency import LOADS
from measuring.options import ROOT

THREADS = [1, 2, 4]


def add_words(parser):
    parser.add_argument("--calls", type=int, default=2_000_000, help="how many calls each thread makes")
    parser.add_argument("--runs", type=int, default=5, help="how often each is timed")
    parser.add_argument("--sharing", action="store_true", help="only `own` and `cross`")
    parser.add_argument("--loads", nargs="+", default=list(LOADS), choices=LOADS)


def seconds(program, allocator, load, calls, threads):
    """How long a run takes, and what it prints but for the time."""
    run = subprocess.run([program, load, str(calls), str(threads)], env=allocator.environment(), capture_output=True, text=True, check=True)
    found = re.match(r"(.*), ([\d.]+) seconds$", run.stdout.strip())
    return float(found.group(2)), found.group(1)


def variants(options, folder):
    """The library and the original, each in three ways, then the others."""
    found = []
    for flags, words in (([], "without a lock"), (["-DLOCKED"], "with a mutex"), (["-DEACH"], "a heap a thread")):
        found += [Allocator(f"{pool.name} {words}", pool.preload) for pool in pools(options, folder, *flags)]
    return sorted(found, key=lambda allocator: allocator.name.split()[0], reverse=True) + others()


def own_and_cross(options, folder):
    """Both ways with one and four threads, the allocators in turn in each of the runs."""
    program = compiled([ROOT / "tools/measuring/own_and_cross.c"], folder / "own_and_cross", "-lpthread")
    allocators = chosen(options, complete_malloc(options, folder) + others())
    print(f"\n`own` and `cross`: million calls a second, fastest of {options.runs} runs\n")
    print("| Threads | | up to | " + " | ".join(title(allocator.name) for allocator in allocators) + " |\n" + "|---" * (len(allocators) + 3) + "|")
    for threads, way, most in [(1, "own", 512), (4, "own", 512), (4, "cross", 512), (1, "own", 65536), (4, "own", 65536), (4, "cross", 65536)]:
        steps = options.calls // (1 if most == 512 else 4)
        best = [0.0] * len(allocators)
        for _ in range(options.runs):
            for n, allocator in enumerate(allocators):
                command = [str(program), str(threads), str(steps), way, str(most)]
                run = subprocess.run(command, env=allocator.environment(), capture_output=True, text=True, check=True)
                best[n] = max(best[n], float(run.stdout))
        print(f"| {threads} | `{way}` | {most:,} bytes | " + " | ".join(f"{rate:.1f}" for rate in best) + " |", flush=True)


def measure(options, folder: pathlib.Path):
    if options.quick:
        options.calls, options.runs, options.loads = 20_000, 1, ["small", "vectors"]
    if options.sharing:
        return own_and_cross(options, folder)
    program = loads(folder)["run"]
    allocators = chosen(options, variants(options, folder))
    threads = [count for count in THREADS if count <= max(os.cpu_count(), 2)]
    said = {}
    for load in options.loads:
        print(f"\n`{load}`: {LOADS[load]}; million calls a second, fastest of {options.runs} runs\n")
        print("| Threads | " + " | ".join(map(str, threads)) + " |\n" + "|---" * (len(threads) + 1) + "|")
        for allocator in allocators:
            row = []
            for count in threads:
                if count > 1 and "without a lock" in allocator.name:
                    row.append("")
                    continue
                runs = [seconds(program, allocator, load, options.calls, count) for _ in range(options.runs)]
                said.setdefault((load, count), set()).update(line for _, line in runs)
                row.append(f"{options.calls * count / min(time for time, _ in runs) / 1e6:.1f}")
            print(f"| {title(allocator.name)} | " + " | ".join(row) + " |", flush=True)
    own_and_cross(options, folder)
    if any(len(lines) != 1 for lines in said.values()):
        sys.exit(f"the runs don't print the same: {said}")
    return print("\nthe programs printed the same with each allocator")
