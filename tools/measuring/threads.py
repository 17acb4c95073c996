"""Compares a `SharedHeap` with a `GlobalTlsf`, and with a heap for each thread, and prints the tables of docs/MEASURED.md.

It measures the processor time of a step of `rlsf_bench_threads`: that of all threads, without the time in which they sleep. A step's is the
difference of two runs, one of which does more steps. For a `SharedHeaps` of one heap and of a heap for each thread it measures how many steps
all threads make in a second. Last, one thread lends a million payloads, which eight threads read and return: all have to come back.
`rt run` proves and builds the program; --quick takes the one that is there."""
import resource
import subprocess
import sys
import time

from measuring.bench import run_once, there
from measuring.options import ROOT

NAME = "rlsf_bench_threads"
THREADS = [1, 2, 4]
# How many steps are timed, of all threads together, by the allocator and the live payloads.
TIMED = {
    "shared": {100: 2_000_000, 10_000: 2_000_000, 100_000: 1_000_000},
    "global": {100: 2_000_000, 10_000: 200_000, 100_000: 100_000},
}
QUICK = 10_000
RUNS = 2
# How many steps all threads make together with `SharedHeaps`, over how many live payloads.
SETS, SETS_LIVE = 8_000_000, 10_000
PAYLOADS, GIVERS, LENT = 1_000_000, 8, 1_000
ALL_BACK = "OwnerHeap: each was read once true, all came back true, none is live true\n"


def add_words(_):
    pass


def used():
    """The processor time of the programs that have ended."""
    children = resource.getrusage(resource.RUSAGE_CHILDREN)
    return children.ru_utime + children.ru_stime


def seconds(words):
    """The least processor time of some runs."""
    least = None
    for _ in range(RUNS):
        begun = used()
        subprocess.run(list(map(str, words)), capture_output=True, check=True)
        spent = used() - begun
        least = spent if least is None else min(least, spent)
    return least


def timed(program, allocator, live, threads, steps):
    """The processor time of a step in microseconds, once the slots are filled as they stay."""
    # Half of the slots have a payload once each slot was drawn a few times.
    filling = 2 * 2 * live // threads
    first, second = (seconds([program, allocator, 2 * live, n, threads]) for n in (filling, filling + steps))
    return (second - first) / (steps * threads) * 1e6


def elapsed(words):
    """The least time of some runs, in seconds, and what they print."""
    least = printed = None
    for _ in range(RUNS):
        begun = time.perf_counter()
        printed = subprocess.run(list(map(str, words)), capture_output=True, text=True, check=True).stdout
        spent = time.perf_counter() - begun
        least = spent if least is None else min(least, spent)
    return least, printed


def a_second(program, allocator, threads, steps):
    """How many million steps a second all threads make, once the slots are filled as they stay."""
    filling = 2 * 2 * SETS_LIVE // threads
    first, second = (elapsed([program, allocator, 2 * SETS_LIVE, n, threads])[0] for n in (filling, filling + steps // threads))
    return steps / (second - first) / 1e6


def print_sets(program, steps):
    print("\n| Threads | Million steps a second, one heap | a heap for each thread |\n|---|---|---|", flush=True)
    for threads in THREADS:
        one, each = (a_second(program, name, threads, steps) for name in ("one", "set"))
        print(f"| {threads} | {one:.1f} | {each:.1f} |", flush=True)


def print_lent(program):
    """Lends the payloads, and fails if one doesn't come back."""
    spent, printed = elapsed([program, "lent", LENT, PAYLOADS, GIVERS])
    if printed != ALL_BACK:
        sys.exit(f"{PAYLOADS:,} lent payloads: {printed}")
    print(f"\n{PAYLOADS:,} payloads came back from {GIVERS} threads in {spent:.1f} s", flush=True)


def measure(options, _):
    program = there(NAME) if options.quick else run_once(ROOT / "crates" / NAME, "both 10 10 1")
    if not program:
        return
    print("\n| Live payloads | Threads | `SharedHeap` | `GlobalTlsf` |\n|---|---|---|---|", flush=True)
    for live in list(TIMED["shared"])[:1] if options.quick else TIMED["shared"]:
        for threads in THREADS:
            steps = [(QUICK if options.quick else of[live]) // threads for of in TIMED.values()]
            shared, of_global = (timed(program, name, live, threads, n) for name, n in zip(TIMED, steps))
            print(f"| {live:,} | {threads} | {shared:.2f} | {of_global:.2f} |", flush=True)
    print_sets(program, 100 * QUICK if options.quick else SETS)
    print_lent(program)
