"""Counts the instructions of a step of a `GlobalTlsf`, and prints a row of docs/THREADS.md.

It counts the steps of `rlsf_bench_threads` with one thread, as callgrind counts them: the difference of two runs, one of which does more steps.
Then it counts each step with 100,000 live payloads by itself, from one `Mutex::lock` to the next, and prints the mean and the longest:
that takes some minutes. `rt run` proves and builds the program; --quick takes the one that is there, and counts no single steps."""
import subprocess

from measuring.bench import instructions, run_once, there
from measuring.options import ROOT

NAME = "rlsf_bench_threads"
# How many bytes of memory there are, by the live payloads.
LENGTHS = {100: 1 << 25, 1_000: 1 << 25, 10_000: 1 << 25, 100_000: 1 << 26, 1_000_000: 1 << 29}
# How many steps the longer run does more.
COUNTED = 100_000
SINGLE = 200_000
QUICK = 1_000


def add_words(_):
    pass


def words_of(live, steps):
    """The words for so many live payloads: half of the slots have one, once each was drawn a few times."""
    return ["global", 2 * live, max(8 * live, 20_000) + steps, 1, LENGTHS[live]]


def step_of(program, live, steps):
    few, many = (instructions([program, *words_of(live, n)])[0] for n in (0, steps))
    return (many - few) / steps


def print_single_steps(program, folder, live):
    """Prints the mean and the longest of single steps, once the slots are filled. A `FlexTlsf` alone has no lock to count from."""
    names = subprocess.run(["nm", program], capture_output=True, text=True, check=True).stdout.splitlines()
    lock = next((line.split()[0] for line in names if "Mutex::lock" in line), None)
    if lock is None:
        return
    counter = folder / "single_steps"
    subprocess.run(["cc", "-O2", ROOT / "tools/measuring/single_steps.c", "-o", counter], check=True)
    words = [counter, max(8 * live, 20_000), SINGLE, lock, program, *words_of(live, 2 * SINGLE)]
    subprocess.run(list(map(str, words)), check=True)


def measure(options, folder):
    program = there(NAME) if options.quick else run_once(ROOT / "crates" / NAME, "both 10 10 1")
    if not program:
        return
    print("\n| Live payloads | Instructions of a step |\n|---|---|", flush=True)
    for live in list(LENGTHS)[:1] if options.quick else LENGTHS:
        print(f"| {live:,} | {step_of(program, live, QUICK if options.quick else COUNTED):.1f} |", flush=True)
    if not options.quick:
        print_single_steps(program, folder, 100_000)
