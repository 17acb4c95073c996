"""Measures how long a call of malloc or free takes that finds nothing of the heap in the processor's caches, and how far such times differ.

Before each call 48 MB of other memory are written. The calls are those of the load `small`, with many live payloads. The allocators take turns:
in each round each of them makes the same calls once. The table has the mean of each round, and of the least time of each call. What differs
between the rounds of one allocator is the system's. Only what differs more between two allocators is theirs. `lines` counts what such a
call waits for."""
import pathlib
import statistics

from measuring.allocators import chosen, example, others, pools, title
from measuring.latency import Times, shown


def add_words(parser):
    parser.add_argument("--live", type=int, default=10_000, help="how many payloads are live")
    parser.add_argument("--calls", type=int, default=300, help="how many calls are measured in each round")
    parser.add_argument("--rounds", type=int, default=7, help="how often each allocator makes them")


def measure(options, folder: pathlib.Path):
    if options.quick:
        options.calls, options.rounds = 20, 2
    options.runs = 1
    program = example(folder, "loads.c", "loads_timed", "-DTIMED", "-lpthread")
    found = chosen(options, pools(options, folder, "-DTOUCHED") + others())
    rounds = {allocator.name: [] for allocator in found}
    for _ in range(options.rounds):
        for allocator in found:
            times = Times(program, allocator, f"cold:{options.live}", "touched", options, folder)
            rounds[allocator.name].append(times.nanoseconds())
    print(f"\ntime of a call, cold caches, {options.live:,} live payloads of 1 to 512 bytes, {options.rounds} rounds\n")
    print("| | least round | median round | greatest round | greatest / least | least times of the calls |\n" + "|---" * 6 + "|")
    for name, all_ in rounds.items():
        means, least = sorted(map(statistics.mean, all_)), statistics.mean(map(min, zip(*all_)))
        row = [*map(shown, (means[0], statistics.median(means), means[-1])), f"{means[-1] / means[0]:.2f}", shown(least)]
        print(f"| {title(name)} | " + " | ".join(row) + " |")
    print(f"\neach time includes {shown(times.empty * 1e9 / times.rate)} in which the counter is read")
