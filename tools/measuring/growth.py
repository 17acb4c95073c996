"""Counts how many instructions a call takes with 10, 100 .. 1,000,000 live payloads.

There are twice as many slots. A step chooses one at random, and fills it with a payload of up to 512 bytes, or frees its payload. Four steps
for each slot are made before the counting begins. The count is callgrind's, of one malloc or free on average, with the few instructions that
call it. It doesn't depend on what else the system does. A second table has the loads of `latency`."""
import pathlib
import re
import subprocess
import sys

from measuring import picture
from measuring.allocators import chosen, loads, others, pools, title
from measuring.latency import COUNTED, LOADS
from measuring.options import place

LIVE = [10, 100, 1_000, 10_000, 100_000, 1_000_000]


def add_words(parser):
    parser.add_argument("--calls", type=int, default=100_000, help="how many calls are counted")


def instructions(program, allocator, load, calls):
    """The instructions of a call, and what the program prints."""
    words = ["valgrind", "--tool=callgrind", "--callgrind-out-file=/dev/null", "--instr-atstart=no", *COUNTED]
    command = [*words, str(program), load, str(calls), "count"]
    run = subprocess.run(command, env=allocator.environment(), capture_output=True, text=True, check=True)
    said = re.sub(r", [\d.]+ seconds", "", run.stdout)
    return int(re.search(r"Collected : (\d+)", run.stderr).group(1)) / calls, said


def draw(rows, options):
    most = max(max(row) for row in rows.values())
    step = 50 if most <= 400 else 100
    top = step * (int(most / step) + 1)
    up = picture.Axis("instructions of a call", [(n, f"{n}") for n in range(0, top + 1, step)], 0, top)
    across = picture.Axis("live payloads", [(n, f"{n:,}") for n in LIVE], LIVE[0], LIVE[-1], True)
    lines = {name: list(zip(LIVE, row)) for name, row in rows.items()}
    ends = {name: f"{row[-1]:.0f}" for name, row in rows.items()}
    heading = "Does a call get slower with more live payloads?"
    below = ["Instructions on average over malloc and free, counted by callgrind; payloads of 1 to 512 bytes.", place()]
    picture.write(options.pictures / "growth.svg", heading, below, [picture.Panel("", lines, ends)], across=across, up=up)


def table(head, loads_, heads, allocators, program, options):
    """Prints a row for each allocator, and returns the rows."""
    print(f"\n| {head} | " + " | ".join(heads) + " |\n" + "|---" * (len(heads) + 1) + "|")
    rows, said = {}, {load: set() for load in loads_}
    for allocator in allocators:
        row = rows[allocator.name] = []
        for load in loads_:
            count, line = instructions(program, allocator, load, options.calls)
            row.append(count)
            said[load].add(line)
        print(f"| {title(allocator.name)} | " + " | ".join(f"{count:.1f}" for count in row) + " |", flush=True)
    if any(len(lines) != 1 for lines in said.values()):
        sys.exit(f"the runs don't print the same: {said}")
    return rows


def measure(options, folder: pathlib.Path):
    program = loads(folder).get("counted")
    if not program:
        return
    lives = LIVE
    if options.quick:
        options.calls, lives = 2_000, LIVE[:2]
    found = chosen(options, pools(options, folder) + others())
    print(f"\ninstructions of a call, over {options.calls:,} calls")
    rows = table("Live payloads", [f"live:{live}" for live in lives], [f"{live:,}" for live in lives], found, program, options)
    if not options.quick:
        draw(rows, options)
        table("Load", list(LOADS), [f"`{load}`" for load in LOADS], found, program, options)
    print("\nthe programs printed the same with each allocator")
