"""Compares the peak of resident memory with the peak of requested bytes, for recorded programs under each allocator.

The calls of a trace are made anew, and every byte of each payload is written (tools/measuring/resident.c). Resident memory is looked at after
each call. It is that of touched pages of 4096 bytes, without those that were resident before the first call: what an allocator sets up at
the start isn't counted. A page that an allocator returns to the system isn't counted any longer. This port has one mapped range, and returns
none of it. The greatest of some runs counts."""
import pathlib
import subprocess
import sys

from measuring import traces
from measuring.allocators import chosen, compiled, others, pools, title
from measuring.options import ROOT, missing
from measuring.programs import PROGRAMS, kept


def add_words(parser):
    parser.add_argument("--programs", nargs="*", default=list(PROGRAMS), choices=PROGRAMS, help="the programs to record")
    parser.add_argument("--lines", type=int, help="at most so many lines of each trace")
    parser.add_argument("--kept", action="store_true", help="no recording: the traces in traces/, which are the same on every system")
    parser.add_argument("--runs", type=int, default=3, help="how often each is run")


def bodies(options, folder):
    return kept(ROOT / "traces").items() if options.kept or options.quick else traces.found(options, folder)


def most_resident(program, allocator, trace, runs):
    """The most resident bytes of some runs, and what they print besides."""
    most, said = 0, set()
    for _ in range(runs):
        run = subprocess.run([program, trace], env=allocator.environment(), capture_output=True, text=True, check=True)
        line, resident = run.stdout.splitlines()
        most = max(most, int(resident.split()[0]))
        said.add(line)
    return most, said


def row(name, body, allocators, program, options, folder):
    trace = folder / "trace"
    trace.write_bytes(body)
    found, said = [], set()
    for allocator in allocators:
        most, lines = most_resident(program, allocator, trace, options.runs)
        found.append(most)
        said |= lines
    if len(said) != 1 or ", 0 failed, 0 bytes lost, " not in next(iter(said)):
        sys.exit(f"{name}: a call fails, a byte is lost, or the runs don't print the same: {said}")
    calls, _, _, live = next(iter(said)).split(", ")
    live = int(live.split()[0])
    cells = [f"{int(calls.split()[0]):,}", f"{live:,}", *(f"{most / live:.2f}" for most in found)]
    print(f"| {name} | " + " | ".join(cells) + " |", flush=True)


def measure(options, folder: pathlib.Path):
    if not pathlib.Path("/proc/self/smaps_rollup").exists():
        return missing("all of it", "only Linux counts the pages, in /proc/self/smaps_rollup")
    if options.quick:
        options.runs = 1
    program = compiled([ROOT / "tools/measuring/resident.c"], folder / "resident")
    allocators = chosen(options, pools(options, folder) + others())
    heads = ["Program", "Calls", "Requested bytes", *(title(allocator.name) for allocator in allocators)]
    print(f"\npeak of resident memory, divided by the peak of requested bytes; greatest of {options.runs} runs\n")
    print("| " + " | ".join(heads) + " |\n" + "|---" * len(heads) + "|", flush=True)
    for name, body in bodies(options, folder):
        row(name, body, allocators, program, options, folder)
    print("\nno call failed, and no byte was lost")
