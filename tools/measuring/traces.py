"""Records the calls of malloc that programs make, and replays them with the proved allocator (docs/TRACES.md).

It prints the shortest pool that serves each trace, for two configurations. A search by halves finds it: the pool serves the trace, and the
pool that is 32 bytes shorter doesn't. `crates/rlsf_replay` runs the trace; if --original is given, the original runs it, too, and has to
print the same. The greatest heap of glibc is that of the same calls, by examples/heap_of_trace.c."""
import dataclasses
import pathlib
import subprocess
import sys

from measuring.allocators import example
from measuring.options import ROOT, missing
from measuring.programs import PROGRAMS, kept, recorded

START = 4096
# Each configuration: its classes a row, and the longest payload that a pool of any length can serve, if there is one.
CONFIGS = {"59x8": (8, None), "12x16": (16, 126_960)}


def add_words(parser):
    parser.add_argument("--programs", nargs="*", default=list(PROGRAMS), choices=PROGRAMS, help="the programs to record")
    parser.add_argument("--replay", type=pathlib.Path, default=ROOT / "crates/rlsf_replay/out/rlsf_replay", help="the program that replays")
    parser.add_argument("--keep", type=pathlib.Path, help="a folder that the traces are written to")
    parser.add_argument("--lines", type=int, help="at most so many lines of each trace")


@dataclasses.dataclass
class Use:
    """What a trace asks for."""

    calls: int
    live: int  # the most payloads that are live at once
    peak: int  # the most bytes that are live at once, as they were asked for
    blocks: int  # the same of their blocks, with headers and rounding
    longest: int  # the longest payload
    align: int  # the greatest alignment


def sought(size, align=16):
    """The length of block that a payload needs."""
    return -(-(size + max(align - 16, 0) + 16) // 32) * 32


def use_of(body):
    sizes, bytes_, blocks, calls = {}, 0, 0, 0
    most = [0, 0, 0, 0, 1]
    for line in body.decode().splitlines():
        call, name, *rest = line.split(" ")
        old = sizes.pop(name, None)
        calls += 1
        if old is not None:
            bytes_, blocks = bytes_ - old, blocks - sought(old)
        if call in ("alloc", "realloc"):
            size = sizes[name] = int(rest[0])
            bytes_, blocks = bytes_ + size, blocks + sought(size)
            align = int(rest[1]) if call == "alloc" else 1
            most = [max(*pair) for pair in zip(most, (len(sizes), bytes_, blocks, size, align))]
    return Use(calls, *most)


def never_refuses(use, classes):
    """The length that never refuses so many payloads of the longest size, in any order (docs/SIZING.md)."""
    size = sought(use.longest, use.align)
    width = max(2 ** (size.bit_length() - 1) // classes, 32)
    least = -(-size // width) * width
    return least + 32 + use.live * (size + least - 32)


def replayed(program, config, length, body):
    text = f"{config} {START} {length}\ninsert {START} {length}\n".encode() + body
    words = [sys.executable, "-B"] if program.suffix == ".py" else []
    return subprocess.run([*words, str(program)], input=text, capture_output=True, check=True).stdout


def serves(program, config, length, body):
    return b" none\n" not in replayed(program, config, length, body)


def least_pool(program, config, use, body):
    """The length of a pool that serves a trace, of which 32 bytes less don't."""
    # A pool as long as the blocks alone has no room for its sentinel.
    short, long = use.blocks // 32, 2 * (use.blocks // 32) + 4
    while not serves(program, config, 32 * long, body):
        short, long = long, 2 * long
    while long - short > 1:
        middle = (short + long) // 2
        if serves(program, config, 32 * middle, body):
            long = middle
        else:
            short = middle
    return 32 * long


def compare(options, name, config, length, body):
    """Each call names payloads as a trace has to. The original prints what ours prints, in the least pool and in one that is shorter; in a
    quick run so does the reference model."""
    others = [options.original / "rlsf_replay"] if options.original else []
    if options.quick:
        others.append(ROOT / "tools/model/list_machine.py")
    for tried in (length, length - 32):
        ours = replayed(options.replay, config, tried, body)
        if tried == length and b"refused" in ours:
            sys.exit(f"{name}: a call of the trace names no live payload, or one that lives already")
        for other in others:
            if replayed(other, config, tried, body) != ours:
                sys.exit(f"{name}: in a pool {config} of {tried} bytes, {other} doesn't print what {options.replay.name} prints")


def row(options, name, body, heap_of_trace, folder):
    """A row of the table, and the least pool of the first configuration."""
    use, cells, least = use_of(body), [], None
    for config, (classes, most) in CONFIGS.items():
        if most and use.longest > most:
            cells.append("")
            continue
        length = least_pool(options.replay, config, use, body)
        compare(options, name, config, length, body)
        cells.append(f"{length / use.peak:.2f}")
        least = least or length
    file = folder / "trace"
    file.write_bytes(body)
    heap = int(subprocess.run([heap_of_trace, file], capture_output=True, text=True, check=True).stdout.split()[0])
    worst = never_refuses(use, CONFIGS["59x8"][0])
    shares = [f"{use.blocks / use.peak:.2f}", *cells, f"{heap / use.peak:.2f}", f"{worst / use.peak:,.0f}"]
    numbers = [f"{n:,}" for n in (use.calls, use.live, use.longest, use.peak)]
    print(f"| {name} | " + " | ".join([*numbers, *shares]) + " |", flush=True)
    return least


def found(options, folder):
    """The traces: those that are kept for a quick run, else those of the programs."""
    if options.quick:
        yield from kept(ROOT / "traces").items()
        options.programs = [name for name in ("perl",) if name in options.programs]
    recorder = example(folder, "record.c", "record.so", "-shared", "-fPIC", "-lpthread")
    for name in options.programs:
        body = recorded(name, recorder, folder)
        if body:
            yield name, b"".join(body.splitlines(keepends=True)[: options.lines])


def measure(options, folder: pathlib.Path):
    if not options.replay.exists():
        return missing("all of it", f"there is no {options.replay}; build it with `cd crates/rlsf_replay && rt run`")
    if not options.original:
        missing("the original", "give --original the folder that tools/original/build filled")
    heap_of_trace = example(folder, "heap_of_trace.c", "heap_of_trace")
    print("\n| Program | Calls | Live payloads | Longest | Requested | Blocks | Pool `59x8` | Pool `12x16` | glibc | Never refuses |")
    print("|---" * 10 + "|", flush=True)
    for name, body in found(options, folder):
        least = row(options, name, body, heap_of_trace, folder)
        if options.keep:
            options.keep.mkdir(exist_ok=True)
            first = f"59x8 {START} {least}\ninsert {START} {least}\n".encode()
            (options.keep / f"{name.replace(' ', '_')}.txt").write_bytes(first + body)
    print("\nthe columns from `Blocks` on are lengths, divided by the requested bytes")
    print("the programs that replay print the same" if options.original or options.quick else "nothing was compared")
