"""Compares `LocalHeap`, the allocator of collections, with `linked_list_allocator` and `bumpalo` of the kit, and with the system's allocator.

It needs the Rattle toolchain (`rt`), whose kit has both crates, and valgrind. A folder outside the repository gets copies of the crates below
`rlsf_local_heap` and the program `tools/measuring/local.txt`, which `rt run` proves and builds there. A second run takes the program that is
there. Twice as many slots as there are live blocks are filled with blocks of 1 to 512 bytes, and every other block is freed, from the last to
the first. Then a step chooses a slot at random, and fills it or frees its block. The steps are counted, or timed."""
import pathlib
import re
import shutil
import subprocess
import sys

from measuring.latency import identical
from measuring.options import ROOT

ALLOCATORS = {"rlsf": "**`LocalHeap`**", "first_fit": "`linked_list_allocator`", "bump": "`bumpalo`", "global": "`Global`"}
LIVE = [10, 100, 1_000, 10_000, 100_000]
COPIED = ["int", "base", "model", "table", "blocks", "consistency_check", "reallocate", "tlsf", "heap", "local"]
LIBRARIES = "bumpalo linked_list_allocator rlsf_base rlsf_blocks rlsf_heap rlsf_int rlsf_local_heap rlsf_model rlsf_table rlsf_tlsf"
NAME = "measured_local"
# The functions of the program that call the allocator.
CALLS = ["*counted_allocate*", "*counted_free*"]
# Of how many steps the longest call is sought: each writes two files.
WORST = 500


def add_words(parser):
    parser.add_argument("--folder", type=pathlib.Path, default=pathlib.Path("/tmp/measured_local"), help="where the program is built")
    parser.add_argument("--steps", type=int, default=2_000, help="how many steps are counted or timed")
    parser.add_argument("--live", type=int, nargs="+", default=LIVE)
    parser.add_argument("--time", action="store_true", help="measure times as well; the system has to be idle")
    parser.add_argument("--runs", type=int, default=9, help="how often each call is timed")


def build(folder):
    """Copies the crates and the program, and builds it."""
    program = folder / "crates" / NAME / "out" / NAME
    if program.exists():
        return program
    lines = (ROOT / "crates.txt").read_text().splitlines()
    listed = [line for line in lines if line.split(":")[0].split(" ")[0] in {f"rlsf_{name}" for name in COPIED}]
    (folder / "crates" / NAME / "src").mkdir(parents=True, exist_ok=True)
    for name in COPIED:
        for part in ("src", "specs", "proofs"):
            source = ROOT / "crates" / f"rlsf_{name}" / part
            if source.exists():
                shutil.copytree(source, folder / "crates" / f"rlsf_{name}" / part, dirs_exist_ok=True)
    (folder / "crates.txt").write_text("\n".join([*listed, f"{NAME}: {LIBRARIES}"]) + "\n")
    shutil.copy(ROOT / "HANDLES", folder / "HANDLES")
    shutil.copy(ROOT / "tools/measuring/local.txt", folder / "crates" / NAME / "src/main.rt")
    command = ["rt", "run", "--", "rlsf", "10", "10", "count"]
    subprocess.run(command, cwd=folder / "crates" / NAME, check=True)
    return program


def counted(words, program, allocator, live, steps):
    """What callgrind and the program print of a run."""
    command = ["valgrind", "--tool=callgrind", *words, str(program), allocator, str(live), str(steps), "count"]
    return subprocess.run(command, capture_output=True, text=True, check=True)


def mean_of(program, allocator, live, steps):
    """The instructions of a call, on average."""
    toggles = [f"--toggle-collect={name}" for name in CALLS]
    run = counted(["--callgrind-out-file=/dev/null", *toggles], program, allocator, live, steps)
    if run.stdout != "refused 0\n":
        sys.exit(f"{allocator}: calls were refused: {run.stdout}")
    return int(re.search(r"Collected : (\d+)", run.stderr).group(1)) / steps


def worst_of(program, allocator, live, steps, folder):
    """The instructions of the longest call: a file is written before and after each."""
    for old in folder.glob("calls*"):
        old.unlink()
    dumps = [f"--dump-{when}={name}" for name in CALLS for when in ("before", "after")]
    counted([f"--callgrind-out-file={folder}/calls", *dumps], program, allocator, live, steps)
    texts = (file.read_text() for file in folder.glob("calls.*"))
    inside = (text for text in texts if "desc: Trigger: --dump-after" in text)
    return max(int(re.search(r"^(?:summary|totals): (\d+)", text, re.M).group(1)) for text in inside)


def times(program, allocator, live, steps, runs, core):
    """The least nanoseconds of each step over some runs, with those of reading the clock."""
    least = None
    for _ in range(runs):
        command = identical([program, allocator, live, steps, "time"], core)
        out = subprocess.run(command, capture_output=True, text=True, check=True).stdout.splitlines()
        new = [int(line) for line in out[:-1]]
        least = new if least is None else list(map(min, least, new))
    return least


def table(head, live, rows):
    print(f"\n| {head} | " + " | ".join(f"{n:,}" for n in live) + " |\n" + "|---" * (len(live) + 1) + "|")
    for name, row in rows.items():
        print(f"| {ALLOCATORS[name]} | " + " | ".join(row) + " |", flush=True)


def measure(options, folder):
    if not shutil.which("rt") or not shutil.which("valgrind"):
        sys.exit("this needs `rt` and valgrind")
    program = build(options.folder)
    chosen = options.only or list(ALLOCATORS)
    mean, worst = {}, {}
    for name in chosen:
        for live in options.live:
            mean.setdefault(name, []).append(f"{mean_of(program, name, live, options.steps):,.0f}")
            worst.setdefault(name, []).append(f"{worst_of(program, name, live, min(options.steps, WORST), folder):,}")
    table("Instructions of a call", options.live, mean)
    table("Instructions of the longest call", options.live, worst)
    if options.time:
        rows = {name: [times(program, name, live, options.steps, options.runs, options.core) for live in options.live] for name in chosen}
        table("Nanoseconds of a step", options.live, {name: [f"{sum(row) / len(row):,.0f}" for row in of] for name, of in rows.items()})
        table("Nanoseconds of the worst step", options.live, {name: [f"{max(row):,}" for row in of] for name, of in rows.items()})
