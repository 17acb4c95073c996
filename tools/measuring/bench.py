"""Compares `rlsf_bench` with the original's program of the same steps, and prints the table of docs/MEASURED.md.

Each number is ours over the original's: instructions a step as callgrind counts them, or with --time the best wall time of runs on one core,
of the two in turn. A step's is the difference of two runs, one of which does more steps. The lines that the two print have to be equal.
There are four programs: each call is in place or in a function of its own, and the slots have one alignment or seven. Of ours the last three
are copies of the crate with other constants, which `rt run` proves and builds. Without --original the numbers
are ours alone. --only names programs. --quick takes the program that is there."""
import pathlib
import re
import shutil
import subprocess
import sys
import tempfile
import time

from measuring.options import ROOT, missing

CRATE = ROOT / "crates/rlsf_bench"
CALLED = ("const CALLED: bool = false;", "const CALLED: bool = true;")
ALIGNED = ("const ALIGNS: usize = 1;", "const ALIGNS: usize = 7;")
# The programs, and what their constants differ in from those of the crate.
PROGRAMS = {
    "rlsf_bench": [],
    "rlsf_bench_not_inlined": [CALLED],
    "rlsf_bench_aligned": [ALIGNED],
    "rlsf_bench_not_inlined_aligned": [CALLED, ALIGNED],
}
MODES = ["free", "realloc"]
CONFIGS = ["12x16", "59x8", "64x64"]
SLOTS = [100, 1_000, 10_000, 50_000]
# Payloads have fewer bytes.
SIZES = 512
# How many steps the shorter run does, and the longer one.
COUNTED = (200_000, 400_000)
TIMED = (200_000, 3_200_000)
QUICK = (1_000, 3_000)


def add_words(parser):
    parser.add_argument("configs", nargs="*", default=CONFIGS, metavar="CONFIG", help="the configurations, as 12x16")
    parser.add_argument("--slots", type=int, nargs="+", default=SLOTS, help="how many slots there are")
    parser.add_argument("--time", action="store_true", help="measure time, not instructions")
    parser.add_argument("--runs", type=int, default=8, help="how often each is timed")
    parser.add_argument("--both", action="store_true", help="print what the two take, not their ratio")


def run_once(folder, words):
    """Has `rt run` prove, build and run the program in a folder. Returns the program."""
    run = subprocess.run(["rt", "run", "--", *words.split()], cwd=folder, capture_output=True, text=True)
    if run.returncode:
        sys.exit(f"`rt run` in {folder} ended with status {run.returncode}\n{run.stdout}{run.stderr}")
    return folder / "out" / folder.name


def built(name, folder):
    """Builds one of the programs, a copy of the crate in a folder. Meanwhile the copy lies in the repository, so that `rt` takes the libraries
    that it has proved there."""
    if not PROGRAMS[name]:
        return run_once(CRATE, "12x16 10 512 10 free")
    text = (CRATE / "src/main.rt").read_text()
    for constant, other in PROGRAMS[name]:
        if constant not in text:
            sys.exit(f"crates/rlsf_bench/src/main.rt has no line {constant}")
        text = text.replace(constant, other)
    with tempfile.TemporaryDirectory(dir=ROOT, prefix="measured-") as place:
        copy = pathlib.Path(place) / name
        (copy / "src").mkdir(parents=True)
        (copy / "src/main.rt").write_text(text)
        (copy / "BUILD.bazel").write_text(f'rattle_crate(name = "{name}", deps = ["//crates/rlsf_bench_common"])\n')
        return shutil.copy(run_once(copy, "12x16 10 512 10 free"), folder / name)


def there(name):
    """The program of a crate that was built earlier, or None."""
    program = ROOT / "crates" / name / "out" / name
    return program if program.exists() else missing(name, f"`rt run` in crates/{name} builds it")


def instructions(words):
    """How many instructions a run executes, and what it prints."""
    command = ["valgrind", "--tool=callgrind", "--callgrind-out-file=/dev/null", *map(str, words)]
    run = subprocess.run(command, capture_output=True, text=True, check=True)
    return int(re.search(r"Collected : (\d+)", run.stderr).group(1)), run.stdout


def seconds(words, core):
    """How long a run takes on a core, and what it prints."""
    begun = time.perf_counter()
    run = subprocess.run(["taskset", "-c", str(core), *map(str, words)], capture_output=True, text=True, check=True)
    return time.perf_counter() - begun, run.stdout


def a_step(programs, config, slots, mode, options):
    """What a step costs with each of the programs, which print the same: the least of all runs, which they do in turn."""
    shorter, longer = QUICK if options.quick else TIMED if options.time else COUNTED
    least = {}
    for _ in range(options.runs if options.time else 1):
        for steps in (shorter, longer):
            lines = set()
            for program in programs:
                words = [program, config, slots, SIZES, steps, mode]
                cost, line = seconds(words, options.core) if options.time else instructions(words)
                least[program, steps] = min(cost, least.get((program, steps), cost))
                lines.add(line)
            if len(lines) != 1:
                sys.exit(f"{programs[0]} {config} {slots} {steps} {mode}: the two print {' and '.join(sorted(lines))}")
    scale = 1e9 if options.time else 1
    return [(least[program, longer] - least[program, shorter]) / (longer - shorter) * scale for program in programs]


def entry(costs, both):
    """The entry of the table for what a step of ours and of the original costs, or of ours alone."""
    if both or len(costs) == 1:
        return " / ".join(f"{cost:.1f}" for cost in costs)
    return f"{costs[0] / costs[1]:.2f}"


def measure(options, folder):
    if not options.time and not shutil.which("valgrind"):
        return missing("counts of instructions", "install the package valgrind")
    if not options.original:
        missing("the original", "--original names the folder that tools/original/build filled")
    names = options.only or ([CRATE.name] if options.quick else list(PROGRAMS))
    found = {name: there(name) if options.quick else built(name, folder) for name in names}
    pairs = {name: [program, options.original / name] if options.original else [program] for name, program in found.items() if program}
    if not pairs:
        return None
    heads = [f"{name.removeprefix('rlsf_')} {mode}" for name in pairs for mode in MODES]
    print("\n| Configuration | Slots | " + " | ".join(heads) + " |\n|---|---|" + "---|" * len(heads), flush=True)
    for config in options.configs[:1] if options.quick else options.configs:
        for slots in SLOTS[:1] if options.quick else options.slots:
            row = [entry(a_step(pair, config, slots, mode, options), options.both) for pair in pairs.values() for mode in MODES]
            print(f"| `{config}` | {slots:,} | " + " | ".join(row) + " |", flush=True)
    return None
