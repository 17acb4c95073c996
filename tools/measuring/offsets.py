"""Measures an `OffsetTlsf` and a `CheckedOffsets` beside a TLSF in C whose nodes lie outside of the space that it divides
(tools/measuring/offsets.c).

It needs the Rattle toolchain (`rt`), a C compiler and valgrind. A folder outside the repository gets copies of the crates below `rlsf_offsets`
and the program `tools/measuring/offsets.txt`, which `rt run` proves and builds there. A second run takes the program that is there. The space has
2^24 units of 256 bytes. LIVE slots are filled with ranges, which take half of it on average, and then a step replaces the range of a slot. All
print the sum of all offsets, so all return the same ones. The instructions of a step are those of one run less those of a run with no
steps; the resident bytes are the most of a run, with those of the program, its libraries and its slots."""
import pathlib
import re
import shutil
import subprocess
import sys

from measuring import messages
from measuring.options import ROOT

NAME = "measured_offsets"
LIVE = [1_000, 100_000]


def add_words(parser):
    parser.add_argument("--folder", type=pathlib.Path, default=pathlib.Path("/tmp/measured_offsets"), help="where the program is built")
    parser.add_argument("--steps", type=int, default=1_000_000, help="how many ranges are replaced before resident bytes are measured again")


def resident(launcher, command):
    """The most resident bytes of a run, and what it prints."""
    ran = subprocess.run([launcher, "", *map(str, command)], capture_output=True, text=True, check=True)
    said, last = ran.stdout.rstrip("\n").rsplit("\n", 1)
    return int(last.split()[1]) * 1024, said


def instructions(program, live, steps):
    """The instructions of a step."""
    def run(count):
        command = ["valgrind", "--tool=callgrind", "--callgrind-out-file=/dev/null", *map(str, [*program, live, count])]
        return int(re.search(r"Collected : (\d+)", subprocess.run(command, capture_output=True, text=True, check=True).stderr).group(1))
    return (run(steps) - run(0)) / steps


def measure(options, folder):
    if not shutil.which("rt") or not shutil.which("valgrind"):
        sys.exit("this needs `rt` and valgrind")
    ours = messages.build(options.folder, NAME, {"rlsf_offsets"}, ["proved", "1000", "10"])
    other, launcher = folder / "offsets", folder / "launch"
    for program, name in ((other, "offsets.c"), (launcher, "launch.c")):
        subprocess.run(["cc", "-O2", "-o", program, ROOT / "tools/measuring" / name], check=True)
    steps = 1_000 if options.quick else options.steps
    print("\n| Live ranges | | Instructions of a step | Resident MiB, fresh | after replacements |\n|---|---|---|---|---|")
    for live in LIVE:
        said = set()
        for name, program in (("`OffsetTlsf`", [ours, "proved"]), ("`CheckedOffsets`", [ours, "checked"]), ("nodes outside, in C", [other])):
            fresh, after = resident(launcher, [*program, live, 0]), resident(launcher, [*program, live, steps])
            said.add((fresh[1], after[1]))
            mean = instructions(program, live, min(steps, 10_000))
            print(f"| {live:,} | {name} | {mean:.1f} | {fresh[0] / 2**20:.1f} | {after[0] / 2**20:.1f} |", flush=True)
        if len(said) != 1:
            sys.exit(f"{live} live ranges: they print {said}")
