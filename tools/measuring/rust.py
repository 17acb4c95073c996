"""Counts the steps of rust/examples/steps.rs over the crate of the folder rust, beside those over the original.

A step frees the payload of one of 1,000 slots, chosen at random, or allocates one there of less than 512 bytes. With reallocations half of the
steps on a live payload resize it. The count is callgrind's: of a run of 60,000 steps less one of 20,000, with the test loop in it."""
import os
import pathlib
import shutil
import subprocess

from measuring.options import ROOT, missing
from measuring.steps import counted_by_callgrind

KINDS = {"small": "`Tlsf`, 12 rows of 16", "large": "`Tlsf`, 64 rows of 64", "flex": "`FlexTlsf`, 64 rows of 64"}
CALLS = {"free": "no reallocations", "realloc": "with reallocations"}
COUNTED = (20_000, 60_000)


def add_words(parser):
    pass


def built(options, folder: pathlib.Path):
    """The program over this crate, and the archive that it is linked with."""
    shutil.copy(options.ours, folder / "librlsf_malloc.a")
    words = ["cargo", "build", "--release", "--offline", "--quiet", "--example", "steps", "--target-dir", str(folder / "target")]
    subprocess.run(words, cwd=ROOT / "rust", env=os.environ | {"RLSF_LIB_DIR": str(folder)}, check=True)
    return folder / "target/release/examples/steps"


def measure(options, folder: pathlib.Path):
    programs = {"this crate": built(options, folder)}
    if options.original:
        programs["`rlsf` 0.2.3"] = options.original / "rlsf_steps"
    else:
        missing("the original", "--original names the folder that tools/original/build filled")
    few, many = (1_000, 3_000) if options.quick else COUNTED
    print("\n| Instructions a step | " + " | ".join(programs) + " |\n" + "|---" * (len(programs) + 1) + "|")
    for kind, name in KINDS.items():
        for call, how in CALLS.items():
            steps = [(counted_by_callgrind([program, kind, call, many]) - counted_by_callgrind([program, kind, call, few])) / (many - few) for program in programs.values()]
            print(f"| {name}, {how} | " + " | ".join(f"{count:.1f}" for count in steps) + " |", flush=True)
