#!/usr/bin/env python3
"""Random scripts for the allocator behind the lock, and what the model of it says of them.

usage: random_scripts.py                          writes the scripts of stdin and stdout beside this file: a sample of each kind
       random_scripts.py SCRIPTS CALLS SEED       compares the program with the model on so many scripts of each kind

The model is tools/model/global_machine.py. The program runs its scripts twice, without the lock and through it, so each
reply is wanted twice. A byte that no call gave is open: the model prints `?` for it, which any byte matches. In the
sample there are no reads of such bytes.
"""
import pathlib
import re
import subprocess
import sys
import tempfile
from concurrent.futures import ThreadPoolExecutor

sys.dont_write_bytecode = True
from stored import write_part  # noqa: E402

HERE = pathlib.Path(__file__).resolve().parent
MODEL = HERE.parents[1] / "tools/model"
# The seed of each kind's sample. These samples show a `realloc` of the kind that, where a payload grows, always moves it,
# never moves it or copies nothing.
KINDS = {"coalescing": 2, "small": 200}
SAMPLE = 200
# Where the memories begin, and how long they are: some are refused soon, some never.
MEMORIES = ((65536, 1 << 20), (65536, 1 << 18), (4097, 300000), (1, 1 << 22), (65536 * 3 + 16, 196608), (2**63, 1 << 21))


def generate(seed, calls, kind, memory):
    """The lines of a script, each call with its reply."""
    start, length = memory
    words = ["python3", "-B", "global_machine.py", "gen", *map(str, (seed, calls, kind, start, length))]
    return subprocess.run(words, cwd=MODEL, check=True, capture_output=True, text=True).stdout.splitlines()


def replies(lines):
    return [line.split(" = ", 1)[1] for line in lines if " = " in line]


def sample():
    read, said = [], []
    for kind, seed in KINDS.items():
        head, *lines = generate(seed, 2 * SAMPLE, kind, MEMORIES[0])
        lines = [line for line in lines if "?" not in line][:SAMPLE]
        read += [head] + [line.split(" = ", 1)[0] for line in lines]
        said += replies(lines)
    write_part(True, *("".join(line + "\n" for line in lines) for lines in (read, 2 * said)))


def matches(wanted, got):
    """Whether a reply is the one that is wanted, where `?` stands for any byte."""
    return wanted == got or "?" in wanted and re.fullmatch(re.escape(wanted).replace(re.escape("?"), r"\d+"), got) is not None


def compare(scripts, calls, seed):
    wanted = {}
    asked = [(kind, n) for n in range(scripts) for kind in KINDS]
    with tempfile.TemporaryDirectory() as folder, ThreadPoolExecutor(2) as pool:
        made = pool.map(lambda script: generate(seed + script[1], calls, script[0], MEMORIES[script[1] % len(MEMORIES)]), asked)
        for (kind, n), lines in zip(asked, made):
            name = f"{kind}{n + 1:03}"
            wanted[name] = ["scripts"] + 2 * replies(lines)
            pathlib.Path(folder, name).write_text("".join(line + "\n" for line in ["scripts"] + lines))
        out = subprocess.run(["rt", "try", "--cases", folder], cwd=HERE, capture_output=True, text=True)
    got, name = {}, None
    for line in out.stdout.splitlines():
        if line.startswith("== "):
            name = line[3:].strip()
            got[name] = []
        elif name is not None and len(got[name]) < len(wanted.get(name, ())):
            got[name].append(line)
    wrong = 0
    for name, lines in wanted.items():
        found = got.get(name, [])
        bad = [i for i, line in enumerate(lines) if i >= len(found) or not matches(line, found[i])]
        wrong += len(bad)
        for i in bad[:3]:
            print(f"{name}, line {i + 1}: wanted {lines[i]}, got {found[i] if i < len(found) else 'nothing'}")
    open_bytes = sum("?" in line for lines in wanted.values() for line in lines)
    print(f"{len(wanted)} scripts, {sum(map(len, wanted.values()))} replies, {open_bytes} of them with open bytes: {wrong} differences")
    if out.returncode:
        print(f"rt try ended with status {out.returncode}:", *out.stdout.splitlines()[-3:], *out.stderr.splitlines()[-3:], sep="\n")
    return 1 if wrong or out.returncode else 0


if __name__ == "__main__":
    if len(sys.argv) == 1:
        sys.exit(sample())
    if len(sys.argv) == 4:
        sys.exit(compare(*map(int, sys.argv[1:])))
    sys.exit(__doc__)
