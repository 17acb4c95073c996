#!/usr/bin/env python3
"""Runs of the allocator over sources, and what the model of it says of them.

usage: random_runs.py RUNS SEED          writes the runs of stdin and stdout beside this file
       random_runs.py RUNS SEED --try    compares the program with the model, and writes neither

The model is tools/model/flex_machine.py. There are RUNS random runs of 60 calls, behind them those of the original's tests of this
allocator (`original_runs`), and at the end runs over sources with fixed answers (`listed_runs`). The answers of a source are else chosen
while the model runs, and are then a fixed list for the program. The stored ones are those of 20 and 29.
"""
import pathlib
import random
import subprocess
import sys
import tempfile

if len(sys.argv) < 3:
    sys.exit(__doc__)
sys.dont_write_bytecode = True
HERE = pathlib.Path(__file__).resolve().parent
sys.path.insert(0, str(HERE.parents[1] / "tools/model"))
from machine_runs import CAPABILITIES, START, Run, Source, up  # noqa: E402
from original_runs import original_runs  # noqa: E402
from listed_runs import listed_runs  # noqa: E402
from stored import write_part  # noqa: E402

CALLS, PER_FILE = 60, 25
MIN_ALIGNS = (1, 8, 32, 64, 1024)
CONFIGS = ("8x8", "12x16", "59x8", "1x1", "8x1")


class RandomSource(Source):
    """Gives ranges upwards, downwards or anywhere, some longer than asked, and refuses some."""

    def __init__(self, rng, capabilities, min_align):
        super().__init__(capabilities, min_align)
        self.rng = rng
        self.order = rng.choice(("up", "down", "anywhere"))
        self.refused = rng.choice((0, 0, 0.1, 0.3))
        self.most_extra = rng.choice((0, 1, 40, 100, 100, 1000, 20000))
        self.extra_unit = rng.choice((1, 1, 32))
        self.apart = rng.choice((0, 0, 70, 3000))

    def extra(self):
        return self.rng.randint(0, self.most_extra) // self.extra_unit * self.extra_unit

    def gaps(self):
        edges = [(self.start, self.start)] + sorted((s, s + l) for s, l in self.owed) + [(self.end, self.end)]
        return [(a[1], b[0]) for a, b in zip(edges, edges[1:])]

    def choose_range(self, n):
        length = n + self.extra()
        apart = self.rng.randint(0, self.apart)
        starts = [(up(a, self.min_align), (b - length) // self.min_align * self.min_align) for a, b in self.gaps()]
        starts = [(low, high) for low, high in starts if low <= high]
        if self.rng.random() < self.refused or not starts:
            return None
        if self.order == "up":
            low, high = starts[-1] if self.rng.random() < 0.8 else starts[0]
            return (min(up(low + apart, self.min_align), high), length)
        if self.order == "down":
            low, high = starts[0] if self.rng.random() < 0.8 else starts[-1]
            return (max((high - apart) // self.min_align * self.min_align, low), length)
        low, high = self.rng.choice(starts)
        return (self.rng.randint(low // self.min_align, high // self.min_align) * self.min_align, length)

    def choose_length(self, r, n):
        most = min([s for s, _ in self.owed if s > r[0]] + [self.end]) - r[0]
        if self.rng.random() < self.refused or n > most:
            return None
        return min(n + self.extra(), most)

    def refusal(self, bad):
        return self.rng.choice(bad + ["answer none"] * 3)


def random_size(rng, config):
    most = rng.choice((16, 40, 40, 300, 300, 1000, 6000))
    if config == "1x1" and rng.random() < 0.8:
        most = 16
    return 2**rng.randint(13, 63) - rng.randint(1, 1024) if rng.random() < 0.01 else rng.randint(0, most)


def random_call(rng, run):
    """One call, mostly of a live payload; bytes that nobody set are not read."""
    name = rng.choice([*run.names]) if run.names and rng.random() < 0.96 else rng.randint(1, 12)
    op = rng.choices(("alloc", "realloc", "nrealloc", "free", "ufree", "usable", "fill", "put", "get", "insert", "append", "block"),
                     (40, 18, 8, 12, 7, 4, 16, 6, 24, 0.4, 0.4, 0.4))[0]
    if not run.names and rng.random() < 0.9:
        op = "alloc"
    if op == "alloc":
        fresh = next(n for n in range(1, 99) if n not in run.names)
        align = 2**rng.choice((0, 0, 1, 2, 3, 4, 5, 6, 7, 10))
        if run.config == "1x1" and rng.random() < 0.8:
            align = min(align, 16)
        size = min(random_size(rng, run.config), 2**63 - align)
        return run.do(op, fresh if rng.random() < 0.97 else name, size, align)
    if op in ("realloc", "nrealloc"):
        return run.do(op, name, random_size(rng, run.config))
    if op in ("free", "ufree", "usable"):
        return run.do(op, name)
    if op in ("insert", "append"):
        return run.do(op, START, 4096)
    if op == "block":
        return run.do(op, START, 4096, 0)
    data = run.used(name).data if name in run.names else []
    known = [i for i, byte in enumerate(data) if byte is not None]
    if op == "fill" or op == "get" and not known and rng.random() < 0.9:
        return run.do("fill", name, rng.randint(0, 255))
    if op == "put":
        return run.do(op, name, rng.choice((0, rng.randint(0, len(data) + 1), max(len(data) - 1, 0))), rng.randint(0, 255))
    return run.do(op, name, rng.choice((known[0], known[-1], rng.choice(known))) if known else len(data))


def random_trim(rng, run, calls):
    """A trim, mostly behind the deallocations of what lies in some of the newest ranges."""
    newest = run.flex.pools[:rng.choice((0, 1, 1, 2, 9))]
    there = [name for name, at in run.names.items() if any(s <= at < s + l for s, l in newest)]
    for name in there[:calls - 1]:
        run.do(rng.choice(("free", "ufree")), name)
    return run.do("trim")


def random_run(rng, index):
    """All eight kinds of source in 8 runs, with each alignment in 40, and with each configuration in 200."""
    capabilities = [word for i, word in enumerate(CAPABILITIES) if index >> i & 1]
    source = RandomSource(rng, capabilities, MIN_ALIGNS[index % 5])
    run = Run(CONFIGS[(index // 5 + index // 40) % 5], source)
    while len(run.lines) < CALLS:
        if rng.random() < 0.06:
            random_trim(rng, run, CALLS - len(run.lines))
        else:
            random_call(rng, run)
    while source.answers and rng.random() < 0.5 and source.answers[-1] == "answer none":
        source.answers.pop()
    return run


def texts_of(runs):
    """The input of the program, and the output that it has to give."""
    texts = [run.texts() for run in runs]
    stdin = "".join(line + "\n" for read, _ in texts for line in read)
    return stdin, "".join(line + "\n" for i, (_, said) in enumerate(texts, 1) for line in [f"run {i}"] + said)


def compare(runs):
    with tempfile.TemporaryDirectory() as folder:
        for i in range(0, len(runs), PER_FILE):
            case = pathlib.Path(folder, f"runs{i + 1:05}")
            stdin, stdout = texts_of(runs[i:i + PER_FILE])
            case.write_text(stdin)
            case.with_suffix(".stdout").write_text(stdout)
        return subprocess.run(["rt", "try", "--cases", folder], cwd=HERE).returncode


def main(count, seed, *options):
    rng = random.Random(int(seed))
    runs = [random_run(rng, index) for index in range(int(count))] + original_runs() + listed_runs()
    if "--try" in options:
        return compare(runs)
    write_part(False, *texts_of(runs))


if __name__ == "__main__":
    sys.exit(main(*sys.argv[1:]))
