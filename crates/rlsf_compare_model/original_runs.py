"""The original's tests of its allocator over sources, as runs: fixed calls, and fixed lists of bytes that are interpreted as calls."""
import random

from machine_runs import Run, Source, up

CONFIGS = ("8x8", "59x8", "1x1", "8x1", "12x16")
OFFSET = 17


class SystemSource(Source):
    """`GlobalAllocAsFlexSource` of the system's allocator with 1024: takes ranges back, whose lengths are multiples of 1024."""

    def __init__(self, _offset):
        super().__init__(["dealloc"], 1024, 2**21)
        self.at = self.start

    def choose_range(self, n):
        given = (self.at, up(n, 1024))
        self.at += given[1]
        assert self.at <= self.end
        return given


class ContiguousSource(Source):
    """`CgFlexSource`: what follows the first bytes of a vector of 32768, in one range that grows, as long as asked."""

    def __init__(self, offset):
        super().__init__(["grow", "contiguous"], 1, 32768)
        self.at = self.start + offset

    def choose_range(self, n):
        if self.at + n > self.end:
            return None
        self.at += n
        return (self.at - n, n)

    def choose_length(self, r, n):
        return n if self.choose_range(n - r[1]) else None


class Original:
    """The original's test `random`: its bytes choose calls, sizes and alignments. Of the bytes that it writes to a payload and
    then verifies, the first and the last are written and read."""

    def __init__(self, config, source, most, code):
        self.run, self.most, self.code = Run(config, source), most % 65536, iter(code)
        self.live, self.count = [], 0

    def length(self):
        return (next(self.code) + (next(self.code) << 8) + (next(self.code) << 16)) * self.most >> 24

    def fill(self, name, length):
        for i in sorted({0, length - 1} if length else ()):
            self.run.do("put", name, i, int(f"{i % 256:08b}"[::-1], 2))

    def verify(self, name, length):
        for i in [i for i, byte in enumerate(self.run.used(name).data[:length]) if byte is not None]:
            assert self.run.do("get", name, i) == f"get {name} {int(f'{i % 256:08b}'[::-1], 2)}"

    def call(self):
        kind = next(self.code) % 8
        if kind <= 2:
            self.count += 1
            length, align = self.length(), 1 << next(self.code) % 6
            if "at" in self.run.do("alloc", self.count, length, align):
                self.live.append((self.count, length))
                self.fill(self.count, length)
            return
        index = next(self.code)
        if not self.live:
            return
        index %= len(self.live)
        name, old = self.live[index]
        if kind <= 5:
            self.live[index] = self.live[-1]
            self.live.pop()
            self.verify(name, old)
            self.run.do("free", name)
            return
        length = self.length()
        if "at" in self.run.do("realloc", name, length):
            self.verify(name, min(old, length))
            self.fill(name, length)
            self.live[index] = (name, length)

    def all(self):
        try:
            while True:
                self.call()
        except StopIteration:
            return self.run


def fixed_run(run, calls):
    """Calls of payloads that are live, as the original's tests without bytes make them."""
    for op, name, *ns in calls:
        if op == "alloc" or name in run.names:
            run.do(op, name, *ns)
    return run


MINIMAL = [("alloc", 1, 1, 1), ("free", 1)]
AADAADARAAADR = [("alloc", 1, 20, 16), ("alloc", 2, 21, 1), ("free", 1), ("alloc", 3, 0, 32), ("alloc", 4, 10, 8), ("free", 2),
                 ("alloc", 5, 12, 8), ("realloc", 3, 0), ("alloc", 6, 24, 2), ("alloc", 7, 11, 16), ("alloc", 8, 1, 32),
                 ("free", 5), ("realloc", 3, 4)]


def original_runs():
    """The original's tests `minimal`, `aadaadaraaadr` and `random`, over its two sources and those of its configurations that
    a trace can have, and over 12x16, which the original hasn't. The bytes of list `n`, from 1 on, are
    `random.Random(n).randbytes(160)`. The first byte of the vector that is used and the bound of sizes are that generator's next
    two numbers; the bound of every second list is below 600, so that more calls find room."""
    runs, n = [], 0
    for config in CONFIGS:
        for source in (SystemSource, ContiguousSource):
            runs.append(fixed_run(Run(config, source(OFFSET)), MINIMAL))
            runs.append(fixed_run(Run(config, source(OFFSET)), AADAADARAAADR))
            for greatest in (65536, 600):
                n += 1
                rng = random.Random(n)
                code, offset, most = rng.randbytes(160), rng.randrange(256), rng.randrange(greatest)
                runs.append(Original(config, source(offset), most, code).all())
    return runs
