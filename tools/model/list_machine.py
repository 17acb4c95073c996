#!/usr/bin/env python3
"""The list machine in plain Python, and what a trace means over it.

usage: list_machine.py < TRACE      prints what `rlsf_replay` must print; a fault goes to standard error, status 1

It knows only lists of ranges: no header, link, bitmap or rotation. All arithmetic is that of whole numbers.
A byte that no call has given reads as `?`.
"""
import sys

TOP = 2**64 - 1
CONFIGS = {"8x8": (8, 8), "12x16": (12, 16), "59x8": (59, 8), "1x1": (1, 1), "8x1": (8, 1)}


def up(a, n):
    return -(-a // n) * n


def round32(a):
    return up(a, 32)


class Parameters:
    def __init__(self, fllen, sllen):
        self.fllen, self.sllen = fllen, sllen
        self.max_pool = 2 ** (5 + fllen) if 5 + fllen < 64 else None

    def class_of(self, size):
        k = size.bit_length() - 1
        return (k, (size - 2**k) * self.sllen // 2**k)

    def valid(self, c):
        return c[0] - 5 < self.fllen

    def reaches(self, c, s):
        return 2 ** c[0] * (self.sllen + c[1]) >= s * self.sllen

    def map_floor(self, size):
        c = self.class_of(size)
        return (c[0] - 5, c[1]) if self.valid(c) else None

    def map_ceil(self, s):
        k, j = self.class_of(s)
        if not self.reaches((k, j), s):
            k, j = (k, j + 1) if j + 1 < self.sllen else (k + 1, 0)
        return (k - 5, j) if self.valid((k, j)) else None

    def map_ceil_and_unmap(self, s):
        c = self.map_ceil(s)
        if c is None or c[0] + 5 >= 64:
            return None
        least = 2 ** (c[0] + 5) * (self.sllen + c[1])
        assert least % self.sllen == 0
        return least // self.sllen

    @staticmethod
    def request(size, align):
        return round32(size + max(align - 16, 0) + 16)

    def pool_size_to_contain(self, size, align):
        m = self.map_ceil_and_unmap(self.request(size, align))
        return None if m is None else m + 32


class Used:
    def __init__(self, start, end, payload, align, data):
        self.start, self.end, self.payload, self.align, self.data = start, end, payload, align, data


class Machine:
    """Chunks, used blocks by their payloads, and free ranges. Ranges are (start, end); free is one list, newest first."""

    def __init__(self, fllen, sllen):
        self.p = Parameters(fllen, sllen)
        self.chunks, self.used, self.free = [], {}, []

    def check(self):
        """Makes sure that blocks and sentinels tile the chunks, no two free ranges adjoin, and each has a class."""
        spans = sorted([(u.start, u.end) for u in self.used.values()] + self.free + [(e - 32, e) for _, e in self.chunks])
        i = 0
        for s, e in sorted(self.chunks):
            at = s
            while at < e:
                assert spans[i][0] == at and spans[i][1] > at, ("tiles", spans[i], at)
                at = spans[i][1]
                i += 1
            assert at == e
        assert i == len(spans)
        fs = sorted(self.free)
        for a, b in zip(fs, fs[1:]):
            assert a[1] < b[0], "two free ranges adjoin"
        for a, b in self.free:
            assert a % 32 == b % 32 == 0 and self.p.valid(self.p.class_of(b - a))

    def join(self, r):
        s, e = r
        for f in [f for f in self.free if f[1] == r[0] or f[0] == r[1]]:
            self.free.remove(f)
            s, e = min(s, f[0]), max(e, f[1])
        self.free.insert(0, (s, e))

    def _chunks(self, at, length):
        end = at
        while length >= 64:
            n = length if self.p.max_pool is None else min(length, self.p.max_pool)
            self.chunks.append((at, at + n))
            self.free.insert(0, (at, at + n - 32))
            at += n
            length -= n
            end = at
        return end

    def insert(self, start, length):
        a = round32(start)
        n = (start + length - a) // 32 * 32 if a <= start + length else 0
        end = self._chunks(a, n)
        return None if end == a else end - start

    def append(self, start, length):
        n = length // 32 * 32
        if self.p.max_pool is not None:
            return self._chunks(start, n) - start
        if n == 0:
            return 0
        i = next(i for i, c in enumerate(self.chunks) if c[1] == start)
        self.chunks[i] = (self.chunks[i][0], start + n)
        self.join((start - 32, start + n - 32))
        return n

    def _place(self, f, b, length, align, payload, data):
        """Takes the front of the free space [b, end of f) as a used block."""
        self.used[payload] = Used(b, b + length, payload, align, data)
        if b + length < f:
            self.free.insert(0, (b + length, f))

    def allocate(self, size, align):
        s = self.p.request(size, align)
        reach = [self.p.class_of(e - b) for b, e in self.free if self.p.reaches(self.p.class_of(e - b), s)]
        if not reach:
            return None
        c = min(reach)
        f = next(f for f in self.free if self.p.class_of(f[1] - f[0]) == c)
        self.free.remove(f)
        b, e = f
        payload = up(b + 16, align)
        length = round32(payload - b + size)
        self._place(e, b, length, align, payload, [None] * (b + length - payload))
        return payload

    def deallocate(self, addr):
        u = self.used.pop(addr)
        self.join((u.start, u.end))

    def _keep(self, old, usable):
        return (old + [None] * usable)[:usable]

    def reallocate_in_place(self, addr, size):
        u = self.used[addr]
        need = round32(addr - u.start + size)
        nxt = next((f for f in self.free if f[0] == u.end), None)
        n = nxt[1] - nxt[0] if nxt else 0
        end = u.start + need
        if need <= u.end - u.start:
            tail = (end, u.end)
            u.end, u.data = end, self._keep(u.data, end - addr)
            if tail[0] < tail[1]:
                self.join(tail)
            return addr
        if need <= u.end - u.start + n:
            self.free.remove(nxt)
            u.end, u.data = end, self._keep(u.data, end - addr)
            if end < nxt[1]:
                self.free.insert(0, (end, nxt[1]))
            return addr
        return None

    def reallocate(self, addr, size):
        if self.reallocate_in_place(addr, size) is not None:
            return addr
        u = self.used[addr]
        nxt = next((f for f in self.free if f[0] == u.end), None)
        prev = next((f for f in self.free if f[1] == u.start), None)
        if prev:
            q = prev[0]
            to = up(q + 16, u.align)
            length = round32(to - q + size)
            end = nxt[1] if nxt else u.end
            if length <= end - q:
                self.free.remove(prev)
                if nxt:
                    self.free.remove(nxt)
                del self.used[addr]
                self._place(end, q, length, u.align, to, self._keep(u.data, q + length - to))
                return to
        to = self.allocate(size, u.align)
        if to is None:
            return None
        v = self.used[to]
        v.data = self._keep(u.data, v.end - to)
        self.deallocate(addr)
        return to

    def usable(self, addr):
        return self.used[addr].end - addr

    def blocks(self, start, length):
        a, e = round32(start), start + length
        bs = [((u.start, u.end), True) for u in self.used.values()] + [(f, False) for f in self.free]
        return sorted(b for b in bs if a <= b[0][0] and b[0][1] <= e)


class Fault(Exception):
    pass


def number(word, line):
    if not (1 <= len(word) <= 20 and all(48 <= c <= 57 for c in word)) or int(word) > TOP:
        raise Fault(f"line {line}: BadNumber")
    return int(word)


OPS = {"insert": 2, "append": 2, "alloc": 3, "free": 1, "ufree": 1, "realloc": 2, "nrealloc": 2, "usable": 1,
       "fill": 2, "put": 3, "get": 2, "block": 3}
BYTE_LAST = {"fill", "put"}


def layout_ok(size, align):
    return align > 0 and align & (align - 1) == 0 and size <= 2**63 - align


def parse(data):
    lines = data.split(b"\n")
    if len(lines) > 1 and lines[-1] == b"":
        lines.pop()
    words = lines[0].split(b" ")
    if len(words) != 3:
        raise Fault("line 1: FieldCount")
    config = words[0].decode("latin1")
    if config not in CONFIGS:
        raise Fault("line 1: Config")
    start, length = number(words[1], 1), number(words[2], 1)
    if start == 0:
        raise Fault("line 1: ZeroStart")
    if start + length > TOP:
        raise Fault("line 1: TooLong")
    ops = []
    for i, raw in enumerate(lines[1:], 2):
        w = raw.split(b" ")
        op = w[0].decode("latin1")
        if op not in OPS:
            raise Fault(f"line {i}: UnknownOp")
        if len(w) != OPS[op] + 1:
            raise Fault(f"line {i}: FieldCount")
        ns = []
        for j, x in enumerate(w[1:]):
            n = number(x, i)
            if op in BYTE_LAST and j == len(w) - 2 and n > 255:
                raise Fault(f"line {i}: BadNumber")
            ns.append(n)
        if op == "alloc" and not layout_ok(ns[1], ns[2]):
            raise Fault(f"line {i}: BadLayout")
        ops.append((op, ns))
    return config, start, length, ops


def run(config, start, length, ops, check=False):
    m = Machine(*CONFIGS[config])
    names, pools, out = {}, [], []

    def inside(a, n):
        return a >= start and a + n <= start + length

    def overlaps(a, n):
        return any(max(a, s) < min(a + n, e) for s, e in pools)

    for op, ns in ops:
        if op in ("insert", "append"):
            a, n = ns
            at_end = [i for i, p in enumerate(pools) if p[1] == a]
            if not inside(a, n) or overlaps(a, n) or (op == "append" and not at_end):
                out.append("refused 3 BadRange")
            elif op == "insert":
                k = m.insert(a, n)
                if k is not None:
                    pools.append((round32(a), a + k))
                out.append(f"insert some {k}" if k is not None else "insert none")
            else:
                k = m.append(a, n)
                pools[at_end[0]] = (pools[at_end[0]][0], a + k)
                out.append(f"append {k}")
        elif op == "alloc":
            name, size, align = ns
            if name in names:
                out.append("refused 2 NameTaken")
            else:
                at = m.allocate(size, align)
                if at is not None:
                    names[name] = at
                out.append(f"alloc {name} none" if at is None else f"alloc {name} at {at}")
        elif op == "block":
            a, n, i = ns
            if not inside(a, n) or (round32(a), a + n) not in pools:
                out.append("refused 3 BadRange")
            else:
                bs = m.blocks(a, n)
                if i < len(bs):
                    (s, e), used = bs[i]
                    out.append(f"block {s} {e - s} {'used' if used else 'free'}")
                else:
                    out.append("block none")
        elif ns[0] not in names:
            out.append("refused 1 UnknownName")
        else:
            name, at = ns[0], names[ns[0]]
            u = m.used[at]
            if op in ("free", "ufree"):
                m.deallocate(at)
                del names[name]
                out.append(f"{op} {name} done")
            elif op in ("realloc", "nrealloc"):
                if not layout_ok(ns[1], u.align):
                    out.append("refused 5 BadLayout")
                else:
                    to = (m.reallocate if op == "realloc" else m.reallocate_in_place)(at, ns[1])
                    if to is not None:
                        names[name] = to
                    out.append(f"{op} {name} none" if to is None else f"{op} {name} at {to}")
            elif op == "usable":
                out.append(f"usable {name} {m.usable(at)}")
            elif op == "fill":
                u.data[:] = [ns[1]] * len(u.data)
                out.append(f"fill {name} done")
            elif ns[1] >= m.usable(at):
                out.append("refused 4 BadOffset")
            elif op == "put":
                u.data[ns[1]] = ns[2]
                out.append(f"put {name} done")
            else:
                b = u.data[ns[1]]
                out.append(f"get {name} {'?' if b is None else b}")
        if check:
            m.check()
    return out, m


def main():
    try:
        parsed = parse(sys.stdin.buffer.read())
    except Fault as f:
        sys.stderr.write(f"{f}\n")
        return 1
    out, _ = run(*parsed, check="--check" in sys.argv)
    sys.stdout.write("".join(line + "\n" for line in out))
    return 0


if __name__ == "__main__":
    sys.exit(main())
