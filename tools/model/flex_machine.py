#!/usr/bin/env python3
"""The list machine over a source of memory, in plain Python.

FlexMachine(fllen, sllen, source) asks its source and notes each question with its answer in `notes`.
A source has dealloc, grow, contiguous (bool), min_align, and the calls alloc(n) -> (start, len) or None,
realloc_inplace_grow((start, len), n) -> length or None. Run this file to check the worked examples.
"""
from list_machine import Machine, TOP, round32


class FlexMachine:
    def __init__(self, fllen, sllen, source):
        self.m = Machine(fllen, sllen)
        self.source = source
        self.pools = []        # what the source owes, newest first: [start, len]
        self.kept = None       # the kept pool's length, the newest range being its range
        self.notes = []

    def allocate(self, size, align):
        at = self.m.allocate(size, align)
        if at is not None:
            return at
        e = self.m.p.pool_size_to_contain(size, align)
        if e is None:
            return None
        s = self.source
        if self.kept is not None:
            n = self.kept + e
            if n > TOP:
                return None
            if s.grow:
                given = s.realloc_inplace_grow(tuple(self.pools[0]), n)
                self.notes.append(("grow", tuple(self.pools[0]), n, given))
                if given is not None:
                    start = self.pools[0][0]
                    self.pools[0][1] = given
                    end = start + self.kept
                    self.kept += self.m.append(end, start + given - end)
                    return self._again(size, align)
            if s.contiguous:
                return None
        ask = e if s.min_align >= 32 else e + 32
        if ask > TOP:
            return None
        given = s.alloc(ask)
        self.notes.append(("alloc", ask, given))
        if given is None:
            return None
        self.pools.insert(0, list(given))
        length = self.m.insert(*given)
        assert length is not None
        if s.dealloc or s.grow:
            self.kept = length
        return self._again(size, align)

    def _again(self, size, align):
        at = self.m.allocate(size, align)
        assert at is not None, "the allocation that was awaited succeeds"
        self.m.check()
        return at

    def deallocate(self, addr):
        self.m.deallocate(addr)

    def reallocate(self, addr, size):
        to = self.m.reallocate(addr, size)
        if to is not None:
            return to
        u = self.m.used[addr]
        to = self.allocate(size, u.align)
        if to is None:
            return None
        v = self.m.used[to]
        v.data = self.m._keep(u.data, v.end - to)
        self.m.deallocate(addr)
        return to

    def trim(self):
        n = 0
        while self.source.dealloc and self.pools:
            s, l = self.pools[0]
            if any(s <= u.start < s + l for u in self.m.used.values()):
                break
            self.m.chunks = [c for c in self.m.chunks if not s <= c[0] < s + l]
            self.m.free = [f for f in self.m.free if not s <= f[0] < s + l]
            self.notes.append(("dealloc", (s, l)))
            self.pools.pop(0)
            n += 1
            if self.pools:
                s, l = self.pools[0]
                self.kept = max(c[1] for c in self.m.chunks if s <= c[0] < s + l) - s
            else:
                self.kept = None
        return n

    def footers(self):
        """Where each range's footer stands and what it holds, newest range first."""
        out = []
        for i, (s, l) in enumerate(self.pools):
            at = (s + l - 16) // 8 * 8
            out.append((at,) + (tuple(self.pools[i + 1]) if i + 1 < len(self.pools) else (0, 0)))
        return out

    def into_parts(self):
        back = [("dealloc", tuple(r)) for r in self.pools] if self.source.dealloc else []
        self.notes += back
        return back


class Bump:
    """Gives what is asked (and `more`), from `at` on, each range at a multiple of `step`."""

    def __init__(self, at, end=2**62, dealloc=False, grow=False, contiguous=False, min_align=1, more=0, step=1):
        self.at, self.end, self.more, self.step = at, end, more, step
        self.dealloc, self.grow, self.contiguous, self.min_align = dealloc, grow, contiguous, min_align

    def alloc(self, n):
        start = -(-self.at // self.step) * self.step
        if start + n + self.more > self.end:
            return None
        self.at = start + n + self.more
        return (start, n + self.more)

    def realloc_inplace_grow(self, r, n):
        if r[0] + r[1] != self.at or r[0] + n + self.more > self.end:
            return None
        self.at = r[0] + n + self.more
        return n + self.more


class GlobalAllocAs(Bump):
    """GlobalAllocAsFlexSource<_, ALIGN> over a bump allocator."""

    def __init__(self, at, align):
        super().__init__(at, dealloc=True, min_align=max(align, 32), step=max(align, 32))

    def alloc(self, n):
        return super().alloc(-(-n // self.min_align) * self.min_align)


class Listed(Bump):
    """Follows a list of answers."""

    def __init__(self, answers, **k):
        super().__init__(0, **k)
        self.answers = list(answers)

    def alloc(self, n):
        return self.answers.pop(0)

    def realloc_inplace_grow(self, r, n):
        return self.answers.pop(0)


class Pages(Bump):
    """The page source of `GlobalTlsf`."""

    def __init__(self, start, length, coalesce):
        super().__init__(round32(start), end=start + length, grow=coalesce, min_align=32)

    def alloc(self, n):
        return super().alloc(-(-n // 65536) * 65536)

    def realloc_inplace_grow(self, r, n):
        return super().realloc_inplace_grow(r, -(-n // 65536) * 65536)


def examples():
    def eq(name, got, want):
        assert got == want, f"{name}: {got} is not {want}"
        print("ok", name)

    f = FlexMachine(12, 16, Bump(4097, grow=True, contiguous=True))
    eq("coalescing append", ([f.allocate(1, 1), f.allocate(1, 1)], f.notes), ([4144, 4208], [("alloc", 96, (4097, 96)), ("grow", (4097, 96), 159, 159)]))
    f = FlexMachine(59, 8, Bump(4097, grow=True, contiguous=True))
    eq("coalescing append, 59x8", [f.allocate(1, 1), f.allocate(1, 1)], [4144, 4176])
    f = FlexMachine(8, 8, GlobalAllocAs(4096, 1024))
    eq("ranges go back at the end", ([f.allocate(1, 1), f.allocate(2000, 1)], f.into_parts()), ([4112, 5136], [("dealloc", (5120, 3072)), ("dealloc", (4096, 1024))]))
    f = FlexMachine(8, 8, Bump(4097, dealloc=True, grow=True))
    a = f.allocate(1, 1), f.footers()[0][0], f.allocate(1, 1), f.footers()[0][0]
    eq("footer moves with growth", (a, f.into_parts()), ((4144, 4176, 4208, 4240), [("dealloc", (4097, 159))]))
    f = FlexMachine(8, 8, Bump(4096, end=0))
    eq("refused memory", (f.allocate(8000, 1), list(f.notes), f.allocate(1, 1), f.notes), (None, [], None, [("alloc", 96, None)]))
    for contiguous, want in ((True, [("grow", (4096, 64), 128, None)]), (False, [("grow", (4096, 64), 128, None), ("alloc", 64, None)])):
        f = FlexMachine(8, 8, Bump(4096, end=4160, grow=True, contiguous=contiguous, min_align=32))
        eq("refused growth, contiguous" if contiguous else "refused growth", (f.allocate(1, 1), f.allocate(1, 1), f.notes[1:]), (4112, None, want))
    f = FlexMachine(8, 8, Bump(4096, dealloc=True, min_align=32, more=37, step=32))
    a = [f.allocate(1, 1) for _ in range(3)]
    eq("ranges longer than asked", (a, [n[:2] for n in f.notes], f.footers(), f.into_parts()), ([4112, 4144, 4240], [("alloc", 64)] * 2, [(4304, 4096, 101), (4176, 0, 0)], [("dealloc", (4224, 101)), ("dealloc", (4096, 101))]))
    for fl, sl, last in ((12, 16, 4240), (59, 8, 4208)):
        f = FlexMachine(fl, sl, Bump(4097, grow=True, contiguous=True, more=50))
        a = [f.allocate(1, 1) for _ in range(3)]
        eq(f"growth by more than asked {fl}x{sl}", (a, f.notes), ([4144, 4176, last], [("alloc", 96, (4097, 146)), ("grow", (4097, 146), 191, 241)]))
    for fl, sl, want in ((59, 8, [("alloc", 10376293541461622816, None)]), (59, 1, []), (64, 1, [])):
        f = FlexMachine(fl, sl, Listed([None], min_align=32))
        eq(f"greatest layout {fl}x{sl}", (f.allocate(2**63 - 1, 1), f.notes), (None, want))
    f = FlexMachine(8, 8, GlobalAllocAs(4096, 1024))
    f.allocate(1, 1), f.allocate(2000, 1)
    t = [f.trim()]; f.deallocate(5136); t.append(f.trim()); f.deallocate(4112); t.append(f.trim())
    eq("trim, range by range", (t, [n for n in f.notes if n[0] == "dealloc"], f.into_parts()), ([0, 1, 1], [("dealloc", (5120, 3072)), ("dealloc", (4096, 1024))], []))
    f = FlexMachine(8, 8, Bump(4097, dealloc=True, grow=True))
    f.allocate(1, 1), f.allocate(1, 1)
    f.deallocate(4208); t = [f.trim()]; f.deallocate(4144); t.append(f.trim())
    eq("trim of a range that grew", (t, f.notes[-1], f.into_parts()), ([0, 1], ("dealloc", (4097, 159)), []))
    f = FlexMachine(8, 8, Listed([(4096, 101), None, (8192, 101), 160], dealloc=True, grow=True, min_align=32))
    a = [f.allocate(1, 1) for _ in range(3)]
    f.deallocate(a[2]); n = f.trim(); foot = f.footers()[0][0]; b = f.allocate(1, 1)
    eq("growth after a trim", (a, n, foot, b, f.footers()[0][0], f.into_parts()), ([4112, 4144, 8208], 1, 4176, 4208, 4240, [("dealloc", (4096, 160))]))
    f = FlexMachine(64, 64, Pages(65536, 196608, True))
    eq("coalescing pages", (f.allocate(1, 1), f.allocate(70000, 1), [(s, e - s) for s, e in f.m.free]), (65552, 65584, [(135584, 126528)]))
    f = FlexMachine(64, 64, Pages(65536, 131072, True))
    eq("coalescing pages, too few", (f.allocate(1, 1), f.allocate(70000, 1)), (65552, None))
    f = FlexMachine(64, 64, Pages(65536, 196608, False))
    eq("pages of their own", (f.allocate(1, 1), f.allocate(70000, 1)), (65552, 131088))
    f = FlexMachine(64, 64, Pages(65536, 131072, True))
    a = f.allocate(40, 8); b = f.allocate(10, 64); f.deallocate(a)
    eq("front before an aligned payload", (a, b, f.m.usable(b), [(s, e - s) for s, e in sorted(f.m.free)]), (65552, 65664, 32, [(65536, 64), (65696, 65344)]))
    f = FlexMachine(64, 64, Pages(65536, 131072, False))
    a = f.allocate(40, 8); b = f.allocate(20, 8)
    eq("two payloads in a page", (a, b), (65552, 65616))


if __name__ == "__main__":
    examples()
