#!/usr/bin/env python3
"""The machine behind the lock, in plain Python: the list machine over the page source, with the layout last asked of each
live address, and every refusal by name and in order. Memory for the table is always there.

usage: global_machine.py                          checks the worked examples
       global_machine.py gen SEED CALLS KIND START LEN   prints a script of random calls with their replies; KIND is coalescing or small

A script's first line is `KIND START LEN`; each other one is a call, ` = ` and its reply:
  alloc SIZE ALIGN                    dealloc ADDR SIZE ALIGN          realloc ADDR SIZE ALIGN NEW
  callocate SIZE ALIGN                cdeallocate ADDR                 creallocate ADDR SIZE ALIGN
  norealloc ADDR SIZE ALIGN NEW       usable ADDR
  write ADDR OFFSET LEN BYTE          writes LEN bytes: BYTE, BYTE + 1, .. (modulo 256)
  read ADDR OFFSET LEN                the reply is the bytes; ? where no call gave one
A reply is `at ADDR`, `done`, `size N`, `bytes B,B,..` or the name of a GlobalError.
"""
import random
import sys
from flex_machine import FlexMachine, Pages


class GlobalMachine:
    """Every call answers a pair: what it gives, or the name of its refusal."""

    def __init__(self, start, length, coalescing=True):
        self.f = FlexMachine(64, 64, Pages(start, length, coalescing))
        self.in_place = coalescing          # ENABLE_REALLOCATION goes with COALESCE_POOLS in both kinds
        self.asked = {}                     # the live table: address to (size, align)

    def alloc(self, size, align):
        at = self.f.allocate(size, align)
        if at is None:
            return "NoRoom"
        self.asked[at] = (size, align)
        return ("at", at)

    callocate = alloc

    def _named(self, addr, size, align):
        if addr not in self.asked:
            return "UnknownAddress"
        return None if self.asked[addr] == (size, align) else "WrongLayout"

    def dealloc(self, addr, size, align):
        refused = self._named(addr, size, align)
        return refused or self.cdeallocate(addr)

    def cdeallocate(self, addr):
        if addr not in self.asked:
            return "UnknownAddress"
        self.f.deallocate(addr)
        del self.asked[addr]
        return "done"

    def _elsewhere(self, addr, size, align, keep):
        to = self.f.allocate(size, align)
        if to is None:
            return "NoRoom"
        old, new = self.f.m.used[addr], self.f.m.used[to]
        new.data[:keep] = old.data[:keep]
        self.f.deallocate(addr)
        del self.asked[addr]
        self.asked[to] = (size, align)
        return ("at", to)

    def realloc(self, addr, size, align, new):
        refused = self._named(addr, size, align)
        if refused:
            return refused
        if not self.in_place:
            return self._elsewhere(addr, new, align, min(size, new))
        to = self.f.reallocate(addr, new)
        if to is None:
            return "NoRoom"
        del self.asked[addr]
        self.asked[to] = (new, align)
        return ("at", to)

    def creallocate(self, addr, size, align):
        if addr not in self.asked:
            return "UnknownAddress"
        return self._elsewhere(addr, size, align, min(size, self.f.m.usable(addr)))

    def norealloc(self, addr, size, align, new):
        refused = self._named(addr, size, align)
        if refused:
            return refused
        if self.f.m.reallocate_in_place(addr, new) is None:
            return "NoRoom"
        self.asked[addr] = (new, align)
        return ("at", addr)

    def usable(self, addr):
        return ("size", self.f.m.usable(addr)) if addr in self.asked else "UnknownAddress"

    def _inside(self, addr, offset, length):
        if addr not in self.asked:
            return "UnknownAddress"
        return None if offset + length <= self.f.m.usable(addr) else "OutOfRange"

    def write(self, addr, offset, length, byte):
        refused = self._inside(addr, offset, length)
        if refused:
            return refused
        self.f.m.used[addr].data[offset:offset + length] = [(byte + i) % 256 for i in range(length)]
        return "done"

    def read(self, addr, offset, length):
        refused = self._inside(addr, offset, length)
        return refused or ("bytes", self.f.m.used[addr].data[offset:offset + length])

    def check(self):
        self.f.m.check()
        assert sorted(self.asked) == sorted(self.f.m.used), "the table lists exactly the used blocks"

    def free(self):
        return sorted((s, e - s) for s, e in self.f.m.free)


def text(reply):
    if isinstance(reply, str):
        return reply
    word, what = reply
    return word + " " + (",".join("?" if b is None else str(b) for b in what) if word == "bytes" else str(what))


def generate(seed, calls, kind, start, length):
    r = random.Random(seed)
    g = GlobalMachine(start, length, kind == "coalescing")
    print(kind, start, length)
    gone = [7]

    def address():
        k = r.random()
        if g.asked and k < 0.85:
            return r.choice(sorted(g.asked))
        return r.choice(gone) + (r.choice([0, 0, 16, 32]) if k < 0.97 else 0)

    def layout(big=0.1):
        n = r.choice([0, 1, 15, 16, 17, 40, 100, r.randrange(600)])
        if r.random() < big:
            n = r.choice([r.randrange(5000), 65504, 65536, r.randrange(200000)])
        return n, 1 << r.choice([0, 3, 3, 4, 5, 6, r.randrange(14)])

    def named(addr):
        size, align = g.asked.get(addr, (1, 1))
        return (size, align) if r.random() < 0.93 else (size + r.choice([0, 1]), r.choice([align, align * 2, 1]))

    for _ in range(calls):
        call = r.choice(["alloc"] * 5 + ["callocate"] * 2 + ["dealloc", "cdeallocate"] * 2 + ["realloc"] * 3
                        + ["creallocate", "norealloc", "norealloc", "usable", "write", "write", "write", "read", "read"])
        addr = address()
        if call in ("alloc", "callocate"):
            args = layout()
        elif call == "dealloc":
            args = (addr, *named(addr))
        elif call in ("realloc", "norealloc"):
            args = (addr, *named(addr), layout()[0])
        elif call == "creallocate":
            args = (addr, *layout(0.03))
        elif call in ("cdeallocate", "usable"):
            args = (addr,)
        else:
            u = g.f.m.usable(addr) if addr in g.asked else 8
            n = r.choice([0, min(u, 1), min(u, 8), r.randrange(min(u, 64) + 1)])
            o = r.choice([0, u - n, u - n + 1, r.randrange(u + 1), 2**64 - 1]) if r.random() < 0.3 else r.randrange(u - n + 1)
            args = (addr, o, n) + ((r.randrange(256),) if call == "write" else ())
        before = set(g.asked)
        reply = getattr(g, call)(*args)
        gone += sorted(before - set(g.asked))
        g.check()
        print(call, *args, "=", text(reply))


def examples():
    def eq(name, got, want):
        assert got == want, f"{name}: {got} is not {want}"
        print("ok", name)

    g = GlobalMachine(65536, 196608)
    eq("coalescing pages", (g.callocate(1, 1), g.callocate(70000, 1), g.free()), (("at", 65552), ("at", 65584), [(135584, 126528)]))
    g = GlobalMachine(65536, 131072)
    eq("coalescing pages, too few", (g.callocate(1, 1), g.callocate(70000, 1)), (("at", 65552), "NoRoom"))
    g = GlobalMachine(65536, 196608, False)
    eq("pages of their own", (g.callocate(1, 1), g.callocate(70000, 1)), (("at", 65552), ("at", 131088)))
    g = GlobalMachine(65536, 131072)
    eq("freed twice, strange address", (g.callocate(1, 1), g.cdeallocate(65552), g.cdeallocate(65552), g.cdeallocate(7)), (("at", 65552), "done", "UnknownAddress", "UnknownAddress"))
    for small, want in ((False, 65552), (True, 65616)):
        g = GlobalMachine(65536, 131072, not small)
        g.alloc(40, 8), g.write(65552, 0, 40, 1)
        eq("another size", (g.realloc(65552, 40, 8, 20), g.read(want, 0, 20)), (("at", want), ("bytes", list(range(1, 21)))))
    g = GlobalMachine(65536, 131072)
    eq("out of range, wrong layout", (g.callocate(1, 1), g.write(65552, 10, 7, 0), g.write(65552, 10, 6, 0), g.dealloc(65552, 2, 1), g.dealloc(65552, 1, 1)),
       (("at", 65552), "OutOfRange", "done", "WrongLayout", "done"))
    g = GlobalMachine(65536, 131072)
    g.callocate(40, 8), g.write(65552, 0, 40, 5)
    eq("another alignment", (g.creallocate(65552, 10, 64), g.usable(65664), g.read(65664, 0, 10), g.free()),
       (("at", 65664), ("size", 32), ("bytes", list(range(5, 15))), [(65536, 64), (65696, 65344)]))
    eq("old address, new address", (g.cdeallocate(65552), g.cdeallocate(65664), g.cdeallocate(65664)), ("UnknownAddress", "done", "UnknownAddress"))
    g = GlobalMachine(65536, 131072)
    eq("reads at the end", (g.callocate(1, 1), g.read(65552, 16, 0), g.read(65552, 17, 0), g.read(65552, 2**64 - 1, 1), g.read(7, 2**64 - 1, 1)),
       (("at", 65552), ("bytes", []), "OutOfRange", "OutOfRange", "UnknownAddress"))
    g = GlobalMachine(65536, 65536)
    eq("no room", (g.callocate(0, 1), g.callocate(0, 1), g.callocate(65536, 1)), (("at", 65552), ("at", 65584), "NoRoom"))
    g = GlobalMachine(65536, 131072)
    eq("another size without a move", (g.alloc(40, 8), g.norealloc(65552, 40, 8, 100), g.norealloc(65552, 40, 8, 20), g.norealloc(65552, 100, 8, 70000)),
       (("at", 65552), ("at", 65552), "WrongLayout", "NoRoom"))


if __name__ == "__main__":
    if sys.argv[1:2] == ["gen"]:
        seed, calls, kind, start, length = sys.argv[2:7]
        generate(int(seed), int(calls), kind, int(start), int(length))
    else:
        examples()
