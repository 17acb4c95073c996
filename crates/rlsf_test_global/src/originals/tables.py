#!/usr/bin/env python3
"""Prints originals/lists.rt or originals/tables.rt but for their heads, before `rt fmt`: the lists of bytes, and what the machine behind
the lock, in Python, answers to the calls that they mean. Both kinds answer the same, since all payloads lie in one page.

usage: tables.py lists|tables
"""
import pathlib
import random
import sys

sys.dont_write_bytecode = True
sys.path.insert(0, str(pathlib.Path(__file__).resolve().parents[4] / "tools/model"))
from global_machine import GlobalMachine

START, LENGTH = 65536, 262144
# List `n` is `random.Random(n).randbytes(400)`.
LISTS = (1, 2, 3, 4)


def placed(n, coalescing):
    """The address of each payload, less the memory's start; no call is refused. The payloads that are left are freed."""
    machine, code, live, found = GlobalMachine(START, LENGTH, coalescing), iter(random.Random(n).randbytes(400)), [], []

    def call():
        kind = next(code) % 8
        if kind <= 2:
            if len(live) > 64:
                return
            size = next(code)
            align = 1 << next(code) % 6
            reply = machine.callocate(size, align)
            assert reply != "NoRoom"
            live.append(reply[1])
            found.append(reply[1] - START)
            return
        index = next(code)
        if not live:
            return
        index %= len(live)
        if kind <= 5:
            assert machine.cdeallocate(live[index]) == "done"
            live[index] = live[-1]
            live.pop()
            return
        size = next(code)
        align = 1 << next(code) % 6
        reply = machine.creallocate(live[index], size, align)
        assert reply != "NoRoom"
        live[index] = reply[1]
        found.append(reply[1] - START)

    try:
        while True:
            call()
            machine.check()
    except StopIteration:
        pass
    for addr in live:
        assert machine.cdeallocate(addr) == "done"
    return found


def show(name, kind, numbers):
    print(f"pub static {name}: [{kind}; {len(numbers)}] = [{', '.join(map(str, numbers))}];\n")


for n in LISTS:
    if sys.argv[1] == "lists":
        show(f"LIST_{n}", "u8", [*random.Random(n).randbytes(400)])
    else:
        assert placed(n, True) == placed(n, False)
        show(f"PLACED_{n}", "u32", placed(n, True))
