#!/usr/bin/env python3
"""Replays the text of a closed journal, from standard input, with the machine behind the lock in Python (tools/model), over
a memory with the start and the length that are given: each reply has to be equal, and what is live at the end.

usage: replayed_journal.py START LEN < JOURNAL"""
import pathlib
import re
import sys

sys.dont_write_bytecode = True
sys.path.insert(0, str(pathlib.Path(__file__).resolve().parents[2] / "tools/model"))
from global_machine import GlobalMachine

REPLIES = {"NoRoom": "no room", "UnknownAddress": "unknown address", "done": "freed"}


def made(machine, call):
    """What the machine answers to a call, as a journal's text says it."""
    numbers = [int(n) for n in re.findall(r"\d+", call)]
    kind = call.split()[0]
    step = {"allocate": machine.callocate, "deallocate": machine.cdeallocate, "reallocate": machine.creallocate}[kind]
    reply = step(*numbers)
    return REPLIES[reply] if isinstance(reply, str) else f"placed at {reply[1]}"


def main():
    machine = GlobalMachine(int(sys.argv[1]), int(sys.argv[2]))
    entries, differences, live = 0, 0, []
    for line in sys.stdin.read().splitlines():
        if line.startswith("live "):
            live.append(line)
            continue
        _, call, reply = line.split(": ")
        entries += 1
        answer = made(machine, call)
        if answer != reply:
            differences += 1
            print(f"{line}, and the machine: {answer}")
    wanted = [f"live {addr}: {size} align {align}" for addr, (size, align) in sorted(machine.asked.items())]
    if live != wanted:
        differences += 1
        print(f"{live}, and the machine: {wanted}")
    print(f"{entries} entries, {len(live)} live: {differences} differences")
    sys.exit(differences > 0)


main()
