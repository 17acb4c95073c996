#!/usr/bin/env python3
"""Searches over all states of the reference model for calls that a pool of a computed length refuses, and for shorter pools that refuse none.

usage: pool_lengths.py [--greatest UNITS] [--payloads N ..] [--classes C] [--by-size] [--budget]

For each list of at most three sizes and N payloads, one row: the length of `pool_size_for_payloads`, that of
`pool_size_for_budget`, the total of a pool for each size, and the shortest pools that refuse no call. A size is the length of a block, in
units of 32 bytes. The list allows a call that requests at most its greatest size, if with what is live before it the payloads fit the list. The budget allows more: one payload
less than the list, with the bytes of all but the smallest, may be live. Each payload may have any length up to the greatest. Calls are
allocations, deallocations and reallocations. The script ends with an error if a pool of a computed length refuses a call.

A pool for each size has the blocks of its payloads rounded up to a length at which a class begins, and 32 bytes more. A request goes to the
first pool whose size reaches it. With --by-size, only these pools are searched. The script ends with an error unless a request is refused
exactly if as many payloads of its pool are live as the list has of that size, or if the pools still refuse nothing with one of them 32
bytes shorter.

With --budget, only pools of the length of `pool_size_for_budget` are searched. The script ends with an error if one refuses a call, or if
one still refuses nothing when it is 32 bytes shorter."""
import argparse
import itertools
import sys

from list_machine import Machine

UNIT = 32
ALIGN = 16


def machine_in(state, classes):
    """The reference model in a state: used blocks and free ranges, in units."""
    used, free, length = state
    machine = Machine(30, classes)
    machine.chunks = [(0, length * UNIT)]
    machine.free = [(a * UNIT, b * UNIT) for a, b in free]
    for a, b in used:
        machine._place(b * UNIT, a * UNIT, (b - a) * UNIT, ALIGN, a * UNIT + 16, [])
    return machine


def state_of(machine, length):
    """The state, with free ranges in the order of their classes: the order of ranges of two classes means nothing."""
    used = tuple(sorted((u.start // UNIT, u.end // UNIT) for u in machine.used.values()))
    free = sorted(((a // UNIT, b // UNIT) for a, b in machine.free), key=lambda f: machine.p.class_of((f[1] - f[0]) * UNIT))
    return used, tuple(free), length


def within_budget(count, units):
    """Whether a call may begin with these blocks, whatever it requests."""
    return lambda blocks, block: len(blocks) <= count and sum(blocks) <= units


def within_list(sizes):
    """Whether these blocks and the new one fit the payloads of a list."""
    most = sorted(sizes, reverse=True)
    return lambda blocks, block: len(blocks) < len(most) and all(b <= m for b, m in zip(sorted([*blocks, block], reverse=True), most))


def next_states(state, classes, greatest, allowed):
    """The states after each call that is allowed, or `None` in place of one if the call is refused."""
    used, _, length = state
    blocks = [b - a for a, b in used]
    for a, _ in used:
        machine = machine_in(state, classes)
        machine.deallocate(a * UNIT + 16)
        yield state_of(machine, length)
    for block in range(1, greatest + 1):
        if allowed(blocks, block):
            machine = machine_in(state, classes)
            yield None if machine.allocate(block * UNIT - 16, ALIGN) is None else state_of(machine, length)
        for i, (a, b) in enumerate(used):
            if block != b - a and allowed(blocks, block):
                machine = machine_in(state, classes)
                yield None if machine.reallocate(a * UNIT + 16, block * UNIT - 16) is None else state_of(machine, length)


def never_refuses(length, classes, greatest, allowed):
    """Whether a pool of so many units refuses none of the calls, in any order."""
    first = ((), ((0, length - 1),), length)
    seen, waiting = {first}, [first]
    while waiting:
        for state in next_states(waiting.pop(), classes, greatest, allowed):
            if state is None:
                return False
            if state not in seen:
                seen.add(state)
                waiting.append(state)
    return True


def shortest(length, classes, greatest, allowed):
    """The shortest pool that refuses no call, as no longer one up to the given length does."""
    if not never_refuses(length, classes, greatest, allowed):
        sys.exit(f"a pool of {length} units refuses a call")
    while length > 2 and never_refuses(length - 1, classes, greatest, allowed):
        length -= 1
    return length


def least_block(size, classes):
    """The least length of a block, at least the size, at which a class begins, in units."""
    return Machine(30, classes).p.map_ceil_and_unmap(size * UNIT) // UNIT


def pools_by_size(sizes, classes):
    """For each size of a list: the size, the block that its payloads get, and how many there are, in the order of the sizes."""
    return [(size, least_block(size, classes), sizes.count(size)) for size in sorted(set(sizes))]


def next_by_size(states, pools, classes):
    """The states after each call on pools by size. In place of one: `None` if a call is refused while fewer payloads of its pool are live
    than the list has, and an error if it isn't refused while as many are."""
    for i, (used, _, length) in enumerate(states):
        for a, _ in used:
            machine = machine_in(states[i], classes)
            machine.deallocate(a * UNIT + 16)
            yield (*states[:i], state_of(machine, length), *states[i + 1 :])
    for request in range(1, pools[-1][0] + 1):
        i = next(i for i, (size, _, _) in enumerate(pools) if request <= size)
        used, _, length = states[i]
        machine = machine_in(states[i], classes)
        addr = machine.allocate(pools[i][1] * UNIT - 16, ALIGN)
        if len(used) < pools[i][2]:
            yield None if addr is None else (*states[:i], state_of(machine, length), *states[i + 1 :])
        elif addr is not None:
            sys.exit(f"a pool for {pools[i]} has room for more")


def never_refuses_by_size(pools, lengths, classes):
    """Whether pools by size of these lengths refuse no payload of their list, in any order of calls."""
    first = tuple(((), ((0, length - 1),), length) for length in lengths)
    seen, waiting = {first}, [first]
    while waiting:
        for states in next_by_size(waiting.pop(), pools, classes):
            if states is None:
                return False
            if states not in seen:
                seen.add(states)
                waiting.append(states)
    return True


def by_size(sizes, classes):
    """The total length of the pools for each size of a list, in units. Each of them one unit shorter refuses a payload."""
    pools = pools_by_size(sizes, classes)
    lengths = [1 + count * block for _, block, count in pools]
    if not never_refuses_by_size(pools, lengths, classes):
        sys.exit(f"pools for {pools} refuse a payload")
    for i in range(len(pools)):
        shorter = [length - (i == j) for j, length in enumerate(lengths)]
        if never_refuses_by_size(pools, shorter, classes):
            sys.exit(f"pools for {pools} refuse no payload with {shorter} units")
    return sum(lengths)


def budget_of(sizes, classes):
    """What the budget of a list allows, and the length that is computed for it, in units."""
    count, units = len(sizes) - 1, sum(sizes) - min(sizes)
    return within_budget(count, units), 1 + units + (count + 1) * (least_block(max(sizes), classes) - 1) + 1


def by_budget(sizes, classes):
    """The length of a pool for the budget of a list, in units. One unit shorter, it refuses a call."""
    allowed, length = budget_of(sizes, classes)
    if shortest(length, classes, max(sizes), allowed) < length:
        sys.exit(f"a pool for the budget of {sizes} refuses no call with {length - 1} units")
    return length


def row(sizes, classes):
    """Of a list of payloads: the two computed lengths, the shortest for the budget and for the list, and pools by size, in units."""
    greatest, count = max(sizes), len(sizes) - 1
    least = least_block(greatest, classes)
    one_size = least + 1 + count * (greatest + least - 1)
    allowed, budget = budget_of(sizes, classes)
    of_budget = shortest(budget, classes, greatest, allowed)
    return one_size, budget, of_budget, shortest(of_budget, classes, greatest, within_list(sizes)), by_size(sizes, classes)


def main():
    parser = argparse.ArgumentParser(description=__doc__, formatter_class=argparse.RawDescriptionHelpFormatter)
    parser.add_argument("--greatest", type=int, default=4, help="the greatest size, in units of 32 bytes")
    parser.add_argument("--payloads", type=int, nargs="+", default=[1, 2, 3], help="how many payloads a list has")
    parser.add_argument("--classes", type=int, default=1, help="size classes of a row")
    parser.add_argument("--by-size", action="store_true", help="only pools by size")
    parser.add_argument("--budget", action="store_true", help="only pools for a budget")
    words = parser.parse_args()
    one = {"By size": by_size} if words.by_size else {"Budget": by_budget} if words.budget else None
    columns = list(one) if one else ["One size", "Budget", "Shortest for the budget", "Shortest for the list", "By size"]
    print(f"| {' | '.join(['Sizes', *columns])} |\n{'|---' * (len(columns) + 1)}|")
    for n in words.payloads:
        for sizes in itertools.combinations_with_replacement(range(1, words.greatest + 1), n):
            if len(set(sizes)) <= 3:
                units = [length(sizes, words.classes) for length in one.values()] if one else row(sizes, words.classes)
                lengths = " | ".join(str(UNIT * n) for n in units)
                print(f"| {', '.join(str(UNIT * size) for size in sizes)} | {lengths} |", flush=True)


if __name__ == "__main__":
    main()
