"""The longest path from a function's first instruction to a return, in instructions and in memory operands.

A path follows jumps, also into other functions, and a call adds the longest path of the function that is called. A loop counts each of its
instructions once, and so does a repeated one (`rep stos`): what a further round takes is the loop's length. The accesses of `push`, `pop`, `call`
and `ret` are no memory operands. The greatest numbers of instructions and of memory operands can be those of two paths."""
import collections
import dataclasses
import re

from measuring.machine_code import OTHER, RETURNS, UNTOUCHED, ZERO, Refused

# A path that ends where the program does, and not at a return.
STOPPED = "stopped"


@dataclasses.dataclass
class Loop:
    """Instructions that one path can meet more than once: the function that they lie in, and their addresses."""
    function: str
    addresses: list


@dataclasses.dataclass
class Path:
    """The most instructions and memory operands, of all paths and of those to each way out; the loops, and the functions that are called."""
    most: tuple = (0, 0)
    ways: dict = dataclasses.field(default_factory=dict)
    loops: list = dataclasses.field(default_factory=list)
    calls: dict = dataclasses.field(default_factory=dict)
    outside: set = dataclasses.field(default_factory=set)


def plus(one, other):
    return one[0] + other[0], one[1] + other[1]


def keep_more(kept, key, cost):
    """Keeps the greater number of each, at a key of a dictionary."""
    kept[key] = tuple(map(max, kept.get(key, (0, 0)), cost))


def reachable(code, start):
    """The addresses of a function's instructions, with those that each leads to."""
    leads, todo = {}, [start]
    while todo:
        address = todo.pop()
        if address not in code.at:
            raise Refused(f"no instruction at {address:x}, to which {code.function(start)} leads")
        if address not in leads:
            leads[address] = code.leads_to(code.at[address])
            todo += leads[address]
    return leads


def components(leads, start):
    """The instructions in groups, each before those that it leads to. The instructions of a loop are one group (Tarjan's algorithm)."""
    number, low, stack, groups = {start: 0}, {start: 0}, [start], []
    calls = [(start, iter(leads[start]))]
    while calls:
        node, rest = calls[-1]
        other = next(rest, None)
        if other is not None and other not in number:
            number[other] = low[other] = len(number)
            stack.append(other)
            calls.append((other, iter(leads[other])))
        elif other is not None:
            low[node] = min(low[node], number[other])
        else:
            calls.pop()
            if low[node] == number[node]:
                groups.append(stack[stack.index(node):])
                del stack[-len(groups[-1]):]
                # A group that is done is no part of a later one.
                number.update((done, len(leads)) for done in groups[-1])
            if calls:
                low[calls[-1][0]] = min(low[calls[-1][0]], low[node])
    return groups[::-1]


class Search:
    """Searches a program's longest paths. Those that it found are kept."""

    def __init__(self, code):
        self.code, self.found = code, {}

    def longest(self, start, above=()):
        """The longest path of the function at an address, which is called by those above it."""
        if start in above:
            raise Refused("recursion: " + " calls ".join(map(self.code.function, [*above[above.index(start):], start])))
        if start not in self.found:
            leads, path = reachable(self.code, start), Path()
            groups = components(leads, start)
            costs = {address: self.cost(self.code.at[address], path, (*above, start)) for address in leads}
            self.follow(start, groups, leads, costs, path)
            path.loops += [loop for group in groups for loop in self.loops(group, leads) if loop not in path.loops]
            self.found[start] = path
        return self.found[start]

    def cost(self, instruction, path, above):
        """What an instruction counts, with the function that it calls. The path notes what is called."""
        outside = self.code.outside(instruction) if instruction.is_call() or instruction.is_jump() else None
        if outside or not instruction.is_call():
            path.outside |= {outside} - {None}
            return instruction.cost()
        below = self.longest(instruction.target(), above)
        path.calls |= {self.code.function(instruction.target()): below.most, **below.calls}
        path.loops += [loop for loop in below.loops if loop not in path.loops]
        path.outside |= below.outside
        return plus(instruction.cost(), below.most)

    def follow(self, start, groups, leads, costs, path):
        """Follows all paths from group to group. Each instruction keeps the most that a path to it counts, for each value of the result."""
        reached = collections.defaultdict(dict)
        reached[start][UNTOUCHED] = (0, 0)
        jumped = {target for address in leads if self.code.at[address].is_jump() for target in leads[address][:1]}
        for group in groups:
            values = {}
            for value, cost in [pair for address in group for pair in reached[address].items()]:
                keep_more(values, value, cost)
            whole = tuple(map(sum, zip(*(costs[address] for address in group))))
            for value, cost in values.items():
                self.leave(group, leads, jumped, value, plus(cost, whole), reached, path)
        if not path.ways:
            raise Refused(f"{self.code.function(start)} never returns")
        path.most = tuple(map(max, *path.ways.values(), (0, 0)))

    def leave(self, group, leads, jumped, value, cost, reached, path):
        """Follows the ways out of a group, to other instructions and to the end of the function."""
        for address in group:
            after = self.result(group, address, value)
            if not leads[address]:
                keep_more(path.ways, self.way(self.code.at[address], after), cost)
            for target in set(leads[address]) - set(group):
                keep_more(reached[target], after if address in jumped else self.tested(address, target, after), cost)

    def result(self, group, address, value):
        """What the register of a result holds behind an instruction of a group. A loop that writes it leaves another value."""
        if len(group) > 1:
            return value if all(self.code.at[each].result_after(value) == value for each in group) else OTHER
        return self.code.at[address].result_after(value)

    def way(self, instruction, after):
        if instruction.name in RETURNS:
            return after
        return OTHER if instruction.is_jump() else STOPPED

    def tested(self, address, target, after):
        """What the register of a result holds where `test %rax,%rax` and `je` lead to."""
        jump, before = self.code.at[address], self.code.at.get(self.before(address))
        if jump.name not in ("je", "jne") or not before or before.name != "test" or not re.fullmatch(r"%([re])ax,%\1ax", before.operands):
            return after
        return ZERO if (jump.name == "je") == (target == jump.target()) else OTHER

    def before(self, address):
        """The address of the instruction before another."""
        return next((address - back for back in range(1, 16) if self.code.behind.get(address - back) == address), None)

    def loops(self, group, leads):
        """The loop of a group, and its repeated instructions."""
        alone = [[address] for address in group if self.code.at[address].is_repeated()]
        circles = len(group) > 1 or group[0] in leads[group[0]]
        return [Loop(self.code.function(min(part)), sorted(part)) for part in [*alone, *([group] if circles else [])]]
