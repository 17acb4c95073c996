"""A run of the model over a source, and its texts."""
import list_machine
from flex_machine import FlexMachine

START = 65536
CAPABILITIES = ("dealloc", "grow", "contiguous")


def up(a, n):
    return -(-a // n) * n


class Source:
    """Keeps which ranges are outstanding, and the lines of its answers."""

    def __init__(self, capabilities, min_align, length=262144):
        self.dealloc, self.grow, self.contiguous = (word in capabilities for word in CAPABILITIES)
        self.min_align, self.start, self.end = min_align, START, START + length
        self.owed, self.answers = [], []

    def head(self):
        words = [word for word in CAPABILITIES if getattr(self, word)]
        return f"run {'+'.join(words) or '-'} {self.min_align}"

    def alloc(self, n):
        given = self.choose_range(n)
        if given is not None:
            self.owed.append(given)
        self.answers.append(f"answer {given[0]} {given[1]}" if given else self.refusal(self.bad_ranges(n)))
        return given

    def realloc_inplace_grow(self, r, n):
        self.owed.remove(r)
        given = self.choose_length(r, n)
        self.answers.append(f"answer {given}" if given else self.refusal(self.bad_lengths(r, n)))
        self.owed.append((r[0], given or r[1]))
        return given

    def refusal(self, bad):
        return "answer none"

    def bad_ranges(self, n):
        """Answers that count as none, since no range is given by them."""
        bad = [f"{self.start} {n - 1}", f"{self.end - n + 1} {n}", f"{self.start - self.min_align} {n}", f"{n}"]
        bad += [f"{self.start + self.min_align // 2} {n}"] if self.min_align > 1 else []
        bad += [f"{s} {n}" for s, _ in self.owed] + [f"{s + l - 1} {n}" for s, l in self.owed]
        return [f"answer {words}" for words in bad if not words.startswith("-")]

    def bad_lengths(self, r, n):
        return [f"answer {words}" for words in (n - 1, self.end - r[0] + 1, f"{r[0]} {n}")]


class Run:
    """A run of the model: its lines as they are read, and as they are answered."""

    def __init__(self, config, source):
        self.config, self.source = config, source
        self.flex = FlexMachine(*map(int, config.split("x")), source)
        self.lines, self.answers, self.names = [], [], {}

    def used(self, name):
        return self.flex.m.used[self.names[name]]

    def do(self, op, *ns):
        self.lines.append(" ".join([op, *map(str, ns)]))
        self.answers.append(self.answer(op, *ns))
        self.flex.m.check()
        return self.answers[-1]

    def answer(self, op, name=None, *ns):
        if op == "trim":
            return f"trim {self.flex.trim()}"
        if op in ("insert", "append", "block"):
            return "refused 6 NotForFlex"
        if op == "alloc":
            return "refused 2 NameTaken" if name in self.names else self.placed(op, name, self.flex.allocate(*ns))
        if name not in self.names:
            return "refused 1 UnknownName"
        used, addr = self.used(name), self.names[name]
        if op in ("free", "ufree"):
            self.flex.deallocate(self.names.pop(name))
        elif op in ("realloc", "nrealloc"):
            if not list_machine.layout_ok(ns[0], used.align):
                return "refused 5 BadLayout"
            reallocate = self.flex.reallocate if op == "realloc" else self.flex.m.reallocate_in_place
            return self.placed(op, name, reallocate(addr, ns[0]))
        elif op == "usable":
            return f"usable {name} {self.flex.m.usable(addr)}"
        elif op == "fill":
            used.data[:] = ns * len(used.data)
        elif ns[0] >= self.flex.m.usable(addr):
            return "refused 4 BadOffset"
        elif op == "put":
            used.data[ns[0]] = ns[1]
        else:
            return f"get {name} {used.data[ns[0]]}"
        return f"{op} {name} done"

    def placed(self, op, name, addr):
        if addr is None:
            return f"{op} {name} none"
        self.names[name] = addr
        return f"{op} {name} at {addr}"

    def texts(self):
        """The run as the program reads it, and what it prints, without the run's number."""
        self.flex.into_parts()
        source = self.source
        head = [source.head(), *source.answers, f"{self.config} {source.start} {source.end - source.start}"]
        return head + self.lines, self.answers + [asked(*note) for note in self.flex.notes]


def asked(kind, *note):
    if kind == "alloc":
        return f"asked {note[0]} got {'{} {}'.format(*note[1]) if note[1] else 'none'}"
    (start, length), rest = note[0], note[1:]
    return f"asked {start} {length} to grow to {rest[0]} got {rest[1] or 'none'}" if rest else f"given back {start} {length}"
