"""Measures how long each single call of malloc, realloc and free takes.

The same calls are made several times, by identical runs. Of each call the least time counts, so that what remains is the allocator's own
work, and the kernel's where the allocator calls it. Memory is `touched` if all calls were made once before, in the same process; else it is
`fresh`. The instructions of the slowest calls are counted by callgrind, without those of the kernel."""
import array
import functools
import pathlib
import re
import shutil
import subprocess
import sys

from measuring import picture
from measuring.allocators import chosen, loads, others, pools, title
from measuring.options import place

LOADS = {
    "small": "20,000 slots, 1 to 512 bytes",
    "all": "20,000 slots, 8 bytes to 64 KiB",
    "freed": "20,000 small ones freed, then 20,000 bytes",
    "vectors": "3,000 vectors that double, to 64 KiB",
    "fragmented": "100,000 live payloads, 1 to 512 bytes",
}
# The loads that are also summed up. Those of malloc and free alone copy no bytes.
TOGETHER = {"all loads together": list(LOADS), "malloc and free: all loads but `vectors`": ["small", "all", "freed", "fragmented"]}
STATES = {"touched": "memory that was touched before", "fresh": "memory that wasn't touched before"}
# The shares of the calls that are faster, and how many calls are slower.
SHARES = [(0.5, "1 in 2"), (0.9, "1 in 10"), (0.99, "1 in 100"), (0.999, "1 in 1,000"), (0.9999, "1 in 10,000")]
COUNTED = ["--toggle-collect=counted_malloc", "--toggle-collect=counted_realloc", "--toggle-collect=counted_free"]
# Of how many of the slowest calls the instructions are counted.
SLOWEST = 5


def add_words(parser):
    parser.add_argument("--calls", type=int, default=600_000, help="how many calls each load makes")
    parser.add_argument("--runs", type=int, default=9, help="how often each load is run")
    parser.add_argument("--states", nargs="+", default=list(STATES), choices=STATES)
    parser.add_argument("--loads", nargs="+", default=list(LOADS), choices=LOADS)
    parser.add_argument("--no-instructions", action="store_true", help="don't count the instructions of the slowest calls, on touched memory")


@functools.cache
def works(*words):
    """Whether a command can be run through others here."""
    return bool(shutil.which(words[0])) and subprocess.run([*words, "true"], capture_output=True).returncode == 0


def identical(command, core):
    """A command on one core, with the same addresses in each run, where the system allows it."""
    through = [("taskset", "-c", str(core)), ("setarch", "-R")]
    return [word for words in through if works(*words) for word in words] + list(map(str, command))


class Times:
    """The least ticks of each call of a load, over all runs."""

    def __init__(self, program, allocator, load, state, options, folder):
        self.said, self.least = set(), None
        for _ in range(options.runs):
            file = folder / "ticks"
            command = identical([program, load, options.calls, state, file], options.core)
            run = subprocess.run(command, env=allocator.environment(), capture_output=True, text=True, check=True)
            self.said.add(run.stdout)
            self.rate, self.empty = map(float, re.search(r"(\d+) ticks a second, (\d+) ticks", run.stderr).groups())
            ticks = array.array("I", file.read_bytes())
            self.least = ticks if self.least is None else array.array("I", map(min, self.least, ticks))

    def nanoseconds(self):
        return [tick * 1e9 / self.rate for tick in self.least]

    def slowest(self):
        """The numbers of the slowest calls, in ascending order."""
        return sorted(sorted(range(len(self.least)), key=self.least.__getitem__)[-SLOWEST:])


def instructions(program, allocator, load, state, calls, numbers, folder):
    """The most instructions that one of some calls executes."""
    for old in folder.glob("dump*"):
        old.unlink()
    words = ["valgrind", "--tool=callgrind", f"--callgrind-out-file={folder}/dump", *COUNTED]
    command = [*words, str(program), load, str(calls), state, *map(str, numbers)]
    subprocess.run(command, env=allocator.environment(), capture_output=True, check=True)
    dumps = [(folder / f"dump.{n + 1}").read_text() for n in range(len(numbers))]
    return max(int(re.search(r"^summary: (\d+)", dump, re.M).group(1)) for dump in dumps)


def summary(times):
    """The mean, the times at the shares of SHARES, and the worst."""
    ordered = sorted(times)
    at = [ordered[min(int(len(ordered) * share), len(ordered) - 1)] for share, _ in SHARES]
    return [sum(ordered) / len(ordered), *at, ordered[-1]]


def shown(nanoseconds):
    """A time with its unit, in two or three digits."""
    for unit, scale in (("ns", 1), ("µs", 1e3), ("ms", 1e6)):
        value = nanoseconds / scale
        if value < 999.5:
            break
    return f"{value:,.1f} {unit}" if value < 9.95 and unit != "ns" else f"{value:,.0f} {unit}"


def print_table(load, rows, counts):
    head = f"`{load}`: {LOADS[load]}" if load in LOADS else load
    heads = [head, "mean", "50%", "90%", "99%", "99.9%", "99.99%", "worst", *(["instructions"] if counts else [])]
    print("\n| " + " | ".join(heads) + " |\n" + "|---" * len(heads) + "|")
    for name, row in rows.items():
        cells = [title(name), *map(shown, row), *([counts[name]] if counts else [])]
        print("| " + " | ".join(cells) + " |", flush=True)


def across(calls):
    """The axis of the shares: one call in so many is slower. Its last place is that of the worst."""
    ticks = [(1 / (1 - share), words) for share, words in SHARES]
    return picture.Axis("share of the calls that take longer", [*ticks, (calls, "worst")], 2, calls, True)


def up(rows):
    most = max(row[-1] for row in rows)
    units = ["10 ns", "100 ns", "1 µs", "10 µs", "100 µs", "1 ms", "10 ms", "100 ms", "1 s"]
    ticks = [(10.0 ** (power + 1), words) for power, words in enumerate(units)]
    top = next(value for value, _ in ticks if value >= most)
    return picture.Axis("time of a call", [tick for tick in ticks if tick[0] <= top], 10, top, True)


def panel(title, rows, calls):
    places = [1 / (1 - share) for share, _ in SHARES] + [calls]
    lines = {name: list(zip(places, row[1:])) for name, row in rows.items()}
    return picture.Panel(title, lines, {name: shown(row[-1]) for name, row in rows.items()})


def draw(state, tables, options):
    below = [f"The time of each call is the least of {options.runs} identical runs. Both axes are logarithmic.", place()]
    axes = {"across": across(options.calls), "up": up([row for table in tables.values() for row in table.values()])}
    panels = [panel(f"{load}: {words}", tables[load], options.calls) for load, words in LOADS.items()]
    panels.append(panel("all of these together", tables[list(TOGETHER)[0]], options.calls))
    heading = f"How long do the slowest calls take under each load? ({STATES[state]})"
    picture.write(options.pictures / f"latency_{state}.svg", heading, below, panels, **axes, columns=2, size=(700, 400))
    if state == "touched":
        whole = panel(f"malloc and free under four loads, {STATES[state]}", tables[list(TOGETHER)[1]], options.calls)
        picture.write(options.pictures / "latency.svg", "How long do the slowest calls take?", below, [whole], **axes)


def measure_load(load, state, allocators, made, options, folder):
    """The times of all allocators under a load, and the instructions of their slowest calls."""
    times, counts, said, found = {}, {}, {}, None
    for allocator in allocators:
        found = Times(made["timed"], allocator, load, state, options, folder)
        times[allocator.name], said[allocator.name] = found.nanoseconds(), found.said
        if "counted" in made and state == "touched" and not options.no_instructions:
            counted = instructions(made["counted"], allocator, load, state, options.calls, found.slowest(), folder)
            counts[allocator.name] = f"{counted:,}"
    if len(set().union(*said.values())) != 1:
        sys.exit(f"{load}: the runs don't print the same: {said}")
    return times, counts, found.empty * 1e9 / found.rate


def measure_state(state, made, options, folder):
    """Prints the tables of all loads and of those together, and draws them."""
    allocators = chosen(options, pools(options, folder, *(["-DTOUCHED"] if state == "touched" else [])) + others())
    print(f"\n{options.calls:,} calls a load, least of {options.runs} runs, {STATES[state]}")
    tables, all_times = {}, {}
    for load in options.loads:
        times, counts, empty = measure_load(load, state, allocators, made, options, folder)
        all_times[load] = times
        tables[load] = {name: summary(row) for name, row in times.items()}
        print_table(load, tables[load], counts)
    for head, parts in TOGETHER.items():
        if not set(parts) & set(options.loads):
            continue
        joined = {each.name: [time for load in parts for time in all_times.get(load, {}).get(each.name, [])] for each in allocators}
        tables[head] = {name: summary(times) for name, times in joined.items()}
        print_table(head, tables[head], {})
    print(f"\neach time includes {shown(empty)} in which the counter is read")
    if not options.quick and set(LOADS) == set(options.loads):
        draw(state, tables, options)


def measure(options, folder: pathlib.Path):
    if options.quick:
        options.calls, options.runs, options.states, options.loads = 5_000, 2, ["touched"], ["small", "freed"]
    made = loads(folder)
    for state in options.states:
        measure_state(state, made, options, folder)
    print("\nthe programs printed the same with each allocator")
