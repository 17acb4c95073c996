"""Prints the longest path of each function that the library for C exports: a bound on the instructions and memory operands of every call,
whatever the heap holds.

The archive is linked and disassembled. The table has the longest path of all, and that of the calls that return 0, where these can be told apart.
Below it are the called functions, with their own paths, and the loops: where each begins, and how many instructions a round has. An indirect
jump, recursion, and a loop in a function that is to have none are errors. With --compare, so is a path that is longer than docs/MEASURED.md says.
With --tlsf the table has the calls of a `Tlsf`, of all configurations together, in a program in which they aren't inlined: rlsf_bench_not_inlined,
which `rt` builds, or that of --program. Without it, --program prints the functions of any linked program whose names match --functions."""
import argparse
import pathlib
import re
import shutil
import sys

from measuring.allocators import compiled
from measuring.bench import built
from measuring.longest_path import Search
from measuring.machine_code import ZERO, Code, Refused
from measuring.options import ROOT, missing

PAGE = ROOT / "docs/MEASURED.md"
HEADING = "## The longest path"
KINDS = ["small", "large"]
# What bounds the rounds of an export's loops. The other exports are to have no loop.
BOUNDS = {
    "init": "class table",
    "allocate_zeroed": "bytes of the payload",
    "reallocate": "bytes that are copied",
    "reallocate_aligned": "bytes that are copied",
    "remove": "chunks of the pool",
    "stats": "blocks of the pool",
    "list": "blocks of the pool",
    "check": "blocks of the pool, class table",
}
# Those of one kind alone. A pool of a large heap is one chunk.
BOUNDS_OF_KIND = {("small", "add"): "chunks of the pool", ("small", "append"): "chunks of the pool"}
# The calls of a Tlsf. The benchmark has a function for each, called_allocate and so on.
TLSF = ["allocate", "deallocate", "reallocate"]
HEADS = ["instructions", "returning 0", "memory operands"]


def add_words(parser):
    parser.add_argument("--archive", type=pathlib.Path, dest="ours", default=argparse.SUPPRESS, help="the same as --ours")
    parser.add_argument("--compare", action="store_true", help="compare with the table of docs/MEASURED.md; a longer path is an error")
    parser.add_argument("--tlsf", action="store_true", help="the calls of a Tlsf, in place of an archive")
    parser.add_argument("--program", type=pathlib.Path, help="a linked program, in place of an archive")
    parser.add_argument("--functions", default=".", help="which functions of the program, as a regular expression")


def exports():
    """The calls of include/rlsf.h that each kind exports, and whether each has a result."""
    found = re.findall(r"^    (\w+) rlsf_##KIND##_(\w+)\(", (ROOT / "include/rlsf.h").read_text(), re.M)
    return {name: type_ != "void" for type_, name in found}


def linked(archive, names, folder):
    """Links the members of an archive that define some functions, so that each call and jump has its address."""
    wanted = [f"-Wl,--undefined={name}" for name in names]
    return compiled([archive], folder / "linked.so", "-shared", "-nostdlib", "-Wl,-Bsymbolic", "-Wl,--gc-sections", *wanted)


def bound_of(kind, call):
    """What bounds the loops of an export, or None if it is to have none."""
    return BOUNDS_OF_KIND.get((kind, call), BOUNDS.get(call))


def cells(path, has_result):
    """The entries of the table for a path: instructions, those where the result is 0, and memory operands."""
    refused = path.ways.get(ZERO) if has_result and len(path.ways) > 1 else None
    return [str(path.most[0]), str(refused[0]) if refused else "", str(path.most[1])]


def describe(name, path, bound):
    """The lines of a path's calls, and of its loops: where each begins, and how many instructions a round has."""
    for called, (instructions, operands) in path.calls.items():
        yield f"{name} calls {called}: {instructions} instructions, {operands} memory operands"
    for called in sorted(path.outside):
        yield f"{name} calls {called} of another library, which isn't counted"
    for function in sorted({loop.function for loop in path.loops}):
        places = [f"{loop.addresses[0]:x} ({len(loop.addresses)})" for loop in path.loops if loop.function == function]
        yield f"{name} has loops{f' over {bound}' if bound else ''}: in {function} at {', '.join(places)}"


def faults(name, path, bound):
    """Why a path is no bound, though the function is to have no loop."""
    if not bound and path.loops:
        yield f"{name} has a loop at {path.loops[0].addresses[0]:x} in {path.loops[0].function}, and is to have none"
    if not bound and path.outside:
        yield f"{name} calls {', '.join(sorted(path.outside))} of another library, and is to have no loop"


def paths_of(archive, folder):
    """The path of each export, by its kind and its name, and why others have none."""
    if not archive.exists():
        sys.exit(f"there is no {archive}; build it with `cd crates/rlsf_malloc && rt lib`")
    names = {(kind, call): f"rlsf_{kind}_{call}" for call in exports() for kind in KINDS}
    code = Code(linked(archive, names.values(), folder))
    starts, search = {name: address for address, name in code.names.items()}, Search(code)
    paths, refusals = {}, []
    for key, name in names.items():
        try:
            if name in starts:
                paths[key] = search.longest(starts[name])
        except Refused as refused:
            refusals.append(f"{name}: {refused}")
    return paths, refusals


def heads(kinds):
    return [f"{kind}: {head}" for kind in kinds for head in HEADS] if kinds else HEADS


def lines_of(names, found):
    """The lines of a table, whose last column is what bounds the loops."""
    yield "| Call | " + " | ".join([*names, "loops over"]) + " |"
    yield "|---" * (len(names) + 2) + "|"
    yield from (f"| `{call}` | " + " | ".join(row) + " |" for call, row in found.items())


def rows_of_exports(paths):
    """The rows of docs/MEASURED.md's first table."""
    for call, has_result in exports().items():
        found = {kind: paths[kind, call] for kind in KINDS if (kind, call) in paths}
        row = [cell for kind in KINDS for cell in (cells(found[kind], has_result) if kind in found else [""] * 3)]
        over = {kind: bound_of(kind, call) or "unknown" for kind, path in found.items() if path.loops or path.outside}
        shown = set(over.values()) if len(over) == len(KINDS) else {f"{kind}: {bound}" for kind, bound in over.items()}
        if found:
            yield call, [*row, ", ".join(sorted(shown))]


def paths_of_tlsf(program):
    """The paths of a Tlsf's calls, of each configuration, and which aren't in the program."""
    code = Code(program)
    search = Search(code)
    paths = {call: [search.longest(start) for start, name in code.names.items() if f"::called_{call}::" in name] for call in TLSF}
    return paths, [f"{program} has no function for {call}" for call, found in paths.items() if not found]


def rows_of_tlsf(paths):
    """The rows of docs/MEASURED.md's second table: the greatest numbers of all configurations."""
    for call, found in paths.items():
        columns = zip(*(cells(path, call == "allocate") for path in found))
        over = BOUNDS.get(call, "unknown") if any(path.loops or path.outside for path in found) else ""
        yield f"Tlsf::{call}", [*(max(column, key=lambda cell: int(cell or 0)) for column in columns), over]


def page_rows(tlsf):
    """The rows of one of docs/MEASURED.md's tables, by the name of the call."""
    part = PAGE.read_text().split(f"\n{HEADING}\n")[-1].split("\n## ")[0]
    found = [[cell.strip() for cell in line.strip()[1:-1].split("|")] for line in part.splitlines() if line.startswith("| `")]
    return {row[0].strip("`"): row[1:] for row in found if ("::" in row[0]) == tlsf}


def differences(page, here, names):
    """What docs/MEASURED.md has otherwise than the machine code: what is an error, as a longer path is, and what isn't."""
    wrong = [f"`{call}` is only in {'docs/MEASURED.md' if call in page else 'the code'}" for call in sorted(set(page) ^ set(here))]
    other = []
    for call in sorted(set(page) & set(here)):
        for head, said, now in zip([*names, "loops over"], page[call], here[call]):
            longer = not (said.isdigit() and now.isdigit() and int(now) < int(said))
            if said != now:
                (wrong if longer else other).append(f"`{call}`, {head}: {now or 'nothing'} in the code, {said or 'nothing'} in docs/MEASURED.md")
    return wrong, other


def print_program(options):
    """Prints the paths of a program's functions."""
    code = Code(options.program)
    search = Search(code)
    print("\n| Function | instructions | returning 0 | memory operands |\n|---|---|---|---|")
    for start, name in sorted(code.names.items(), key=lambda entry: entry[1]):
        if re.search(options.functions, name) and not name.endswith("@plt"):
            try:
                path = search.longest(start)
                print(f"| `{name}` | " + " | ".join(cells(path, True)) + " |")
                print("".join(f"    {line}\n" for line in describe(name, path, None)), end="")
            except Refused as refused:
                print(f"| `{name}` | no bound: {refused} | | |")


def measure(options, folder: pathlib.Path):
    if not shutil.which("objdump"):
        return missing("longest paths", "install the package binutils")
    if options.program and not options.tlsf:
        return print_program(options)
    if options.tlsf:
        found, wrong = paths_of_tlsf(options.program or built("rlsf_bench_not_inlined", folder))
        paths = [(f"Tlsf::{call}", path, BOUNDS.get(call)) for call, all_ in found.items() for path in all_]
        here, names = dict(rows_of_tlsf(found)), heads([])
    else:
        found, wrong = paths_of(options.ours, folder)
        paths = [(f"rlsf_{kind}_{call}", path, bound_of(kind, call)) for (kind, call), path in found.items()]
        here, names = dict(rows_of_exports(found)), heads(KINDS)
    print("\n" + "\n".join(lines_of(names, here)) + "\n")
    for name, path, bound in paths:
        print("".join(f"{line}\n" for line in describe(name, path, bound)), end="")
        wrong += faults(name, path, bound)
    if options.compare:
        longer, shorter = differences(page_rows(options.tlsf), here, names)
        wrong += longer
        print("".join(f"path: {line}; `tools/measure path` prints the page's tables\n" for line in shorter), end="")
    return sys.exit("\n".join(f"path: {line}" for line in wrong)) if wrong else None
