#!/usr/bin/env python3
"""Draws docs/pictures/crates.svg: every crate of crates.txt in its layer. It fails if a crate is missing here or isn't there, or if one
uses a crate that isn't below it or to its left.

Run it at the top of the repository after a change of crates.txt: docs/pictures/crates.py. With --check it writes nothing, and fails if
the file differs from what it would draw.
"""
import html
import pathlib
import re
import sys

ROOT = pathlib.Path(__file__).resolve().parents[2]
WIDTH, LEFT, GAP, LINE = 1200, 190, 8, 15

# Layers from top to bottom: name, what they are, colour, and rows of boxes (share of the width, crates, lines of text, marked).
LAYERS = [
    ("Tests", "in crates of their own, so that what they test is proved once", "#eeeeee", [
        [(1, "rlsf_test_tlsf", "calls of Tlsf and of libraries"), (1, "rlsf_test_heap", "heaps of one thread"),
         (1, "rlsf_test_shared_heap", "heaps and queues, with threads"), (1, "rlsf_test_flex", "sources and FlexTlsf")],
        [(1, "rlsf_test_global", "lock and journal, with threads"), (1, "rlsf_test_base", "integers and memories"), (1, "rlsf_test_trace", "traces"),
         (1, "rlsf_compare_model", "comparison with the model in Python")],
    ]),
    ("Benchmarks", "one set of steps, three programs", "#eeeeee", [
        [(1, "rlsf_bench_common", "the steps"), (1, "rlsf_bench", "Tlsf"), (1, "rlsf_bench_heap", "Heap"),
         (1, "rlsf_bench_threads", "GlobalTlsf and SharedHeap, with threads")],
    ]),
    ("Examples", "programs to copy from", "#fff3d0", [
        [(1, "rlsf_example_readme", "the program of README.md"), (1, "rlsf_example_functions", "buffer, cache, pools, source"),
         (1, "rlsf_example_libraries_tour", "first calls, lengths of pools"), (1, "rlsf_example_offsets", "the memory of a GPU")],
        [(1, "rlsf_example_owned_payloads", "two threads, one SharedHeap"), (1, "rlsf_example_tenants", "payloads, and std's collections"),
         (1, "rlsf_example_global", "two threads, one GlobalTlsf"), (1, "rlsf_example_real_time", "a thread that never waits")],
    ]),
    ("Libraries", "for other code, but for the lemmas", "#fff3d0", [
        [(1, "rlsf_pool_calls", "calls of a pool for C"), (1, "rlsf_pool", "static library for C: pools of numbers"),
         (1, "rlsf_malloc_calls", "calls of a heap for C"), (1, "rlsf_malloc", "static library for C: payloads are pointers")],
        [(1, "rlsf_c_lemmas", "proofs of C's exports: their template"), (1, "rlsf_example_libraries", "queues, objects and strings in a pool")],
    ]),
    ("Traces", "a text of calls, run and compared with the model", "#fbe3d6", [
        [(1, "rlsf_replay", "program: prints the answers"), (1, "rlsf_report_trace", "program: counts"), (1, "rlsf_draw_trace", "program: draws")],
        [(1, "rlsf_trace_text", "the text: ops and answers"), (2, "rlsf_trace_runs", "read, run with a Tlsf, printed or recorded: the headline contract"),
         (1, "rlsf_trace_flex_runs", "runs with a FlexTlsf, and a source")],
    ]),
    ("Allocators", "each column adds to what is below it", "#d9efd9", [
        [(1, "rlsf", "re-exports Tlsf and FlexTlsf", True), (1, "rlsf_heaps", "re-exports all heaps", True),
         (2, "", "A Tlsf lends its payloads. A Heap returns them as values that own their bytes. A FlexTlsf grows: it asks a source for memory.")],
        [(2, "rlsf_global", "behind one lock, for threads; a journal that explains all replies", True),
         (1, "rlsf_shared_heap", "Heap for threads"), (1, "rlsf_local_heap", "Heap for std's collections"), (1, "rlsf_partitions", "pools by size")],
        [(1, "rlsf_offsets", "ranges of a GPU's memory"), (1, "rlsf_flex", "FlexTlsf: memory from a source"), (1, "rlsf_checked", "errors in place of conditions"),
         (2, "rlsf_heap", "Heap: payloads own their bytes")],
        [(1, "rlsf_tlsf", "Tlsf: the allocator over one memory; the work of each call has a bound")],
    ]),
    ("Parts", "of an allocator's calls", "#d9efd9", [
        [(1, "rlsf_table", "free blocks by size class"), (1, "rlsf_blocks", "chunks and blocks in the memory, and how payloads are resized"),
         (1, "rlsf_codes", "tables of live addresses")],
    ]),
    ("Model", "definitions and laws", "#e4dcf2", [
        [(1, "rlsf_model", "the reference model: lists of ranges"), (1, "rlsf_model_global", "the model behind the lock")],
    ]),
    ("Base", "below all others", "#d6e4f5", [
        [(1, "rlsf_int", "integers as sets of bits"), (1, "rlsf_model_sizes", "the model's sizes and classes"), (2, "rlsf_base", "memory, layouts, size classes")],
    ]),
]


def words(text, most):
    """The text in lines of at most so many characters."""
    lines = [""]
    for word in text.split():
        if lines[-1] and len(lines[-1]) + 1 + len(word) > most:
            lines.append("")
        lines[-1] = f"{lines[-1]} {word}".strip()
    return lines


def box(x, y, width, height, names, text, marked):
    if names:
        edge = "stroke='#1a6b1a' stroke-width='2.5'" if marked else "stroke='#888888'"
        yield f"<rect x='{x:.0f}' y='{y:.0f}' width='{width:.0f}' height='{height:.0f}' rx='4' fill='white' {edge}/>"
    at = y + 18
    for name in names:
        yield f"<text x='{x + 8:.0f}' y='{at:.0f}' font-family='monospace' font-size='13' font-weight='bold'>{name}</text>"
        at += LINE
    for line in words(text, int((width - 12) / 6.1)):
        yield f"<text x='{x + 8:.0f}' y='{at:.0f}' font-size='12' fill='#333333'>{html.escape(line)}</text>"
        at += LINE


def names_of(crates, width):
    """The names in lines, as many in each as fit."""
    return [line for line in words(crates, int((width - 12) / 8.2)) if line]


def draw():
    body, y = [], 52
    for layer, what, colour, rows in LAYERS:
        top, y, begin = y, y + GAP, len(body)
        for row in rows:
            unit = (WIDTH - LEFT - 16 - GAP * len(row)) / sum(each[0] for each in row)
            cells = [(each, each[0] * unit) for each in row]
            height = max(14 + LINE * (len(names_of(each[1], width)) + len(words(each[2], int((width - 12) / 6.1)))) for each, width in cells)
            x = LEFT
            for (_, crates, text, *marked), width in cells:
                body += box(x, y, width, height, names_of(crates, width), text, marked)
                x += width + GAP
            y += height + GAP
        label = [f"<rect x='8' y='{top:.0f}' width='{WIDTH - 16}' height='{y - top:.0f}' rx='6' fill='{colour}'/>"]
        label.append(f"<text x='20' y='{top + 24:.0f}' font-size='16' font-weight='bold'>{layer}</text>")
        for n, line in enumerate(words(what, 25)):
            label.append(f"<text x='20' y='{top + 42 + n * 14:.0f}' font-size='12' fill='#333333'>{html.escape(line)}</text>")
        body[begin:begin] = label
        y += 6
    head = [
        "<?xml version='1.0' encoding='UTF-8'?>",
        f"<svg xmlns='http://www.w3.org/2000/svg' viewBox='0 0 {WIDTH} {y + 4:.0f}' font-family='sans-serif'>",
        "<title>The crates and their layers</title>",
        f"<rect width='{WIDTH}' height='{y + 4:.0f}' fill='white'/>",
        "<text x='20' y='24' font-size='18' font-weight='bold'>The crates of rlsf: a crate uses crates below it</text>",
        "<text x='20' y='42' font-size='13'>Begin with a crate that has a thick green edge: one for one thread, one whose payloads are values, one for threads.</text>",
    ]
    return "\n".join([*head, *body, "</svg>"]) + "\n"


def main():
    rows = [row for layer in LAYERS for row in layer[3]]
    place = {name: (-n, m) for n, row in enumerate(rows) for m, each in enumerate(row) for name in each[1].split()}
    drawn = [name for row in rows for each in row for name in each[1].split()]
    used = dict(re.findall(r"^(\w+).*?:(.*)$", (ROOT / "crates.txt").read_text(), re.M))
    for name, crates in used.items():
        for other in crates.split():
            if name in place and other in place and place[other] >= place[name]:
                sys.exit(f"crates.py: {name} uses {other}, which is neither below it nor to its left")
    listed = list(used)
    if sorted(drawn) != sorted(listed):
        sys.exit(f"crates.py: these crates differ from crates.txt: {', '.join(sorted(set(drawn) ^ set(listed))) or 'one is drawn twice'}")
    picture = ROOT / "docs/pictures/crates.svg"
    if "--check" not in sys.argv[1:]:
        picture.write_text(draw())
    elif picture.read_text() != draw():
        sys.exit("crates.py: docs/pictures/crates.svg isn't what this program draws")


main()
