"""Measures messages that one thread sends to another: as a `SharedPayload` through a queue, and copied into and out of a `GlobalTlsf`.

It needs the Rattle toolchain (`rt`) and valgrind. A folder outside the repository gets copies of the crates that the program
`tools/measuring/messages.txt` uses, and `rt run` proves and builds it there. A second run takes the program that is there. Each producer fills
its messages, and one consumer adds up their bytes. With 10 and 100,000 live payloads, steps of one thread are counted: each receives and frees
a payload, and allocates and sends another."""
import pathlib
import re
import shutil
import subprocess
import sys
import time

from measuring.options import ROOT

NAME = "measured_messages"
USED = {"rlsf_base", "rlsf_example_libraries", "rlsf_global", "rlsf_heap", "rlsf_shared_heap"}
SIZES = [64, 1024, 65536]
LIVE = [10, 100_000]


def add_words(parser):
    parser.add_argument("--folder", type=pathlib.Path, default=pathlib.Path("/tmp/measured_messages"), help="where the program is built")
    parser.add_argument("--bytes", type=int, default=1 << 28, help="how many bytes all messages of a run have, but at most 300,000 messages")
    parser.add_argument("--runs", type=int, default=3, help="how often each run is timed")


def build(folder, name, wanted, words):
    """Copies the crates that a program uses, and the program, whose text lies beside this file, with the folder of its definitions if it has one,
    and builds it. It is run once with these words."""
    program = folder / "crates" / name / "out" / name
    if program.exists():
        return program
    lines = {line.split(":")[0].split(" ")[0]: line for line in (ROOT / "crates.txt").read_text().splitlines() if re.match(r"\w", line)}
    used, new = set(), set(wanted)
    while new:
        used |= new
        new = {word for crate in used for word in lines[crate].split(":")[1].split() if word in lines} - used
    (folder / "crates" / name / "src").mkdir(parents=True, exist_ok=True)
    for crate in used:
        for part in ("src", "specs", "proofs"):
            source = ROOT / "crates" / crate / part
            if source.exists():
                shutil.copytree(source, folder / "crates" / crate / part, dirs_exist_ok=True)
    listed = [line for crate, line in lines.items() if crate in used]
    (folder / "crates.txt").write_text("\n".join([*listed, f"{name}: {' '.join(sorted(used))}"]) + "\n")
    shutil.copy(ROOT / "HANDLES", folder / "HANDLES")
    text = ROOT / f"tools/measuring/{name.removeprefix('measured_')}.txt"
    shutil.copy(text, folder / "crates" / name / "src/main.rt")
    # `rt` wants no `.antt` file outside of a crate.
    for part in text.with_suffix("").rglob("*.txt"):
        place = folder / "crates" / name / part.relative_to(text.with_suffix("")).with_suffix(".antt")
        place.parent.mkdir(exist_ok=True)
        shutil.copy(part, place)
    subprocess.run(["rt", "run", "--", *words], cwd=folder / "crates" / name, check=True)
    return program


def rate(program, kind, size, messages, producers, runs):
    """Messages a second, of the fastest run."""
    least = None
    for _ in range(runs):
        start = time.monotonic()
        out = subprocess.run([program, kind, str(size), str(messages // producers), str(producers)], capture_output=True, text=True, check=True)
        least = min(least or 1e9, time.monotonic() - start)
        if len(set(re.findall(r"Some\((\d+)\)", out.stdout)[1:])) != 1 or not out.stdout.endswith("Some(0)]\n"):
            sys.exit(f"{kind}: messages were refused: {out.stdout}")
    return messages / least


def instructions(program, live, steps):
    """The instructions of a step: those of one run, less those of a run with no steps."""
    def run(count):
        command = ["valgrind", "--tool=callgrind", "--callgrind-out-file=/dev/null", str(program), "steps", str(live), str(count), "0"]
        return int(re.search(r"Collected : (\d+)", subprocess.run(command, capture_output=True, text=True, check=True).stderr).group(1))
    return (run(steps) - run(0)) / steps


def measure(options, folder):
    if not shutil.which("rt") or not shutil.which("valgrind"):
        sys.exit("this needs `rt` and valgrind")
    program = build(options.folder, NAME, USED, ["steps", "10", "10", "0"])
    print("\n| Bytes | Producers | `SharedPayload` | `GlobalTlsf` |\n|---|---|---|---|")
    for size in SIZES:
        messages = min(300_000, options.bytes // size)
        for producers in (1, 4):
            row = [rate(program, kind, size, messages, producers, options.runs) for kind in ("shared", "global")]
            print(f"| {size:,} | {producers} | " + " | ".join(f"{n:,.0f}" for n in row) + " |", flush=True)
    print("\n| Live payloads | Instructions of a step |\n|---|---|")
    for live in LIVE:
        print(f"| {live:,} | {instructions(program, live, 2_000):.1f} |", flush=True)
