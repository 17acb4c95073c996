"""Runs installed programs on the malloc of c/malloc.c, and compares their processor time and their peak resident memory with those on glibc's.

The least of several runs counts, in which both take turns. Most programs are those of `memory`, with more to do. Servers (servers.py) are
asked on loopback, and only their own time counts."""
import os
import pathlib
import shutil
import subprocess
import sys

from measuring.allocators import Allocator, compiled, complete_malloc
from measuring.options import ROOT, missing
from measuring.programs import quietly
from measuring.servers import SERVERS, run_server

PYTHON = "d = {str(i): [i, 'x' * (i % 97)] for i in range(NUMBER)}\nimport json; print(len(json.dumps(json.loads(json.dumps(d)))))"
THREADS = """import threading
sums = []
def work(): sums.append(sum(len(str({j: str(j) for j in range(i % 50)})) for i in range(NUMBER)))
all = [threading.Thread(target=work) for _ in range(4)]
for one in all: one.start()
for one in all: one.join()
print(sums)"""
SQL = (
    "create table t(a integer primary key, b text);"
    "with recursive n(i) as (select 1 union all select i + 1 from n where i < NUMBER) insert into t select i, 'row ' || (i * 7919 % 30011) from n;"
    "create index s on t(b); select count(*), max(b) from t where b > 'row 2'; delete from t where a % 3 = 0; select sum(a) from t;"
)
PERL = "my %h; for (1 .. NUMBER) { push @{$h{$_ % 6007}}, 'x' x ($_ % 97) } print scalar(keys %h), ' ', length(join ',', map { @$_ } values %h), qq(\\n)"
NODE = "const m = new Map(); for (let i = 0; i < NUMBER; i++) m.set('k' + i, { i }); console.log(JSON.stringify([...m]).length)"
LUA = "local t = {} for i = 1, NUMBER do t['k' .. i % 60007] = { i, tostring(i) } end local n = 0 for _, v in pairs(t) do n = n + #v[2] end print(n)"
FUNCTION = """
struct tNUM { int key; struct tNUM *next; char name[NUM % 40 + 8]; double values[4]; };
static struct tNUM *listNUM;
int fNUM(const int *xs, int n) {
    int best = NUM;
    for (int i = 0; i < n; i++)
        switch (xs[i] % 7) {
        case 0: best += xs[i] * NUM; break;
        case 1: best ^= i << (NUM % 13); break;
        case 2: for (struct tNUM *t = listNUM; t; t = t->next) best += t->key + t->name[i % 8]; break;
        case 3: if (xs[i] > best) return fNUM(xs + 1, n - 1) + NUM; break;
        default: best = best * 31 + xs[n - 1 - i];
        }
    return best;
}
"""
# The name, the tool that it needs, the command, and how much there is to do. FILES stands for a folder of files.
PROGRAMS = {
    "sort": ("sort", ["sort", "-S", "100M", "-n", "FILES/lines"], 1),
    "awk": ("awk", ["awk", "{ n[$1 % 5003] = n[$1 % 5003] $2 } END { for (k in n) t += length(n[k]); print t }", "FILES/lines"], 1),
    "python": ("python3", ["python3", "-c", PYTHON], 300_000),
    "python with threads": ("python3", ["python3", "-c", THREADS], 20_000),
    "sqlite": ("sqlite3", ["sqlite3", ":memory:", SQL], 300_000),
    "perl": ("perl", ["perl", "-e", PERL], 1_000_000),
    "lua": ("lua5.4", ["lua5.4", "-e", LUA], 3_000_000),
    "git log": ("git", ["git", "-C", "FILES/repository", "log", "-p", "--stat", "main"], 1),
    "git pack-objects": ("git", [*"git -C FILES/repository pack-objects -q --revs --all --stdout --no-reuse-delta --threads=1".split()], 1),
    "gcc": ("gcc", ["gcc", "-O2", "-S", "FILES/program.c", "-o", "-"], 1),
    "node": ("node", ["node", "-e", NODE], 500_000),
}


def add_words(parser):
    parser.add_argument("--runs", type=int, default=5, help="how often each program runs on each malloc")
    parser.add_argument("--programs", nargs="+", default=[*PROGRAMS, *SERVERS], choices=[*PROGRAMS, *SERVERS])


def commits(count):
    """What `git fast-import` reads of a repository with 60 files, of which each commit changes three."""
    files = [[f"file {file} line {n}" for n in range(400)] for file in range(60)]
    for commit in range(count):
        date, text = 1_500_000_000 + 3600 * commit, f"commit {commit}"
        yield f"commit refs/heads/main\ncommitter author <author@example.org> {date} +0000\ndata {len(text)}\n{text}\n"
        for file in {(commit * k + k) % 60 for k in (1, 7, 11)}:
            for k in range(5):
                files[file][(commit * 37 + k * 71) % 400] = f"commit {commit} writes line {k * commit % 1009}"
            body = "\n".join(files[file]) + "\n"
            yield f"M 644 inline folder{file % 7}/file{file}\ndata {len(body)}\n{body}\n"


def make_files(folder, quick):
    """A file of lines, a program of many functions, and a repository."""
    folder.mkdir()
    lines, functions, count = (10_000, 3, 20) if quick else (1_000_000, 250, 3000)
    (folder / "lines").write_text("".join(f"{n * 7919 % 1000003} {n}\n" for n in range(lines)))
    (folder / "program.c").write_text("".join(FUNCTION.replace("NUM", str(n)) for n in range(functions)))
    if shutil.which("git"):
        quietly(["git", "init", "-q", "--bare", folder / "repository"])
        quietly(["git", "-C", folder / "repository", "fast-import", "--quiet"], input="".join(commits(count)).encode())


def executable(tool):
    """The program itself, where the one on the path is a script of pyenv."""
    return sys.executable if tool == "python3" else tool


def run(name, launcher, allocator, folder, amount):
    """The processor time in seconds, the peak resident memory in KB, and what the program prints."""
    command = [word.replace("NUMBER", str(amount)).replace("FILES", str(folder)) for word in PROGRAMS[name][1]]
    command[0] = executable(command[0])
    environment = os.environ | {"GIT_PAGER": "cat", "PERL_HASH_SEED": "0", "PYTHONHASHSEED": "0"}
    words = [launcher, allocator.preload, *command]
    ran = subprocess.run(words, env=environment, stdin=subprocess.DEVNULL, capture_output=True, check=True)
    output, numbers = ran.stdout.rstrip().rsplit(b"\n", 1)
    time, peak = map(int, numbers.split())
    return time / 1e6, peak, output


def compare(name, options, folder, launcher, ours):
    tools, *_, amount = (PROGRAMS | SERVERS)[name]
    absent = [tool for tool in ([tools] if name in PROGRAMS else tools) if not shutil.which(tool)]
    if absent:
        return missing(name, f"{absent[0]} isn't installed")
    amount = max(amount // 100, 1) if options.quick else amount
    times, peaks, outputs = {}, {}, set()
    for _ in range(options.runs):
        for allocator in (Allocator("glibc", ""), ours):
            time, peak, output = (run if name in PROGRAMS else run_server)(name, launcher, allocator, folder / "files", amount)
            times.setdefault(allocator.name, []).append(time)
            peaks.setdefault(allocator.name, []).append(peak)
            outputs.add(output)
    if len(outputs) != 1:
        sys.exit(f"{name} doesn't print the same")
    time, before = min(times[ours.name]), min(times["glibc"])
    peak, peak_before = min(peaks[ours.name]), min(peaks["glibc"])
    return print(f"| {name} | {before:.2f} | {time / before:.2f} | {peak_before / 1024:.1f} | {peak / peak_before:.2f} |", flush=True)


def measure(options, folder: pathlib.Path):
    if options.quick:
        options.runs = 1
    found = complete_malloc(options, folder)
    if not found:
        return
    launcher = compiled([ROOT / "tools/measuring/launch.c"], folder / "launch")
    make_files(folder / "files", options.quick)
    print(f"\nprocessor time in seconds and peak resident memory in MB, least of {options.runs} runs; this port's as a share of glibc's\n")
    print("| Program | glibc's time | this port's | glibc's memory | this port's |\n|---|---|---|---|---|")
    for name in options.programs:
        compare(name, options, folder, launcher, found[0])
