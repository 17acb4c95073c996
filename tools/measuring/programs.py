"""The programs whose calls are recorded, and how each is run."""
import os
import pathlib
import shutil
import subprocess

from measuring.options import ROOT, missing

JSON = "import json; rows = [{'name': f'n{i}', 'value': i, 'parts': [i, i / 2]} for i in range(400)]; print(len(json.dumps(json.loads(json.dumps(rows)))))"
RE = r"import re; text = 'a1 b22 c333 ' * 400; print(len(re.findall(r'([a-z])(\d+)', text)), len(re.sub(r'\d+', '#', text)))"
SQL = (
    "create table t(a integer primary key, b text);"
    "with recursive n(i) as (select 1 union all select i + 1 from n where i < 3000) insert into t select i, 'row ' || (i * 7919 % 3000) from n;"
    "create index s on t(b); select count(*), max(b) from t where b > 'row 2'; delete from t where a % 3 = 0; select sum(a) from t;"
)
PERL = "my %h; for (1 .. 400) { push @{$h{$_ % 61}}, 'x' x ($_ % 97) } print scalar(keys %h), ' ', length(join ',', map { @$_ } values %h), qq(\\n)"
NODE = "const m = new Map(); for (let i = 0; i < 3000; i++) m.set('k' + i, { i }); console.log(JSON.stringify([...m]).length)"
# rustc has an allocator of its own, which can't be replaced, so what is recorded is the linker that it runs.
# The name of each, the tool that it needs, and its command; FILES stands for a folder of files made for it.
PROGRAMS = {
    "python json": ("python3", ["python3", "-c", JSON]),
    "python re": ("python3", ["python3", "-c", RE]),
    "sqlite3": ("sqlite3", ["sqlite3", ":memory:", SQL]),
    "git log": ("git", ["git", "-C", "FILES", "log", "-p", "--stat"]),
    "gcc": ("gcc", ["gcc", "-O2", "-c", "FILES/program.c", "-o", "FILES/program.o"]),
    "perl": ("perl", ["perl", "-e", PERL]),
    "ld of rustc": ("rustc", ["rustc", "-O", "FILES/program.rs", "-o", "FILES/program"]),
    "node": ("node", ["node", "-e", NODE]),
}
RUST = 'fn main() { let mut v: Vec<String> = (0..9).map(|n| n.to_string()).collect(); v.sort(); println!("{}", v.join(" ")); }\n'


def quietly(words, **more):
    subprocess.run(words, check=True, capture_output=True, **more)


def make_files(folder):
    """A repository with some commits, and programs to compile."""
    folder.mkdir()
    shutil.copy(ROOT / "examples/heap_of_trace.c", folder / "program.c")
    (folder / "program.rs").write_text(RUST)
    if not shutil.which("git"):
        return
    author = ["-c", "user.name=author", "-c", "user.email=author@example.org"]
    quietly(["git", "init", "-q", folder])
    for commit in range(12):
        for file in range(6):
            (folder / f"file{file}").write_text("".join(f"line {n * (commit + file) % 50}\n" for n in range(60)))
        quietly(["git", *author, "add", "."], cwd=folder)
        quietly(["git", *author, "commit", "-q", "-m", f"commit {commit}"], cwd=folder)


def recorded(name, recorder, folder):
    """The lines of the program's longest process, or None if it can't be recorded here."""
    tool, words = PROGRAMS[name]
    if not shutil.which(tool):
        return missing(name, f"{tool} isn't installed")
    files, calls = folder / f"files {name}", folder / f"calls {name}"
    make_files(files)
    calls.mkdir()
    # Python's own allocator lies between it and malloc, unless it is told to call malloc each time.
    environment = {**os.environ, "LD_PRELOAD": str(recorder), "RLSF_RECORD": str(calls / "process"), "PYTHONMALLOC": "malloc", "PYTHONHASHSEED": "0"}
    environment |= {"GIT_PAGER": "cat", "PERL_HASH_SEED": "0"}
    command = [word.replace("FILES", str(files)) for word in words]
    quietly(command, env=environment, cwd=folder)
    longest = max(calls.iterdir(), key=lambda file: file.stat().st_size, default=None)
    if longest is None or not longest.stat().st_size:
        return missing(name, "it doesn't call the malloc that is preloaded")
    return longest.read_bytes()


def kept(folder: pathlib.Path):
    """The traces of a folder, by their names, without their first two lines."""
    return {file.stem: file.read_bytes().split(b"\n", 2)[2] for file in sorted(folder.glob("*.txt"))}
