"""The words of the command line, and what every command prints of the system that it measured on."""
import argparse
import functools
import os
import pathlib
import platform
import re
import shutil
import subprocess
import sys
import tempfile

ROOT = pathlib.Path(__file__).resolve().parent.parent.parent
PACKAGES = ["libc6", "libjemalloc2", "libmimalloc2.0", "libtcmalloc-minimal4", "valgrind", "binutils"]


def add_words(parser):
    """The words that all commands know."""
    archive = ROOT / "crates/rlsf_malloc/out/librlsf_malloc.a"
    parser.add_argument("--ours", type=pathlib.Path, default=archive, help="the archive of the library for C")
    parser.add_argument("--original", type=pathlib.Path, help="the folder that tools/original/build filled; without it the original is left out")
    parser.add_argument("--only", nargs="+", help="the allocators to measure, by name")
    parser.add_argument("--pictures", type=pathlib.Path, default=ROOT / "docs/pictures", help="the folder that pictures are written to")
    parser.add_argument("--core", type=int, default=max(os.sched_getaffinity(0)), help="the core that a single thread runs on")
    parser.add_argument("--quick", action="store_true", help="some seconds, to see that it works; no picture is written")


@functools.cache
def missing(what, instead):
    """Names what isn't installed, once, so that nobody takes a table for complete."""
    print(f"left out: {what} ({instead})", flush=True)


def version_of(package):
    words = ["dpkg-query", "-W", "-f", "${Version}", package]
    found = subprocess.run(words, capture_output=True, text=True) if shutil.which("dpkg-query") else None
    return found.stdout if found and found.returncode == 0 else None


def processor():
    text = pathlib.Path("/proc/cpuinfo").read_text() if os.path.exists("/proc/cpuinfo") else ""
    name = re.search(r"^model name\s*: (.*)$", text, re.M)
    return re.sub(r"\s+", " ", name.group(1)) if name else platform.machine()


def commit():
    """The commit that is measured, with a mark if files differ from it."""
    words = ["git", "-C", str(ROOT), "describe", "--always", "--dirty=, with changes", "--exclude=*"]
    found = subprocess.run(words, capture_output=True, text=True) if shutil.which("git") else None
    return found.stdout.strip() if found and found.returncode == 0 else "unknown"


def place():
    """The processor, the kernel and how busy the system is."""
    load = ", ".join(f"{n:.1f}" for n in os.getloadavg())
    return f"{processor()}, {os.cpu_count()} cores, {platform.system()} {platform.release()}, load {load}; commit {commit()}"


def versions():
    return ", ".join(f"{package} {version}" for package in PACKAGES if (version := version_of(package)))


def run(commands, usage):
    parser = argparse.ArgumentParser(description=usage, formatter_class=argparse.RawDescriptionHelpFormatter)
    choice = parser.add_subparsers(dest="command", required=True)
    for name, command in commands.items():
        words = choice.add_parser(name, description=command.__doc__, formatter_class=argparse.RawDescriptionHelpFormatter)
        add_words(words)
        command.add_words(words)
    options = parser.parse_args()
    print(f"system: {place()}; {versions()}", flush=True)
    with tempfile.TemporaryDirectory() as folder:
        try:
            commands[options.command].measure(options, pathlib.Path(folder))
        except subprocess.CalledProcessError as error:
            said = error.stderr.decode() if isinstance(error.stderr, bytes) else error.stderr
            sys.exit(f"{' '.join(map(str, error.cmd))} ended with status {error.returncode}\n{said or ''}")
