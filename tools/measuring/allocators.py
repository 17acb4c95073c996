"""The allocators that are compared: which are installed, and how the library and the original are built to be preloaded."""
import dataclasses
import os
import pathlib
import shutil
import subprocess
import sys

from measuring.options import ROOT, missing

# The others: the names of their shared objects, of which the loader knows one or none, and the package that has them.
OTHERS = {
    "jemalloc": (["libjemalloc.so.2"], "libjemalloc2"),
    "mimalloc": (["libmimalloc.so.2", "libmimalloc.so.2.0"], "libmimalloc2.0"),
    "tcmalloc": (["libtcmalloc_minimal.so.4"], "libtcmalloc-minimal4"),
}
# What a reader calls them, who hasn't read the tools.
TITLES = {"ours": "this port", "original": "rlsf 0.2.3"}
# How long a heap's memory is: every load fits. With all pages mapped it is shorter, and for a quick look still shorter.
LEN, TOUCHED_LEN, QUICK_LEN = 1 << 32, 1 << 29, 1 << 26


def title(name):
    """The name of an allocator, or of one in some way, as a reader knows it."""
    first, *rest = name.split(" ")
    return " ".join([TITLES.get(first, first), *rest])


@dataclasses.dataclass(frozen=True)
class Allocator:
    name: str
    preload: str  # what LD_PRELOAD is to be; empty for the C library's own

    def environment(self):
        return {**os.environ, "LD_PRELOAD": self.preload} if self.preload else dict(os.environ)


def compiled(sources, program, *flags):
    """Compiles a program or a shared object."""
    words = [os.environ.get("CC", "cc"), "-O2", "-std=gnu11", "-Wall", "-Wextra", "-Werror", *flags]
    before = [flag for flag in words if not flag.startswith(("-l", "-Wl"))]
    behind = [flag for flag in words if flag.startswith(("-l", "-Wl"))]
    subprocess.run([*before, *map(str, sources), *behind, "-o", str(program)], check=True, capture_output=True)
    return program


def example(folder, source, name, *flags):
    return compiled([ROOT / "examples" / source], folder / name, *flags)


def loads(folder):
    """The three builds of the program that makes the calls. The last needs valgrind and its header."""
    made = {"run": example(folder, "loads.c", "loads", "-lpthread")}
    made["timed"] = example(folder, "loads.c", "loads_timed", "-DTIMED", "-lpthread")
    try:
        subprocess.run(["valgrind", "--version"], check=True, capture_output=True)
        made["counted"] = example(folder, "loads.c", "loads_counted", "-DCOUNTED", "-lpthread")
    except (FileNotFoundError, subprocess.CalledProcessError):
        missing("counts of instructions", "install the package valgrind, which has the header callgrind.h")
    return made


def kit():
    """The toolchain's folder."""
    return pathlib.Path(os.path.realpath(shutil.which("rt"))).parent.parent if shutil.which("rt") else None


def heap_object(folder, name, archives, flags, quick):
    """The malloc of preload.c over an archive, as a shared object. The linker's map lies beside it."""
    object_ = folder / f"{name}{''.join(flags)}.so"
    if object_.exists():
        return object_
    length = LEN if "-DTOUCHED" not in flags else QUICK_LEN if quick else TOUCHED_LEN
    words = ["-shared", "-fPIC", f"-I{ROOT}/include", f"-DLEN=((size_t){length})", *flags, "-Wl,--exclude-libs,ALL", "-Wl,--gc-sections"]
    words.append(f"-Wl,-Map={object_}.map")
    return compiled([ROOT / "tools/measuring/preload.c", *archives], object_, *words, "-lpthread")


def pools(options, folder, *flags):
    """The library and the original behind the same calls, where they are built."""
    found = []
    if options.ours.exists():
        below = [kit() / "c/liblibc_c.a"] if kit() else []
        found.append(Allocator("ours", str(heap_object(folder, "ours", [options.ours, *below], flags, options.quick))))
    else:
        missing("ours", f"there is no {options.ours}; build it with `cd crates/rlsf_malloc && rt lib`")
    archive = options.original / "liboriginal_heap.a" if options.original else None
    if archive and archive.exists():
        found.append(Allocator("original", str(heap_object(folder, "original", [archive], flags, options.quick))))
    else:
        missing("original", "give --original the folder that tools/original/build filled")
    return found


def complete_malloc(options, folder, source="c/malloc.c"):
    """The malloc of c/malloc.c over the library, if that is built. The linker's map lies beside it."""
    if not options.ours.exists():
        missing("ours", f"there is no {options.ours}; build it with `cd crates/rlsf_malloc && rt lib`")
        return []
    words = ["-shared", "-fPIC", f"-I{ROOT}/include", "-Wl,--exclude-libs,ALL", f"-Wl,-Map={folder}/complete.so.map", "-lpthread"]
    return [Allocator("ours", str(compiled([ROOT / source, options.ours], folder / "complete.so", *words)))]


def loader_knows(name):
    ran = subprocess.run(["true"], env={**os.environ, "LD_PRELOAD": name}, capture_output=True, text=True)
    return ran.returncode == 0 and not ran.stderr


def others():
    """glibc, and those of the others that the loader finds."""
    found = [Allocator("glibc", "")]
    for name, (objects, package) in OTHERS.items():
        known = next((object_ for object_ in objects if loader_knows(object_)), None)
        if known:
            found.append(Allocator(name, known))
        else:
            missing(name, f"install the package {package}")
    return found


def chosen(options, found):
    """Those that the command line names, or all."""
    picked = [allocator for allocator in found if not options.only or allocator.name.split()[0] in options.only]
    if not picked:
        sys.exit(f"no allocator of these is here: {', '.join(options.only)}")
    return picked
