"""The stored run of this crate: the input of the program, and the output that the model gives for it.

Both have the runs first, and the scripts behind a line `scripts`."""
import pathlib

HERE = pathlib.Path(__file__).resolve().parent
MARK = "scripts\n"


def write_part(is_scripts, stdin, stdout):
    """Writes the text of the runs, or that of the scripts, and leaves the other part as it is."""
    for name, text in ("stdin", stdin), ("stdout", stdout):
        parts = (HERE / name).read_text().split("\n" + MARK)
        runs, scripts = parts[0].removesuffix("\n") + "\n", parts[-1]
        (HERE / name).write_text(runs + MARK + text if is_scripts else text + MARK + scripts)
