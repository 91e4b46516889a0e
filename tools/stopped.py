"""What can be said of a command that ended without a refusal: a file that can't be read (3) or written (4), want of memory (5), and
a simulation that reached its last edge (6)."""
import json
import os
import pathlib
import re
import stat

from places import name_of
from text_faults import ports_of_text

READ = {"compile": ("SRC", "TABLE"), "simulate": ("TEXT", "RUN"), "expect": ("SRC", "TABLE", "REPORT", "RUN"), "check": ("SRC", "TABLE", "REPORT")}
WRITTEN = {"compile": ("OUT", "REPORT")}


def run_files(case, key):
    """(what, name) of each file that a run file names under `inputs` or `outputs`."""
    path = case.file("RUN")
    if not path or not os.path.isfile(path):
        return []
    try:
        found = json.loads(pathlib.Path(path).read_bytes())[key].items()
    except (OSError, TypeError, ValueError, KeyError, AttributeError):
        return []
    return [(f"the file of the {key[:-1]} `{stream}` that {name_of(path)} names", file) for stream, file in found]


def named(case, names):
    return [(name, case.file(name)) for name in names if case.file(name)]


def why_unread(path):
    """Why a file can't be opened for reading, or None."""
    try:
        mode = os.stat(path).st_mode
    except FileNotFoundError:
        folder = os.path.dirname(path) or "."
        return "there is no such file" if os.path.isdir(folder) else f"there is no folder {name_of(folder)}"
    except (OSError, ValueError) as error:
        return reason(error)
    if stat.S_ISDIR(mode):
        return "it is a folder"
    if not stat.S_ISREG(mode) and not stat.S_ISBLK(mode):
        return "it is a pipe or a device, and a file is read at places of its own"
    return None if os.access(path, os.R_OK) else "this user may not read it"


def why_unwritten(path):
    """Why a file can't be created or written, or None."""
    folder = os.path.dirname(path) or "."
    if not os.path.isdir(folder):
        return f"there is no folder {name_of(folder)}"
    if os.path.isdir(path):
        return "it is a folder"
    if os.path.exists(path):
        if not os.access(path, os.W_OK):
            return "this user may not write it"
        mode = os.stat(path).st_mode
        return None if stat.S_ISREG(mode) else "it is a device or a pipe"
    if not os.access(folder, os.W_OK | os.X_OK):
        return f"this user may create no file in {name_of(folder)}"
    space = os.statvfs(folder)
    return None if space.f_bavail else "the disk is full"


def reason(error):
    return (getattr(error, "strerror", None) or str(error)).lower()


def faults(files, why):
    return [f"{name_of(path)}: {what} can't be opened: {cause}" for what, path in files if (cause := why(path))]


def unread(case):
    """Status 3."""
    files = named(case, READ[case.command]) + run_files(case, "inputs")
    found = faults(files, why_unread)
    return (found or ["a file could not be read; each of these can be opened now: " + ", ".join(name_of(path) for _, path in files)]) + [
        "What to do: give the name of a file that is there; names are taken from the folder that the command is called in."]


def unwritten(case):
    """Status 4."""
    files = named(case, WRITTEN.get(case.command, ())) + (run_files(case, "outputs") if case.command in ("simulate", "expect") else [])
    found = faults(files, why_unwritten)
    if not found:
        shown = ", ".join(name_of(path) for _, path in files)
        found = ["standard output could not be written: it is closed, or the disk is full" + (f"; these files can be written now: {shown}" if shown else "")]
    return found + ["What to do: make the folder, or give the name of a file that this user may write; see that the disk has room."]


def no_memory(case):
    """Status 5."""
    found = "there was not enough memory for this command"
    free = re.search(r"MemAvailable:\s+(\d+) kB", pathlib.Path("/proc/meminfo").read_text())
    found += f"; {int(free[1]) // 1024} MB are free now" if free else ""
    return [found, "What to do: end other programs or raise the limit (`ulimit -v`), or make the design, the table or the run smaller."]


# A simulation that isn't done


def lines_in(path):
    """The lines of a file, or None where it can't be read."""
    if not os.path.isfile(path):
        return None
    try:
        with open(path, "rb") as file:
            return sum(1 for _ in file)
    except (OSError, TypeError, ValueError):
        return None


def not_done(case):
    """Status 6: what of the run is short."""
    if not all(path and os.path.isfile(path) for path in (case.file("TEXT"), case.file("RUN"))):
        return ["the run made all edges that its file allows, and `done` was never 1", "What to do: raise `edges` in the run file."]
    run = json.loads(pathlib.Path(case.file("RUN")).read_bytes())
    text = pathlib.Path(case.file("TEXT")).read_text("latin-1")
    ticks, ports = run["ticks"], ports_of_text(text)
    most = max(ticks.values(), default=0)
    lines = [f"the run made all {run['edges']} edges that its file allows, and `done` was never 1"]
    lines += [output_line(name, run["outputs"], most) for name in ports.outputs]
    dry = []
    for name in ports.inputs:
        count = lines_in(run["inputs"][name])
        if count is not None and count < most:
            dry.append(name)
            lines.append(f"  input {name}: only {count} words in {name_of(run['inputs'][name])}, for up to {most} ticks")
    return lines + [f"What to do: {remedy(run, most, dry)}"]


def output_line(name, files, most):
    """How many words an output has, beside the ticks of the run and the words of the others."""
    counts = {other: lines_in(file) for other, file in files.items()}
    count, others = counts[name], [other for key, other in counts.items() if key != name and other is not None]
    short = [f"the run's {most} ticks"] if count is not None and count < most else []
    short += [f"another output's {max(others)}"] if count is not None and others and count < max(others) else []
    return f"  output {name}: {count} words in {name_of(files[name])}" + (f", fewer than {' and '.join(short)}" if short else "")


def remedy(run, most, dry):
    if dry:
        return (
            f"give {' and '.join(f'`{name}`' for name in dry)} a word for each tick that reads one, or lower `ticks`: a kernel waits for its input for ever"
        )
    if run["edges"] <= most:
        return f"raise `edges`: {most} ticks take more than {most} edges, and stalls take more again"
    return "raise `edges`: a stall pattern takes about a third more of them, and each kernel of a chain some more"


STATUSES = {3: unread, 4: unwritten, 5: no_memory, 6: not_done}
