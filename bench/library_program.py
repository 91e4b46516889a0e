"""Small programs over the libraries of this repository."""
import pathlib
import shutil
import subprocess
import sys

TOP = pathlib.Path(__file__).resolve().parent.parent


def are_built(libraries):
    """Whether all these libraries are proved and built here."""
    return all((TOP / "crates" / name / "out/rlib").is_dir() for name in libraries)


def built(work, name, libraries, uses, modules):
    """The program bench/NAME.program with these files as its modules, proved and built in the folder `work`. It stands on these
    libraries of the repository and those that `uses` names. `rt ci` builds it there, which takes from the machine what the gate
    proved; with nothing to read the program ends with status 1."""
    lines = [line for line in (TOP / "crates.txt").read_text().splitlines() if line.split(":")[0] in libraries]
    (work / "crates.txt").write_text("\n".join(lines + [f"{name}: {uses}"]) + "\n")
    (work / ".git").mkdir()
    shutil.copy(TOP / "HANDLES", work)
    for library in libraries:
        left_out = shutil.ignore_patterns("out", "must-fail")
        shutil.copytree(TOP / "crates" / library, work / "crates" / library, ignore=left_out)
    folder = work / "crates" / name
    (folder / "src").mkdir(parents=True)
    shutil.copy(TOP / "bench" / f"{name}.program", folder / "src/main.rt")
    for module in modules:
        shutil.copy(module, folder / "src")
    (folder / "status").write_text("1\n")
    ran = subprocess.run(["rt", "ci"], cwd=work, stdin=subprocess.DEVNULL, capture_output=True, text=True)
    program = folder / "out" / name
    if not program.exists():
        sys.exit(f"bench/{name}.program wasn't built:\n{ran.stdout[-2000:]}")
    return program
