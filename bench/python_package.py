"""The Python that has what the package of python/ needs, and how it is called."""
import os
import subprocess
import sys

from trials import TOP


def has(interpreter, *modules):
    """Whether an interpreter has modules."""
    try:
        done = subprocess.run([interpreter, "-c", f"import {', '.join(modules)}"], capture_output=True, timeout=60)
    except OSError:
        return False
    return done.returncode == 0


def python_with(*modules):
    """An interpreter that has modules: this one, or Debian's; None where neither has."""
    return next((path for path in (sys.executable, "/usr/bin/python3") if has(path, *modules)), None)


PYTHON = python_with("numpy")


def surroundings(**more):
    """The environment in which the package is found, and the program of this repository."""
    paths = [str(TOP / "python"), os.environ.get("PYTHONPATH", "")]
    return {**os.environ, "PYTHONPATH": os.pathsep.join(filter(None, paths)), **more}
