"""Trials of the built program on random inputs."""
import os
import pathlib
import random
import subprocess
import sys
import tempfile

TOP = pathlib.Path(__file__).resolve().parent.parent


def ready_program():
    """The program that is tried: that which MAXJC in the environment names, else the one that the launcher runs, where one is ready."""
    if os.environ.get("MAXJC"):
        return pathlib.Path(os.environ["MAXJC"]).resolve()
    ready = subprocess.run([TOP / "tools/program.sh"], capture_output=True, text=True)
    return pathlib.Path(ready.stdout.strip() or TOP / "build/program/proved/maxjc")


PROGRAM = ready_program()


def build():
    """Has the program proved and built, where none is ready."""
    if not PROGRAM.exists():
        subprocess.run([TOP / "tools/prove"], stdout=subprocess.DEVNULL)
    if not PROGRAM.exists():
        sys.exit("the program isn't built here")


def run(count, trial):
    """Runs trial(folder), which says what is wrong or None, so many times, in a folder that is thrown away. The words of the
    command line, where there are some, are another count and a seed. Gives the number of trials, or None where something was
    wrong, which is then printed; with no program built here there are none."""
    if not PROGRAM.exists():
        print("the program isn't built here, passed over")
        return 0
    count = int(sys.argv[1]) if len(sys.argv) > 1 else count
    random.seed(int(sys.argv[2]) if len(sys.argv) > 2 else 1)
    with tempfile.TemporaryDirectory() as folder:
        for _ in range(count):
            wrong = trial(pathlib.Path(folder))
            if wrong:
                print(wrong)
                return None
    return count
