"""The program `maxjc`: where it is, and a run of it.

The environment's MAXJC names it, else it is the launcher at the top of the repository that this package stands in, or
`maxjc` on the path.
"""
from __future__ import annotations

import os
import pathlib
import shutil
import signal
import subprocess
import sys
import tempfile
import time
from collections.abc import Callable

from kalebrush.errors import KalebrushError, ProgramError, Refusal

TOP = pathlib.Path(__file__).resolve().parents[2]
POLL = 0.05  # seconds between two looks at a running program
DONE, REFUSED, EDGES_OUT = 0, 1, 6

Watch = Callable[[], None]


def find() -> list[str]:
    """The words that start the program."""
    named = os.environ.get("MAXJC")
    if named:
        return [str(pathlib.Path(named).resolve()) if os.sep in named else named]
    launcher = TOP / "maxjc"
    if launcher.is_file():
        return [str(launcher)]
    found = shutil.which("maxjc")
    if not found:
        raise KalebrushError("no program maxjc: name it by MAXJC in the environment")
    return [found]


def run(words: list[str], folder: pathlib.Path, watch: Watch | None = None) -> tuple[list[str], int]:
    """Runs the program in a folder: the lines that it says, and its status, which is 0 or 6.

    `watch` is called again and again while it runs. A refusal and every other status raise an exception.
    """
    said, told, status = _started(find() + words, folder, watch)
    lines = said.splitlines()
    if status in (DONE, EDGES_OUT):
        return lines, status
    told = told if told.strip() else _explanation(status, said, words, folder)
    if status == REFUSED and lines and lines[-1].startswith("refused "):
        raise Refusal(lines[-1], told, str(words[1]) if len(words) > 1 else None)
    raise ProgramError(status, list(map(str, words)), told)


def _started(words: list[str], folder: pathlib.Path, watch: Watch | None) -> tuple[str, str, int]:
    """What a program says on standard output and on standard error, and its status."""
    surroundings = {**os.environ, "MAXJC_EXPLAIN": "1"}
    with tempfile.TemporaryFile("w+") as out, tempfile.TemporaryFile("w+") as err:
        streams = {"stdin": subprocess.DEVNULL, "stdout": out, "stderr": err}
        try:
            child = subprocess.Popen(words, cwd=folder, env=surroundings, start_new_session=True, **streams)
        except OSError as error:
            raise KalebrushError(f"{words[0]} can't be started: {error.strerror}") from error
        try:
            _wait(child, watch)
        except BaseException:  # the launcher may have started the program as a child of its own
            os.killpg(child.pid, signal.SIGKILL)
            child.wait()
            raise
        out.seek(0)
        err.seek(0)
        return out.read(), err.read(), child.returncode


def _wait(child: subprocess.Popen, watch: Watch | None) -> None:
    pause = 0.002
    while child.poll() is None:
        time.sleep(pause)
        pause = min(POLL, 2 * pause)
        if watch:
            watch()


def _explanation(status: int, said: str, words: list, folder: pathlib.Path) -> str:
    """What tools/explain.py tells of a command that didn't do its work, where the program itself tells nothing."""
    tool = TOP / "tools/explain.py"
    if not tool.is_file():
        return ""
    told = [sys.executable, str(tool), str(status), said, *map(str, words)]
    return subprocess.run(told, cwd=folder, capture_output=True, text=True).stderr
