#!/usr/bin/env python3
"""Whether the package of python/ does what docs/PYTHON.md and docs/USE_THE_DESIGN.md say.

- its tests (python/tests);
- each command and each program of these pages, in a folder of their own: what they say is what stands there;
- a page of an example in a headless browser: its script runs, a node of the address marks its line, and nothing is
  loaded;
- a sweep by a dask.distributed scheduler with two workers: the same table as by processes here.

What needs a package or a program that is missing is passed over.

    bench/check_python.py     ends with status 1 where something is wrong; MAXJC names another program
"""
import os
import pathlib
import re
import shutil
import signal
import socket
import subprocess
import sys
import tempfile
import time

from python_package import PYTHON, has, surroundings
from trials import PROGRAM, TOP, build

PAGES = [TOP / "docs/PYTHON.md", TOP / "docs/USE_THE_DESIGN.md"]
BLOCK = re.compile(r"^```([^\n]*)\n(.*?)^```$", re.M | re.S)
FILES = {"java": re.compile(r"`(\w+\.maxj)`"), "python": re.compile(r"`(\w+\.py)`")}
# the packages and the programs that a command of a page needs
NEEDS = {"plot": "matplotlib", "sweep": "matplotlib", ".png": "PIL"}
TOOLS = ("iverilog", "verilator", "yosys")
PATIENCE = 600


def environment():
    """The environment of a command: `python3` is the interpreter that has NumPy."""
    folder = tempfile.mkdtemp()
    script = pathlib.Path(folder) / "python3"
    script.write_text(f'#!/bin/sh\nexec {PYTHON} "$@"\n')
    script.chmod(0o755)
    return surroundings(PATH=f"{folder}:{os.environ['PATH']}"), folder


def steps(path):
    """(kind, text of the block, name of its file or None), in the order of a page."""
    page, at = path.read_text(), 0
    for block in BLOCK.finditer(page):
        kind, text = block[1].strip(), block[2]
        names = FILES[kind].findall(page[at : block.start()]) if kind in FILES else []
        at = block.end()
        yield kind, text, names[-1] if names else None


class Page:
    """A page's steps, in a folder in which the repository's folders and the program are found."""

    def __init__(self, work, seen):
        self.work, self.seen, self.wrong, self.count, self.last = work, seen, [], 0, None
        for name in ("examples", "python"):
            (work / name).symlink_to(TOP / name)
        launcher = work / "maxjc"
        launcher.write_text(f'#!/bin/sh\nexec {PROGRAM} "$@"\n')
        launcher.chmod(0o755)

    def missing(self, line):
        """What a command needs and isn't installed."""
        tools = [tool for tool in TOOLS if tool in line.split() and not shutil.which(tool)]
        return next(
            (package for word, package in NEEDS.items() if word in line and not has(PYTHON, package)),
            *tools[:1] or [None],
        )

    def run(self, words):
        """What a command says."""
        try:
            done = subprocess.run(words, cwd=self.work, capture_output=True, text=True, env=self.seen, timeout=PATIENCE)
        except subprocess.TimeoutExpired:
            return f"no end after {PATIENCE} s\n"
        return done.stdout if not done.stderr else done.stdout + done.stderr

    def step(self, kind, text, name):
        if kind in FILES:
            (self.work / name).write_text(text)
            self.last = self.run(["python3", name]) if kind == "python" else None
        elif kind == "text" and self.last is not None:
            self.count += 1
            if self.last != text:
                self.wrong.append(f"a program says {self.last!r}, and not {text!r}")
        elif kind == "":
            self.command(*text.splitlines())

    def command(self, line, *wanted):
        package = self.missing(line)
        if package:
            print(f"{line.split(' --')[0]}: {package} isn't installed, passed over")
            return
        self.count += 1
        said = self.run(["bash", "-c", line]).splitlines()
        if said != list(wanted):
            self.wrong.append(f"{line} says {said}, and not {list(wanted)}")


def wrong_pages(seen):
    """What is wrong of the pages."""
    found = []
    for path in PAGES:
        with tempfile.TemporaryDirectory() as work:
            page = Page(pathlib.Path(work), seen)
            for step in steps(path):
                page.step(*step)
        print(f"{path.name}: {page.count} commands and programs, {len(page.wrong)} say something else", flush=True)
        found += page.wrong
    return found


def wrong_tests(seen):
    """What fails of the tests."""
    words, seen = ["python3", "-m", "unittest", "discover", "-t", ".", "-s", "tests"], {**seen, "MAXJC": str(PROGRAM)}
    done = subprocess.run(words, cwd=TOP / "python", capture_output=True, text=True, env=seen, timeout=PATIENCE)
    last = [line for line in done.stderr.splitlines() if line.strip()]
    print(f"python/tests: {' '.join(last[-2:])}", flush=True)
    return [done.stderr] if done.returncode else []


def wrong_browser(seen):
    """What a browser makes of a page."""
    browser = shutil.which("chromium") or shutil.which("chromium-browser") or shutil.which("google-chrome")
    if not browser:
        print("no browser is installed here, passed over")
        return []
    with tempfile.TemporaryDirectory() as work:
        page, folder = pathlib.Path(work) / "page.html", TOP / "examples/crossing"
        words = ["python3", "-m", "kalebrush", "page", folder / "crossing.maxj", "--to", page]
        subprocess.run([*words, "--in", f"price={folder}/price.txt"], env=seen, check=True, capture_output=True)
        words = [
            browser,
            "--headless",
            "--no-sandbox",
            "--disable-gpu",
            f"--user-data-dir={work}/browser",
            "--dump-dom",
        ]
        try:
            done = subprocess.run([*words, f"file://{page}#Compare.4"], capture_output=True, text=True, timeout=120)
        except subprocess.TimeoutExpired:
            return ["the browser hadn't ended after 120 s"]
        text = done.stdout
        foreign = re.findall(r'(?:src|href)="(?!data:)[^"]*"|url\([^)]*\)|@import', page.read_text())
    found = [] if 'data-ready="yes"' in text else ["the page's script didn't run"]
    marked = re.findall(r'<tr[^>]*class="[^"]*marked[^"]*"[^>]*>', text)
    ids = sorted(re.findall(r'id="([^"]*)"', " ".join(marked)))
    if ids != ["Compare.4", "Compare:29"] and len(ids) != 2:
        found.append(f"the address marks {ids}")
    if '<section data-kernel="Means" hidden' not in text:
        found.append("the kernels that aren't shown aren't hidden")
    found += [f"the page loads {name}" for name in foreign]
    print(
        f"a page in {pathlib.Path(browser).name}: node and line {', '.join(ids)} marked, {len(found)} things wrong",
        flush=True,
    )
    return found


def free_port():
    with socket.socket() as taken:
        taken.bind(("127.0.0.1", 0))
        return taken.getsockname()[1]


def served(words, address, seen):
    """What a command says while a scheduler with two workers is at an address."""
    scheduler = ["scheduler", "--host", "127.0.0.1", "--port", address.rpartition(":")[2]]
    workers = [["worker", address, "--nthreads", "1", "--name", f"w{number}"] for number in (1, 2)]
    quiet = {"stdout": subprocess.DEVNULL, "stderr": subprocess.DEVNULL, "start_new_session": True}
    started = []
    with tempfile.TemporaryDirectory() as work:
        try:
            for kind, *more in (scheduler, *workers):
                server = ["python3", "-m", f"distributed.cli.dask_{kind}", *more, "--no-dashboard"]
                started.append(subprocess.Popen(server, cwd=work, env=seen, **quiet))
                time.sleep(3)
            return subprocess.run(words, env=seen, capture_output=True, text=True, timeout=PATIENCE)
        finally:
            for server in started:
                os.killpg(server.pid, signal.SIGTERM)
                server.wait(30)


def wrong_cluster(seen):
    """What differs between a sweep here and one by a scheduler with two workers."""
    if not has(PYTHON, "distributed"):
        print("dask.distributed isn't installed here, passed over")
        return []
    folder, address = TOP / "examples/fir", f"tcp://127.0.0.1:{free_port()}"
    tables = [TOP / f"examples/tables/{name}.json" for name in ("zero", "one")]
    words = ["python3", "-m", "kalebrush", "sweep", folder / "fir.maxj", "--in", f"x={folder}/x.txt"]
    words += ["--stalls", "0", "1", "--ticks", "40", "60", "--tables", *tables]
    here = subprocess.run(words, env=seen, capture_output=True, text=True, timeout=PATIENCE)
    there = served([*words, "--scheduler", address], address, seen)
    same = here.stdout == there.stdout and here.stdout.count("\n") == 10
    print(f"a sweep by a scheduler with two workers: {'the same table' if same else 'ANOTHER TABLE'}", flush=True)
    return [] if same else [f"here {here.stdout}{here.stderr}, there {there.stdout}{there.stderr[-2000:]}"]


def main():
    if PYTHON is None:
        print("check_python: no Python here has NumPy, passed over")
        return 0
    build()
    seen, folder = environment()
    try:
        found = [line for part in (wrong_tests, wrong_pages, wrong_browser, wrong_cluster) for line in part(seen)]
    finally:
        shutil.rmtree(folder)
    for line in found:
        print(line)
    print(f"check_python: {len(found)} things wrong")
    return 1 if found else 0


if __name__ == "__main__":
    sys.exit(main())
