#!/usr/bin/env python3
"""Whether the launcher runs the program that it may run, passes on what that says, and tells of builds. No proved program is
needed: programs and an `rt` of a few lines stand for them, in a small tree of crates.

- boot/: run where its checksums, the sources and the toolchain are right, with one line the first time; with a byte of a source,
  of boot/ or of the toolchain's identity changed it isn't run, the reason is said, and the program is built;
- builds: one that fails, one that is broken off, one that works; nothing is left behind;
- standard output, the status and the explanations, with a terminal on standard error and without one, through a symbolic link;
- `--help` and `--version`.

    bench/check_launcher.py     ends with status 1 where something is wrong
"""
import contextlib
import gzip
import os
import pathlib
import pty
import shutil
import signal
import subprocess
import sys
import tempfile
import time

TOP = pathlib.Path(__file__).resolve().parent.parent
sys.path.insert(0, str(TOP / "tools"))

import boot_files

CRATES = "low:\nmiddle: low # below the program\nmaxjc: middle low\nother: low\n"
NAMES = ("low", "middle", "maxjc")
SAYS = r"""#!/bin/bash
case "${1-}" in
  check) printf 'refused S2 2\n'; exit 1 ;;
  zero) printf 'refused T2 a\0b\n'; exit 1 ;;
  two) printf 'refused S2 2\nmore\n'; exit 1 ;;
  dies) kill -9 $$ ;;
  sleeps) echo $$ >pid; exec sleep 60 ;;
  silent) exit "$2" ;;
  who) echo WHO ;;
  *) printf 'usage: ..\n'; exit 2 ;;
esac
"""
# an `rt` that finds one crate proved and proves the others, in a copy without mutants
RT = r"""#!/bin/bash
if [ "$*" = version ]; then
  echo KIT
  exit
fi
[ "$*" = ci ] && [ -e crates.txt ] && [ -e HANDLES ] && [ -d .git ] && [ ! -e crates/low/must-fail ] && [ ! -e crates/other ] || exit 9
pwd >"$NOTES"
printf 'rt: low is kept: an earlier run\nrt: low: its tests are proved\nrt: middle proved\n'
[ -z "$SLEEPS" ] || sleep 60
if [ -n "$FAILS" ]; then
  printf 'rt: maxjc NOT PROVED\n2 passed, 1 failed\n'
  exit 1
fi
printf 'rt: maxjc proved\n4 passed, 0 failed\n'
mkdir -p crates/maxjc/out
cat >crates/maxjc/out/maxjc <<'END'
BUILT
END
chmod +x crates/maxjc/out/maxjc
"""
LINE = b"maxjc: running the program of boot/, built of these sources by kit 1; tools/prove proves and builds it here\n"


def program_of(name):
    return SAYS.replace("WHO", name)


class Tree:
    """A checkout of a few crates in a folder, with an `rt` that can be put on the path."""

    def __init__(self, folder):
        self.top = pathlib.Path(folder) / "top"
        for part in ("maxjc", "tools", "docs/REFUSALS.md", "VERSION"):
            target = self.top / part
            target.parent.mkdir(parents=True, exist_ok=True)
            (shutil.copytree if (TOP / part).is_dir() else shutil.copy2)(TOP / part, target)
        (self.top / "bench").mkdir()
        for script in (TOP / "bench").glob("*.py"):  # the explanations stand on some
            os.symlink(script, self.top / "bench" / script.name)
        (self.top / "crates.txt").write_text(CRATES)
        (self.top / "HANDLES").write_text("Handles allowed: none.\n")
        for name in (*NAMES, "other"):
            for part in ("src", "must-fail"):
                (self.top / "crates" / name / part).mkdir(parents=True)
            (self.top / "crates" / name / "src/lib.rt").write_text(f"// {name}\n")
        self.path = pathlib.Path(folder) / "path"
        self.path.mkdir()
        self.notes = pathlib.Path(folder) / "notes"
        self.temporary = pathlib.Path(folder) / "tmp"
        self.temporary.mkdir()
        self.without_rt = [part for part in os.environ["PATH"].split(":") if not os.access(pathlib.Path(part) / "rt", os.X_OK)]

    def install(self, kit="kit 1"):
        """Puts an `rt` on the path, of a kit."""
        rt = self.path / "rt"
        rt.write_text(RT.replace("KIT", kit).replace("BUILT", program_of("built")))
        rt.chmod(0o755)

    def make_boot(self, kit="kit 1"):
        program = program_of("boot").encode()
        listing = subprocess.run([self.top / "tools/program.sh", "sources"], capture_output=True, check=True).stdout
        parts = {"maxjc.gz": gzip.compress(program, mtime=0), "sources.sha256": listing, "toolchain": f"{kit}\n".encode()}
        (self.top / "boot").mkdir(exist_ok=True)
        for name, data in [*parts.items(), ("SHA256SUMS", boot_files.sums(parts, program))]:
            (self.top / "boot" / name).write_bytes(data)

    def seen(self, **more):
        """The environment of a run."""
        path = ":".join([str(self.path), *self.without_rt])
        plain = {name: value for name, value in os.environ.items() if not name.startswith("MAXJC")}
        return {**plain, "PATH": path, "TMPDIR": str(self.temporary), "NOTES": str(self.notes), "FAILS": "", "SLEEPS": "", **more}

    def run(self, *words, launcher="maxjc", out=subprocess.PIPE, has_terminal=False, **more):
        """The status, what was said, and what standard error got."""
        master, end = pty.openpty() if has_terminal else os.pipe()
        how = {"cwd": self.top, "env": self.seen(**more), "stdin": subprocess.DEVNULL, "timeout": 60}
        ran = subprocess.run([self.top / launcher, *words], stdout=out, stderr=end, **how)
        os.close(end)
        told = b""
        with contextlib.suppress(OSError):  # so a terminal ends
            while piece := os.read(master, 4096):
                told += piece
        os.close(master)
        return ran.returncode, ran.stdout, told

    def is_left(self):
        """What a run left in the folder of temporary files."""
        return sorted(path.name for path in self.temporary.iterdir())


def changed(path, at=0):
    """Changes one byte of a file."""
    data = bytearray(path.read_bytes())
    data[at] ^= 1
    path.write_bytes(data)


# boot/


def wrong_boot(folder):
    tree = Tree(folder)
    tree.make_boot()
    begun = time.monotonic()
    if tree.run("who") != (0, b"boot\n", LINE):
        yield f"a fresh clone without a toolchain: {tree.run('who')}"
    if time.monotonic() - begun > 3:
        yield "a fresh clone takes more than 3 seconds"
    tree.install()
    for what, wanted in (("second", (0, b"boot\n", b"")), ("third", (0, b"boot\n", b""))):
        if (found := tree.run("who")) != wanted:
            yield f"the {what} call of boot/'s program: {found}"
    changed(tree.top / "build/program/boot/maxjc", 40)
    if (found := tree.run("who")) != (0, b"boot\n", LINE):
        yield f"an unpacked program that was changed: {found}"
    if tree.is_left() or tree.notes.exists():
        yield "boot/'s program is run, and something is built or left behind"
    shutil.rmtree(tree.top / "build")
    if (found := tree.run("who", MAXJC_EXPLAIN="0")) != (0, b"boot\n", b""):
        yield f"a quiet launcher: {found}"


def spoiled_source(tree):
    changed(tree.top / "crates/low/src/lib.rt")


def further_source(tree):
    (tree.top / "crates/middle/src/more.rt").write_text("")


def other_line(tree):
    (tree.top / "crates.txt").write_text(CRATES.replace("maxjc: middle", "maxjc opt_level=1: middle"))


def spoiled_part(name):
    def spoil(tree):
        changed(tree.top / "boot" / name, -1 if name == "maxjc.gz" else 3)

    return spoil


def no_part(tree):
    (tree.top / "boot/toolchain").unlink()


def no_boot(tree):
    shutil.rmtree(tree.top / "boot")


def other_kit(tree):
    tree.install("kit 2")


# what is done to a checkout, and what is then said of why boot/ isn't run
SPOILED = [
    (spoiled_source, b"boot/ was built of other sources: crates/low/src/lib.rt differs"),
    (further_source, b"boot/ was built of other sources: crates/middle/src/more.rt differs"),
    (other_line, b"boot/ was built of other sources: crates.txt differs"),
    (spoiled_part("maxjc.gz"), b"boot/ was changed: boot/maxjc.gz doesn't have the checksum"),
    (spoiled_part("sources.sha256"), b"boot/ was changed: boot/sources.sha256 doesn't have the checksum"),
    (spoiled_part("toolchain"), b"boot/ was changed: boot/toolchain doesn't have the checksum"),
    (spoiled_part("SHA256SUMS"), b"boot/ was changed: boot/"),
    (no_part, b"boot/toolchain is missing"),
    (no_boot, b"there is no boot/"),
    (other_kit, b"boot/ was built by kit 1, and the toolchain here is kit 2"),
]


def wrong_spoiled(folder):
    for number, (spoil, why) in enumerate(SPOILED):
        for is_seen in (False, True):  # before its first run, and behind it
            (pathlib.Path(folder) / f"{number}{is_seen}").mkdir()
            tree = Tree(pathlib.Path(folder) / f"{number}{is_seen}")
            tree.make_boot()
            tree.install()
            if is_seen:
                tree.run("who")
            spoil(tree)
            ended, said, told = tree.run("who")
            if (ended, said) != (0, b"built\n") or not told.startswith(b"maxjc: " + why) or b"proving and building" not in told:
                yield f"boot/ behind {spoil.__name__}: status {ended}, {said}, {told}"
            if tree.run("who") != (0, b"built\n", b""):
                yield f"behind {spoil.__name__}, a second call builds again"
    tree = Tree(pathlib.Path(folder))
    tree.make_boot()
    spoiled_source(tree)
    ended, said, told = tree.run("who")
    if (ended, said) != (70, b"") or b"differs" not in told or b"isn't installed" not in told:
        yield f"other sources and no toolchain: status {ended}, {said}, {told}"


def wrong_comparison(folder):
    """tools/boot and bench/check_boot.py, with a program of this machine in place of the one that the gate builds."""
    tree = Tree(folder)
    tree.install()
    script = tree.top / "bench/check_boot.py"
    script.unlink()
    shutil.copy2(TOP / "bench/check_boot.py", script)
    built = tree.top / "crates/maxjc/out/maxjc"

    def compared():
        ran = subprocess.run([script], capture_output=True, env=tree.seen(), cwd=folder)
        return ran.returncode, ran.stdout + ran.stderr

    if compared()[0] or b"passed over" not in compared()[1]:
        yield f"without a program: {compared()}"
    built.parent.mkdir()
    shutil.copy2("/bin/true", built)
    if compared()[0] or b"there is no boot/" not in compared()[1]:
        yield f"without boot/: {compared()}"
    ended, said, told = tree.run(launcher="tools/boot")
    if ended or b"built by kit 1" not in said or compared()[0] or b"byte for byte" not in compared()[1]:
        yield f"tools/boot: {ended}, {said}, {told}, {compared()}"
    with open(built, "ab") as file:
        file.write(b"what isn't loaded")
    if compared()[0] or b"byte for byte" not in compared()[1]:
        yield f"a program with more notes: {compared()}"
    data = bytearray(built.read_bytes())
    data[4096] ^= 1
    built.write_bytes(data)
    if compared()[0] != 1 or b"from byte 4096 on" not in compared()[1]:
        yield f"another program: {compared()}"
    spoiled_source(tree)
    if compared()[0] or b"crates/low/src/lib.rt differs" not in compared()[1]:
        yield f"other sources: {compared()}"
    changed(tree.top / "boot/maxjc.gz", 200)
    if compared()[0] != 1:
        yield f"a broken boot/: {compared()}"


# Builds


def wrong_builds(folder):
    tree = Tree(folder)
    tree.install()
    ended, said, told = tree.run("who", FAILS="1")
    if (ended, said) != (70, b"") or b"maxjc NOT PROVED" not in told or b"the build failed; what it said is in" not in told:
        yield f"a build that fails: status {ended}, {said}, {told}"
    log = tree.top / "build/prove.log"
    if not log.read_text().endswith("2 passed, 1 failed\n"):
        yield "a build that fails leaves no log"
    ended, said, told = tree.run("who")
    most = len(NAMES)
    done = [f"done with {name}, {most - count} of {most} crates left".encode() for count, name in enumerate(NAMES, 1)]
    if (ended, said) != (0, b"built\n") or not all(line in told for line in done) or told.count(b"done with") != len(done):
        yield f"a build: status {ended}, {said}, {told}"
    for word in (b"hour", b"memory", b"disk"):
        if word not in told:
            yield f"a build doesn't say its {word}"
    tree.notes.unlink()
    if tree.run("who") != (0, b"built\n", b"") or tree.notes.exists():
        yield "a second call builds again"
    os.utime(tree.top / "crates/low/src/lib.rt")
    if tree.run("who") != (0, b"built\n", b"") or tree.notes.exists():
        yield "a file that is touched, and not changed, builds again"
    tree.make_boot()
    if tree.run("who") != (0, b"built\n", b""):
        yield "boot/'s program is run where one was proved here"
    ended, said, _ = tree.run(launcher="tools/prove")
    if (ended, said) != (0, b"") or not tree.notes.exists():
        yield f"tools/prove: status {ended}, {said}"
    if tree.is_left():
        yield f"builds leave {tree.is_left()} behind"


def wrong_breaks(folder):
    """A build, and a run with its output held back, that are broken off."""
    tree = Tree(folder)
    tree.install()
    for sent in (signal.SIGTERM, signal.SIGINT, signal.SIGHUP):
        tree.notes.unlink(missing_ok=True)
        job = subprocess.Popen([tree.top / "maxjc", "who"], env=tree.seen(SLEEPS="1"), stderr=subprocess.DEVNULL, stdout=subprocess.DEVNULL)
        until(tree.notes.exists)
        time.sleep(0.2)
        os.kill(job.pid, sent)
        children = [int(pid) for pid in open(f"/proc/{job.pid}/task/{job.pid}/children").read().split()]
        for child in children:  # as a terminal does, for the one that waits for its child
            os.kill(child, sent)
        if job.wait(20) != 70 and job.returncode != 128 + sent:
            yield f"a build that is broken off by {sent.name} ends with {job.returncode}"
        until(lambda: not tree.is_left())
        if tree.is_left():
            yield f"a build that is broken off by {sent.name} leaves {tree.is_left()} behind"
    tree.run("who")
    job = subprocess.Popen([tree.top / "maxjc", "sleeps"], cwd=tree.top, env=tree.seen(MAXJC_EXPLAIN="1"), stdout=subprocess.DEVNULL)
    until((tree.top / "pid").exists)
    job.terminate()
    pid = int((tree.top / "pid").read_text())
    job.wait(20)
    until(lambda: not pathlib.Path(f"/proc/{pid}").exists())
    if pathlib.Path(f"/proc/{pid}").exists():
        yield "a run that is broken off goes on"


def until(holds, seconds=10):
    """Waits until something holds, but not for long."""
    end = time.monotonic() + seconds
    while not holds() and time.monotonic() < end:
        time.sleep(0.05)


# What is passed on

EXPLAINED = b"k.maxj:1:3: refused S2\n  a #\n    ^\n"
# the words; what is said, and the status; how the explanation begins
LAUNCHED = [
    (["check", "k.maxj", "t", "r"], b"refused S2 2\n", 1, EXPLAINED),
    (["check", "none.maxj", "t", "r"], b"refused S2 2\n", 1, b"none.maxj: refused S2 (byte 2)\n"),
    (["zero"], b"refused T2 a\0b\n", 1, b""),
    (["two"], b"refused S2 2\nmore\n", 1, b""),
    (["usage"], b"usage: ..\n", 2, b""),
    (["silent", "0"], b"", 0, b""),
    ([], b"usage: ..\n", 2, b""),
    (["--help", "more"], b"usage: ..\n", 2, b""),
]


def wrong_launches(folder):
    tree = Tree(folder)
    tree.install()
    tree.run("who")
    (tree.top / "k.maxj").write_text("a #\n")
    os.symlink("../top/maxjc", pathlib.Path(folder) / "path/linked")
    for words, wanted, status, begin in LAUNCHED:
        for told_how, more in ((True, {"has_terminal": True}), (False, {}), (True, {"MAXJC_EXPLAIN": "1"}),
                               (False, {"has_terminal": True, "MAXJC_EXPLAIN": "0"}), (True, {"MAXJC_EXPLAIN": "1", "launcher": "../path/linked"})):
            ended, said, told = tree.run(*words, **more)
            told = told.replace(b"\r\n", b"\n")
            begins = told.startswith(begin) and (begin or not told) if told_how else not told
            if (ended, said) != (status, wanted) or not begins:
                yield f"maxjc {words} {more}: status {ended}, {said}, {told}"
    for has_terminal in (True, False):
        if tree.run("dies", has_terminal=has_terminal)[0] not in (-9, 128 + 9):
            yield "maxjc: a program that is killed ends as if it weren't"
    with open("/dev/full", "wb") as full:
        ended, _, told = tree.run("usage", has_terminal=True, out=full)
    if ended != 4 or b"standard output" not in told:
        yield f"maxjc onto a full device: status {ended}, {told}"
    if tree.is_left():
        yield f"runs leave {tree.is_left()} behind"


def wrong_own_words(folder):
    tree = Tree(folder)
    for word, wanted in (("--help", [b"compile SRC", b"simulate TEXT", b"expect SRC", b"check SRC", b"MAXJC_EXPLAIN", b"70", b"TUTORIAL"]),
                         ("--version", [b"maxjc " + (TOP / "VERSION").read_bytes(), b"commit: ", b"toolchain: none"])):
        ended, said, told = tree.run(word)
        if ended or told or not all(part in said for part in wanted):
            yield f"{word}: status {ended}, {said}, {told}"
        if max(map(len, said.splitlines())) > 120:
            yield f"{word} has a line of over 120 columns"
    tree.install()
    if b"toolchain: kit 1\n" not in tree.run("--version")[1] or tree.notes.exists():
        yield "--version with a toolchain"


def main():
    found = []
    for wrong in (wrong_boot, wrong_spoiled, wrong_comparison, wrong_builds, wrong_breaks, wrong_launches, wrong_own_words):
        with tempfile.TemporaryDirectory() as folder:
            found += wrong(folder)
    for line in found:
        print(line)
    print(f"check_launcher: {len(SPOILED)} ways to spoil boot/, {len(LAUNCHED)} calls, {len(found)} wrong")
    return 1 if found else 0


if __name__ == "__main__":
    sys.exit(main())
