#!/usr/bin/env python3
"""Compares the program that the gate just built with that of boot/, byte for byte, where both are of the same sources. Where they are,
it also tries a fresh clone: the first call of the launcher is to say its line within 3 seconds.

    bench/check_boot.py     ends with status 1 where the two differ, or boot/ is broken, or the fresh clone is slow
"""
import pathlib
import shutil
import subprocess
import sys
import tempfile
import time

TOP = pathlib.Path(__file__).resolve().parent.parent
sys.path.insert(0, str(TOP / "tools"))

import boot_files

RENEW = "tools/boot renews it"
NEEDED = ("maxjc", "VERSION", "crates.txt", "HANDLES", "tools", "boot", "examples/double", "examples/tables")
CALL = "compile examples/double/double.maxj examples/tables/zero.json double.v double.report".split()
LINE = b"kernel Double fifo 0\n"
SECONDS = 3


def first_other(sources, others):
    """The first source whose checksum differs between two listings, or that only one of them has."""
    return min(line.split("  ")[1] for line in set(sources.decode().splitlines()) ^ set(others.decode().splitlines()))


def judged(program, boot, sources, toolchain):
    """Whether a program that was built of sources by a toolchain may stand beside boot/, and what is said of the two."""
    if boot is None:
        return True, "there is no boot/; tools/boot makes it"
    packed, built_of, built_by = boot
    if built_of != sources:
        return True, f"boot/ was built of other sources ({first_other(sources, built_of)} differs), nothing to compare; {RENEW}"
    if program == packed:
        return True, f"the program that was built is that of boot/, byte for byte: {len(packed)} bytes"
    at = next((at for at, (a, b) in enumerate(zip(program, packed)) if a != b), min(len(program), len(packed)))
    who = "" if built_by == toolchain else f", which was built by {built_by.decode().strip()}"
    return False, f"the program that was built differs from that of boot/{who}, from byte {at} on; {RENEW}"


def wrong_fresh():
    """What is wrong of the first call of the launcher in a clone in which nothing is kept, or None."""
    with tempfile.TemporaryDirectory() as folder:
        clone = pathlib.Path(folder)
        for part in [*NEEDED, *(str(path.relative_to(TOP)) for path in TOP.glob("crates/*/src"))]:
            (clone / part).parent.mkdir(parents=True, exist_ok=True)
            (shutil.copytree if (TOP / part).is_dir() else shutil.copy2)(TOP / part, clone / part)
        begun = time.monotonic()
        ran = subprocess.run([clone / "maxjc", *CALL], capture_output=True, cwd=clone)
        seconds = time.monotonic() - begun
    if ran.returncode or ran.stdout != LINE or seconds > SECONDS:
        return f"in a fresh clone the launcher says {ran.stdout} and {ran.stderr}, with status {ran.returncode}, after {seconds:.1f} seconds"
    return None


def main():
    if not boot_files.BUILT.exists():
        print("check_boot: the program isn't built here, passed over")
        return 0
    try:
        program = boot_files.loaded_part(boot_files.BUILT.read_bytes())
        boot, sources = boot_files.read(), boot_files.sources_now()
        good, said = judged(program, boot, sources, boot_files.toolchain_now())
        wrong = wrong_fresh() if good and boot and boot[1] == sources and (TOP / CALL[1]).exists() else None
        good, said = good and not wrong, f"{said}; {wrong}" if wrong else said
    except (OSError, EOFError, boot_files.NoProgram) as error:
        good, said = False, str(error)
    print(f"check_boot: {said}")
    return 0 if good else 1


if __name__ == "__main__":
    sys.exit(main())
