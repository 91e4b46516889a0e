#!/usr/bin/env python3
"""Tells each line that is too long to read: over 160 columns in code and definitions, over 200 in proofs.

    bench/check_lines.py
"""
import pathlib
import sys

TOP = pathlib.Path(__file__).resolve().parent.parent
LIMITS = {"src": 160, "specs": 160, "proofs": 200}


def too_long(path, limit):
    """The numbers of the lines of a file that have more columns than the limit, with their columns."""
    with path.open(encoding="utf-8") as lines:
        for number, line in enumerate(lines, 1):
            columns = len(line.rstrip("\n"))
            if columns > limit:
                yield number, columns


def main():
    count = 0
    for part, limit in LIMITS.items():
        for path in sorted(TOP.glob(f"crates/*/{part}/**/*")):
            if path.suffix not in (".rt", ".antt"):
                continue
            for number, columns in too_long(path, limit):
                print(f"{path.relative_to(TOP)}:{number}: {columns} columns, at most {limit}")
                count += 1
    print(f"lines too long: {count}")
    sys.exit(count > 0)


if __name__ == "__main__":
    main()
