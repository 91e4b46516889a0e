#!/usr/bin/env python3
"""The time and memory of building runs at the limit of steps, and of what grows most.

Each source is compiled by the built program, so its constructor runs twice where it ends well: loops of
arithmetic, of calls and of string joins up to the last step that is allowed (found by trying), arrays of as
many elements as there are steps, locals and fields in great numbers, and the deepest nesting that the
grammar has. Each is a kernel without nodes, and is compiled.

    bench/building_speed.py
"""
import sys

from compile_size import measure

HEAD = "class K extends Kernel {\n%s  K(KernelParameters p) {\n    super(p);\n%s  }\n}\n"
DONE = "kernel K fifo 0"
TIME_BAR = 1.0  # seconds of a run at the limit of steps, twice
MEMORY_BAR = 2 << 30


def kernel(body, members=""):
    return HEAD % (members, body)


def adding(turns):
    return kernel(f"    int a = 0;\n    for (int i = 0; i < {turns}; i++) a = a + i;\n")


def calling(turns):
    return kernel(f"    int a = 0;\n    for (int i = 0; i < {turns}; i++) a = f(a);\n", "  int f(int n) { return n + 1; }\n")


def joining(turns):
    text = "x" * 32
    return kernel(f'    String s = "";\n    for (int i = 0; i < {turns}; i++) s = "{text}" + "{text}";\n')


def keeping(turns):
    text = "x" * 64
    return kernel(f'    String[][] s = new String[30][1000];\n    for (int i = 0; i < {turns}; i++) s[i / 1000 % 30][i % 1000] = "{text}";\n')


def arrays(count):
    return kernel(f"    for (int i = 0; i < {count}; i++) {{ int[] a = new int[65536]; }}\n")


def little_arrays(turns):
    return kernel(f"    for (int i = 0; i < {turns}; i++) {{ int[] a = new int[1]; }}\n")


def local_names(count):
    return kernel("".join(f"int v{n};\n" for n in range(count)))


def field_names(count):
    return kernel("    f1 = 1;\n" * 1000, "".join(f"  int f{n};\n" for n in range(count)))


def operands(count):
    return kernel("    int a = 1" + " + 1" * count + ";\n")


def else_ifs(count):
    return kernel("    int a = 0;\n    if (a == 1) { }" + " else if (a == 1) { }\n" * count + "\n")


def nested(depth):
    call = "(" * depth + "n" + ")" * depth
    return kernel("    int a = f(64);\n", f"  int f(int n) {{ return n > 1 ? f({call} - 1) : {call}; }}\n")


def most(make, high):
    """The greatest number for which the source isn't refused by its steps."""
    low = 0
    while low + 1 < high:
        middle = (low + high) // 2
        if measure(make(middle))[1] == "refused E7":
            high = middle
        else:
            low = middle
    return low


def main():
    bad = False
    for name, make, high in [
        ("additions", adding, 400_000),
        ("calls of a method", calling, 400_000),
        ("joined strings", joining, 400_000),
        ("strings in arrays", keeping, 400_000),
        ("arrays of 65,536 elements", arrays, 32),
        ("arrays of one element", little_arrays, 400_000),
    ]:
        count = most(make, high)
        status, said, seconds, memory = measure(make(count))
        bad |= said != DONE or seconds > TIME_BAR or memory > MEMORY_BAR
        print(f"{count} {name}, the most that the steps allow: {said}, {seconds:.2f} s, {memory / 2**20:.0f} MiB")
    for name, source in [
        ("100,000 locals", local_names(100_000)),
        ("990,000 locals", local_names(990_000)),
        ("1,000,000 fields, of which one is set 1,000 times", field_names(1_000_000)),
        ("a sum of 990 operands, the most between two `;`", operands(990)),
        ("an if of 10,000 else ifs", else_ifs(10_000)),
        ("190 parentheses in 64 calls", nested(190)),
    ]:
        status, said, seconds, memory = measure(source)
        bad |= said != DONE or memory > MEMORY_BAR
        print(f"{name}: {said}, {seconds:.2f} s, {memory / 2**20:.0f} MiB, {len(source) / 2**20:.1f} MiB of source")
    return 1 if bad else 0


if __name__ == "__main__":
    sys.exit(main())
