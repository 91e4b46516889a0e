"""What the tests share."""
import os
import pathlib
import unittest

TOP = pathlib.Path(__file__).resolve().parents[2]
EXAMPLES = TOP / "examples"
ONE = EXAMPLES / "tables/one.json"
BUILT = (TOP / "crates/maxjc/out/maxjc", TOP / "boot")
IS_BUILT = bool(os.environ.get("MAXJC")) or any(path.exists() for path in BUILT)

needs_program = unittest.skipUnless(IS_BUILT, "the program isn't built here")


def has(module: str) -> bool:
    """Whether a module is installed."""
    try:
        __import__(module)
    except ModuleNotFoundError:
        return False
    return True


def kernel(body: str, name: str = "K") -> str:
    """The text of a kernel with this body."""
    return f"class {name} extends Kernel {{\n  {name}(KernelParameters p) {{\n    super(p);\n{body}\n  }}\n}}\n"


DOUBLE = kernel('    DFEVar x = io.input("x", dfeUInt(8));\n    io.output("y", x + x, dfeUInt(8));', "Double")
# whether a word leaves in the first tick hangs on what a register holds at first
UNGUARDED = kernel(
    '    DFEVar x = io.input("x", dfeUInt(8));\n    io.output("y", x, dfeUInt(8), stream.offset(x, -1) > 3);', "Loose"
)
EVERY_THIRD = kernel(
    '    DFEVar x = io.input("x", dfeInt(12));\n'
    "    DFEVar isThird = control.count.simpleCounter(2, 3) === 0;\n"
    '    DFEVar by = io.scalarInput("by", dfeInt(12));\n'
    '    io.output("y", x * by, dfeInt(12), isThird);',
    "Third",
)
