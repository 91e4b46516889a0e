"""Kalebrush from Python: arrays in, arrays out.

The package calls the program `maxjc`, which compiles kernels to Verilog, simulates that text, and works out from the
source alone which words a run must give. Nothing here is part of what is proved: it converts values, starts the program
and draws what it says.

    from kalebrush import Project
    project = Project("blur.maxj", "one.json")
    left = project.simulate({"x": picture})
    wanted = project.expect({"x": picture})
"""
from kalebrush.errors import KalebrushError, ProgramError, Refusal, ValueRefused
from kalebrush.project import Comparison, Difference, Expected, Project, Simulated
from kalebrush.types import WordType

__all__ = [
    "Comparison",
    "Difference",
    "Expected",
    "KalebrushError",
    "ProgramError",
    "Project",
    "Refusal",
    "Simulated",
    "ValueRefused",
    "WordType",
]
__version__ = "1.0"
