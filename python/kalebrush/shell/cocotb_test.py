"""A test in cocotb of the wrapper over the words of a run."""
from __future__ import annotations

from kalebrush.shell import registers
from kalebrush.shell.registers import map_of
from kalebrush.shell.testbench import RunWords
from kalebrush.shell.top import Top

TEST = '''"""Drives {module} over the words of a run with random gaps; run it by `make -f cocotb.mk`."""
import pathlib
import random

import cocotb
from cocotb.clock import Clock
from cocotb.triggers import FallingEdge

HERE = pathlib.Path(__file__).resolve().parent
INPUTS = {inputs}
OUTPUTS = {outputs}
SETTINGS = {settings}
CONTROL, STATUS, CYCLES = {control}, {status}, {cycles}
STALL = 0.25


def words(kind, name, count):
    """The words of a file of the run."""
    return [int(line, 16) for line in (HERE / f"{{kind}}_{{name}}.mem").read_text().split()][:count]


async def write(dut, address, value):
    """Writes a register."""
    dut.s_axil_awaddr.value, dut.s_axil_wdata.value, dut.s_axil_wstrb.value = address, value, 15
    dut.s_axil_awvalid.value = dut.s_axil_wvalid.value = dut.s_axil_bready.value = 1
    await FallingEdge(dut.aclk)
    dut.s_axil_awvalid.value = dut.s_axil_wvalid.value = 0
    while not int(dut.s_axil_bvalid.value):
        await FallingEdge(dut.aclk)
    await FallingEdge(dut.aclk)
    dut.s_axil_bready.value = 0


async def read(dut, address):
    """The word of a register."""
    dut.s_axil_araddr.value = address
    dut.s_axil_arvalid.value = dut.s_axil_rready.value = 1
    await FallingEdge(dut.aclk)
    dut.s_axil_arvalid.value = 0
    while not int(dut.s_axil_rvalid.value):
        await FallingEdge(dut.aclk)
    value = int(dut.s_axil_rdata.value)
    await FallingEdge(dut.aclk)
    dut.s_axil_rready.value = 0
    return value


async def offer(dut, name, found):
    """Offers words to an input, with gaps. What is set at a falling edge moves at the rising edge behind it."""
    data, valid, ready = (getattr(dut, f"s_axis_{{name}}_{{end}}") for end in ("tdata", "tvalid", "tready"))
    for word in found:
        while random.random() < STALL:
            valid.value = 0
            await FallingEdge(dut.aclk)
        data.value, valid.value = word, 1
        while True:
            await cocotb.triggers.RisingEdge(dut.aclk)
            moved = int(ready.value)
            await FallingEdge(dut.aclk)
            if moved:
                break
        valid.value = 0


async def accept(dut, name, left):
    """Accepts the words of an output, with gaps."""
    ends = ("tdata", "tvalid", "tready", "tlast")
    data, valid, ready, last = (getattr(dut, f"m_axis_{{name}}_{{end}}") for end in ends)
    while True:
        ready.value = int(random.random() >= STALL)
        await cocotb.triggers.RisingEdge(dut.aclk)
        if int(ready.value) and int(valid.value):
            left.append((data.value, int(last.value)))
        await FallingEdge(dut.aclk)


@cocotb.test()
async def words_of_the_run(dut):
    """The words that leave are those that are expected, where these are defined."""
    random.seed(1)
    for name in ("awvalid", "wvalid", "bready", "arvalid", "rready", "wstrb", "awaddr", "araddr", "wdata"):
        getattr(dut, f"s_axil_{{name}}").value = 0
    for name, _ in INPUTS:
        getattr(dut, f"s_axis_{{name}}_tvalid").value = 0
        getattr(dut, f"s_axis_{{name}}_tdata").value = 0
    for name, *_ in OUTPUTS:
        getattr(dut, f"m_axis_{{name}}_tready").value = 0
    dut.aresetn.value = 0
    cocotb.start_soon(Clock(dut.aclk, 10, "ns").start())
    for _ in range(5):
        await FallingEdge(dut.aclk)
    dut.aresetn.value = 1
    left = {{name: [] for name, *_ in OUTPUTS}}
    for name, count in INPUTS:
        cocotb.start_soon(offer(dut, name, words("in", name, count)))
    for name, *_ in OUTPUTS:
        cocotb.start_soon(accept(dut, name, left[name]))
    for address, value in SETTINGS:
        await write(dut, address, value)
    await write(dut, CONTROL, 1)
    while not await read(dut, STATUS) & 2:
        pass
    for name, width, count, is_whole in OUTPUTS:
        assert len(left[name]) == count, f"{{name}}: {{len(left[name])}} words and not {{count}}"
        known = words("known", name, count)
        for number, (wanted, is_known) in enumerate(zip(words("out", name, count), known)):
            word, last = left[name][number]
            assert last == (is_whole and number == count - 1), f"{{name}}: tlast at word {{number}}"
            if is_known:
                assert int(word) % 2**width == wanted, f"{{name}}: word {{number}} is {{word}} and not {{wanted:x}}"
    dut._log.info(f"done after {{await read(dut, CYCLES)}} cycles")
'''

MAKEFILE = """# The test in cocotb: `make -f cocotb.mk`, or with SIM=verilator.
SIM ?= icarus
TOPLEVEL_LANG = verilog
VERILOG_SOURCES = $(PWD)/{text} $(PWD)/{module}.v
TOPLEVEL = {module}
COCOTB_TOPLEVEL = {module}
MODULE = test_{module}
COCOTB_TEST_MODULES = test_{module}
ifeq ($(SIM),verilator)
EXTRA_ARGS += -Wno-fatal -Wno-lint
endif
include $(shell cocotb-config --makefiles)/Makefile.sim
"""


def cocotb_test(top: Top, module: str, run: RunWords) -> str:
    """The text of the test."""
    outputs = []
    for stream in top.outputs:
        count = len(run.outputs[stream.name][0])
        outputs.append((stream.name, stream.width, count, count == run.ticks[stream.kernel]))
    values, settings = run.values(top), []
    for register in map_of(top).values:
        for address, low, high in register.parts():
            settings.append((address, values[register.net] >> low & (1 << (high - low + 1)) - 1))
    return TEST.format(
        module=module,
        inputs=[(stream.name, len(run.inputs[stream.name])) for stream in top.inputs],
        outputs=outputs,
        settings=settings,
        control=registers.CONTROL,
        status=registers.STATUS,
        cycles=registers.CYCLES,
    )
