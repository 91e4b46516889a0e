"""What tools need beside the Verilog: constraints, waivers, a core file, a test in cocotb, and a page."""
from __future__ import annotations

from kalebrush.shell import registers
from kalebrush.shell.registers import map_of
from kalebrush.shell.top import Top

WAIVERS = """`verilator_config
// A text has several modules, so a file isn't named as each of them.
lint_off -rule DECLFILENAME
// The bits that a cast or a rounding leaves behind are read by nothing.
lint_off -rule UNUSEDSIGNAL -file "*" -match "Bits of signal are not used*"
// The word of a node that no output hangs on is read by nothing: a kernel has all nodes that its source makes.
lint_off -rule UNUSEDSIGNAL -file "*" -match "Signal is not used*"
// A port of time 0 is due from the first position on, which no number is below.
lint_off -rule UNSIGNED
"""

XDC = """# Vivado. The period is in nanoseconds: change it to that of your clock.
create_clock -name aclk -period {period} [get_ports aclk]
# Where the ports are pins of the device, give each its place and its voltage:
# set_property -dict {{PACKAGE_PIN W5 IOSTANDARD LVCMOS33}} [get_ports aclk]
# Retiming moves the registers of a latency into the operation:
# synth_design -top {module} -retiming
"""

SDC = """# Quartus and other tools that read SDC.
create_clock -name aclk -period {period} [get_ports aclk]
# derive_pll_clocks
# derive_clock_uncertainty
# set_false_path -from [get_ports aresetn]
"""

PCF = """# nextpnr-ice40. Each port of the top module that is a pin has a line; the pins are those of your board.
set_frequency aclk {mhz}
# set_io aclk 35
# set_io aresetn 10
"""

LPF = """# nextpnr-ecp5.
FREQUENCY PORT "aclk" {mhz} MHZ;
# LOCATE COMP "aclk" SITE "G2";
# IOBUF PORT "aclk" IO_TYPE=LVCMOS33;
"""

CORE = """CAPI=2:
name: {name}
description: AXI ports around a design that maxjc compiled

filesets:
  rtl:
    files:
      - {text}
      - {module}.v
    file_type: verilogSource
  waivers:
    files:
      - waivers.vlt: {{file_type: vlt}}
{bench_files}  vivado:
    files:
      - {module}.xdc: {{file_type: xdc}}
  quartus:
    files:
      - {module}.sdc: {{file_type: SDC}}
  ice40:
    files:
      - {module}.pcf: {{file_type: PCF}}
  ecp5:
    files:
      - {module}.lpf: {{file_type: LPF}}

targets:
  default: &default
    filesets: [rtl]
    toplevel: {module}
  lint:
    <<: *default
    filesets: [rtl, waivers]
    default_tool: verilator
    tools:
      verilator:
        mode: lint-only
        verilator_options: [-Wall]
{bench_target}  vivado:
    <<: *default
    filesets: [rtl, vivado]
    default_tool: vivado
    tools:
      vivado: {{part: xc7a35tcpg236-1, pnr: none}}
  quartus:
    <<: *default
    filesets: [rtl, quartus]
    default_tool: quartus
    tools:
      quartus: {{family: Cyclone V, device: 5CSEBA6U23I7}}
  ice40:
    <<: *default
    filesets: [rtl, ice40]
    default_tool: icestorm
    tools:
      icestorm: {{nextpnr_options: [--hx8k, --package, ct256, --pcf-allow-unconstrained]}}
  ecp5:
    <<: *default
    filesets: [rtl, ecp5]
    default_tool: trellis
    tools:
      trellis: {{nextpnr_options: [--45k, --package, CABGA381, --lpf-allow-unconstrained]}}
"""

BENCH_FILES = """  bench:
    files:
      - tb_{module}.v: {{file_type: verilogSource}}
{words}
"""

BENCH_TARGET = """  sim:
    <<: *default
    filesets: [rtl, bench]
    toplevel: tb_{module}
    default_tool: icarus
    tools:
      icarus: {{iverilog_options: [-g2005]}}
"""


def constraints(module: str, mhz: float) -> dict[str, str]:
    """The stubs of constraint files, by their names."""
    values = {"module": module, "period": f"{1000 / mhz:.3f}", "mhz": f"{mhz:g}"}
    texts = {"xdc": XDC, "sdc": SDC, "pcf": PCF, "lpf": LPF}
    return {f"{module}.{end}": text.format(**values) for end, text in texts.items()}


def core_file(top: Top, module: str, text: str, has_run: bool) -> str:
    """The core file of FuseSoC."""
    memories = [f"in_{stream.name}.mem" for stream in top.inputs]
    memories += [f"{kind}_{stream.name}.mem" for stream in top.outputs for kind in ("out", "known")]
    lines = "\n".join(f"      - {name}: {{file_type: user, copyto: {name}}}" for name in memories)
    return CORE.format(
        name=f"kalebrush::{module}:1.0",
        text=text,
        module=module,
        bench_files=BENCH_FILES.format(module=module, words=lines) if has_run else "",
        bench_target=BENCH_TARGET.format(module=module) if has_run else "",
    )


def register_table(top: Top) -> str:
    """The registers as a table of a page."""
    rows = [
        (registers.CONTROL, "control", "write 1 to bit 0: start a run"),
        (registers.STATUS, "status", "bit 0: a run is going on; bit 1: the last run is done"),
        (registers.CYCLES, "cycles", "the clock cycles of the run, bits 31 to 0; bits 63 to 32 behind them"),
        (
            registers.HOLD,
            "hold",
            "bit K holds kernel K: " + ", ".join(f"{n} {name}" for n, name in enumerate(top.kernels)),
        ),
    ]
    for register in map_of(top).values:
        for address, low, high in register.parts():
            rows.append((address, register.told, f"bits {high} to {low}"))
    return "| address | register | |\n|---|---|---|\n" + "".join(
        f"| 0x{at:02x} | {name} | {told} |\n" for at, name, told in rows
    )


def page(top: Top, module: str, text: str, has_run: bool) -> str:
    """The page of the folder."""
    lines = [
        f"# {module}\n",
        f"AXI ports around `{top.module}` of `{text}`. The clock is `aclk`; `aresetn` is low for one edge or more.\n",
    ]
    lines.append("| stream | bits | bus |\n|---|---|---|")
    lines += [f"| input `{stream.name}` | {stream.width} | `s_axis_{stream.name}` |" for stream in top.inputs]
    lines += [f"| output `{stream.name}` | {stream.width} | `m_axis_{stream.name}` |" for stream in top.outputs]
    lines += ["", register_table(top), "Ticks and scalars can't be written while a run is going on.\n", "```"]
    if has_run:
        sources = f"{text} {module}.v tb_{module}.v"
        lines.append(f"iverilog -g2005 -s tb_{module} -o tb.vvp {sources} && vvp tb.vvp +stall=64 +seed=1")
        flags = "--binary --timing -Wno-fatal -Wno-lint -Wno-STMTDLY -Wno-TIMESCALEMOD"
        lines.append(f"verilator {flags} --top-module tb_{module} {sources}")
        lines.append("make -f cocotb.mk")
    lines.append(f"verilator --lint-only -Wall --top-module {module} waivers.vlt {text} {module}.v")
    lines.append(f'yosys -p "read_verilog {text} {module}.v; synth_ice40 -top {module} -json {module}.json"')
    return "\n".join([*lines, "```", ""])
