"""The wrapper: AXI4-Stream ports and AXI4-Lite registers around the top module of a compiled text."""
from __future__ import annotations

from kalebrush.shell import registers
from kalebrush.shell.registers import Map, map_of, scalar_net
from kalebrush.shell.top import TICK_BITS, Stream, Top

LITE = [
    ("input", "awaddr", "address"),
    ("input", "awvalid", 1),
    ("output", "awready", 1),
    ("input", "wdata", 32),
    ("input", "wstrb", 4),
    ("input", "wvalid", 1),
    ("output", "wready", 1),
    ("output", "bresp", 2),
    ("output", "bvalid", 1),
    ("input", "bready", 1),
    ("input", "araddr", "address"),
    ("input", "arvalid", 1),
    ("output", "arready", 1),
    ("output", "rdata", 32),
    ("output", "rresp", 2),
    ("output", "rvalid", 1),
    ("input", "rready", 1),
]

HEAD = """// {module}: AXI ports around {top}, written by `python3 -m kalebrush shell`.
// Streams move while a run is going on. A host sets ticks and scalars, writes 1 to the control register,
// and waits for done.
"""

CONTROL = """
  // A run: the core is in reset between runs, and nothing is offered to it then.
  reg running, finished;
  wire active = running & aresetn;
  reg [63:0] cycles;
  wire core_done;
  wire start = write & (write_address == {address_bits}'h{control:x}) & s_axil_wstrb[0] & s_axil_wdata[0] & ~running;
  always @(posedge aclk) begin
    if (~aresetn) begin
      running <= 1'b0;
      finished <= 1'b0;
      cycles <= 64'd0;
    end else if (start) begin
      running <= 1'b1;
      finished <= 1'b0;
      cycles <= 64'd0;
    end else if (running) begin
      running <= ~core_done;
      finished <= core_done;
      cycles <= cycles + {{63'd0, ~core_done}};
    end
  end
"""

WRITES = """
  // Writes: address and data are taken in one edge, and then the response is given.
  reg responds;
  wire write = aresetn & s_axil_awvalid & s_axil_wvalid & ~responds;
  wire [{last}:0] write_address = {{s_axil_awaddr[{last}:2], 2'b00}};
  assign s_axil_awready = write;
  assign s_axil_wready = write;
  assign s_axil_bresp = 2'b00;
  assign s_axil_bvalid = responds;
  always @(posedge aclk)
    if (~aresetn) responds <= 1'b0;
    else responds <= write | (responds & ~s_axil_bready);
"""

READS = """
  // Reads: the word of an address is given one edge later.
  reg answers;
  reg [31:0] answer, chosen;
  wire [{last}:0] read_address = {{s_axil_araddr[{last}:2], 2'b00}};
  assign s_axil_arready = aresetn & s_axil_arvalid & ~answers;
  assign s_axil_rdata = answer;
  assign s_axil_rresp = 2'b00;
  assign s_axil_rvalid = answers;
  always @(posedge aclk) begin
    if (~aresetn) answers <= 1'b0;
    else answers <= s_axil_arready | (answers & ~s_axil_rready);
    if (s_axil_arready) answer <= chosen;
  end
"""

UNUSED = """
  // An address counts bytes, and its low bits don't matter.
  wire unused = |{s_axil_awaddr[1:0], s_axil_araddr[1:0], 1'b0};
"""


def wrapper(top: Top, module: str, signed: set[str] = frozenset()) -> str:
    """The text of the wrapper. The words of outputs in `signed` are extended by their sign, all others by zeros."""
    found = map_of(top)
    parts = [HEAD.format(module=module, top=top.module), header(top, module, found)]
    parts.append(WRITES.format(last=found.address_bits - 1))
    parts.append(CONTROL.format(address_bits=found.address_bits, control=registers.CONTROL))
    parts.append(value_registers(top, found))
    parts.append(READS.format(last=found.address_bits - 1))
    parts.append(read_choice(top, found))
    parts += [input_logic(stream) for stream in top.inputs]
    parts += [output_logic(stream, stream.name in signed) for stream in top.outputs]
    parts += [core(top), UNUSED, "endmodule\n"]
    return "".join(parts)


def bits(width: int) -> str:
    """A range as it stands in a declaration."""
    return f"[{width - 1}:0] " if width > 1 else ""


def header(top: Top, module: str, found: Map) -> str:
    """The module's ports. Vivado reads which buses go by the clock from the attribute."""
    buses = [
        "s_axil",
        *(f"s_axis_{stream.name}" for stream in top.inputs),
        *(f"m_axis_{stream.name}" for stream in top.outputs),
    ]
    clock = f'(* X_INTERFACE_PARAMETER = "ASSOCIATED_BUSIF {":".join(buses)}, ASSOCIATED_RESET aresetn" *)\n  '
    ports = [clock + "input wire aclk", "input wire aresetn"]
    for way, name, width in LITE:
        ports.append(f"{way} wire {bits(found.address_bits if width == 'address' else width)}s_axil_{name}")
    for stream in top.inputs:
        begin = f"s_axis_{stream.name}"
        ports += [
            f"input wire {bits(8 * stream.bytes)}{begin}_tdata",
            f"input wire {begin}_tvalid",
            f"output wire {begin}_tready",
        ]
    for stream in top.outputs:
        begin = f"m_axis_{stream.name}"
        ports += [
            f"output wire {bits(8 * stream.bytes)}{begin}_tdata",
            f"output wire {begin}_tvalid",
            f"input wire {begin}_tready",
        ]
        ports.append(f"output wire {begin}_tlast")
    return f"module {module} (\n  " + ",\n  ".join(ports) + "\n);\n"


def value_registers(top: Top, found: Map) -> str:
    """The registers of ticks, scalars and holds. Those of a run aren't written while one is going on."""
    count = len(top.kernels)
    lines = ["\n  // What a run is given: it stays the same while one is going on.\n"]
    lines += [f"  reg {bits(register.width)}{register.net};\n" for register in found.values]
    lines.append(f"  reg {bits(count)}held;\n")
    lines.append("  always @(posedge aclk) begin\n    if (~aresetn) begin\n")
    lines += [f"      {register.net} <= {register.width}'d0;\n" for register in found.values]
    lines.append(f"      held <= {count}'d0;\n    end else if (write) begin\n")
    wide = found.address_bits
    lines.append(written("held", "", wide, registers.HOLD, 0, count))
    for register in found.values:
        for address, low, high in register.parts():
            lines.append(written(register.net, " & ~running", wide, address, low, high - low + 1))
    return "".join(lines) + "    end\n  end\n"


def written(net: str, when: str, wide: int, address: int, low: int, width: int) -> str:
    """The lines that write a word of a register, byte by byte as the strobes say."""
    lines = []
    for byte in range((width + 7) // 8):
        first, last = 8 * byte, min(8 * byte + 8, width) - 1
        test = f"write_address == {wide}'h{address:x} & s_axil_wstrb[{byte}]{when}"
        target = (
            net if width == 1 and low == 0 and net != "held" else f"{net}{part(low + first, low + last, width, low)}"
        )
        source = f"s_axil_wdata{part(first, last, 32, 0)}"
        lines.append(f"      if ({test}) {target} <= {source};\n")
    return "".join(lines)


def part(first: int, last: int, width: int, low: int) -> str:
    """A part of a net, or nothing where the net has one bit."""
    if width == 1 and low == 0:
        return ""
    return f"[{last}:{first}]" if last > first else f"[{first}]"


def read_choice(top: Top, found: Map) -> str:
    """The word that a read gives, by its address."""
    wide, count = found.address_bits, len(top.kernels)
    rows = [
        (registers.STATUS, "{30'd0, finished, running}"),
        (registers.CYCLES, "cycles[31:0]"),
        (registers.CYCLES + 4, "cycles[63:32]"),
    ]
    rows.append((registers.HOLD, padded("held", count)))
    for register in found.values:
        for address, low, high in register.parts():
            name = (
                register.net
                if register.width == 1
                else f"{register.net}[{high}:{low}]"
                if high > low
                else f"{register.net}[{low}]"
            )
            rows.append((address, padded(name, high - low + 1)))
    lines = [f"      {wide}'h{address:x}: chosen = {word};\n" for address, word in rows]
    return "  always @(*)\n    case (read_address)\n" + "".join(lines) + "      default: chosen = 32'd0;\n    endcase\n"


def padded(name: str, width: int) -> str:
    """A net as a word of 32 bits."""
    return name if width == 32 else f"{{{32 - width}'d0, {name}}}"


def input_logic(stream: Stream) -> str:
    """An input: it takes at most as many words as its kernel has ticks, so those of the next run stay outside."""
    name = stream.name
    return f"""
  // Input {name}, of {stream.width} bits.
  reg [{TICK_BITS - 1}:0] in_count_{name};
  wire in_open_{name} = active & (in_count_{name} != ticks_{stream.kernel});
  wire in_ready_{name};
  assign s_axis_{name}_tready = in_open_{name} & in_ready_{name};
  always @(posedge aclk)
    if (~running) in_count_{name} <= {TICK_BITS}'d0;
    else if (s_axis_{name}_tvalid & s_axis_{name}_tready) in_count_{name} <= in_count_{name} + {TICK_BITS}'d1;
"""


def output_logic(stream: Stream, is_signed: bool) -> str:
    """An output: the word that has the number of the kernel's last tick is the last one."""
    name = stream.name
    spare = 8 * stream.bytes - stream.width
    sign = f"out_word_{name}[{stream.width - 1}]" if stream.width > 1 else f"out_word_{name}"
    front = f"{{{spare}{{{sign}}}}}" if is_signed else f"{spare}'d0"
    word = f"{{{front}, out_word_{name}}}" if spare else f"out_word_{name}"
    return f"""
  // Output {name}, of {stream.width} bits.
  reg [{TICK_BITS - 1}:0] out_count_{name};
  wire {bits(stream.width)}out_word_{name};
  wire out_valid_{name};
  assign m_axis_{name}_tdata = {word};
  assign m_axis_{name}_tvalid = active & out_valid_{name};
  assign m_axis_{name}_tlast = out_count_{name} + {TICK_BITS}'d1 == ticks_{stream.kernel};
  always @(posedge aclk)
    if (~running) out_count_{name} <= {TICK_BITS}'d0;
    else if (m_axis_{name}_tvalid & m_axis_{name}_tready) out_count_{name} <= out_count_{name} + {TICK_BITS}'d1;
"""


def core(top: Top) -> str:
    """The instance of the top module."""
    joined = [("clk", "aclk"), ("reset", "~running")]
    for number, kernel in enumerate(top.kernels):
        held = "held" if len(top.kernels) == 1 else f"held[{number}]"
        joined += [(f"hold${kernel}", f"running & {held}"), (f"ticks${kernel}", f"ticks_{kernel}")]
    joined += [(scalar.port, scalar_net(number, scalar)) for number, scalar in enumerate(top.scalars)]
    for stream in top.inputs:
        name = stream.name
        data = f"s_axis_{name}_tdata" + (f"[{stream.width - 1}:0]" if stream.width < 8 * stream.bytes else "")
        valid = f"in_open_{name} & s_axis_{name}_tvalid"
        joined += [(f"in${name}$data", data), (f"in${name}$valid", valid), (f"in${name}$ready", f"in_ready_{name}")]
    for stream in top.outputs:
        name = stream.name
        ready = f"active & m_axis_{name}_tready"
        joined += [
            (f"out${name}$data", f"out_word_{name}"),
            (f"out${name}$valid", f"out_valid_{name}"),
            (f"out${name}$ready", ready),
        ]
    joined.append(("done", "core_done"))
    return f"\n  {top.module} core (\n    " + ",\n    ".join(f".{port}({net})" for port, net in joined) + "\n  );\n"
