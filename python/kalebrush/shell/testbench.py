"""The words of a run, and the testbench that drives the wrapper by them, in Icarus and in Verilator."""
from __future__ import annotations

import pathlib
from dataclasses import dataclass, field

import numpy as np

from kalebrush import words
from kalebrush.shell import registers
from kalebrush.shell.registers import map_of, scalar_net
from kalebrush.shell.top import Stream, Top


@dataclass
class RunWords:
    """A run: ticks by kernel, scalars by `KERNEL.NAME`, the words of inputs, and of outputs with the undefined ones."""

    ticks: dict[str, int]
    scalars: dict[str, int] = field(default_factory=dict)
    inputs: dict[str, np.ndarray] = field(default_factory=dict)
    outputs: dict[str, tuple[np.ndarray, np.ndarray]] = field(default_factory=dict)
    signed: frozenset[str] = frozenset()

    def values(self, top: Top) -> dict[str, int]:
        """The value of each register, by its net."""
        found = {f"ticks_{kernel}": self.ticks[kernel] for kernel in top.kernels}
        for number, scalar in enumerate(top.scalars):
            found[scalar_net(number, scalar)] = self.scalars[f"{scalar.kernel}.{scalar.name}"]
        return found


def write_words(run: RunWords, top: Top, folder: pathlib.Path) -> None:
    """Writes the words that go in and come out, as `$readmemh` reads them, and which of the latter are defined."""
    for stream in top.inputs:
        found = run.inputs[stream.name]
        words.write_words(
            folder / f"in_{stream.name}.mem", found if len(found) else np.zeros(1, np.uint64), stream.width
        )
    for stream in top.outputs:
        found, undefined = run.outputs[stream.name]
        empty = len(found) == 0
        words.write_words(folder / f"out_{stream.name}.mem", np.zeros(1, np.uint64) if empty else found, stream.width)
        known = np.ones(1, np.uint64) if empty else (~undefined).astype(np.uint64)
        words.write_words(folder / f"known_{stream.name}.mem", known, 1)


BENCH = """// Drives {module} over the words of a run, broken off once and then whole twice, with random gaps on every
// stream; prints PASS or FAIL.
// +stall=N: a stream waits in N of 256 edges (default 64); +seed=N; +reset=N: edges of reset (default 5).
`timescale 1ns/1ps
module tb_{module};
  reg aclk = 1'b0, aresetn = 1'b0;
  always #5 aclk = ~aclk;

  integer stall = 64, seed = 1, resets = 5, runs = 2;
  integer failures = 0, edges = 0, run_number;
  reg clear = 1'b1;
  reg [31:0] noise = 32'h1;
  reg [31:0] data;

  // xorshift; a stream waits where its byte of the noise is below `stall`.
  function [31:0] stepped(input [31:0] from);
    reg [31:0] at;
    begin
      at = from ^ (from << 13);
      at = at ^ (at >> 17);
      stepped = at ^ (at << 5);
    end
  endfunction
  function waits(input integer port);
    reg [31:0] mixed;
    begin
      mixed = stepped(noise ^ (32'h9e3779b9 * (port + 1)));
      waits = {{24'd0, mixed[15:8]}} < stall;
    end
  endfunction
  always @(posedge aclk) begin
    noise <= stepped(noise);
    edges <= edges + 1;
    if (edges > {most_edges}) begin
      $display("FAIL {module}: no end after %0d edges", edges);
      $finish(0);
    end
  end

  reg [{last}:0] awaddr = 0, araddr = 0;
  reg awvalid = 0, wvalid = 0, bready = 0, arvalid = 0, rready = 0;
  reg [31:0] wdata = 0;
  wire awready, wready, bvalid, arready, rvalid;
  wire [1:0] bresp, rresp;
  wire [31:0] rdata;
{streams}
  {module} dut (
    .aclk(aclk), .aresetn(aresetn),
    .s_axil_awaddr(awaddr), .s_axil_awvalid(awvalid), .s_axil_awready(awready),
    .s_axil_wdata(wdata), .s_axil_wstrb(4'hf), .s_axil_wvalid(wvalid), .s_axil_wready(wready),
    .s_axil_bresp(bresp), .s_axil_bvalid(bvalid), .s_axil_bready(bready),
    .s_axil_araddr(araddr), .s_axil_arvalid(arvalid), .s_axil_arready(arready),
    .s_axil_rdata(rdata), .s_axil_rresp(rresp), .s_axil_rvalid(rvalid), .s_axil_rready(rready){joined}
  );

  task write(input [{last}:0] address, input [31:0] value);
    begin
      @(negedge aclk);
      awaddr = address; wdata = value; awvalid = 1; wvalid = 1; bready = 1;
      #1;
      while (!(awready && wready)) begin @(negedge aclk); #1; end
      @(negedge aclk);
      awvalid = 0; wvalid = 0;
      while (!bvalid) @(negedge aclk);
      @(negedge aclk);
      bready = 0;
    end
  endtask
  task read(input [{last}:0] address);
    begin
      @(negedge aclk);
      araddr = address; arvalid = 1; rready = 1;
      #1;
      while (!arready) begin @(negedge aclk); #1; end
      @(negedge aclk);
      arvalid = 0;
      while (!rvalid) @(negedge aclk);
      data = rdata;
      @(negedge aclk);
      rready = 0;
    end
  endtask
  task fail(input integer port, input integer number);
    begin
      failures = failures + 1;
      if (failures <= 10) $display("FAIL port %0d, word %0d, edge %0d", port, number, edges);
    end
  endtask

  // What a run is given.
  task set;
    begin
{settings}
    end
  endtask

  initial begin
    if ($value$plusargs("stall=%d", stall)) begin end
    if ($value$plusargs("seed=%d", seed)) begin end
    if ($value$plusargs("reset=%d", resets)) begin end
    noise = 32'h2545f491 ^ (seed * 32'h9e3779b1);
    if (noise == 0) noise = 32'h1;
{loads}
    repeat (resets) @(negedge aclk);
    aresetn = 1'b1;
    // A run that a reset breaks off leaves nothing behind.
    set;
    clear = 1'b0;
    write('h{control:x}, 32'h1);
    repeat (40) @(negedge aclk);
    clear = 1'b1;
    aresetn = 1'b0;
    repeat (resets) @(negedge aclk);
    aresetn = 1'b1;
    for (run_number = 0; run_number < runs; run_number = run_number + 1) begin
      set;
      clear = 1'b0;
      write('h{control:x}, 32'h1);
      read('h{status:x});
      while (!data[1]) read('h{status:x});
{counts}
      read('h{cycles:x});
      $display("run %0d: done after %0d cycles", run_number, data);
      clear = 1'b1;
      repeat (3) @(negedge aclk);
    end
    if (failures == 0) $display("PASS {module}");
    else $display("FAIL {module}: %0d failures", failures);
    $finish(0);
  end
endmodule
"""

INPUT = """
  reg {bits}words_{name} [0:{last}];
  integer at_{name} = 0;
  reg wait_{name} = 1'b1;
  wire s_{name}_tready;
  wire s_{name}_tvalid = ~clear & (at_{name} < {count}) & ~wait_{name};
  wire {bus}s_{name}_tdata = s_{name}_tvalid ? {word} : {{{width}{{1'b1}}}};
  always @(posedge aclk) begin
    if (clear) at_{name} <= 0;
    else if (s_{name}_tvalid & s_{name}_tready) at_{name} <= at_{name} + 1;
    if (clear | ~s_{name}_tvalid | s_{name}_tready) wait_{name} <= waits({port});
  end
"""

OUTPUT = """
  reg {bits}words_{name} [0:{last}];
  reg known_{name} [0:{last}];
  integer at_{name} = 0;
  reg m_{name}_tready = 1'b0;
  wire m_{name}_tvalid, m_{name}_tlast;
  wire {bus}m_{name}_tdata;
  wire {bus}wanted_{name} = {word};
  always @(posedge aclk) begin
    m_{name}_tready <= ~waits({port});
    if (~aresetn & m_{name}_tvalid !== 1'b0) fail({port}, -1);
    if (clear) at_{name} <= 0;
    else if (m_{name}_tvalid & m_{name}_tready) begin
      at_{name} <= at_{name} + 1;
      if (at_{name} >= {count}) fail({port}, at_{name});
      else if (known_{name}[at_{name}] && m_{name}_tdata !== wanted_{name}) fail({port}, at_{name});
      if (m_{name}_tlast !== ({is_whole} && at_{name} == {count} - 1)) fail({port}, at_{name});
    end
  end
"""


def testbench(top: Top, module: str, run: RunWords) -> str:
    """The text of the testbench of a run."""
    found = map_of(top)
    streams, joined, loads, counts = [], [], [], []
    for port, stream in enumerate(top.inputs):
        streams.append(_input(stream, port, len(run.inputs[stream.name])))
        loads.append(f'    $readmemh("in_{stream.name}.mem", words_in_{stream.name});')
        joined += [f".s_axis_{stream.name}_{end}(s_in_{stream.name}_{end})" for end in ("tdata", "tvalid", "tready")]
    for port, stream in enumerate(top.outputs, len(top.inputs)):
        count = len(run.outputs[stream.name][0])
        streams.append(_output(stream, port, count, count == run.ticks[stream.kernel], stream.name in run.signed))
        loads.append(f'    $readmemh("out_{stream.name}.mem", words_out_{stream.name});')
        loads.append(f'    $readmemh("known_{stream.name}.mem", known_out_{stream.name});')
        counts.append(f"      if (at_out_{stream.name} != {count}) fail({port}, at_out_{stream.name});")
        joined += [
            f".m_axis_{stream.name}_{end}(m_out_{stream.name}_{end})" for end in ("tdata", "tvalid", "tready", "tlast")
        ]
    values, settings = run.values(top), []
    for register in found.values:
        for address, low, high in register.parts():
            word = values[register.net] >> low & (1 << (high - low + 1)) - 1
            settings.append(f"      write('h{address:x}, 32'h{word:x});  // {register.told}")
    longest = max([*run.ticks.values(), *(len(found) for found in run.inputs.values())])
    return BENCH.format(
        module=module,
        last=found.address_bits - 1,
        streams="".join(streams),
        joined="".join(f",\n    {end}" for end in joined),
        loads="\n".join(loads),
        settings="\n".join(settings),
        counts="\n".join(counts),
        control=registers.CONTROL,
        status=registers.STATUS,
        cycles=registers.CYCLES,
        most_edges=200_000 + 400 * longest,
    )


def _range(width: int) -> str:
    return f"[{width - 1}:0] " if width > 1 else ""


def _input(stream: Stream, port: int, count: int) -> str:
    name, wide, spare = f"in_{stream.name}", 8 * stream.bytes, 8 * stream.bytes - stream.width
    at = f"words_{name}[at_{name}]"
    word = f"{{{{{spare}{{1'b1}}}}, {at}}}" if spare else at
    return INPUT.format(
        name=name,
        bits=_range(stream.width),
        last=max(count, 1) - 1,
        bus=_range(wide),
        width=wide,
        word=word,
        count=count,
        port=port,
    )


def _output(stream: Stream, port: int, count: int, is_whole: bool, is_signed: bool) -> str:
    name, wide, spare = f"out_{stream.name}", 8 * stream.bytes, 8 * stream.bytes - stream.width
    at = f"words_{name}[at_{name}]"
    sign = f"{at}[{stream.width - 1}]" if stream.width > 1 else at
    front = f"{{{spare}{{{sign}}}}}" if is_signed else f"{spare}'d0"
    word = f"{{{front}, {at}}}" if spare else at
    return OUTPUT.format(
        name=name,
        bits=_range(stream.width),
        last=max(count, 1) - 1,
        bus=_range(wide),
        word=word,
        count=count,
        port=port,
        is_whole=f"1'b{int(is_whole)}",
    )
