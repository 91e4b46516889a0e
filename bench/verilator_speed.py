#!/usr/bin/env python3
"""The speed of `maxjc simulate` beside the program that Verilator builds of the same text.

Two texts: the layers of assignments with registers and memories of bench/simulate_speed.py, and a line of stages with
FIFOs between them, each stage an instance with a ring of 512 words and each FIFO an instance with a memory of 64.
Verilator's program is built with -O3 (its build isn't counted) and is driven as a run is: it looks at `done` before
each edge, offers a word of the input file, and writes the words that leave in hexadecimal digits. The words must be
the same. The times are processor times of whole runs, files included, the least of three.

    bench/verilator_speed.py [EDGES]
"""
import json
import pathlib
import random
import shutil
import sys
import tempfile

import simulate_speed
import trials
import verilated

STAGES = 8
BAR = 2  # times the run of Verilator's program
FIFO = """module fifo (
input wire [0:0] clk,
input wire [0:0] reset,
input wire [31:0] a,
input wire [0:0] a_valid,
output wire [0:0] a_ready,
output wire [31:0] b,
output wire [0:0] b_valid,
input wire [0:0] b_ready);
reg [31:0] m [0:63];
reg [5:0] head;
reg [5:0] tail;
reg [6:0] size;
wire [6:0] zero; assign zero = 7'h0;
wire [6:0] most; assign most = 7'h40;
wire [5:0] first; assign first = 6'h0;
wire [5:0] one; assign one = 6'h1;
wire [6:0] one_more; assign one_more = 7'h1;
wire [0:0] empty; assign empty = size == zero;
wire [0:0] full; assign full = size == most;
assign b_valid = ~empty;
assign a_ready = ~full;
assign b = m[head];
wire [0:0] push; assign push = a_valid & a_ready;
wire [0:0] pop; assign pop = b_valid & b_ready;
wire [5:0] head_next; assign head_next = head + one;
wire [5:0] tail_next; assign tail_next = tail + one;
wire [5:0] head_new; assign head_new = reset ? first : head_next;
wire [5:0] tail_new; assign tail_new = reset ? first : tail_next;
wire [6:0] more; assign more = size + one_more;
wire [6:0] less; assign less = size - one_more;
wire [6:0] moved; assign moved = push ? more : less;
wire [6:0] size_new; assign size_new = reset ? zero : moved;
wire [0:0] differ; assign differ = push ^ pop;
wire [0:0] sized; assign sized = differ | reset;
wire [0:0] popped; assign popped = pop | reset;
wire [0:0] pushed; assign pushed = push | reset;
always @(posedge clk) begin
if (push) m[tail] <= a;
if (popped) head <= head_new;
if (pushed) tail <= tail_new;
if (sized) size <= size_new;
end
endmodule
"""
STAGE = """module stage (
input wire [0:0] clk,
input wire [0:0] reset,
input wire [31:0] a,
input wire [0:0] a_valid,
output wire [0:0] a_ready,
output wire [31:0] b,
output wire [0:0] b_valid,
input wire [0:0] b_ready);
reg [31:0] ring [0:511];
reg [8:0] at;
wire [8:0] first; assign first = 9'h0;
wire [8:0] one; assign one = 9'h1;
assign b_valid = a_valid;
assign a_ready = b_ready;
wire [0:0] go; assign go = a_valid & b_ready;
wire [31:0] old; assign old = ring[at];
wire [31:0] sum; assign sum = a + old;
wire [31:0] low; assign low = 32'hff;
wire [31:0] part; assign part = sum & low;
wire [31:0] product; assign product = part * a;
assign b = sum ^ product;
wire [8:0] next; assign next = at + one;
wire [8:0] fresh; assign fresh = reset ? first : next;
wire [0:0] steps; assign steps = go | reset;
always @(posedge clk) begin
if (go) ring[at] <= a;
if (steps) at <= fresh;
end
endmodule
"""
PORTS = simulate_speed.HEAD.split("wire [0:0] go;")[0]


def plumbing(stages):
    """Stages with a FIFO behind each."""
    lines, here = [], ("in$x$data", "in$x$valid", "in$x$ready")
    for k in range(2 * stages):
        last = k == 2 * stages - 1
        there = ("out$y$data", "out$y$valid", "out$y$ready") if last else (f"d{k}", f"v{k}", f"r{k}")
        if not last:
            lines += [f"wire [31:0] d{k};", f"wire [0:0] v{k};", f"wire [0:0] r{k};"]
        ends = dict(zip(("a", "a_valid", "a_ready"), here)) | dict(zip(("b", "b_valid", "b_ready"), there))
        joined = ", ".join(f".{port}({net})" for port, net in ends.items())
        lines.append(f"{'fifo' if k % 2 else 'stage'} i{k} (.clk(clk), .reset(reset), {joined});")
        here = there
    return FIFO + STAGE + PORTS + "\n".join(lines) + "\nassign done = 1'h0;\nendmodule\n"


def compared(kind, text, edges):
    with tempfile.TemporaryDirectory() as folder:
        work = pathlib.Path(folder)
        (work / "text.v").write_text(text)
        chance = random.Random(2)
        (work / "x.txt").write_text("".join(f"{chance.getrandbits(32):08x}\n" for _ in range(edges)))
        spec = {"ticks": {"K": edges}, "inputs": {"x": "x.txt"}, "outputs": {"y": "y.txt"}, "edges": edges}
        (work / "run.json").write_text(json.dumps(spec))
        theirs = verilated.best_of([*verilated.build(work), edges, edges], work)
        ours = verilated.best_of([trials.PROGRAM, "simulate", "text.v", "run.json"], work)
        words = verilated.numbers(work / "y.txt")
        same = words == verilated.numbers(work / "theirs.txt")
        print(
            f"{kind}, {edges} edges: maxjc {ours:.2f} s, Verilator's program {theirs:.2f} s, {ours / theirs:.1f} times as long; "
            f"{len(words)} words, {'the same' if same else 'NOT the same'}"
        )
        return same


def main():
    if shutil.which("verilator") is None:
        print("Verilator is not installed here, passed over")
        return 0
    edges = int(sys.argv[1]) if len(sys.argv) > 1 else 20000
    trials.build()
    good = [
        compared("2,000 assignments with storage", simulate_speed.layers(2000, True), edges),
        compared(f"{STAGES} stages with rings and FIFOs", plumbing(STAGES), 10 * edges),
    ]
    return 0 if all(good) else 1


if __name__ == "__main__":
    sys.exit(main())
