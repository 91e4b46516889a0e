#!/usr/bin/env python3
"""Time and memory of `maxjc simulate` on texts whose instances have very many ports.

Many ports: a module of PORTS ports, each output the inverse of one input, and an instance of it. Many pairs: a
module of SIDE inputs, each of which feeds each of SIDE outputs, and an instance of it, so that it has SIDE * SIDE
ways from a port to a port. Stairs: a module of SIDE inputs and SIDE outputs, each of which is fed by one input more
than the one before it, so that no two have the same ways. Each is simulated for some edges; the words that leave are
checked. Memory is the greatest resident set of the program. It has a bar for the texts of many ways; what the text of
many ports takes is taken while it is read.

    bench/hostile_sizes.py [PORTS [SIDE]]
"""
import sys

import check_size
import simulate_speed
import trials

# Seconds for each text, and bytes for those of many ways.
BAR, MOST_MEMORY = 2, 200 * 10**6
BIT = "wire [0:0] "


def joined(names, net):
    return "".join(f", .{name}({net})" for name in names)


def whole(inner, joins, outputs, chosen):
    """A text of an inner module, and of a top module with an instance of it: the net of the output chosen leaves."""
    nets = "".join(f"{BIT}n{name};\n" for name in outputs)
    outs = "".join(f", .{name}(n{name})" for name in outputs)
    instance = f"inner i (.clk(clk), .reset(reset){joins}{outs});\n"
    head = f"{BIT}a;\nassign a = in$x$data[0:0];\n"
    return inner + simulate_speed.HEAD + head + nets + instance + f"assign out$y$data = {{32{{n{chosen}}}}};\nendmodule\n"


def module(inputs, outputs, body):
    ports = ["clk", "reset"] + inputs
    declared = ", ".join([f"input {BIT}{name}" for name in ports] + [f"output {BIT}{name}" for name in outputs])
    return f"module inner ({declared});\n{body}endmodule\n"


def many_ports(ports):
    """A module of so many ports in all, half of them outputs: each inverts an input."""
    pairs = (ports - 2) // 2
    inputs, outputs = [f"a{number}" for number in range(pairs)], [f"b{number}" for number in range(pairs)]
    body = "".join(f"assign {b} = ~{a};\n" for a, b in zip(inputs, outputs))
    return whole(module(inputs, outputs, body), joined(inputs, "a"), outputs, outputs[-1])


def sums(side, fed_by):
    """A module of sums of inputs, one input more in each, bit by bit; an output is the sum that `fed_by` says."""
    inputs, outputs = [f"a{number}" for number in range(side)], [f"b{number}" for number in range(side)]
    names = [f"s{number}" for number in range(1, side)]
    body = "".join(f"{BIT}{name};\n" for name in names)
    before = inputs[:1] + names
    body += "".join(f"assign {name} = {before[place]} ^ {inputs[place + 1]};\n" for place, name in enumerate(names))
    body += "".join(f"assign {name} = {before[fed_by(place)]};\n" for place, name in enumerate(outputs))
    return whole(module(inputs, outputs, body), joined(inputs, "a"), outputs, outputs[-1])


def many_pairs(side):
    return sums(side, lambda place: side - 1)


def stairs(side):
    return sums(side, lambda place: place)


def main():
    ports = int(sys.argv[1]) if len(sys.argv) > 1 else 200_000
    side = int(sys.argv[2]) if len(sys.argv) > 2 else 8_000
    trials.build()
    words = list(range(check_size.EDGES))
    inverted = [0 if word % 2 else 2**32 - 1 for word in words]
    # A sum of an even number of equal bits is 0, of an odd number the bit.
    summed = [(2**32 - 1) * (word % 2) * (side % 2) for word in words]
    done = check_size.SIMULATED
    good = [
        check_size.holds(f"an instance of {ports} ports", many_ports(ports), words, done, inverted, BAR),
        check_size.holds(f"an instance of {side} by {side} ways", many_pairs(side), words, done, summed, BAR, MOST_MEMORY),
        check_size.holds(f"an instance of {side} stairs", stairs(side), words, done, summed, BAR, MOST_MEMORY),
    ]
    return 0 if all(good) else 1


if __name__ == "__main__":
    sys.exit(main())
