"""A shell around a compiled text: AXI ports with plain names, a testbench, and what tools need."""
