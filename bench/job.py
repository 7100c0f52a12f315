#!/usr/bin/env python3
"""Makes a job to time `dft compile` on: job.py SEED CELLS FOLDER [both] [twice], or job.py wide CHAINS FOLDER

The first writes the job that `dft generate --seed SEED --size CELLS` makes, of any size: a netlist of CELLS flip-flops in two
domains, each behind a gate of two of them, 16 chains on two channels, and a cube of up to four bits for each four flip-flops.
With `both`, every second flip-flop of each domain is on the inverse of its clock. With `twice` each cube captures with two pulses
of its clock.

The second has CHAINS chains (a multiple of 32, at most 1,024) of 64 flip-flops on one clock behind a ring of 128 stages with a channel
for each 32 chains, loads of 512 cycles, and 2,000 cubes of up to 100 random bits.

The same words make the same files: job.v, job.toml, job.cubes.
"""
import sys

MASK = 2**64 - 1
GATES = ["NAND2", "NOR2", "XOR2", "AND2"]


def words(seed, stream):
    """The words of 32 bits of the generator PCG XSH RR 64/32."""
    step = stream * 2 + 1
    state = ((seed + step) * 6364136223846793005 + step) & MASK
    while True:
        mixed, turn = ((state >> 18 ^ state) >> 27) & 0xFFFFFFFF, state >> 59
        yield (mixed >> turn | mixed << (32 - turn)) & 0xFFFFFFFF
        state = (state * 6364136223846793005 + step) & MASK


CONFIGURATION = """version = 1
domains = ["clk0", "clk1"]
chains = 16
warm = 16
window = 8
fill = "zeros"

[ring]
stages = 16
channels = 2
taps = [[3, 12], [6, 9]]
injectors = [[0, 0], [1, 8]]
phase = [[0, 5, 11], [1, 6, 12], [2, 7, 13], [3, 8, 14], [4, 9, 15], [5, 10, 0], [6, 11, 1], [7, 12, 2], [8, 13, 3], [9, 14, 4], [10, 15, 5], [11, 0, 6], [12, 1, 7], [13, 2, 8], [14, 3, 9], [15, 4, 10]]

[compactor]
groups = [[0, 2, 4, 6, 8, 10, 12, 14], [1, 3, 5, 7, 9, 11, 13, 15]]
mask_inputs = 2
"""


def generated(seed, cells, both, twice):
    random = words(seed, 0)
    netlist = ["module gen (clk0, clk1, y);\ninput clk0, clk1;\noutput y;\n"]
    if both:
        netlist.append("INV i0 (.A(clk0), .Y(inv0));\nINV i1 (.A(clk1), .Y(inv1));\n")
    for c in range(cells):
        gate, a, b = GATES[next(random) % 4], next(random) % cells, next(random) % cells
        netlist.append(f"{gate} g{c} (.A(q{a}), .B(q{b}), .Y(d{c}));\n")
        clock = "inv" if both and c // 2 % 2 else "clk"
        netlist.append(f"DFF f{c} (.CK({clock}{c % 2}), .D(d{c}), .Q(q{c}));\n")
    netlist.append("assign y = q0;\nendmodule\n")
    cubes = ["version 2\n"] if twice else []
    for k in range(cells // 4):
        cubes.append(f"cube k{k} clk{k % 2} clk{k % 2}\n" if twice else f"cube k{k} clk{k % 2}\n")
        named = set()
        for word in [next(random) for _ in range(4)]:
            cell = word % cells
            if cell not in named:
                cubes.append(f"cell f{cell} {word >> 31}\n")
                named.add(cell)
        cubes.append("end\n")
    return netlist, [CONFIGURATION], cubes


def wide(chains):
    cells, channels = chains * 64, chains // 32
    netlist = ["module m (clk, d);\ninput clk, d;\n"]
    netlist += [f"DFF f{c} (.CK(clk), .D(d), .Q(q{c}));\n" for c in range(cells)] + ["endmodule\n"]
    phase = [[c % 128, (c % 128 + 1 + c // 128) % 128, (c % 128 + 64 + c // 64) % 128] for c in range(chains)]
    configuration = [
        f"version = 1\ndomains = ['clk']\nchains = {chains}\nwarm = 448\nwindow = 16\nfill = 'seed'\nseed = 7\n",
        f"[ring]\nstages = 128\nchannels = {channels}\ntaps = [[2, 10], [13, 4], [26, 1], [50, 90], [100, 33], [77, 12]]\n",
        f"injectors = {[[c, c * 4] for c in range(channels)]}\nphase = {phase}\n",
        f"[compactor]\nmask_inputs = 32\ngroups = [{list(range(chains))}]\n",
    ]
    random, cubes = words(42, 54), []
    for k in range(2000):
        cubes.append(f"cube k{k} clk\n")
        at, stride = next(random), next(random) | 1
        named = set()
        for _ in range(100):
            cell, bit = at % cells, next(random) % 2
            if cell not in named:
                cubes.append(f"cell f{cell} {bit}\n")
                named.add(cell)
            at = (at + stride) & 0xFFFFFFFF
        cubes.append("end\n")
    return netlist, configuration, cubes


def main():
    kind, size, folder = sys.argv[1], int(sys.argv[2]), sys.argv[3]
    texts = wide(size) if kind == "wide" else generated(int(kind), size, "both" in sys.argv[4:], "twice" in sys.argv[4:])
    for name, text in zip(("job.v", "job.toml", "job.cubes"), texts):
        with open(f"{folder}/{name}", "w") as out:
            out.writelines(text)


if __name__ == "__main__":
    main()
