#!/usr/bin/env python3
"""Makes jobs to measure what a made configuration encodes, and reads what came of them.

    encoded.py netlist CELLS GATES FOLDER       job.v: CELLS flip-flops on one clock, and GATES gates that feed them
    encoded.py cubes SEED CELLS LOW HIGH FOLDER job.cubes: the first LOW, LOW + 1 .. HIGH care bits of all cells in a random order
    encoded.py rotated FOLDER                   rotated.toml: job.toml with phase sets that are rotated
    encoded.py read REPORT                      the care bits before the first cube of a report that is unsolvable

The same words make the same files.
"""
import random
import re
import sys


def netlist(cells, gates, folder):
    fed = [f"d{g}" for g in range(gates)] or ["d"]
    with open(f"{folder}/job.v", "w") as out:
        out.write("module m (clk, d, y);\ninput clk, d;\noutput y;\n")
        for g in range(gates):
            out.write(f"NAND2 g{g} (.A(q{g % cells}), .B({'d' if g < cells else f'd{g - cells}'}), .Y(d{g}));\n")
        for c in range(cells):
            out.write(f"DFF f{c} (.CK(clk), .D({fed[-1 - c % len(fed)]}), .Q(q{c}));\n")
        out.write("assign y = q0;\nendmodule\n")


def cubes(seed, cells, low, high, folder):
    """One cube for each number of care bits: the cubes of one order are prefixes of each other."""
    draw = random.Random(seed)
    bits = [f"cell f{c} {draw.getrandbits(1)}\n" for c in draw.sample(range(cells), min(high, cells))]
    with open(f"{folder}/job.cubes", "w") as out:
        for count in range(low, len(bits) + 1):
            out.write(f"cube k{count} clk\n{''.join(bits[:count])}end\n")


def rotated(folder):
    """Sets {i, i + a, i + b} for each stage i, with other distances for each round."""
    text = open(f"{folder}/job.toml").read()
    stages = int(re.search(r"^stages = (\d+)$", text, re.M)[1])
    chains = int(re.search(r"^chains = (\d+)$", text, re.M)[1])
    sets = []
    for chain in range(chains):
        stage, turn = chain % stages, chain // stages
        sets.append(sorted({stage, (stage + 5 + turn) % stages, (stage + 11 + 2 * turn) % stages}))
    with open(f"{folder}/rotated.toml", "w") as out:
        out.write(re.sub(r"^phase = .*$", f"phase = {sets}", text, flags=re.M))


def read(report):
    lines = [line.split() for line in open(report) if line.startswith("cube ")]
    counts = {int(words[1][1:]): words[2] for words in lines}
    lost = [count for count, what in counts.items() if what == "unsolvable"]
    print(min(lost) - 1 if lost else max(counts))


def main():
    kind, words = sys.argv[1], sys.argv[2:]
    if kind == "netlist":
        netlist(int(words[0]), int(words[1]), words[2])
    elif kind == "cubes":
        cubes(*map(int, words[:4]), words[4])
    elif kind == "rotated":
        rotated(words[0])
    elif kind == "read":
        read(words[0])


if __name__ == "__main__":
    main()
