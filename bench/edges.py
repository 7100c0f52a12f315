#!/usr/bin/env python3
"""Makes a scanned netlist of both edges and patterns, to time `dft replay` on: edges.py CELLS PATTERNS CLOCKS both|rising FOLDER

As what shift.py makes, but with CLOCKS clocks. With `both` every second clock pin is behind an inverter of its clock: each of
the 16 chains has cells that fall, clock by clock, and then as many that rise, clock by clock. A lock-up stands where the clock
changes and the edge does not: of the inverted clock between cells that fall, of the clock between cells that rise. With
`rising` the same cells are on the clocks themselves, with a lock-up wherever the clock changes. All clocks pulse in each
vector, and nothing is compared. The same words make the same files.
"""
import random
import sys

sys.dont_write_bytecode = True
from shift import CHAINS, GATES, HEAD, INPUTS, OUTS


def ins(clocks):
    return [f"c{k}" for k in range(clocks)] + ["se"] + [f"i{k}" for k in range(CHAINS)] + [f"d{k}" for k in range(INPUTS)]


def blocks(length, clocks, both):
    """For each place of a chain its edge and its clock."""
    edges = [True, False] if both else [False, False]
    return [(edges[place * 2 // length], place * 2 * clocks // length % clocks) for place in range(length)]


def clock_net(block):
    falling, clock = block
    return f"n{clock}" if falling else f"c{clock}"


def make_gates(cells, places):
    """The gates of each block in order, each a cell, the two nets that it reads and its own; and each cell's input."""
    gates, inputs = [], [0] * cells
    for block in sorted(set(places)):
        own = [c for c in range(cells) if places[c % len(places)] == block]
        nets = [f"d{k}" for k in range(INPUTS)] + [f"q{c}" for c in own]
        for c in own:
            for side in "ab":
                gates.append((random.choice(list(GATES)), random.choice(nets), random.choice(nets[-400:]), f"g{c}{side}"))
                nets.append(f"g{c}{side}")
            inputs[c] = nets[-1]
    return gates, inputs


def is_locked(before, after):
    """Whether a lock-up stands between neighbours."""
    return before[0] == after[0] and before[1] != after[1]


def netlist(cells, clocks, places, gates, inputs, out):
    names = ins(clocks)
    out.write(f"module edges ({', '.join(names + OUTS)});\n")
    out.writelines(f"input {name};\n" for name in names)
    out.writelines(f"output {name};\n" for name in OUTS)
    out.writelines(f"INV x{k} (.A(c{k}), .Y(n{k}));\n" for k in range(clocks))
    for k, (cell, a, b, y) in enumerate(gates):
        out.write(f"{cell} u{k} (.A({a}), .B({b}), .Y({y}));\n")
    for c in range(cells):
        chain, place = divmod(c, len(places))
        before = f"i{chain}" if place == 0 else f"q{c - 1}"
        if place > 0 and is_locked(places[place - 1], places[place]):
            out.write(f"LOCKUP l{c} (.CK({clock_net(places[place - 1])}), .D({before}), .Q(k{c}));\n")
            before = f"k{c}"
        out.write(f"SDFF f{c} (.CK({clock_net(places[place])}), .D({inputs[c]}), .SI({before}), .SE(se), .Q(q{c}));\n")
    for chain in range(CHAINS):
        out.write(f"assign o{chain} = q{(chain + 1) * len(places) - 1};\n")
    out.write("endmodule\n")


def bits(count):
    return "".join(random.choice("01") for _ in range(count))


def patterns(length, clocks, count, out):
    names = ins(clocks)
    out.write("STIL 1.0;\nSignals {\n")
    out.writelines(f'"{name}" In;\n' for name in names)
    out.writelines(f'"{name}" Out;\n' for name in OUTS)
    out.write("}\nSignalGroups {\n")
    for group, members in (("ins", names), ("outs", OUTS)):
        out.write(f"{group} = '" + "+".join(f'"{name}"' for name in members) + "';\n")
    out.write("}\n" + HEAD)
    for _ in range(count):
        for enable, data, vectors in (("1", "0" * INPUTS, length), ("0", bits(INPUTS), 1)):
            for _ in range(vectors):
                out.write(f"V {{ ins = {'P' * clocks}{enable}{bits(CHAINS)}{data}; outs = {'X' * CHAINS}; }}\n")
    out.write("}\n")


def main():
    cells, count, clocks, edges, folder = int(sys.argv[1]), int(sys.argv[2]), int(sys.argv[3]), sys.argv[4], sys.argv[5]
    random.seed(cells * 1000003 + count * 1009 + clocks)
    length = cells // CHAINS
    places = blocks(length, clocks, edges == "both")
    gates, inputs = make_gates(length * CHAINS, places)
    with open(f"{folder}/edges.v", "w") as out:
        netlist(length * CHAINS, clocks, places, gates, inputs, out)
    with open(f"{folder}/edges.stil", "w") as out:
        patterns(length, clocks, count, out)


if __name__ == "__main__":
    main()
