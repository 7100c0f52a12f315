#!/usr/bin/env python3
"""Makes a scanned netlist and patterns that pass, to time `dft replay` on: shift.py CELLS PATTERNS FOLDER

The netlist has CELLS scan cells in 16 chains, half of each on the clock ca and half on cb, a lock-up between them, and
two gates for each cell, which read cells of its own clock. Each pattern shifts every chain through, with the scan enable
at 1, and captures once; both clocks pulse in each of these vectors. What the chains give while the next pattern is
shifted in is compared. The same words make the same files.
"""
import random
import sys

CHAINS, INPUTS = 16, 8
GATES = {
    "NAND2": lambda a, b: 1 - (a & b),
    "NOR2": lambda a, b: 1 - (a | b),
    "XOR2": lambda a, b: a ^ b,
    "AND2": lambda a, b: a & b,
}
HEAD = """Timing {
WaveformTable w {
Period '100ns';
Waveforms {
ins { 0 { '0ns' D; } 1 { '0ns' U; } P { '0ns' D; '50ns' U; '80ns' D; } }
outs { L { '0ns' X; '40ns' L; } H { '0ns' X; '40ns' H; } X { '0ns' X; } }
}
}
}
PatternBurst b { PatList { p; } }
PatternExec { PatternBurst b; }
Pattern p {
W w;
"""
INS = ["ca", "cb", "se"] + [f"i{k}" for k in range(CHAINS)] + [f"d{k}" for k in range(INPUTS)]
OUTS = [f"o{k}" for k in range(CHAINS)]


def make_gates(cells, half, length):
    """For each clock its gates in order, each a cell, the two nets that it reads and its own; and each cell's input."""
    gates, inputs = [], [0] * cells
    for clock in range(2):
        own = [c for c in range(cells) if (c % length >= half) == bool(clock)]
        nets = [f"d{k}" for k in range(INPUTS)] + [f"q{c}" for c in own]
        for c in own:
            for side in "ab":
                pair = random.choice(nets), random.choice(nets[-400:])
                gates.append((random.choice(list(GATES)), *pair, f"n{c}{side}"))
                nets.append(f"n{c}{side}")
            inputs[c] = nets[-1]
    return gates, inputs


def netlist(cells, length, half, gates, inputs, out):
    out.write(f"module shift ({', '.join(INS + OUTS)});\n")
    out.writelines(f"input {name};\n" for name in INS)
    out.writelines(f"output {name};\n" for name in OUTS)
    for k, (cell, a, b, y) in enumerate(gates):
        out.write(f"{cell} g{k} (.A({a}), .B({b}), .Y({y}));\n")
    for c in range(cells):
        chain, place = divmod(c, length)
        clock = "cb" if place >= half else "ca"
        before = f"i{chain}" if place == 0 else f"l{chain}" if place == half else f"q{c - 1}"
        out.write(f"SDFF f{c} (.CK({clock}), .D({inputs[c]}), .SI({before}), .SE(se), .Q(q{c}));\n")
    for chain in range(CHAINS):
        out.write(f"LOCKUP u{chain} (.CK(ca), .D(q{chain * length + half - 1}), .Q(l{chain}));\n")
        out.write(f"assign o{chain} = q{chain * length + length - 1};\n")
    out.write("endmodule\n")


def vector(enable, shifted, data, seen, out):
    out.write(f"V {{ ins = PP{enable}{''.join(map(str, shifted))}{''.join(map(str, data))}; outs = {seen}; }}\n")


def patterns(cells, length, gates, inputs, count, out):
    out.write("STIL 1.0;\nSignals {\n")
    out.writelines(f'"{name}" In;\n' for name in INS)
    out.writelines(f'"{name}" Out;\n' for name in OUTS)
    out.write("}\nSignalGroups {\n")
    for group, names in (("ins", INS), ("outs", OUTS)):
        out.write(f"{group} = '" + "+".join(f'"{name}"' for name in names) + "';\n")
    out.write("}\n" + HEAD)
    chains = [[0] * length for _ in range(CHAINS)]
    known = False
    for _ in range(count):
        for _ in range(length):
            seen = "".join("LH"[chain[-1]] if known else "X" for chain in chains)
            shifted = [random.randrange(2) for _ in range(CHAINS)]
            vector(1, shifted, [0] * INPUTS, seen, out)
            chains = [[bit] + chain[:-1] for bit, chain in zip(shifted, chains)]
        known = True
        data = [random.randrange(2) for _ in range(INPUTS)]
        seen = "".join("LH"[chain[-1]] for chain in chains)
        vector(0, [0] * CHAINS, data, seen, out)
        values = {f"q{k * length + j}": bit for k, chain in enumerate(chains) for j, bit in enumerate(chain)}
        values.update((f"d{k}", bit) for k, bit in enumerate(data))
        for cell, a, b, y in gates:
            values[y] = GATES[cell](values[a], values[b])
        chains = [[values[inputs[k * length + j]] for j in range(length)] for k in range(CHAINS)]
    out.write("}\n")


def main():
    cells, count, folder = int(sys.argv[1]), int(sys.argv[2]), sys.argv[3]
    random.seed(cells * 1000003 + count)
    length = cells // CHAINS
    cells, half = length * CHAINS, length // 2
    gates, inputs = make_gates(cells, half, length)
    with open(f"{folder}/shift.v", "w") as out:
        netlist(cells, length, half, gates, inputs, out)
    with open(f"{folder}/shift.stil", "w") as out:
        patterns(cells, length, gates, inputs, count, out)


if __name__ == "__main__":
    main()
