#!/usr/bin/env python3
"""Makes a netlist, patterns and a configuration to time `dft` on: make.py GATES VECTORS CLOCKS FOLDER [both]

The netlist has GATES two-input gates, one flip-flop for five gates, 32 data inputs, 32 outputs and CLOCKS clock
inputs that take turns over the flip-flops. The patterns pulse every clock in each of VECTORS vectors, set the data
inputs at random and compare nothing, so that all vectors are replayed. The configuration asks for a chain for each
100 flip-flops, up to 1,024 chains, with a domain for each clock. With `both` every second clock pin of each clock is
behind an inverter, which `dft scan` refuses. The same words make the same files.
"""
import random
import sys

HEAD = """Timing {
WaveformTable w {
Period '100ns';
Waveforms {
ins { 0 { '0ns' D; } 1 { '0ns' U; } P { '0ns' D; '50ns' U; '80ns' D; } }
outs { L { '0ns' X; '40ns' L; } H { '0ns' X; '40ns' H; } X { '0ns' X; } }
}
}
}
PatternBurst b { PatList { p; } }
PatternExec { PatternBurst b; }
Pattern p {
W w;
"""


def clock_pin(flop, clocks, both):
    """The net at a clock pin."""
    name = f"clk{flop % clocks}"
    return f"n{name}" if both and flop // clocks % 2 else name


def netlist(gates, clocks, both, out):
    flops = gates // 5
    ports = [f"clk{i}" for i in range(clocks)] + [f"d{i}" for i in range(32)] + [f"y{i}" for i in range(32)]
    out.write(f"module bench ({', '.join(ports)});\n")
    for i in range(clocks):
        out.write(f"input clk{i};\n")
    for i in range(32):
        out.write(f"input d{i};\n")
    for i in range(32):
        out.write(f"output y{i};\n")
    if both:
        out.writelines(f"INV c{i} (.A(clk{i}), .Y(nclk{i}));\n" for i in range(clocks))
    nets = [f"d{i}" for i in range(32)] + [f"q{i}" for i in range(flops)]
    for i in range(gates):
        cell = random.choice(["NAND2", "NOR2", "XOR2", "AND2"])
        a, b = nets[len(nets) - 1 - random.randrange(min(2000, len(nets)))], random.choice(nets)
        out.write(f"{cell} g{i} (.A({a}), .B({b}), .Y(n{i}));\n")
        nets.append(f"n{i}")
    for i in range(flops):
        out.write(f"DFF f{i} (.CK({clock_pin(i, clocks, both)}), .D(n{random.randrange(gates)}), .Q(q{i}));\n")
    for i in range(32):
        out.write(f"assign y{i} = n{gates - 1 - i};\n")
    out.write("endmodule\n")


def patterns(vectors, clocks, out):
    ins = [f"clk{i}" for i in range(clocks)] + [f"d{i}" for i in range(32)]
    outs = [f"y{i}" for i in range(32)]
    out.write("STIL 1.0;\nSignals {\n")
    out.writelines(f'"{name}" In;\n' for name in ins)
    out.writelines(f'"{name}" Out;\n' for name in outs)
    out.write("}\nSignalGroups {\n")
    for group, names in (("ins", ins), ("outs", outs)):
        out.write(f"{group} = '" + "+".join(f'"{name}"' for name in names) + "';\n")
    out.write("}\n" + HEAD)
    for _ in range(vectors):
        data = "".join(random.choice("01") for _ in range(32))
        out.write(f"V {{ ins = {'P' * clocks}{data}; outs = {'X' * 32}; }}\n")
    out.write("}\n")


def configuration(flops, clocks, out):
    chains, stages = min(1024, max(1, flops // 100)), 32
    domains = ", ".join(f'"clk{i}"' for i in range(clocks))
    phase = ", ".join(f"[{chain % stages}]" for chain in range(chains))
    groups = ", ".join(str(chain) for chain in range(chains))
    out.write(f"version = 1\ndomains = [{domains}]\nchains = {chains}\nwarm = 0\nwindow = 1\n")
    out.write(f"[ring]\nstages = {stages}\nchannels = 1\ntaps = []\ninjectors = [[0, 0]]\nphase = [{phase}]\n")
    out.write(f"[compactor]\ngroups = [[{groups}]]\nmask_inputs = 1\n")


def main():
    gates, vectors, clocks, folder = int(sys.argv[1]), int(sys.argv[2]), int(sys.argv[3]), sys.argv[4]
    random.seed(gates * 1000003 + vectors * 1009 + clocks)
    with open(f"{folder}/bench.v", "w") as out:
        netlist(gates, clocks, sys.argv[5:] == ["both"], out)
    with open(f"{folder}/bench.stil", "w") as out:
        patterns(vectors, clocks, out)
    with open(f"{folder}/bench.toml", "w") as out:
        configuration(gates // 5, clocks, out)


if __name__ == "__main__":
    main()
