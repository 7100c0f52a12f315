#!/usr/bin/env python3
"""Makes netlists with configurations to seek test cubes for: job.v and job.toml in a folder.

seek.py multiplier FOLDER: a multiplier of 32 bits of NAND2, XOR2 and DFF, with registers at its inputs, which load where they are let to, and
at its outputs: 7,300 instances, 128 flip-flops, 15,000 faults.
seek.py processor FOLDER: 22 registers of 32 bits with a write port and a read port, an adder, an accumulator, a counter and what steers them,
of NAND2, XOR2 and DFF: 6,600 instances, 1,000 flip-flops, 15,000 faults.
seek.py random SEED FOLDER: a small design of all kinds of gates, with flip-flops of both edges in one to three domains, with resets and sets by
ports, buffers and constants, opaque cells, assigns, vectors and flip-flops that are kept.
seek.py cubes FOLDER: a design with 80,000 faults that all have cubes, more than a cube file may have. seek.py long FOLDER: one whose cube file
would be longer than 67,108,864 bytes. seek.py told FOLDER: one whose report would be longer than 268,435,456 bytes.

The same words make the same files.
"""
import random
import re
import sys

CONFIGURATION = """version = 1
domains = {domains}
resets = {resets}
keep = {keep}
chains = {chains}
warm = 16
window = 8

[ring]
stages = 16
channels = 2
taps = [[3, 12], [6, 9]]
injectors = [[0, 0], [1, 8]]
phase = {phase}

[compactor]
groups = [{groups}]
mask_inputs = 1
"""


def configuration(domains, resets=(), keep=(), chains=1):
    def names(all_names):
        return "[" + ", ".join(f"'{name}'" for name in all_names) + "]"

    phase = [[chain % 16, (chain % 16 + 5 + chain // 16) % 16] for chain in range(chains)]
    return CONFIGURATION.format(domains=names(domains), resets=names(resets), keep=names(keep), chains=chains, phase=phase, groups=list(range(chains)))


class Parts:
    """Gates and flip-flops that are made one after another, with one clock."""

    def __init__(self):
        self.lines, self.count = [], 0

    def gate(self, cell, a, b):
        self.count += 1
        net = f"n{self.count}"
        self.lines.append(f"{cell} g{self.count} (.A({a}), .B({b}), .Y({net}));\n")
        return net

    def nand(self, a, b):
        return self.gate("NAND2", a, b)

    def inverse(self, a):
        return self.nand(a, a)

    def both(self, a, b):
        return self.inverse(self.nand(a, b))

    def either(self, a, b):
        return self.nand(self.inverse(a), self.inverse(b))

    def sum(self, a, b):
        return self.gate("XOR2", a, b)

    def flop(self, name, data):
        self.lines.append(f"DFF {name} (.CK(clk), .D({data}), .Q({name}_q));\n")

    def held(self, name, data, loads):
        """A flip-flop that takes new data where it is let to."""
        stays = self.inverse(loads)
        self.flop(name, self.nand(self.nand(data, loads), self.nand(f"{name}_q", stays)))

    def add(self, a, b, carry):
        half = self.sum(a, b)
        return self.sum(half, carry), self.nand(self.nand(a, b), self.nand(half, carry))

    def all_of(self, nets):
        while len(nets) > 1:
            nets = [self.both(*nets[k : k + 2]) if k + 1 < len(nets) else nets[k] for k in range(0, len(nets), 2)]
        return nets[0]

    def any_of_pairs(self, pairs):
        """Whether of some pair both are 1."""
        nets = [self.nand(a, b) for a, b in pairs]
        nets = [self.nand(*nets[k : k + 2]) for k in range(0, len(nets), 2)]
        while len(nets) > 1:
            nets = [self.either(*nets[k : k + 2]) if k + 1 < len(nets) else nets[k] for k in range(0, len(nets), 2)]
        return nets[0]

    def decoded(self, bits, count):
        inverses = [self.inverse(bit) for bit in bits]
        return [self.all_of([bits[k] if value >> k & 1 else inverses[k] for k in range(len(bits))]) for value in range(count)]

    def text(self, name, inputs, outputs):
        ports = ", ".join(["clk"] + [port.split()[-1] for port in inputs + outputs])
        declared = "".join(f"input {port};\n" for port in ["clk"] + inputs) + "".join(f"output {port};\n" for port in outputs)
        return f"module {name} ({ports});\n{declared}" + "".join(self.lines) + "endmodule\n"


def multiplier(bits=32):
    parts = Parts()
    for k in range(bits):
        parts.held(f"a{k}", f"x[{k}]", "load")
        parts.held(f"b{k}", f"y[{k}]", "load")
    row = [parts.both(f"a{k}_q", "b0_q") for k in range(bits)]
    product, carry = [row[0]], None
    row = row[1:]
    for j in range(1, bits):
        terms = [parts.both(f"a{k}_q", f"b{j}_q") for k in range(bits)]
        sums, carried = [], None
        for k in range(bits):
            above = row[k] if k < len(row) else carry
            if above is None and carried is None:
                sums.append(terms[k])
            elif above is None or carried is None:
                other = above or carried
                sums.append(parts.sum(terms[k], other))
                carried = parts.both(terms[k], other)
            else:
                bit, carried = parts.add(terms[k], above, carried)
                sums.append(bit)
        product.append(sums[0])
        row, carry = sums[1:], carried
    product += row + [carry]
    for k, net in enumerate(product):
        parts.flop(f"p{k}", net)
        parts.lines.append(f"assign z[{k}] = p{k}_q;\n")
    return parts.text("multiplier", ["load", f"[{bits - 1}:0] x", f"[{bits - 1}:0] y"], [f"[{2 * bits - 1}:0] z"]), configuration(["clk"], chains=8)


def processor(registers=22, bits=32):
    parts = Parts()
    for k in range(bits):
        parts.held(f"op{k}", f"code[{k}]", "fetch")
    write = parts.decoded([f"op{k}_q" for k in range(5)], registers)
    read = parts.decoded([f"op{k}_q" for k in range(5, 10)], registers)
    writes = [parts.both(one, "op10_q") for one in write]
    for r in range(registers):
        parts.lines.append(f"wire {', '.join(f'r{r}_{k}_q' for k in range(bits))};\nwire [{bits - 1}:0] file{r};\n")
        parts.lines += [f"assign file{r}[{k}] = r{r}_{k}_q;\n" for k in range(bits)]
    value = [parts.any_of_pairs([(f"file{r}[{k}]", read[r]) for r in range(registers)]) for k in range(bits)]
    carry, total = "op11_q", []
    for k in range(bits):
        bit, carry = parts.add(f"acc{k}_q", parts.sum(value[k], "op11_q"), carry)
        total.append(bit)
    parts.flop("over", carry)
    for k in range(bits):
        parts.held(f"acc{k}", total[k], "op12_q")
        parts.flop(f"late{k}", parts.both(value[k], "op13_q"))
    for r in range(registers):
        for k in range(bits):
            parts.held(f"r{r}_{k}", f"acc{k}_q", writes[r])
    step = "op14_q"
    for k in range(bits):
        bit = f"pc{k}_q"
        parts.flop(f"pc{k}", parts.sum(bit, step))
        step = parts.both(bit, step)
    for k in range(bits):
        parts.flop(f"seen{k}", parts.sum(f"late{k}_q", f"pc{k}_q"))
        parts.lines.append(f"assign out[{k}] = seen{k}_q;\n")
        for turn in range(4):
            parts.flop(f"was{turn}_{k}", parts.sum(f"was{turn - 1}_{k}_q", f"was{turn - 1}_{(k + 1) % bits}_q") if turn else f"seen{k}_q")
        parts.lines.append(f"assign old[{k}] = was3_{k}_q;\n")
    return parts.text("processor", ["fetch", f"[{bits - 1}:0] code"], [f"[{bits - 1}:0] out", f"[{bits - 1}:0] old"]), configuration(["clk"], chains=16)


def small(seed):
    dice = random.Random(seed)
    clocks = [f"ck{k}" for k in range(dice.randint(1, 3))]
    resets = [f"rst{k}" for k in range(dice.randint(0, 2))]
    cells, gates = dice.randint(2, 9), dice.randint(3, 22)
    width = dice.randint(0, 3)
    inputs = [f"a{k}" for k in range(dice.randint(1, 4))] + [f"v[{k}]" for k in range(width)]
    scanned, lines, keep = [], [], []
    clock_nets = {}
    for clock in clocks:
        clock_nets[clock] = [(clock, False)]
        if dice.random() < 0.5:
            lines.append(f"BUF kb_{clock} (.A({clock}), .Y(b_{clock}));\n")
            clock_nets[clock].append((f"b_{clock}", False))
        if dice.random() < 0.6:
            lines.append(f"INV ki_{clock} (.A({clock}), .Y(i_{clock}));\n")
            clock_nets[clock].append((f"i_{clock}", True))
            if dice.random() < 0.3:
                lines.append(f"not (j_{clock}, i_{clock});\n")
                clock_nets[clock].append((f"j_{clock}", False))
    rests = list(resets)
    for reset in resets:
        if dice.random() < 0.5:
            lines.append(f"BUF kr_{reset} (.A({reset}), .Y(t_{reset}));\n")
            rests.append(f"t_{reset}")
    if dice.random() < 0.5:
        lines.append("TIE1 tie (.Y(one));\n")
        rests.append("one")
        if dice.random() < 0.5:
            lines.append("assign uno = one;\n")
            rests.append("uno")
    rests.append("1'b1")
    nets = list(inputs) + [f"q{k}" for k in range(cells)]
    made = []
    for k in range(gates):
        pool = nets if not made or dice.random() < 0.5 else made
        pick = lambda: dice.choice(pool if dice.random() < 0.7 else nets) if dice.random() < 0.96 else dice.choice(["1'b0", "1'b1", "loose"])
        cell = dice.choice(["AND2", "NAND2", "OR2", "NOR2", "XOR2", "XNOR2", "INV", "BUF", "MUX2", "AND3", "NOR4", "NAND3", "OR4", "and", "xor", "nor", "assign", "LATCH", "TIE0"] + ["NAND2", "XOR2", "AND2", "OR2"] * 2)
        net = f"n{k}"
        if cell == "assign":
            lines.append(f"assign {net} = {pick()};\n")
        elif cell == "LATCH":
            lines.append(f"LATCH g{k} (.G({pick()}), .D({pick()}), .Q({net}));\n")
        elif cell == "TIE0":
            lines.append(f"TIE0 g{k} (.Y({net}));\n")
        elif cell.islower():
            lines.append(f"{cell} ({net}, {', '.join(pick() for _ in range(dice.randint(1, 5)))});\n")
        else:
            pins = ["A", "B", "S"] if cell == "MUX2" else ["A"] if cell in ("INV", "BUF") else ["A", "B", "C", "D"][: int(cell[-1])]
            joined = [f".{pin}({pick()})" for pin in pins if dice.random() < 0.99]
            lines.append(f"{cell} g{k} ({', '.join(joined + [f'.Y({net})'])});\n")
        nets.append(net)
        made.append(net)
    for k in range(cells):
        clock = dice.choice(clocks)
        net, _ = dice.choice(clock_nets[clock])
        kind = dice.choice(["DFF", "DFF", "DFFR", "DFFS"])
        pins = [f".CK({net})", f".D({dice.choice(made + nets)})"]
        if kind != "DFF":
            pins.append(f".{'RN' if kind == 'DFFR' else 'SN'}({dice.choice(rests) if dice.random() < 0.9 else dice.choice(nets)})")
        shown = dice.random()
        pins.append(f".Q(q{k})" if shown < 0.6 else f".QN(q{k})" if shown < 0.8 else f".Q(q{k}), .QN(m{k})")
        if shown >= 0.8 and dice.random() < 0.6:
            lines.append(f"OR2 x{k} (.A(m{k}), .B({dice.choice(inputs)}), .Y(e{k}));\n")
            scanned.append(f"e{k}")
        lines.append(f"{kind} f{k} ({', '.join(pins)});\n")
        if dice.random() < 0.1:
            keep.append(f"f{k}")
    dice.shuffle(lines)
    outputs = dice.sample(made, min(len(made), dice.randint(1, 3)))
    lines += [f"assign y{k} = {net};\n" for k, net in enumerate(outputs + scanned)]
    ports = clocks + resets + [f"a{k}" for k in range(sum(not name.startswith("v") for name in inputs))]
    ports += ["v"] if width else []
    shown = [f"y{k}" for k in range(len(outputs + scanned))]
    order = ports + shown
    dice.shuffle(order)
    declared = "".join(f"input {f'[{width - 1}:0] ' if port == 'v' else ''}{port};\n" for port in ports) + "".join(f"output {port};\n" for port in shown)
    body = "".join(lines)
    wires = sorted({*re.findall(r"\b(?:[qnme]\d+|[bij]_ck\d+|t_rst\d+|one|uno|loose)\b", body)})
    declared += f"wire {', '.join(wires)};\n" if wires else ""
    return f"module m ({', '.join(order)});\n{declared}" + body + "endmodule\n", configuration(clocks, resets, keep)


def cubes(cells=20000):
    lines = [f"INV g{k} (.A(q{k}), .Y(d{k}));\nDFF f{k} (.CK(clk), .D(d{k}), .Q(q{k}));\n" for k in range(cells)]
    return "module m (clk);\ninput clk;\n" + "".join(lines) + "endmodule\n", configuration(["clk"], chains=16)


def long(letters=20000000):
    name = "f" * letters
    return f"module m (clk, y);\ninput clk;\noutput y;\nINV g (.A(q), .Y(y));\nDFF {name} (.CK(clk), .D(y), .Q(q));\nendmodule\n", configuration(["clk"])


def told(letters=600000, modules=240):
    inner = f"module part (a);\ninput a;\nINV g (.A(a), .Y({'n' * letters}));\nendmodule\n"
    parts = "".join(f"part u{k} (.a(d));\n" for k in range(modules))
    return f"module m (clk, d, q);\ninput clk, d;\noutput q;\nDFF f (.CK(clk), .D(d), .Q(q));\n{parts}endmodule\n" + inner, configuration(["clk"])


def main():
    kind, folder = sys.argv[1], sys.argv[-1]
    makers = {"multiplier": multiplier, "processor": processor, "cubes": cubes, "long": long, "told": told}
    netlist, config = small(int(sys.argv[2])) if kind == "random" else makers[kind]()
    for name, text in (("job.v", netlist), ("job.toml", config)):
        with open(f"{folder}/{name}", "w") as out:
            out.write(text)


if __name__ == "__main__":
    main()
