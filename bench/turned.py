#!/usr/bin/env python3
"""Makes a compiled job that moves at other edges, to time `dft replay` on: turned.py NETLIST PATTERNS KIND FOLDER [TIMES]

KIND says what becomes of the job, which `compile` wrote: `rising`, nothing; `falling`, every second cell of each chain is
behind an inverter of its clock; `four`, the chains of each clock are given to two clocks by turns, or to four where the
design has one, which pulse as it did in loads and by turns in captures; `lockups`, a lock-up of a cell's own clock stands
before the second cell of the first chain, and one of the inverted clock before the third. The patterns compare nothing, so
that all vectors are replayed; they come TIMES times, one after another (1). The files are FOLDER/turned.v and FOLDER/turned.stil.
"""
import itertools
import re
import sys

SHIFT = "scan_enable"
CELL = re.compile(r"^\s*SDFF\w* .*$", re.M)
PINS = {name: re.compile(rf"\.{name}\(([^()]+)\)") for name in ("CK", "SI", "Q")}


def chains_of(netlist):
    """The lines of the scan cells, chain by chain from its head."""
    cells = {PINS["Q"].search(line)[1]: line for line in CELL.findall(netlist)}
    behind = {PINS["SI"].search(line)[1]: net for net, line in cells.items()}
    chains = []
    for net in behind.keys() - cells.keys():
        chain = []
        while net in behind:
            net = behind[net]
            chain.append(cells[net])
        chains.append(chain)
    return sorted(chains, key=lambda chain: netlist.index(chain[0]))


def clock_of(line):
    return PINS["CK"].search(line)[1]


def inverters(clocks):
    return "".join(f"INV bench_i_{name} (.A({name}), .Y(bench_{name}));\n" for name in clocks)


def with_pin(line, pin, net):
    return PINS[pin].sub(f".{pin}({net})", line)


def rewritten(netlist, lines, parts=""):
    """The netlist with other lines for some cells, and parts more."""
    return CELL.sub(lambda found: lines.get(found[0], found[0]), netlist).replace("endmodule", parts + "endmodule")


def falling(netlist, chains):
    lines = {line: with_pin(line, "CK", f"bench_{clock_of(line)}") for chain in chains for line in chain[1::2]}
    return rewritten(netlist, lines, inverters(dict.fromkeys(map(clock_of, lines))))


def lockups(netlist, chains):
    lines, parts = {}, ""
    for line, name, turn in zip(chains[0][1:], ("low", "high"), ("", "bench_")):
        parts += f"LOCKUP bench_l_{name} (.CK({turn}{clock_of(line)}), .D({PINS['SI'].search(line)[1]}), .Q(bench_{name}));\n"
        lines[line] = with_pin(line, "SI", f"bench_{name}")
    return rewritten(netlist, lines, inverters(dict.fromkeys(map(clock_of, lines))) + parts)


def copies_of(chains):
    """The clocks that take the chains of each clock by turns, four in all."""
    clocks = list(dict.fromkeys(clock_of(chain[0]) for chain in chains))
    return {name: [name] + [f"{name}_{k}" for k in range(1, 4 // len(clocks))] for name in clocks}


def four(netlist, chains, copies):
    turns = {name: itertools.cycle(names) for name, names in copies.items()}
    lines = {}
    for chain in chains:
        clock = next(turns[clock_of(chain[0])])
        lines.update((line, with_pin(line, "CK", clock)) for line in chain)
    added = [name for names in copies.values() for name in names[1:]]
    head, rest = rewritten(netlist, lines).split(");", 1)
    return head + "".join(f", {name}" for name in added) + ");" + "".join(f"\ninput {name};" for name in added) + rest


def pulses(patterns, copies):
    """Each clock's character, and those of its copies: the same while chains shift, else by turns."""
    inputs = re.search(r"^ins = '(.*)';", patterns, re.M)[1].replace('"', "").split("+")
    turns = {name: itertools.cycle(range(len(names))) for name, names in copies.items()}

    def vector(found):
        acts = dict(zip(inputs, found[1]))
        added = ""
        for name, names in copies.items():
            if acts[name] != "P" or acts[SHIFT] == "1":
                added += acts[name] * (len(names) - 1)
                continue
            bits = ["P" if place == turn else "0" for turn in [next(turns[name])] for place in range(len(names))]
            acts[name] = bits[0]
            added += "".join(bits[1:])
        return f"V {{ ins = {''.join(acts.values())}{added};"

    names = [name for names in copies.values() for name in names[1:]]
    patterns = re.sub(r"^V \{ ins = (\w+);", vector, patterns, flags=re.M)
    patterns = re.sub(r"^(ins = '.*)';", lambda line: line[1] + "".join(f'+"{name}"' for name in names) + "';", patterns, flags=re.M)
    return patterns.replace("Signals {\n", "Signals {\n" + "".join(f'"{name}" In;\n' for name in names), 1)


def repeated(patterns, times):
    """The patterns with their vectors so many times."""
    head, body = re.match(r"(.*?^W w;\n)(.*)^}", patterns, re.M | re.S).groups()
    return head + body * times + patterns[len(head) + len(body):]


def main():
    kind, folder = sys.argv[3], sys.argv[4]
    times = int(sys.argv[5]) if len(sys.argv) > 5 else 1
    with open(sys.argv[1]) as file:
        netlist = file.read()
    with open(sys.argv[2]) as file:
        patterns = file.read()
    patterns = re.sub(r"outs = (\w+);", lambda seen: f"outs = {'X' * len(seen[1])};", patterns)
    chains = chains_of(netlist)
    if kind == "falling":
        netlist = falling(netlist, chains)
    elif kind == "lockups":
        netlist = lockups(netlist, chains)
    elif kind == "four":
        copies = copies_of(chains)
        netlist, patterns = four(netlist, chains, copies), pulses(patterns, copies)
    elif kind != "rising":
        sys.exit(__doc__)
    with open(f"{folder}/turned.v", "w") as out:
        out.write(netlist)
    with open(f"{folder}/turned.stil", "w") as out:
        out.write(repeated(patterns, times))


if __name__ == "__main__":
    main()
