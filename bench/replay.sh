#!/bin/sh
# Times the built dft: replay.sh [FOLDER]. Replays each pair NAME.v, NAME.stil of the folder, if one is given, which is
# to pass; then made scan patterns at two sizes, where two clocks pulse together, lock-ups stand between them and most
# vectors shift, and prints cells times vectors per second and the peak memory; the like with 2 and 4 clocks, where all cells
# rise and where half of them fall; then made netlists without scan at three sizes, with 1, 16 and 256 clocks, and with both
# edges. Times the readers alone: of netlists (the patterns are then a file that is not there),
# and of patterns (on a netlist without their ports). dft_bench times the writing of patterns. Build the program first (./dft
# does). It promises nothing.
. "$(dirname "$0")/common.sh"
rate() { python3 -c "print(f'{$1 * $2 / $3:.3g}')"; }
# the scan cells and the vectors of a pair: instances with a scan input, lines that begin with V
shifted() {
    cells=$(grep -c '\.SI(' "$1.v") vectors=$(grep -c '^ *V {' "$1.stil")
    set -- "$2" $(timed 0 "$dft" replay --netlist "$1.v" --patterns "$1.stil")
    echo "replay: $1, $cells scan cells, $vectors vectors: $2 s, $3 MB, $(rate "$cells" "$vectors" "$2") cells times vectors a second"
}
if [ -n "$1" ]; then
    for netlist in "$1"/*.v; do [ -f "${netlist%.v}.stil" ] && shifted "${netlist%.v}" "$(basename "$netlist" .v)"; done
fi
for cells in 2000 8000; do
    python3 "$here/shift.py" "$cells" 12 "$work"
    shifted "$work/shift" "made scan patterns"
done
for edges in rising both; do
    for clocks in 2 4; do
        python3 "$here/edges.py" 8000 12 "$clocks" "$edges" "$work"
        shifted "$work/edges" "made scan patterns, $clocks clocks, $edges"
    done
done
replay() {
    python3 "$here/make.py" "$1" "$2" "$3" "$work" $4
    set -- "$1" "$2" "$3${4:+ ($4 edges)}" $(timed 0 "$dft" replay --netlist "$work/bench.v" --patterns "$work/bench.stil")
    echo "replay: $1 gates, $2 vectors, $3 clocks: $4 s, $5 MB, $(rate "$1" "$2" "$4") gates times vectors a second"
}
for gates in 1000 5000 25000; do replay "$gates" 2000 1; done
for clocks in 16 256; do replay 5000 2000 "$clocks"; done
for clocks in 1 4; do replay 5000 2000 "$clocks" both; done
for gates in 20000 100000; do
    python3 "$here/make.py" "$gates" 0 1 "$work"
    size=$(wc -c < "$work/bench.v")
    set -- $(timed 4 "$dft" replay --netlist "$work/bench.v" --patterns "$work/none")
    echo "read: $size bytes of netlist: $1 s, $2 MB, $(python3 -c "print(f'{$size / $1 / 1e6:.1f}')") MB/s"
done
for vectors in 22000 220000; do
    python3 "$here/make.py" 100 "$vectors" 1 "$work"
    size=$(wc -c < "$work/bench.stil")
    set -- $(timed 3 "$dft" replay --netlist "$here/../crates/dft_examples/data/first/m.v" --patterns "$work/bench.stil")
    echo "read: $size bytes of patterns: $1 s, $2 MB, $(python3 -c "print(f'{$size / $1 / 1e6:.1f}')") MB/s"
done
