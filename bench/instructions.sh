#!/bin/sh
# Counts the instructions of the built dft with valgrind's callgrind, which a loaded machine does not change: instructions.sh
# [FOLDER]. Replays each pair NAME.v, NAME.stil of the folder, if one is given; then compiles, replays and certifies the generated
# job of 8,000 flip-flops, where all rise and where half of them fall, scans it, makes a configuration for it and one of 2,000; then
# grades and seeks in the one of 500. Build the program first (./dft does). It promises nothing.
. "$(dirname "$0")/common.sh"
counted() {
    name=$1
    shift
    count=$(valgrind --tool=callgrind --callgrind-out-file=/dev/null "$dft" "$@" 2>&1 >/dev/null | sed -n 's/.*refs: *//p' | tr -d ,)
    echo "instructions: $name: $count"
}
if [ -n "$1" ]; then
    for netlist in "$1"/*.v; do
        [ -f "${netlist%.v}.stil" ] && counted "replay of $(basename "$netlist" .v)" replay --netlist "$netlist" --patterns "${netlist%.v}.stil"
    done
fi
for edges in rising both; do
    python3 "$here/job.py" 5 8000 "$work" "$edges"
    job="--netlist $work/job.v --config $work/job.toml --cubes $work/job.cubes"
    counted "compile, seed 5, 8000 flip-flops, $edges" compile $job --out-netlist "$work/out.v" --out-patterns "$work/out.stil" --out-report "$work/out.report"
    counted "replay of it" replay --netlist "$work/out.v" --patterns "$work/out.stil"
    counted "certify of it" certify $job --report "$work/out.report"
done
counted "scan, the last netlist" scan --netlist "$work/job.v" --config "$work/job.toml" --out "$work/o.v" --report "$work/o.report"
counted "generate, seed 1, 2000 flip-flops" generate --seed 1 --size 2000
counted "configure, the last netlist, 64 chains, 4 channels" configure --netlist "$work/job.v" --chains 64 --channels 4 --out "$work/o.toml"
python3 "$here/job.py" 5 500 "$work"
job="--netlist $work/job.v --config $work/job.toml"
"$dft" compile $job --cubes "$work/job.cubes" --out-netlist "$work/out.v" --out-patterns "$work/out.stil" --out-report "$work/out.report" >/dev/null
counted "grade, seed 5, 500 flip-flops" grade --netlist "$work/out.v" --patterns "$work/out.stil" --out "$work/faults"
counted "seek, seed 5, 500 flip-flops, limit 10" seek $job --clock clk0 --limit 10 --out-cubes "$work/o.cubes" --out-report "$work/o.report"
