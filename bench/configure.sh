#!/bin/sh
# Measures what the configurations encode that the built dft makes, and times it. At seven sizes cells are taken in a random order, each
# with a random bit, until `dft compile` reports that the cube is unsolvable: the care bits before that, divided by the variables, as
# a mean of 20 orders; beside it those of the same configuration with phase sets that are rotated. Then the seconds, the peak memory
# and the processor seconds of a configuration of 65,536 flip-flops among 240,000 instances in 1,024 chains. Takes the number of orders
# as its word, 20 where there is none. Build the program first (./dft does). It promises nothing.
. "$(dirname "$0")/common.sh"
trials=${1:-20}
# the care bits before the first unsolvable cube, under a configuration
bits() {
    "$dft" compile --netlist "$work/job.v" --config "$work/$1.toml" --cubes "$work/job.cubes" \
        --out-netlist "$work/out.v" --out-patterns "$work/out.stil" --out-report "$work/out.report" >/dev/null || exit 1
    python3 "$here/encoded.py" read "$work/out.report"
}
# the mean of what is left of each line, over the variables
mean() { awk -v of="$1" '{ sum += $1 / of } END { printf "%.3f", sum / NR }'; }
for size in "16 60 1" "64 100 1" "64 100 2" "128 60 4" "256 60 8" "512 40 16" "1024 40 24"; do
    set -- $size
    cells=$(($1 * $2))
    python3 "$here/encoded.py" netlist "$cells" 0 "$work"
    line=$("$dft" configure --netlist "$work/job.v" --chains "$1" --channels "$3" --out "$work/job.toml") || exit 1
    python3 "$here/encoded.py" rotated "$work"
    cycles=${line##* cycles }
    variables=$((cycles * $3))
    : >"$work/made"
    : >"$work/turned"
    trial=0
    while [ "$trial" -lt "$trials" ]; do
        python3 "$here/encoded.py" cubes "$trial" "$cells" $((variables / 2)) $((variables + 1)) "$work"
        bits job >>"$work/made"
        python3 "$here/encoded.py" cubes "$trial" "$cells" 1 $((variables + 1)) "$work"
        bits rotated >>"$work/turned"
        trial=$((trial + 1))
    done
    echo "configure: $1 chains of $2, $3 channels: $variables variables: $(mean "$variables" <"$work/made") of them, rotated $(mean "$variables" <"$work/turned")"
done
python3 "$here/encoded.py" netlist 65536 174464 "$work"
set -- $(timed 0 "$dft" configure --netlist "$work/job.v" --chains 1024 --channels 16 --out "$work/job.toml")
echo "configure: 65536 flip-flops of 240000 instances in 1024 chains: $1 s, $2 MB, $3 s of processor"
