#!/bin/sh
# Times the built dft: certifies reports that it compiled of jobs that bench/job.py makes (see compile.sh), and prints how many
# cubes are unsolvable, the seconds, the peak memory and the processor seconds. Build the program first (./dft does). It
# promises nothing.
. "$(dirname "$0")/common.sh"
certify() {
    compiled >/dev/null
    set -- "$1" "$(grep -c '^cube .* unsolvable ' "$work/out.report")" $(timed 0 "$dft" certify --netlist "$work/job.v" --config "$work/job.toml" --cubes "$work/job.cubes" --report "$work/out.report")
    echo "certify: $1, $2 unsolvable cubes: $3 s, $4 MB, $5 s of processor"
}
for cells in 2000 20000 60000; do
    python3 "$here/job.py" 1 "$cells" "$work"
    certify "seed 1, $cells flip-flops"
done
for chains in 64 256; do
    python3 "$here/job.py" wide "$chains" "$work"
    certify "$chains chains, 2000 cubes of 100 bits"
done
