#!/bin/sh
# Times the built dft: scans made netlists of 10,000 to 200,000 instances with 1 and 16 clocks, and prints the seconds,
# the peak memory and the instances per second; then the generated job of 60,000 flip-flops (bench/job.py). Build the program
# first (./dft does). It promises nothing.
. "$(dirname "$0")/common.sh"
scan() {
    instances=$1 clocks=$2 gates=$(($1 * 5 / 6))
    python3 "$here/make.py" "$gates" 0 "$clocks" "$work"
    set -- $(timed 0 "$dft" scan --netlist "$work/bench.v" --config "$work/bench.toml" --out "$work/scanned.v" --report "$work/report.txt")
    echo "scan: $instances instances, $clocks clocks: $1 s, $2 MB, $(python3 -c "print(f'{$instances / $1:.3g}')") instances a second"
}
for instances in 10000 50000 200000; do scan "$instances" 1; done
scan 50000 16
python3 "$here/job.py" 3 60000 "$work"
set -- $(timed 0 "$dft" scan --netlist "$work/job.v" --config "$work/job.toml" --out "$work/scanned.v" --report "$work/report.txt")
echo "scan: seed 3, 60000 flip-flops: $1 s, $2 MB, $3 s of processor"
