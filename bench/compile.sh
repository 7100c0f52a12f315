#!/bin/sh
# Times the built dft: compiles jobs that bench/job.py makes, and replays what comes of them. First the generated job at four
# sizes, of 2,000 to 60,000 flip-flops in 16 chains, with a cube for each four, two of them where half of the flip-flops fall, and
# the same two where all rise and each cube captures with two pulses; then 64, 256 and 1,024 chains of 64 flip-flops with 2,000
# cubes of 100 bits, which is mostly the placement of cubes. Prints the seconds, the peak memory and the processor seconds. Build
# the program first (./dft does). It promises nothing.
. "$(dirname "$0")/common.sh"
for job in "5 2000" "5 8000" "1 20000" "3 60000" "5 8000 both" "3 60000 both" "5 8000 twice" "3 60000 twice"; do
    set -- $job
    python3 "$here/job.py" "$1" "$2" "$work" $3
    case $3 in
        both) kind=" of both edges" ;;
        twice) kind=", captures of two pulses" ;;
        *) kind= ;;
    esac
    set -- "seed $1, $2 flip-flops$kind" $(compiled)
    echo "compile: $1: $2 s, $3 MB, $4 s of processor"
    set -- "$1" $(timed 0 "$dft" replay --netlist "$work/out.v" --patterns "$work/out.stil")
    echo "replay of it: $1: $2 s, $3 MB, $4 s of processor"
done
for chains in 64 256 1024; do
    python3 "$here/job.py" wide "$chains" "$work"
    set -- $(compiled)
    echo "compile: $chains chains, 2000 cubes of 100 bits: $1 s, $2 MB, $3 s of processor"
done
