#!/bin/sh
# Times the built dft: generates a job, which it compiles and replays too, at four sizes, and prints the seconds, the peak memory
# and the processor seconds. Build the program first (./dft does). It promises nothing.
. "$(dirname "$0")/common.sh"
for size in 64 2000 8000 20000; do
    set -- $(timed 0 "$dft" generate --seed 1 --size "$size")
    echo "generate: seed 1, $size flip-flops: $1 s, $2 MB, $3 s of processor"
done
