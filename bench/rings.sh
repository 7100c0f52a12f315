#!/bin/sh
# Asks the built dft for hardware with 1, 2 .. 1,024 chains, on one channel and on 32, for a netlist of 1,024 flip-flops, and prints how
# many configurations it makes, and each refusal. Build the program first (./dft does). It takes some minutes.
. "$(dirname "$0")/common.sh"
python3 "$here/encoded.py" netlist 1024 0 "$work"
for channels in 1 32; do
    made=0
    chains=1
    while [ "$chains" -le 1024 ]; do
        line=$("$dft" configure --netlist "$work/job.v" --chains "$chains" --channels "$channels" --out "$work/job.toml" 2>/dev/null)
        case $line in
        configured*) made=$((made + 1)) ;;
        *) echo "rings: $chains chains on $channels channels: $line" ;;
        esac
        chains=$((chains + 1))
    done
    echo "rings: on $channels channels, $made of 1024 numbers of chains have a ring"
done
