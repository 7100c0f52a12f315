#!/bin/sh
# Times `dft replay` on compiled jobs that move at other edges: turned.sh FOLDER. Of each pair NAME.v, NAME.stil of the folder
# it makes those of turned.py, which compare nothing: as they are, with every second clock pin inverted, with four domains,
# with a lock-up of each polarity. Prints the processor seconds of each, beside those of the first, and the same of what three
# more rounds of its vectors cost, which leaves out the reading of the netlist and what a set of clocks costs when it comes
# first. Each time is the least of five. Build the program first.
. "$(dirname "$0")/common.sh"
[ -d "$1" ] || { echo "which folder?" >&2; exit 2; }
# the least processor seconds and the megabytes of a replay of the job with its vectors so many times
least() {
    python3 "$here/turned.py" "$netlist" "${netlist%.v}.stil" "$kind" "$work" "$1"
    for _ in 1 2 3 4 5; do timed 0 "$dft" replay --netlist "$work/turned.v" --patterns "$work/turned.stil"; done | sort -n -k 3 | head -n 1
}
for netlist in "$1"/*.v; do
    [ -f "${netlist%.v}.stil" ] || continue
    first=
    for kind in rising falling four lockups; do
        set -- "$1" $(least 1) $(least 4)
        first=${first:-$4 $7}
        python3 - "$(basename "$netlist" .v), $kind" "$3" "$4" "$7" $first <<'PY'
import sys
name, megabytes, once, four, first_once, first_four = sys.argv[1:]
once, more, first_once, first_more = float(once), float(four) - float(once), float(first_once), float(first_four) - float(first_once)
print(f"turned: {name}: {once:.3f} s, {megabytes} MB, {once / first_once:.2f} of the rising one; three rounds more {more:.3f} s, {more / first_more:.2f} of it")
PY
    done
done
