#!/bin/sh
# Times the built dft: grade.sh [FOLDER]. Grades each pair NAME.v, NAME.stil of the folder, if one is given, which is to pass; then
# the faults of netlists under patterns that it compiled of jobs that bench/job.py makes (see compile.sh). Prints how many faults
# there are, the processor seconds and the peak memory of the grading and of a replay of the same, and how many times the second's
# seconds the first took. Build the program first (./dft does). It promises nothing.
. "$(dirname "$0")/common.sh"
# grades and replays a pair of files, NAME.v and NAME.stil, and prints it by another name
graded() {
    played=$(timed 0 "$dft" replay --netlist "$1.v" --patterns "$1.stil")
    took=$(timed 0 "$dft" grade --netlist "$1.v" --patterns "$1.stil" --out "$work/faults")
    faults=$(sed -n '2s/^faults \([0-9]*\) detected \([0-9]*\) .*/\1 faults, \2 detected/p' "$work/faults")
    set -- "$2" $took $played
    echo "grade: $1, $faults: $4 s, $3 MB; replay $7 s, $6 MB; $(python3 -c "print(f'{$4 / max($7, 0.001):.0f}')") times"
}
if [ -n "$1" ]; then
    for netlist in "$1"/*.v; do [ -f "${netlist%.v}.stil" ] && graded "${netlist%.v}" "$(basename "$netlist" .v)"; done
fi
for cells in 16 64; do
    python3 "$here/job.py" 1 "$cells" "$work"
    compiled >/dev/null
    graded "$work/out" "seed 1, $cells flip-flops"
done
