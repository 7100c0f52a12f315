#!/bin/sh
# Times the built dft and compares it: seek.sh seeks test cubes, with a limit of 100, of a multiplier and of a processor that bench/seek.py
# makes, and of the generated job at three sizes with limits of 0, 1 and 10, beside bench/plain/seek.rs, a plain Rust program of the same
# steps, which is built first (it takes rustc). Prints the processor seconds and the peak memory of both and how many times the plain one's
# seconds dft took; then what the plain one tells with limits of 10, 100 and 1,000. Ends with 1 where the two save other bytes, or count
# others than are known of the generated job.
# seek.sh compare FIRST LAST compares both on the random designs of these seeds alone, in each domain with limits of 0, 1, 3 and 1,000.
# seek.sh limits seeks in three designs that are refused for their number of cubes, the length of the cubes and that of the report.
# Build the program first (./dft does). It promises nothing.
. "$(dirname "$0")/common.sh"
rustc --edition 2021 -O -o "$work/plain" "$here/plain/seek.rs" || exit 2
# seeks the job's cubes by a program, with a clock and a limit, and prints what timed prints
seeks() {
    timed 0 "$1" seek --netlist "$work/job.v" --config "$work/job.toml" --clock "$2" --limit "$3" \
        --out-cubes "$work/$(basename "$1").cubes" --out-report "$work/$(basename "$1").report"
}
same() {
    cmp "$work/dft.cubes" "$work/plain.cubes" && cmp "$work/dft.report" "$work/plain.report" && return
    echo "seek: $1: the two tell otherwise" >&2
    exit 1
}
counts() { sed -n '2s/^faults \([0-9]*\) cubes \([0-9]*\) not-testable \([0-9]*\) aborted \([0-9]*\)$/\1 faults, \2 cubes, \3 not testable, \4 aborted/p' "$1"; }
# seeks by both programs, compares what they save, and prints their times
both() {
    built=$(seeks "$dft" "$2" "$3")
    plain=$(seeks "$work/plain" "$2" "$3")
    same "$1, limit $3"
    set -- "$1, limit $3" $built $plain
    echo "seek: $1: $4 s, $3 MB; plain $7 s, $6 MB, $(python3 -c "print(f'{$4 / max($7, 0.001):.1f}')") times; $(counts "$work/dft.report")"
}
case $1 in
compare)
    for seed in $(seq "$2" "$3"); do
        python3 "$here/seek.py" random "$seed" "$work"
        for clock in $(sed -n "s/[],']/ /g; s/^domains = \[//p" "$work/job.toml"); do
            for limit in 0 1 3 1000; do
                seeks "$dft" "$clock" "$limit" >/dev/null
                seeks "$work/plain" "$clock" "$limit" >/dev/null
                same "seed $seed, clock $clock, limit $limit"
            done
        done
    done
    echo "seek: seeds $2 to $3: the same"
    exit
    ;;
limits)
    for kind in cubes long told; do
        python3 "$here/seek.py" "$kind" "$work"
        echo "seek: $kind: $("$dft" seek --netlist "$work/job.v" --config "$work/job.toml" --clock clk --limit 1 --out-cubes "$work/cubes" --out-report "$work/report" 2>/dev/null), status $?"
    done
    exit
    ;;
esac
# what is known of the generated job of seed 5 and clock clk0: its size, and for each limit the counts
while read -r size limit known; do
    python3 "$here/job.py" 5 "$size" "$work"
    both "seed 5, $size flip-flops" clk0 "$limit"
    [ "$(counts "$work/dft.report")" = "$known" ] || { echo "seek: not $known" >&2; exit 1; }
done <<'KNOWN'
64 0 258 faults, 55 cubes, 0 not testable, 203 aborted
64 1 258 faults, 107 cubes, 116 not testable, 35 aborted
64 10 258 faults, 142 cubes, 116 not testable, 0 aborted
500 0 2002 faults, 445 cubes, 0 not testable, 1557 aborted
500 1 2002 faults, 878 cubes, 878 not testable, 246 aborted
500 10 2002 faults, 1124 cubes, 878 not testable, 0 aborted
2000 0 8002 faults, 1769 cubes, 0 not testable, 6233 aborted
2000 1 8002 faults, 3519 cubes, 3456 not testable, 1027 aborted
2000 10 8002 faults, 4546 cubes, 3456 not testable, 0 aborted
KNOWN
for kind in multiplier processor; do
    python3 "$here/seek.py" "$kind" "$work"
    both "$kind" clk 100
    for limit in 10 100 1000; do
        set -- "$kind" "$limit" $(seeks "$work/plain" clk "$limit")
        echo "seek of the plain program: $1, limit $2: $5 s, $4 MB; $(counts "$work/plain.report")"
    done
done
