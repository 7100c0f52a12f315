# What the benchmarks share: the built program, a folder that is removed at the end, and a clock. It is read by them.
here=$(cd "$(dirname "$0")" && pwd)
dft=$here/../crates/dft/out/dft
[ -x "$dft" ] || { echo "build dft first: ./dft replay .." >&2; exit 2; }
work=$(mktemp -d) || exit 2
trap 'rm -rf "$work"' EXIT
# prints the seconds, the peak megabytes and the processor seconds of a command that ends with the given status, and else ends
# the benchmark
timed() { python3 - "$@" <<'PY' || kill $$
import os, sys, time
nowhere = os.open(os.devnull, os.O_WRONLY)
start = time.time()
child = os.posix_spawnp(sys.argv[2], sys.argv[2:], os.environ, file_actions=[(os.POSIX_SPAWN_DUP2, nowhere, 1)])
_, status, used = os.wait4(child, 0)
took, status = time.time() - start, os.waitstatus_to_exitcode(status)
if str(status) != sys.argv[1]:
    sys.exit(f"{sys.argv[2:]} ended with {status}, not {sys.argv[1]}")
print(f"{took:.3f} {used.ru_maxrss / 1024:.0f} {used.ru_utime + used.ru_stime:.3f}")
PY
}
# compiles the job in the folder, and prints what timed prints
compiled() {
    timed 0 "$dft" compile --netlist "$work/job.v" --config "$work/job.toml" --cubes "$work/job.cubes" \
        --out-netlist "$work/out.v" --out-patterns "$work/out.stil" --out-report "$work/out.report"
}
