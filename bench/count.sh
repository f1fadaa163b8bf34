# Read by bench scripts, which set $work: what tools/machine.sh has, with C compiled as for a measurement, and the instructions of programs for x86-64 counted.
# On x86-64 by callgrind. On another processor by the emulator of the Rattle kit, which logs the instructions of each block that it translates and each block that
# it enters. Both count each byte that `rep stosb` clears as an instruction of its own, so libc is told to clear by ordinary stores.
export GLIBC_TUNABLES=${GLIBC_TUNABLES-glibc.cpu.x86_rep_stosb_threshold=1000000}

need() {
    for tool in "$@"; do
        command -v "$tool" >/dev/null 2>&1 || { echo "$0 needs '$tool'" >&2; exit 1; }
    done
}

need rt
. tools/machine.sh
flags=(-O3 -ffp-contract=off -pthread)
need $compiler awk

if [ "$(uname -m)" = x86_64 ]; then
    need valgrind
    count() { # instructions of a run; what it writes goes nowhere
        local status=0
        valgrind --tool=callgrind --callgrind-out-file="$work/callgrind" "$@" >/dev/null 2>"$work/said" || status=$?
        awk '/Collected/ { print $NF }' "$work/said"
        return $status
    }
else
    count() {
        local status=0
        [ -p "$work/blocks" ] || mkfifo "$work/blocks"
        awk '
            /^OP:/ { first = 1; next }
            /^ ---- / { if (first) { at = $2; size[at] = first = 0 } size[at]++; next }
            /^Trace/ { split($4, part, "/"); sum += size[part[2]] }
            END { printf "%d\n", sum }' "$work/blocks" &
        "${emulator[@]}" -d exec,nochain,op -D "$work/blocks" "${loader[@]}" "$@" >/dev/null || status=$?
        wait $!
        return $status
    }
fi
