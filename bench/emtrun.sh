#!/usr/bin/env bash
# Instructions of a full step of emtrun, beside plain C of the same rules (bench/ref.c) that makes each step anew, `ref`, and that keeps factors and the search for floating nodes until a
# switch changes, `ref -k`: the difference between a run of 100 steps and one of 200, so that all that comes before and after cancels. The listing goes to /dev/null.
# The three must list the same bytes, up to `done`. A measurement and no test.
#   bench/emtrun.sh [-n] [NAME..]    only these studies; with -n also ngspice on an equivalent netlist (bench/netlist.awk), which is slow; it has no switches
#   FROM=N TO=N                      runs of other lengths
#   EMTRUN=PATH                      this program in place of target/bin/emtrun, which is proved and built first
set -eu
cd "$(dirname "$0")/.."
work=$(mktemp -d)
trap 'rm -rf "$work"' EXIT
. bench/count.sh

spice=
if [ "${1:-}" = -n ]; then
    shift
    need ngspice
    [ "$(uname -m)" = x86_64 ] || { echo "ngspice is counted on x86-64 alone" >&2; exit 1; }
    spice=1
fi
from=${FROM:-100}
to=${TO:-200}
emtrun=${EMTRUN:-target/bin/emtrun}
if [ -z "${EMTRUN:-}" ]; then
    tools/emtrun >"$work/rt" 2>&1 || { tail -n 5 "$work/rt"; exit 1; }
fi
compile "$work/ref" bench/ref.c -lm
[ $# -gt 0 ] || set -- $(cd bench/studies && ls | sed 's/\.txt$//')

of_length() { awk -v steps="$1" 'BEGIN { FS = OFS = "\t" } NR == 1 { $3 = steps } { print }' "$text"; }

a_step() { # instructions of a full step: a program and its words
    local few many
    few=$(count "$@" <"$work/few")
    many=$(count "$@" <"$work/many")
    echo $(((many - few) / (to - from)))
}

spice_step() { # the same of ngspice, which ends in 1; nothing for a study with switches
    local few many
    awk -f bench/netlist.awk "$work/few" >"$work/few.cir" 2>/dev/null || return 0
    awk -f bench/netlist.awk "$work/many" >"$work/many.cir"
    few=$(count ngspice -b "$work/few.cir" </dev/null || true)
    many=$(count ngspice -b "$work/many.cir" </dev/null || true)
    echo $(((many - few) / (to - from)))
}

echo "| study | emtrun | ref | ref -k | emtrun / ref | emtrun / ref -k |${spice:+ ngspice | emtrun / ngspice |}"
echo "|---|---|---|---|---|---|${spice:+---|---|}"
for name in "$@"; do
    text=bench/studies/$name.txt
    run "$emtrun" <"$text" >"$work/listing"
    tail -n 1 "$work/listing" | grep -q '^done' || { echo "$name: not done" >&2; exit 1; }
    for kept in "" -k; do
        run "$work/ref" $kept <"$text" | cmp -s - "$work/listing" || { echo "$name: two listings" >&2; exit 1; }
    done
    of_length "$from" >"$work/few"
    of_length "$to" >"$work/many"
    ours=$(a_step "$emtrun")
    anew=$(a_step "$work/ref")
    kept=$(a_step "$work/ref" -k)
    also=
    [ -z "$spice" ] || also=$(spice_step)
    awk -v name="$name" -v ours="$ours" -v anew="$anew" -v kept="$kept" -v spice="$spice" -v also="$also" 'BEGIN {
        printf "| %s | %d | %d | %d | %.2f | %.2f |", name, ours, anew, kept, ours / anew, ours / kept
        if (spice) printf also == "" ? " | |" : sprintf(" %d | %.3f |", also, ours / also)
        printf "\n" }'
done
