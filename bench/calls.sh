#!/usr/bin/env bash
# Instructions of one call of emt_advance and of one of emt_advance_in, beside plain C that judges the same lent words one by one and takes the same step (bench/lent.c), averaged over steps 101 to 200 of all areas of
# each bench study; and of the step alone, which is a call that takes it less one that is judged in full and then refused by 11. On x86-64 also, in
# time, what a call that takes no step costs. tests/stack.sh tells the bytes of stack. All three must leave the same words. A measurement and no test.
#   bench/calls.sh [NAME..]    only these studies
#   LIBEMT=PATH                this archive in place of target/staticlib/libemt.a, which is proved and built first
set -eu
cd "$(dirname "$0")/.."
work=$(mktemp -d)
trap 'rm -rf "$work"' EXIT
. bench/count.sh

if [ -z "${LIBEMT:-}" ]; then
    tools/libemt >"$work/rt" 2>&1 || { tail -n 5 "$work/rt"; exit 1; }
fi
compile "$work/calls" bench/calls.c bench/lent.c "${LIBEMT:-target/staticlib/libemt.a}" -lm
[ $# -gt 0 ] || set -- $(cd bench/studies && ls | sed 's/\.txt$//')

a_call() { # instructions of one call, the difference between 100 rounds and none: whose, how many calls a round has, and `judged`
    local none all
    none=$(count "$work/calls" "$1" 0 $3 <"$text")
    all=$(count "$work/calls" "$1" 100 $3 <"$text")
    echo $(((all - none) / 100 / $2))
}

echo "| study | emt_advance | plain C | ratio | the step alone | plain C | ratio | emt_advance_in |"
echo "|---|---|---|---|---|---|---|---|"
for name in "$@"; do
    text=bench/studies/$name.txt
    run "$work/calls" <"$text" || { echo "$name: two answers or two states" >&2; exit 1; }
    areas=$(run "$work/calls" areas <"$text")
    ours=$(a_call ours "$areas" "")
    plain=$(a_call plain "$areas" "")
    room=$(a_call room "$areas" "")
    ours_judged=$(a_call ours 1 judged)
    plain_judged=$(a_call plain 1 judged)
    echo "$name $ours $plain $((ours - ours_judged)) $((plain - plain_judged)) $room" | awk '{ printf "| %s | %d | %d | %.2f | %d | %d | %.2f | %d |\n", $1, $2, $3, $2 / $3, $4, $5, $4 / $5, $6 }'
done

[ "$(uname -m)" = x86_64 ] || exit 0
echo
echo "| study | judged, µs | plain C, µs |"
echo "|---|---|---|"
for name in "$@"; do
    echo "| $name | $("$work/calls" time <"bench/studies/$name.txt" | sed 's/ / | /') |"
done
