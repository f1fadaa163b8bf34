#!/usr/bin/env bash
# Instructions per byte of emt_read, beside a plain C reader of the same rules (bench/read.c): the difference between ten reads of a text and none; and the two held to the same
# answers on damaged copies of the texts. A measurement and no test.
#   bench/reading.sh [COPIES]    so many damaged copies of each text (20,000)
#   LIBEMT=PATH                  this archive in place of target/staticlib/libemt.a, which is proved and built first
set -eu
cd "$(dirname "$0")/.."
work=$(mktemp -d)
trap 'rm -rf "$work"' EXIT
. bench/count.sh

if [ -z "${LIBEMT:-}" ]; then
    tools/libemt >"$work/rt" 2>&1 || { tail -n 5 "$work/rt"; exit 1; }
fi
compile "$work/reading" bench/reading.c bench/read.c "${LIBEMT:-target/staticlib/libemt.a}"

a_read() { # instructions of one read: a text, and whose
    local none all
    none=$(count "$work/reading" "$1" "$2" 0)
    all=$(count "$work/reading" "$1" "$2" 10)
    echo $(((all - none) / 10))
}

for text in full wide long kinds; do run "$work/reading" $text agree "${1:-20000}"; done
printf '%-8s %8s %12s %12s %8s\n' text bytes "per byte" "C per byte" ratio
for text in full wide long; do
    echo "$text $(run "$work/reading" $text ours 0) $(a_read $text ours) $(a_read $text plain)" | awk '{ printf "%-8s %8d %12.2f %12.2f %8.2f\n", $1, $2, $3 / $2, $4 / $2, $3 / $4 }'
done
