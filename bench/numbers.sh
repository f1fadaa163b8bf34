#!/usr/bin/env bash
# Instructions per call of the compiled numbers layer, beside the same loops in C (bench/loops.c): the difference between a run that has a hundred calls of one function and
# one that has none. C by clang, and on x86-64 by gcc too. A measurement and no test: no gate depends on it.
#   LIBNUMBERS=PATH    this archive in place of target/staticlib/libnum_c.a, which is proved and built first
set -eu
cd "$(dirname "$0")/.."
work=$(mktemp -d)
trap 'rm -rf "$work"' EXIT
. bench/count.sh

archive=${LIBNUMBERS:-target/staticlib/libnum_c.a}
if [ -z "${LIBNUMBERS:-}" ]; then
    tools/libemt num_c libnum_c.a >"$work/rt" 2>&1 || { tail -n 5 "$work/rt"; exit 1; }
fi
compilers=clang
[ "$(uname -m)" != x86_64 ] || compilers="clang gcc"

printf '%-22s %-6s %12s %12s %6s\n' "per call" "C by" "Rattle" "C" "ratio"
for compiler in $compilers; do
    command -v $compiler >/dev/null 2>&1 || continue
    compile "$work/numbers" bench/numbers.c bench/loops.c "$archive"
    run "$work/numbers" || { echo "two results" >&2; exit 1; }
    none=$(count "$work/numbers" none)
    for name in solve all_within; do
        ours=$(count "$work/numbers" numbers_$name)
        theirs=$(count "$work/numbers" c_$name)
        awk -v name=$name -v cc=$compiler -v a=$((ours - none)) -v b=$((theirs - none)) 'BEGIN { printf "%-22s %-6s %12.0f %12.0f %6.2f\n", name, cc, a / 100, b / 100, a / b }'
    done
done
