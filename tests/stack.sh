#!/usr/bin/env bash
# emt_advance_in in 8,192 bytes of stack: what it touches on the bench studies, on the largest networks and on refused calls of each number, beside emt_advance; and E1 to E10 with a study of
# 32 free nodes on a stack of just these bytes (tests/callers/stack.c). LIBEMT=PATH takes this archive and makes none.
# Closing line: N passed, M failed.
set -u
cd "$(dirname "$0")/.." || exit 1

work=$(mktemp -d)
trap 'rm -rf "$work"' EXIT
. tools/machine.sh

stop() {
    echo "$1"
    echo "0 passed, 1 failed"
    exit 1
}

for tool in rt $compiler; do
    command -v $tool >/dev/null 2>&1 || stop "tests/stack.sh needs '$tool'"
done
if [ -z "${LIBEMT:-}" ]; then
    tools/libemt >"$work/rt" 2>&1 || { tail -n 5 "$work/rt"; stop "libemt.a is not made"; }
fi

flags=(-O2 -std=c11 -Wall -Wextra -Werror)
compile "$work/stack" tests/callers/stack.c "${LIBEMT:-target/staticlib/libemt.a}" || stop "tests/callers/stack.c does not compile"
run "$work/stack" bench/studies/*.txt >"$work/told"
sed 's|bench/studies/\(.*\)\.txt|\1|; $d' "$work/told"
line=$(tail -n 1 "$work/told")
[[ $line =~ ^[0-9]+\ passed,\ [0-9]+\ failed$ ]] || stop "tests/callers/stack.c does not end: $line"
echo "$line"
[[ $line == *" 0 failed" ]]
