#!/usr/bin/env bash
# Where every order ends: examples/scheduler.c with 1, 2 and 7 threads, and the second program in rising order, list the same end, on a worked study, on one with a stopped area that
# another waits for, and on one with two stops, of which one reaches over a chain of lines. LIBEMT=PATH takes this archive and makes none. (tests/compare.sh has random schedulers.)
# Closing line: N passed, M failed.
set -u
cd "$(dirname "$0")/.." || exit 1

passed=0
failed=0
work=$(mktemp -d)
trap 'rm -rf "$work"' EXIT
. tools/machine.sh

stop() {
    echo "$1"
    echo "$passed passed, $((failed + 1)) failed"
    exit 1
}

check() { # what it is, and two files that must be the same
    if cmp -s "$2" "$3"; then
        passed=$((passed + 1))
    else
        echo "$1:"
        diff "$2" "$3" | head -n 10
        failed=$((failed + 1))
    fi
}

for tool in rt $compiler cargo; do
    command -v $tool >/dev/null 2>&1 || stop "tests/ends.sh needs '$tool'"
done
archive=target/staticlib/libemt.a
if [ -n "${LIBEMT:-}" ]; then
    archive=$work/libemt.a
    cp "$LIBEMT" "$archive" || stop "no archive $LIBEMT"
else
    tools/libemt >"$work/rt" 2>&1 || { tail -n 5 "$work/rt"; stop "libemt.a is not made"; }
fi
flags=(-pthread -std=c11 -Wall -Wextra -Werror)
compile "$work/scheduler" examples/scheduler.c "$archive" || stop "examples/scheduler.c does not compile"
cargo build --release --offline -j1 --manifest-path second/Cargo.toml >"$work/cargo" 2>&1 || { tail -n 5 "$work/cargo"; stop "second/ does not build"; }

# area 1 floats before its step 3, area 2 waits for it, no line leads to area 3
tr ' ' '\t' >"$work/stopped.txt" <<'END'
study 1000 6 0
VS 1 1000 1 0
SW 1 2 2000 1 3
LINE 1 3 400000 1000
VS 4 7 1 0
R 4 0 1000
END
tr ' ' '\t' >"$work/stopped.areas" <<'END'
area 1 2 14 2
area 2 3 13 2
area 3 6 12 0
END

# area 1 floats before step 9, area 2 waits for it and area 3 for that; area 4 passes its history before step 6, area 5 waits for it; area 6 is apart
tr ' ' '\t' >"$work/chain.txt" <<'END'
study 1000 20 20000000
VS 1 1000 1 0
SW 1 2 2000 1 9
LINE 1 3 400000 2000
R 3 0 1000000
LINE 4 3 400000 3000
C 4 0 100
VS 5 20000000 1 0
L 5 0 1000
R 5 6 1000000000
R 6 0 1000000
LINE 6 7 400000 1000
R 7 0 400000
VS 8 7 1 0
R 8 0 1000
END
tr ' ' '\t' >"$work/chain.areas" <<'END'
area 1 8 14 2
area 2 10 13 2
area 3 13 13 4
area 4 5 17 6
area 5 6 13 9
area 6 20 12 0
END

cp studies/areas.txt "$work/areas.txt"
for area in 1 2 3; do printf 'area\t%d\t3000\t12\t0\n' $area; done >"$work/areas.areas"

for study in stopped chain areas; do
    second/target/release/ends <"$work/$study.txt" >"$work/$study.second"
    grep '^area' "$work/$study.second" >"$work/told"
    check "$study: the areas at its end" "$work/told" "$work/$study.areas"
    for threads in 1 2 7; do
        run "$work/scheduler" $threads <"$work/$study.txt" >"$work/$study.$threads"
        check "$study: $threads threads and the second program" "$work/$study.$threads" "$work/$study.second"
    done
done
# where no area stops, the end is emtrun's last step
second/target/release/second <studies/areas.txt | awk -F'\t' -v OFS='\t' '$2 == 3000 && /^[vi]/ { print $1, $3, $4 ($5 == "" ? "" : OFS $5) }' >"$work/last"
grep '^[vi]' "$work/areas.second" >"$work/told"
check "areas: the last step of the listing" "$work/told" "$work/last"

echo "$passed passed, $failed failed"
[ "$failed" -eq 0 ]
