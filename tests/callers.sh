#!/usr/bin/env bash
# The library as its customers link it: the three callers of examples/, E1 to E10 through the compiled calls, a listing that stops, what include/emt.h says that a call takes for granted,
# how networks are laid out, a study that is changed and written out again, and tables of peaks, README.md's three lines of C among them.
# LIBEMT=PATH takes this archive and makes none.
# Closing line: N passed, M failed.
set -u
cd "$(dirname "$0")/.." || exit 1

work=$(mktemp -d)
trap 'rm -rf "$work"' EXIT
. tools/machine.sh

stop() {
    echo "$1"
    echo "0 passed, 1 failed"
    exit 1
}

for tool in rt $compiler $disassembler rustc; do
    command -v $tool >/dev/null 2>&1 || stop "tests/callers.sh needs '$tool'"
done
archive=target/staticlib/libemt.a
if [ -n "${LIBEMT:-}" ]; then
    archive=$work/libemt.a
    cp "$LIBEMT" "$archive" || stop "no archive $LIBEMT"
else
    tools/libemt >"$work/rt" 2>&1 || { tail -n 5 "$work/rt"; stop "libemt.a is not made"; }
fi

flags=(-pthread -std=c11 -Wall -Wextra -Werror)
passed=0
failed=0
for program in examples stopped stated layout; do
    compile "$work/$program" tests/callers/$program.c "$archive" -lm || stop "tests/callers/$program.c does not compile"
    run "$work/$program" studies/areas.txt >"$work/told"
    grep -v ' passed, ' "$work/told"
    line=$(grep -E '^[0-9]+ passed, [0-9]+ failed$' "$work/told") || stop "tests/callers/$program.c does not end"
    passed=$((passed + ${line%% *}))
    line=${line#*, }
    failed=$((failed + ${line%% *}))
done

# no memory of its own: nothing in the archive stands where a program may write
if "$disassembler" -t "$archive" | grep -E '\*COM\*|[[:space:]]\.(data|bss|tdata|tbss)($|[[:space:]]|\.[^r])'; then
    echo "the archive has memory of its own"
    failed=$((failed + 1))
else
    passed=$((passed + 1))
fi

compile "$work/in_c" examples/caller.c "$archive" || stop "examples/caller.c does not compile"
compile "$work/in_room" examples/little_stack.c "$archive" || stop "examples/little_stack.c does not compile"
callers="in_c in_room"
across=()
missing=
if [ "$(uname -m)" != x86_64 ]; then
    across=(--target x86_64-unknown-linux-gnu -C linker=x86_64-linux-gnu-gcc)
    command -v x86_64-linux-gnu-gcc >/dev/null 2>&1 || missing="there is no x86_64-linux-gnu-gcc to link it for x86-64"
    [ -d "$(rustc --print target-libdir --target x86_64-unknown-linux-gnu)" ] || missing="rustc has no standard library for x86-64"
fi
if [ -n "$missing" ]; then
    echo "examples/caller.rs is left out on $(uname -m): $missing"
else
    rustc "${across[@]}" -L "$(dirname "$archive")" -l static=emt -o "$work/in_rust" examples/caller.rs || stop "examples/caller.rs does not compile"
    callers="$callers in_rust"
fi
for caller in $callers; do
    told=$(run "$work/$caller")
    if [ "$told" = "node 2 after step 1: 50.0 V" ]; then
        passed=$((passed + 1))
    else
        echo "$caller: '$told'"
        failed=$((failed + 1))
    fi
done

# expect EXAMPLE WHAT STATUS FILE WORD.. runs the example with these words; it must write just the file, and end with this status
expect() {
    local example=$1 what=$2 status=$3 file=$4
    shift 4
    run "$work/$example" "$@" >"$work/told" 2>"$work/said"
    if [ $? -eq "$status" ] && cmp -s "$work/told" "$file"; then
        passed=$((passed + 1))
    else
        echo "$example, $what:"
        diff "$work/told" "$file" | head -n 10
        cat "$work/said"
        failed=$((failed + 1))
    fi
}
for example in redraw peaks; do
    compile "$work/$example" examples/$example.c "$archive" || stop "examples/$example.c does not compile"
done

tr ' ' '\t' >"$work/drawn.txt" <<'END'
study 1000 8 0
R 1 2 2000
VS 1 -1000 1 0
LINE 2 3 400000 2000
IS 3 5 1 0
R 3 0 1000000000000
END
tr ' ' '\t' >"$work/redrawn.txt" <<'END'
study 1000 8 0
R 1 2 2000
VS 1 -1000 1 0
LINE 2 3 400000 2000
IS 3 5 1 0
R 3 0 1000
END
expect redraw "a file" 0 "$work/redrawn.txt" 3 1000 "$work/drawn.txt"
expect redraw "standard input" 0 "$work/redrawn.txt" 3 1000 <"$work/drawn.txt"
expect redraw "the value it had" 0 studies/areas.txt 8 600000 studies/areas.txt
expect redraw "a line" 1 /dev/null 2 1000 "$work/drawn.txt"
expect redraw "a value out of range" 1 /dev/null 3 999 "$work/drawn.txt"
expect redraw "no study" 1 /dev/null 1 1000 examples/redraw.c

# examples/peaks.c: peaks WHAT STATUS FIELD.. runs it on $work/study.txt; these fields, three of each node, must be its table
peaks() {
    local what=$1 status=$2
    shift 2
    printf '%s\t%s\t%s\n' node 'peak, V' step "$@" >"$work/table"
    expect peaks "$what" "$status" "$work/table" <"$work/study.txt"
}
# The wave doubles at the open end at step 3 and is back at node 2 at step 4; by step 6 node 2 has 100.0 V again, and its peak stays.
printf 'study\t1000\t6\t0\nVS\t1\t1000\t1\t0\nLINE\t1\t2\t400000\t1000\nLINE\t2\t3\t400000\t1000\n' >"$work/study.txt"
peaks "three nodes" 0 1 100.0 1 2 200.0 4 3 200.0 3
# Without sign: -20.0 V at step 4.
printf 'study\t1000\t4\t0\nVS\t1\t-300\t2\t3\nR\t1\t0\t1000000\n' >"$work/study.txt"
peaks "a falling ramp" 0 1 20.0 4
# Node 2 hangs in the air at step 3: the peaks are those of the two steps before.
printf 'study\t1000\t9\t0\nVS\t1\t8\t1\t0\nSW\t1\t2\t1000\t1\t3\n' >"$work/study.txt"
peaks "a run that stops" 1 1 0.8 1 2 0.8 1
expect peaks "no study" 1 /dev/null <examples/peaks.c

# The three lines of C on README.md behind a run (tests/callers/table.c), and the table under them, which is that of examples/peaks.c
blocks() { awk -v has="$1" '!/^    / { if (index(block, has)) printf "%s", block; block = ""; next } { block = block substr($0, 5) "\n" }' README.md; }
blocks 'emt_node(' >"$work/table.inc"
blocks "$(printf 'node\tpeak, V\tstep')" >"$work/whole"
tail -n +2 "$work/whole" >"$work/lines"
if [ "$(wc -l <"$work/table.inc")" -eq 3 ] && [ "$(wc -l <"$work/lines")" -eq 3 ]; then
    passed=$((passed + 1))
else
    echo "README.md: the table of peaks is not three lines of C and a table of three nodes"
    failed=$((failed + 1))
fi
flags+=("-DTABLE=\"$work/table.inc\"")
compile "$work/table" tests/callers/table.c "$archive" || stop "the three lines of C on README.md do not compile"
expect table "README.md's study" 0 "$work/lines" <studies/lightning.txt
expect peaks "README.md's study" 0 "$work/whole" <studies/lightning.txt
# A node at rest has its peak of 0 at step 1; a run that stops has the peaks of its steps.
printf 'study\t1000\t9\t0\nVS\t1\t8\t1\t0\nSW\t1\t2\t1000\t1\t3\nVS\t3\t0\t1\t0\n' >"$work/study.txt"
printf '1\t0.8\t1\n2\t0.8\t1\n3\t0.0\t1\n' >"$work/lines"
expect table "a run that stops" 0 "$work/lines" <"$work/study.txt"

echo "$passed passed, $failed failed"
[ "$failed" -eq 0 ]
