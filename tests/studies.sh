#!/usr/bin/env bash
# The worked studies: each listing ends as studies/NAME.end says (its last step and the closing line), by the second program and by
# emtrun, and the two listings are the same bytes throughout. Where studies/NAME.py has the closed form, emtrun's listing is as close to it as the page says, and one that is off by a
# thousandth is told. The repair that studies/floating.md tells is tried too.
# EMTRUN=PATH runs this program as emtrun and makes none. Closing line: N passed, M failed.
set -u
cd "$(dirname "$0")/.." || exit 1

passed=0
failed=0
work=$(mktemp -d)
trap 'rm -rf "$work"' EXIT
. tools/machine.sh

check() { # what it is, and the status of the comparison before
    if [ "$2" -eq 0 ]; then
        passed=$((passed + 1))
    else
        echo "$1"
        failed=$((failed + 1))
    fi
}

export PYTHONDONTWRITEBYTECODE=1
if ! command -v python3 >/dev/null 2>&1; then
    echo "tests/studies.sh needs 'python3' for the closed forms"
    echo "0 passed, 1 failed"
    exit 1
fi
second=second/target/release/second
if ! cargo build -j1 --release --offline --manifest-path second/Cargo.toml >"$work/cargo" 2>&1; then
    tail -n 1 "$work/cargo"
    echo "second/ does not build"
    echo "0 passed, 1 failed"
    exit 1
fi
emtrun=${EMTRUN:-target/bin/emtrun}
[ -n "${EMTRUN:-}" ] || tools/emtrun >"$work/rt" 2>&1 || { tail -n 5 "$work/rt"; echo "0 passed, 1 failed"; exit 1; }

for program in second emtrun; do
    for text in studies/*.txt; do
        name=$(basename "$text" .txt)
        run "${!program}" <"$text" >"$work/$name.$program" 2>"$work/said"
        tail -n "$(wc -l <"studies/$name.end")" "$work/$name.$program" | cmp -s - "studies/$name.end"
        check "$program: $text does not end as studies/$name.end" $?
        if [ $program = emtrun ]; then
            cmp -s "$work/$name.second" "$work/$name.emtrun"
            check "$text: two listings" $?
        fi
    done
    last=$({ cat studies/floating.txt; printf 'C\t4\t0\t200\n'; } | run "${!program}" 2>/dev/null | tail -n 1)
    [ "$last" = "$(printf 'done\t200')" ]
    check "$program: studies/floating.txt with the stray capacitance ends in '$last'" $?
done

checks=0
for script in studies/*.py; do
    [ -x "$script" ] || continue
    name=$(basename "$script" .py)
    checks=$((checks + 1))
    "$script" <"$work/$name.emtrun" >"$work/told" 2>&1
    check "$script: $(tail -n 1 "$work/told")" $?
    awk 'BEGIN { FS = OFS = "\t" } /^[vi]/ { $4 = sprintf("%.0f", $4 * 1.001) } { print }' "$work/$name.emtrun" >"$work/off"
    "$script" <"$work/off" >"$work/told" 2>&1
    [ $? -eq 1 ] && grep -q '^largest difference: 0\.' "$work/told"
    check "$script takes a listing that is off by 0.1 %: $(tail -n 1 "$work/told")" $?
done
[ $checks -ge 5 ]
check "only $checks closed forms" $?

echo "$passed passed, $failed failed"
[ "$failed" -eq 0 ]
