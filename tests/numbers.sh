#!/usr/bin/env bash
# The compiled numbers layer. The proofs speak of the source: here the object code is run, on some 40,000 random cases and the ends, and compared with
# the same rules in C; and it is read, for an instruction that multiplies and adds in one rounding. LIBNUMBERS=PATH takes this archive and makes none.
# Closing line: N passed, M failed.
set -u
cd "$(dirname "$0")/.." || exit 1

work=$(mktemp -d)
trap 'rm -rf "$work"' EXIT
. tools/machine.sh

stop() {
    echo "$1"
    echo "0 passed, 1 failed"
    exit 1
}

for tool in rt $compiler $disassembler; do
    command -v $tool >/dev/null 2>&1 || stop "tests/numbers.sh needs '$tool'"
done
archive=${LIBNUMBERS:-target/staticlib/libnum_c.a}
[ -n "${LIBNUMBERS:-}" ] || tools/libemt num_c libnum_c.a >"$work/rt" 2>&1 || { tail -n 5 "$work/rt"; stop "the archive is not made"; }

flags=(-O1 -ffp-contract=off)
compile "$work/compare" tests/numbers/compare.c "$archive" -lm || stop "the comparison does not compile"
run "$work/compare" >"$work/told"
grep -v ' passed, ' "$work/told"
line=$(tail -n 1 "$work/told")
passed=${line%% *}
failed=${line#*, }
failed=${failed%% *}

# "none fused": a product and a difference, and no instruction that does both
disassemble "$archive" >"$work/code"
products=$(grep -cE '\bv?mul[sp]d\b' "$work/code")
fused=$(grep -cE '\bvfn?m(add|sub)' "$work/code")
if [ "$products" -gt 0 ] && [ "$fused" -eq 0 ]; then
    passed=$((passed + 1))
else
    echo "products: $products, fused: $fused"
    failed=$((failed + 1))
fi

echo "$passed passed, $failed failed"
[ "$failed" -eq 0 ]
