#!/usr/bin/env bash
# "A larger published cosine table is compared in tests": each entry of num_cosine's table with that of Tremor, the integer decoder of Ogg Vorbis, whose table of sines and
# cosines has 1,026 numbers, of 513 angles from 0 to an eighth of a turn, scaled to 2^31. It is the file mdct_lookup.h of Debian's libvorbisidec 1.2.1+git20180316-7, unchanged in
# tests/cosine, under the licence of three clauses beside it. Both tables are of nearest numbers (theirs but for the cosine of 1, which is 2^31 - 1), so twice an entry is theirs to within 1.
# What that tells is counted too: an entry that is off by 2 is always told, and one that is off by 1 unless theirs is odd and lies between the two. Closing line: N passed, M failed.
set -u
cd "$(dirname "$0")/.." || exit 1

passed=0
failed=0
check() { # what is said where the rest is no success
    local told=$1
    shift
    if "$@"; then passed=$((passed + 1)); else echo "$told"; failed=$((failed + 1)); fi
}

# sine and cosine in turn, of i parts of 4,096 of a turn, i from 0 to 512
mapfile -t published < <(sed -n '/sincos_lookup0/,/};/p' tests/cosine/mdct_lookup.h | grep -oE '0x[0-9a-f]{8}')
mapfile -t entries < <(sed -n '/^pub static QUARTER/,/^];/p' crates/num_cosine/src/quarter.rt | tail -n +2 | grep -oE '[0-9]+')
check "the published table has ${#published[@]} numbers, not 1026" test "${#published[@]}" -eq 1026
check "the table has ${#entries[@]} entries, not 257" test "${#entries[@]}" -eq 257

# entry j is of j parts of 1,024, past the eighth the sine of what is left to the quarter
close() { [ "${1#-}" -le 1 ]; }
by_one=0
by_two=0
for ((j = 0; j <= 256; j++)); do
    at=$((j <= 128 ? 8 * j + 1 : 8 * (256 - j)))
    apart=$((2 * ${entries[j]:-0} - ${published[at]:-0x80000000}))
    check "entry $j is ${entries[j]:-missing}, twice that is $apart from the published number" close $apart
    for off in -1 1; do
        close $((apart + 2 * off)) || by_one=$((by_one + 1))
        close $((apart + 4 * off)) || by_two=$((by_two + 1))
    done
done
check "of 514 entries that are off by 2, $by_two would be told" test $by_two -eq 514
check "of 514 entries that are off by 1, $by_one would be told and not 398" test $by_one -eq 398

echo "$passed passed, $failed failed"
[ "$failed" -eq 0 ]
