#!/usr/bin/env bash
# Every number of include/emt.h is the definitions' own: limits and lengths (crates/paper/specs/Limits), where the records have their words (Where), the
# numbers of the answers (Faulted, Answers, Looking, Pieces), the size of the lent room (crates/emt/specs/Numbered). The version has one spelling, also in desk/emt/library.py, and goes up
# with the declarations: tests/header.sum has their sum and the version's first two numbers. Closing line: N passed, M failed.
set -u
cd "$(dirname "$0")/.." || exit 1

passed=0
failed=0
specs=crates/paper/specs
work=$(mktemp -d)
trap 'rm -rf "$work"' EXIT

# the number of a limit, which other limits may be parts of
limit() { worked "$(sed -n "s/^$1 = //p" $specs/Limits.antt)"; }

# an expression of the definitions, with limits by their names
worked() {
    local text=${1//Limits./} name
    while [[ $text =~ [A-Za-z_]+ ]]; do
        name=${BASH_REMATCH[0]}
        text=${text//$name/($(sed -n "s/^$name = //p" $specs/Limits.antt))}
    done
    echo $((${text//^/**}))
}

# expect NAME NUMBER: an expression of the header, and what the definitions say it is
expect() { printf '%s\t%s\n' "$1" "$2" >>"$work/expected"; }

limits="VOLTAGE_MOST voltage_end CONDUCTANCE_MOST conductance_end HISTORY_MOST history_end CURRENT_MOST current_end INJECTION_MOST injection_end NODES node_end
    BRANCHES branch_end SOURCES source_end ROWS row_end STEP_LENGTH_MOST step_length_end STEPS_MOST steps_end LIMIT_MOST limit_end TEXT_BYTES text_end MILLIOHM_LEAST ohms_low
    MILLIOHM_MOST ohms_end NANOHENRY_MOST henry_end PICOFARAD_MOST farad_end TRAVEL_MOST travel_end OPEN_MOST open_end RISE_MOST rise_end FREQUENCY_MOST frequency_end NETWORK_WORDS network_words
    RECORD_WORDS record_words STORE_WORDS store_words LIST_BYTES step_bytes WRITE_BYTES study_bytes"
set -- $limits
while [ $# -gt 1 ]; do
    expect "EMT_$1" "$(limit "$2")"
    shift 2
done

# the kinds of a row, as the table of kinds numbers them, and which are sources
number=0
while read -r name class; do
    number=$((number + 1))
    expect "EMT_$name" $number
    expect "EMT_IS_SOURCE($number)" $([ "$class" = a_branch ] && echo 0 || echo 1)
done < <(sed -nE 's/^ *∷ kind_of "([A-Z]+)" (an?_[a-z]+) .*/\1 \2/p' $specs/Rows.antt)

# a word's place, asked for area, node and row 7
set -- COUNT count_at VOLTAGE volt_at CURRENT current_at TO_CURRENT to_current_at HISTORY_OF history_at PEAK peak_at PEAK_STEP peak_step_at LATCH latch_at
while [ $# -gt 1 ]; do
    place=$(sed -nE "s/^$2 (N )?[anr] = //p" $specs/Where.antt)
    expect "EMT_$1(7)" "$((${place//[anr]/7}))"
    shift 2
done

# the lent room, as it is stated and as C lays it out
room=$(worked "$(sed -n 's/^room_bytes = //p' crates/emt/specs/Numbered.antt)")
expect EMT_ROOM_BYTES "$room"
expect 'sizeof(struct emt_room)' "$room"
# and as the comparison lends it: words of plan, legs and factors
lent=$(sed -nE 's/^ *const ROOM: \[usize; 3\] = \[(.*)\];$/\1/p' second/src/compare/foreign.rs)
expect 'sizeof(struct emt_room)' "$((8 * (${lent//,/ +})))"

# refusals by name; what is accepted is 0
while read -r name number; do
    expect "EMT_${name^^}" "$number"
done < <(sed -nE 's/^(fault|unread|unfit|refusal|unlooked|unlisted|listing)_number \(?(Ok \(?)?([A-Z]\.)?([A-Za-z]+)( [a-z])*\)* = ([1-9][0-9]*)$/\4 \6/p' \
    $specs/Faulted.antt $specs/Answers.antt $specs/Looking.antt $specs/Pieces.antt | sort -u)

expect 'version_agrees()' 1

{
    echo '#include <emt.h>'
    echo '#include <stdio.h>'
    echo '#include <string.h>'
    echo 'static int version_agrees(void) {'
    echo '    char version[32];'
    echo '    snprintf(version, sizeof version, "%d.%d.%d", EMT_VERSION_MAJOR, EMT_VERSION_MINOR, EMT_VERSION_PATCH);'
    echo '    return strcmp(version, EMT_VERSION) == 0;'
    echo '}'
    echo 'int main(void) {'
    while IFS=$'\t' read -r name number; do
        echo "    if ((long long)($name) == ${number}LL) puts(\"ok\"); else printf(\"%s is %lld, not $number\\n\", \"$name\", (long long)($name));"
    done <"$work/expected"
    echo '}'
} >"$work/header.c"
if cc -std=c11 -Wall -Wextra -Werror -Iinclude -o "$work/header" "$work/header.c"; then
    passed=$("$work/header" | grep -c '^ok$')
    "$work/header" | grep -v '^ok$'
    failed=$(("$(wc -l <"$work/expected")" - passed))
else
    failed=1
fi

# the declarations, without comments, the version and spaces: where they have changed, callers that were compiled before may not be linked any more
version=$(sed -nE 's/^#define EMT_VERSION "([0-9]+\.[0-9]+)\..*"$/\1/p' include/emt.h)
sum=$(sed -E ':more; s@/\*[^*]*\*+([^/*][^*]*\*+)*/@@g; /\/\*/ { N; b more }' include/emt.h | grep -v EMT_VERSION | tr -d ' \t\n' | sha256sum | cut -c1-16)
if [ "$version $sum" = "$(cat tests/header.sum)" ]; then
    passed=$((passed + 1))
else
    echo "the declarations of include/emt.h are not those of version $(cut -d' ' -f1 tests/header.sum): raise EMT_VERSION's second number where callers must be compiled anew, and put '$version $sum' into tests/header.sum"
    failed=$((failed + 1))
fi
if [ "$(sed -nE "s/^VERSION = '(.*)'.*/\1/p" desk/emt/library.py)" = "$(sed -nE 's/^#define EMT_VERSION "(.*)"$/\1/p' include/emt.h)" ]; then
    passed=$((passed + 1))
else
    echo "desk/emt/library.py has another version than include/emt.h"
    failed=$((failed + 1))
fi

echo "$passed passed, $failed failed"
[ "$failed" -eq 0 ]
