#!/usr/bin/env bash
# The names and words of the answers, include/emt_words.c: a line for each number that a definition gives (crates/paper/specs/Faulted, Answers, Looking, Pieces) and for no other; its name is the
# definition's, docs/PAPER.md's and README.md's; what the number beside it is, line, node or branch, follows from the definitions too; and each has words of its own.
# tests/words.sh DOCUMENT also holds numbers and names to the table of refusals in the paper's own text, document 01. Closing line: N passed, M failed.
set -u
cd "$(dirname "$0")/.." || exit 1

passed=0
failed=0
specs=crates/paper/specs
work=$(mktemp -d)
trap 'rm -rf "$work"' EXIT

check() { # what it is, and two files that must be the same
    if cmp -s "$2" "$3"; then
        passed=$((passed + 1))
    else
        echo "$1:"
        diff "$2" "$3" | head -n 10
        failed=$((failed + 1))
    fi
}

cat >"$work/told.c" <<'END'
#include <emt.h>
#include <emt_words.h>
#include <stdio.h>
#include <string.h>
int main(void) {
    for (uint64_t answer = 0; answer < 1000; answer++)
        if (strcmp(emt_answer_name(answer), "UNKNOWN"))
            printf("%d|%s|%s|%s\n", (int)answer, emt_answer_name(answer), emt_answer_place(answer), emt_answer_words(answer));
    for (unsigned k = 0; k < 64; k++)
        if ((UINT64_C(1) << k) > 999 && strcmp(emt_answer_name(UINT64_C(1) << k), "UNKNOWN")) printf("bit %u is known\n", k);
    if (strcmp(emt_answer_place(UINT64_MAX), "") || !*emt_answer_words(UINT64_MAX)) puts("the largest number has a place, or no words");
    if (strcmp(emt_version(), EMT_VERSION)) puts("another version");
}
END
if ! cc -std=c11 -Wall -Wextra -Werror -Iinclude -o "$work/told" "$work/told.c" include/emt_words.c; then
    echo "0 passed, 1 failed"
    exit 1
fi
"$work/told" >"$work/table"

# what the definitions number: a refusal's name and number; 0 has one name for all calls
{
    echo "0 ACCEPTED"
    sed -nE 's/^(fault|unread|unfit|refusal|unlooked|unlisted|listing)_number \(?(Ok \(?)?([A-Z]\.)?([A-Za-z]+)( [a-z])*\)* = ([1-9][0-9]*)$/\6 \U\4/p' \
        $specs/Faulted.antt $specs/Answers.antt $specs/Looking.antt $specs/Pieces.antt
} | sort -un >"$work/numbers"
awk -F'|' '{ print $1, $2 }' "$work/table" | sort -n >"$work/told.numbers"
check "names and numbers of the definitions" "$work/told.numbers" "$work/numbers"
[ "$(wc -l <"$work/numbers")" -ge 20 ] || { echo "the definitions number only $(wc -l <"$work/numbers") answers"; failed=$((failed + 1)); }

# what the number beside an answer is: a definition gives the refusal's own l, n or b: the line of a fault, a node or a branch
{
    grep -qxF 'unread_line (R.Line l f) = l' $specs/Answers.antt && sed -nE 's/^fault_number ([A-Za-z]+) = [1-9]$/\U\1 \Ll/p' $specs/Faulted.antt
    sed -nE 's/^refusal_place \(([A-Za-z]+) ([nb])\) = \2$/\U\1 \L\2/p' $specs/Answers.antt
} |
    sed 's/ l$/ line/; s/ n$/ node/; s/ b$/ branch/' | sort >"$work/places"
awk -F'|' '$3 != "" { print $2, $3 }' "$work/table" | sort >"$work/told.places"
check "places of the definitions" "$work/told.places" "$work/places"

# the pages: README.md has a row for each refusal, docs/PAPER.md names each by its number ('14 FLOATING to 17 HISTORY' stands for the two between)
awk -F'|' '$1 > 0 && $1 < 100 { print $1, $2 }' "$work/table" | sort -n >"$work/refusals"
sed -nE 's/^\| ([0-9]+) \| ([A-Z]+) \|.*/\1 \2/p' README.md | sort -n >"$work/readme"
check "README.md" "$work/refusals" "$work/readme"
sed -nE 's/^\| ([0-9]+ [A-Z]{4,}[^|]*)\|.*/\1/p' docs/PAPER.md | grep -oE '\b[0-9]+ [A-Z]{4,}' | sort -n >"$work/paper"
grep -vE '^(15|16) ' "$work/refusals" | awk '$1 <= 17' | cmp -s - <(grep -vE '^(15|16) ' "$work/paper")
if [ $? -eq 0 ]; then passed=$((passed + 1)); else
    echo "docs/PAPER.md:"
    diff "$work/refusals" "$work/paper"
    failed=$((failed + 1))
fi
if [ $# -gt 0 ]; then
    awk '/^## Numbered refusals/ { on = 1 } /^## / && !/Numbered/ { on = 0 } on' "$1" | sed -nE 's/^\| ([0-9]+) \| ([A-Z]+) \|.*/\1 \2/p' >"$work/document"
    awk '$1 <= 17' "$work/refusals" >"$work/seventeen"
    check "$1" "$work/seventeen" "$work/document"
fi

# words: one line for a terminal, none twice, no full stop
awk -F'|' 'NF != 4 || $4 == "" || $4 ~ /[^ -~]|\.$/ || length($4) > 110 || ($4 in seen) { print "words: " $0; bad++ } { seen[$4] } END { exit bad > 0 }' "$work/table"
if [ $? -eq 0 ]; then passed=$((passed + 1)); else failed=$((failed + 1)); fi

echo "$passed passed, $failed failed"
[ "$failed" -eq 0 ]
