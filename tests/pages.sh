#!/usr/bin/env bash
# The texts on README.md and docs/MODELLING.md: each block that begins with `study` is run, and the lines of the block under it must come in its listing, in this order; a text's
# listing that ends in `stop` or `bad` must be told by the block. Every file that these pages, CONTRIBUTING.md and the studies' pages lead to is there. EMTRUN=PATH runs this program and makes none.
# Closing line: N passed, M failed.
set -u
cd "$(dirname "$0")/.." || exit 1

passed=0
failed=0
work=$(mktemp -d)
trap 'rm -rf "$work"' EXIT
. tools/machine.sh
[ -n "${EMTRUN:-}" ] || tools/emtrun >"$work/rt" 2>&1 || { tail -n 5 "$work/rt"; echo "0 passed, 1 failed"; exit 1; }
emtrun=${EMTRUN:-target/bin/emtrun}

check() { # what it is, and the status of the comparison before
    if [ "$2" -eq 0 ]; then
        passed=$((passed + 1))
    else
        echo "$1"
        failed=$((failed + 1))
    fi
}

# Blocks are lines set in by four spaces; a blank line parts two. Text number n goes to n.txt, the block after it to n.lines.
for page in README.md docs/MODELLING.md; do
    rm -f "$work"/*.txt "$work"/*.lines
    awk -v work="$work" '
        !/^    / { file = ""; next }
        { line = substr($0, 5) }
        file == "" && line ~ /^study\t/ { n++; file = work "/" n ".txt"; waits = 1; print line > file; next }
        file == "" && waits { file = work "/" n ".lines"; waits = 0 }
        file != "" { print line > file }' "$page"
    for text in "$work"/*.txt; do
        [ -e "$text" ] || continue
        name="$page, text $(basename "$text" .txt)"
        lines=${text%.txt}.lines
        [ -s "$lines" ]
        check "$name: no lines under it" $?
        run "$emtrun" <"$text" >"$work/listing"
        awk -F'\n' 'NR == FNR { due[++n] = $0; next } at < n && $0 == due[at + 1] { at++ } END { if (at < n) { print "not listed: " due[at + 1]; exit 1 } }' "$lines" "$work/listing"
        check "$name: its listing" $?
        last=$(tail -n 1 "$work/listing")
        [[ $last == done* ]] || grep -qxF "$last" "$lines"
        check "$name: it ends in '$last'" $?
    done
done
[ "$passed" -ge 27 ]
check "only $passed comparisons" $?

for page in README.md CONTRIBUTING.md docs/*.md studies/*.md; do
    while read -r link; do
        [ -e "$(dirname "$page")/$link" ]
        check "$page leads to $link, which is not there" $?
    done < <(grep -oE '\]\([^)#]+\)' "$page" | sed 's/^](//; s/)$//' | grep -v '^https\?:' | sort -u)
done

echo "$passed passed, $failed failed"
[ "$failed" -eq 0 ]
