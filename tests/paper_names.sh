#!/usr/bin/env bash
# Every name on docs/PAPER.md, docs/REQUESTS.md and docs/EDITS.md stands where the page says, and docs/EDITS.md has a row for each must-fail edit, once. The forms:
#   File: `name`, `name`     declared, or brought in, by crates/paper/specs/File.antt, or a theorem of crates/paper/proofs/File.antt
#   `crate::name`            a function, type or constant of crates/crate/src
#   `crate::File::name`      declared by crates/crate/specs/File.antt, or a theorem of crates/crate/proofs/File.antt
#   `crates/..`, `tests/..`  a file
# Braces hold several names, `crate::{name, name}`. The columns code and theorem hold names of their form alone, or a dash; the second
# column of the table of slips holds edits of its must-fail folder. A row of docs/EDITS.md begins with `crate/edit`.
set -u
cd "$(dirname "$0")/.." || exit 1

awk -v edits="$(ls crates/*/must-fail/*.edit)" '
BEGIN {
    n = split(edits, path, "\n")
    for (i = 1; i <= n; i++) {
        split(path[i], part, /[\/.]/)
        rows[part[2] "/" part[4]] = 0
    }
}

function tell(what) { print FILENAME ":" FNR ": " what; failed++ }
function hold(known, name) { if (known) passed++; else tell("no " name) }
function exists(path,    line) { return (getline line < path) >= 0 }

function hold_each(token,    names, n, i, head) {
    n = 1
    names[1] = token
    if (match(token, /\{.*\}$/)) {
        head = substr(token, 1, RSTART - 1)
        n = split(substr(token, RSTART + 1, RLENGTH - 2), names, ", ")
    }
    for (i = 1; i <= n; i++) hold((head names[i]) in stands, head names[i])
}

function hold_form(cell, form,    part, n, i) {
    if (cell == "–") return
    n = split(cell, part, "`")
    if (n < 3) tell("neither a name nor a dash: " cell)
    for (i = 1; i <= n; i++) if (i % 2 ? part[i] !~ /^(, )?$/ : part[i] !~ form) tell("not of this column: " part[i])
}

FNR == 1 { split(FILENAME, path, /[\/.]/) }

FILENAME ~ /\.rt$/ {
    sub(/\/\/.*/, "")
    if (/^pub use /) {
        n = match($0, /\{.*\}/) ? split(substr($0, RSTART + 1, RLENGTH - 2), names, ", ") : split(substr($3, match($3, /[A-Za-z0-9_]+;$/), RLENGTH - 1), names, " ")
        for (i = 1; i <= n; i++) stands[path[2] "::" names[i]]
    }
    for (i = 1; i < NF; i++) if ($i ~ /^(fn|struct|enum|const|type)$/) {
        name = $(i + 1)
        sub(/[^A-Za-z0-9_].*/, "", name)
        stands[path[2] "::" name]
    }
    next
}

FILENAME ~ /\.antt$/ {
    if (!sub(/^ *((unfoldable|abbrev) )?pub ((record|data|ruleset) )?/, "")) next
    n = split($1, names, " ")
    if ($1 == "use") n = match($0, /\{.*\}/) ? split(substr($0, RSTART + 1, RLENGTH - 2), names, ", ") : 0
    for (i = 1; i <= n; i++) stands[path[2] "::" path[4] "::" names[i]]
    next
}

/^\|/ {
    columns = split($0, cell, / *\| */)
    if (cell[2] ~ /^the (paper|slip|edit)$/) header = cell[2] "|" cell[3] "|" cell[4] "|" cell[5]
    if (cell[2] ~ /^(the (paper|slip|edit)|-+)$/) next
    if (header == "the paper|definition|code|theorem") {
        if (columns != 6) tell("not four columns")
        hold_form(cell[4], "^[a-z_0-9]+::[^:]+$")
        hold_form(cell[5], "^[a-z_0-9]+::[A-Z][A-Za-z]*::[^:]+$")
    } else if (match(header, /crates\/[a-z_]+\/must-fail/)) {
        edit = cell[3]
        gsub(/`/, "", edit)
        hold(exists(substr(header, RSTART, RLENGTH) "/" edit ".edit"), "edit " edit)
    } else if (header ~ /^the edit/) {
        edit = cell[2]
        gsub(/`/, "", edit)
        hold(edit in rows, "edit " edit)
        rows[edit]++
    } else tell("a table of unknown columns")
}

{
    rest = $0
    while (match(rest, /[A-Z][A-Za-z]+: `[^`]+`(, `[^`]+`)*/)) {
        n = split(substr(rest, RSTART, RLENGTH), names, "`")
        sub(/: /, "", names[1])
        for (i = 2; i < n; i += 2) hold(("paper::" names[1] "::" names[i]) in stands, "paper::" names[1] "::" names[i])
        rest = substr(rest, RSTART + RLENGTH)
    }
    n = split($0, token, "`")
    for (i = 2; i < n; i += 2) {
        if (token[i] ~ /::/) hold_each(token[i])
        else if (token[i] ~ /^(crates|tests)\//) hold(exists(token[i]), token[i])
    }
}

END {
    FILENAME = "docs/EDITS.md"
    for (edit in rows) hold(rows[edit] == 1, "row, or more than one, for " edit)
    print passed + 0 " passed, " failed + 0 " failed"
    exit failed > 0
}' crates/*/src/*.rt crates/*/specs/*.antt crates/*/proofs/*.antt docs/PAPER.md docs/REQUESTS.md docs/EDITS.md
