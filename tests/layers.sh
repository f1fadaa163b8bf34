#!/usr/bin/env bash
# No promise rests on code: all that a crate under '# promises' in crates.txt depends on, itself or through others, stands under '# numbers', '# meaning' or
# '# promises' and is definitions and laws alone. And crates.txt says it all: a crate lists each other that its files name, and none besides.
# Closing line: N passed, M failed.
set -u
cd "$(dirname "$0")/.." || exit 1

awk '
    BEGIN {
        mark = "Rattle."
        split("numbers meaning promises", words); for (i in words) pure[words[i]] = 1
        # Code is any crate with a function. These four have small ones beside their definitions, which rest on no other: whole tests and divides
        # single numbers, num_quantity makes a quantity of a number, num_cosine looks one up, and paper tells a kind its class.
        split("whole num_quantity num_cosine paper", words); for (i in words) small[words[i]] = 1
        # The kit: a program lists what io needs too, which no file names. std is never listed.
        split("check libc io os bytes", words); for (i in words) kit[words[i]] = 1
        # A type that passes through without its name: the piece that emt::list answers, whose fields run_pieces reads; a voltage, whose
        # number two crates take out of what num_double::nearest answers.
        through["run_pieces", "list_pieces"] = 1
        through["step_solve", "num_quantity"] = 1
        through["num_c", "num_quantity"] = 1
    }

    function name(crate, other) {
        if (other == crate || other == "std" || (crate, other) in named) return
        named[crate, other] = 1
        names[crate] = names[crate] " " other
    }

    # the sections and the lists
    FILENAME == "crates.txt" && /^#/ { section = substr($0, 3); next }
    FILENAME == "crates.txt" {
        sub(/#.*/, "")
        if (!sub(/:/, "")) next
        crates[++count] = $1
        stands[$1] = section
        if ($2 == "staticlib") $2 = ""
        $0 = $0
        for (i = 2; i <= NF; i++) {
            lists[$1, $i] = 1
            listed[$1] = listed[$1] " " $i
        }
        next
    }

    # what a file names: modules of laws
    {
        split(FILENAME, part, "/")
        crate = part[2]
        line = $0
        if (FILENAME ~ /\.antt$/) sub(/(^|[ \t])--.*/, "", line)
        else sub(/\/\/.*/, "", line)
        rest = line
        while (match(rest, "Rattle[.][a-z0-9_]+")) {
            name(crate, substr(rest, RSTART + length(mark), RLENGTH - length(mark)))
            rest = substr(rest, RSTART + RLENGTH)
        }
    }

    # and in code the first word of a path, unless it is a module of the crate or was brought in under that name; and whether there is a function
    FILENAME ~ /\.rt$/ {
        rest = line
        while (match(rest, /[A-Za-z0-9_]+::[A-Za-z0-9_:]*/)) {
            first = substr(rest, RSTART, RLENGTH)
            sub(/::.*/, "", first)
            if ((first in stands || first in kit) && !((FILENAME, first) in brought)) paths[crate] = paths[crate] " " first
            rest = substr(rest, RSTART + RLENGTH)
        }
        gsub(/pub fn nothing\(\) *\{ *\}/, "", line)
        if (line ~ /(^|[^A-Za-z0-9_])fn /) code[crate] = 1
        if (line ~ /^(pub )?use .*::/) {
            sub(/.*::/, "", line)
            gsub(/[;,{}]/, " ", line)
            for (i = split(line, words, " "); i > 0; i--) brought[FILENAME, words[i]] = 1
        } else if (line ~ /^(pub )?mod /) {
            gsub(/pub |mod |[;{ ]/, "", line)
            own[crate, line] = 1
        }
    }

    function test(fine, complaint) {
        if (fine) {
            passed++
        } else {
            failed++
            print complaint
        }
    }

    # what a promise depends on, each once, and by which way
    function reach(promise, crate, way,    list, n, i) {
        if ((promise, crate) in reached) return
        reached[promise, crate] = 1
        test(stands[crate] in pure, way ": " crate " stands under # " stands[crate])
        test(!(crate in code) || crate in small, way ": " crate " has functions")
        n = split(listed[crate], list, " ")
        for (i = 1; i <= n; i++) reach(promise, list[i], way " > " list[i])
    }

    END {
        for (c = 1; c <= count; c++) {
            crate = crates[c]
            if (stands[crate] == "promises") {
                promises++
                reach(crate, crate, crate)
            }
            n = split(paths[crate], list, " ")
            for (i = 1; i <= n; i++) if (!((crate, list[i]) in own)) name(crate, list[i])
            n = split(names[crate], list, " ")
            for (i = 1; i <= n; i++) test((crate, list[i]) in lists, crate " names " list[i] " and does not list it")
            n = split(listed[crate], list, " ")
            for (i = 1; i <= n; i++) test((crate, list[i]) in named || (crate, list[i]) in through || list[i] in kit, crate " lists " list[i] " and does not name it")
        }
        test(promises > 0, "crates.txt has nothing under # promises")
        printf "%d passed, %d failed\n", passed, failed
        exit (failed > 0)
    }
' crates.txt $(find crates -name out -prune -o \( -name '*.rt' -o -name '*.antt' \) -print)
