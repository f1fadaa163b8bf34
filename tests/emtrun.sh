#!/usr/bin/env bash
# emtrun as it is used: texts at the limit of their length, input that never ends or comes in parts, readers that go away, a full disk; and reads and writes that fail or are
# interrupted in the middle, by emtrun's own object linked with tests/emtrun/failing.c. EMTRUN=PATH tests this program and makes none; it has no object to link, so
# that the latter are left out, which is said. Closing line: N passed, M failed.
set -u
cd "$(dirname "$0")/.." || exit 1

passed=0
failed=0
work=$(mktemp -d)
trap 'rm -rf "$work"' EXIT
. tools/machine.sh
[ -n "${EMTRUN:-}" ] || tools/emtrun >"$work/rt" 2>&1 || { tail -n 5 "$work/rt"; echo "0 passed, 1 failed"; exit 1; }
emtrun=$(starter "${EMTRUN:-target/bin/emtrun}")
study=studies/energisation.txt

check() { # what it is, what came, what was to come
    if [ "$2" = "$3" ]; then
        passed=$((passed + 1))
    else
        echo "$1: '$2' and not '$3'"
        failed=$((failed + 1))
    fi
}

# A text of so many bytes: rows that fill the table, then one more, refused by 6 in its line; the last is spelt to fit.
long_text() {
    awk -v bytes="$1" 'BEGIN {
        text = "study\t1000\t1\t0\n"
        for (i = 1; i <= 64; i++) text = text "R\t1\t0\t1000\n"
        printf "%s", text
        left = bytes - length(text) - length("R\t1\t0\t\n")
        printf "R\t1\t0\t"
        for (; left > 0; left--) printf "1"
        printf "\n"
    }'
}

for bytes in 65535 65536; do
    check "a text of $bytes bytes" "$(long_text $bytes | $emtrun)" "$(printf 'bad\t66\t3')"
done
for bytes in 65537 65538 1000000; do
    check "a text of $bytes bytes" "$(long_text $bytes | $emtrun)" "$(printf 'bad\t0\t7')"
done
check "input without an end" "$(yes | $emtrun)" "$(printf 'bad\t0\t7')"
check "no input" "$($emtrun </dev/null)" "$(printf 'bad\t1\t1')"
check "a folder as input" "$($emtrun <. 2>&1)" "emtrun: standard input: Is a directory"
check "closed input" "$($emtrun <&- 2>&1)" "emtrun: standard input: Bad file descriptor"

$emtrun <$study >"$work/whole"
{
    head -c 100 $study
    sleep 0.2
    tail -c +101 $study
} | $emtrun >"$work/parts"
cmp -s "$work/whole" "$work/parts"
check "input in two parts" $? 0
cat "$work/whole" >"$work/again"
cmp -s "$work/again" <($emtrun <$study | cat)
check "output into a pipe" $? 0

# a reader that goes away: what the kit starts a program with leaves SIGPIPE out, so that the write fails, whether the caller lets the signal through or not; a full disk
first=$($emtrun <$study 2>"$work/said" | head -n 1)
check "a reader of one line" "$first" "$(head -n 1 "$work/whole")"
check "a reader of one line: said" "$(cat "$work/said")" "emtrun: standard output: Broken pipe"
(
    trap '' PIPE
    $emtrun <$study 2>"$work/said" | head -n 1 >/dev/null
)
check "a reader of one line, no signal" "$(cat "$work/said")" "emtrun: standard output: Broken pipe"
check "a full disk" "$($emtrun <$study 2>&1 >/dev/full)" "emtrun: standard output: No space left on device"
check "a full disk, text refused" "$($emtrun </dev/null 2>&1 >/dev/full)" "emtrun: standard output: No space left on device"

# Calls that fail or are interrupted: what they are, the environment, how many bytes are listed, what is said. Error numbers are Linux's: 4 EINTR, 5 EIO, 11 EAGAIN, 28 ENOSPC.
failing() {
    env "${@:2:$#-3}" "$broken" <$study >"$work/listed" 2>"$work/said"
    head -c "${*: -2:1}" "$work/whole" | cmp -s - "$work/listed"
    check "$1: listed" $? 0
    check "$1: said" "$(cat "$work/said")" "${*: -1}"
}
flags=(-O2 -std=c11 -Wall -Wextra -Werror)
kit=$(dirname "$(dirname "$(readlink -f "$(command -v rt)")")")/c
if [ -n "${EMTRUN:-}" ]; then
    echo "EMTRUN is given: reads and writes that fail are left out"
elif ! compile "$work/broken" tests/emtrun/failing.c target/obj/emtrun.o "$kit/libos_c.a" "$kit/liblibc_c.a"; then
    check "emtrun with tests/emtrun/failing.c: linked" 1 0
else
    broken=$(starter "$work/broken")
    all=$(wc -c <"$work/whole")
    failing "few bytes at a time" MOST=100 "$all" ""
    failing "EINTR at the second read" MOST=100 FAIL_READ=2-2:4 "$all" ""
    failing "EINTR at many reads" FAIL_READ=1-1000:4 "$all" ""
    failing "EINTR at every read" FAIL_READ=1-9000000:4 0 "emtrun: standard input: Interrupted system call"
    failing "EIO at the second read" MOST=100 FAIL_READ=2-2:5 0 "emtrun: standard input: Input/output error"
    failing "EAGAIN at the second read" MOST=100 FAIL_READ=2-2:11 0 "emtrun: standard input: Resource temporarily unavailable"
    failing "EINTR at two writes" MOST=1000 FAIL_WRITE=3-4:4 "$all" ""
    failing "EINTR at every write but the first" MOST=1000 FAIL_WRITE=2-9000000:4 1000 "emtrun: standard output: Interrupted system call"
    failing "EIO at the third write" MOST=1000 FAIL_WRITE=3-3:5 2000 "emtrun: standard output: Input/output error"
    failing "ENOSPC at the first write" FAIL_WRITE=1-1:28 0 "emtrun: standard output: No space left on device"
    failing "nothing taken at the third write" MOST=1000 NONE_WRITE=3-3 2000 "emtrun: standard output: Success"
    failing "EINTR at the second write, nothing taken at the fourth" MOST=1000 FAIL_WRITE=2-2:4 NONE_WRITE=4-4 2000 "emtrun: standard output: Interrupted system call"
    piece=$(NONE_WRITE=2-2 "$broken" <$study 2>/dev/null | wc -c)
    failing "EINTR at the first piece, nothing taken of the second" FAIL_WRITE=1-1:4 NONE_WRITE=3-3 "$piece" "emtrun: standard output: Interrupted system call"
fi

echo "$passed passed, $failed failed"
[ "$failed" -eq 0 ]
