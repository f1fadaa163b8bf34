#!/usr/bin/env bash
# The proved program and the proved calls, compiled, against the second program (second/README.md): whole listings of 20,000 random texts, of a fixed list and of one-byte
# edits; the same and 20,000 texts more through the reader, each that is read written out again; then 2,000 studies with areas advanced in random orders, damaged memory and refused calls
# among them, their networks, good and damaged, written and read again, their nodes and their layout asked for and their breakers' latches looked at; each place of a power-frequency source's turn; and 500 studies, most with areas that stop, taken to their end by six schedulers each.
# Beside them the second program's own tests, and the comparison's: slips that are planted in copies of its calls are each found.
# A seed a day, printed; `tests/compare.sh SEED` repeats one. On a processor that is not x86-64 the calls go through tests/callers/bridge.c, and emtrun is emulated, a start for each
# text: there a quarter of the texts are listed. EMTRUN=PATH and LIBEMT=PATH take this program and this archive and make none. Closing line: N passed, M failed.
set -u
cd "$(dirname "$0")/.." || exit 1

seed=${1:-$(date +%Y%m%d)}
passed=0
failed=0
work=$(mktemp -d)
trap 'rm -rf "$work"' EXIT
. tools/machine.sh

stop() {
    echo "$1"
    echo "$passed passed, $((failed + 1)) failed"
    exit 1
}

# Start a comparison; several go side by side, on as many processors.
begun=0
begin() {
    begun=$((begun + 1))
    "$@" >"$work/told.$begun" 2>&1 &
}

# Wait for those that were started, show each and add its closing line; one without has failed.
add() {
    local line told
    wait
    for told in "$work"/told.*; do
        grep -avE '^[0-9]+ passed, [0-9]+ failed$' "$told"
        line=$(grep -aE '^[0-9]+ passed, [0-9]+ failed$' "$told" | tail -n 1)
        [ -n "$line" ] || stop "no closing line after: $(tail -n 1 "$told")"
        passed=$((passed + ${line%% *}))
        line=${line#*, }
        failed=$((failed + ${line%% *}))
        rm "$told"
    done
}

own_tests() { # one that cannot be built has failed
    cargo test --release --offline -j1 --target-dir second/target/tests --manifest-path second/Cargo.toml 2>&1 |
        awk '/^test .* FAILED$|^error/ { print } /^test result:/ { passed += $4; failed += $6 } END { printf "%d passed, %d failed\n", passed, failed + !passed }'
}

for tool in rt $compiler cargo; do
    command -v $tool >/dev/null 2>&1 || stop "tests/compare.sh needs '$tool'"
done
[ -n "${EMTRUN:-}" ] || tools/emtrun >"$work/rt" 2>&1 || { tail -n 5 "$work/rt"; stop "emtrun is not made"; }
emtrun=$(starter "${EMTRUN:-target/bin/emtrun}")
archive=$PWD/target/staticlib/libemt.a
if [ -n "${LIBEMT:-}" ]; then
    archive=$work/libemt.a
    cp "$LIBEMT" "$archive" || stop "no archive $LIBEMT"
else
    tools/libemt >"$work/rt" 2>&1 || { tail -n 5 "$work/rt"; stop "libemt.a is not made"; }
fi

if [ "$(uname -m)" = x86_64 ]; then
    texts=(--count 20000)
    build=(--features calls)
    export EMT_LIB_DIR=${archive%/*} CARGO_TARGET_DIR=$PWD/second/target/calls
else
    texts=(--count 5000 --fixed 40 --edits 1)
    build=()
    flags=(-O2 -std=c11 -Wall -Wextra -Werror)
    compile "$work/bridge" tests/callers/bridge.c "$archive" || stop "tests/callers/bridge.c does not compile"
    EMT_BRIDGE=$(starter "$work/bridge")
    export EMT_BRIDGE CARGO_TARGET_DIR=$PWD/second/target
    echo "emtrun is emulated on $(uname -m), a start for each text: about a quarter of the texts of x86-64 are listed"
fi
cargo build --release --offline -j1 "${build[@]}" --manifest-path second/Cargo.toml >"$work/cargo" 2>&1 || { tail -n 5 "$work/cargo"; stop "second/ does not build"; }
compare=$CARGO_TARGET_DIR/release/compare

begin "$compare" texts --emtrun "$emtrun" "${texts[@]}" --seed "$seed" --jobs 2
add
begin "$compare" calls --count 1000 --texts 20000 --seed "$seed"
begin "$compare" calls --first 1000 --count 1000 --fixed 0 --edits 0 --texts 0 --seed "$seed"
begin "$compare" ends --count 500 --seed "$seed"
begin "$compare" self
begin own_tests
add

echo "$passed passed, $failed failed"
[ "$failed" -eq 0 ]
