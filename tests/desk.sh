#!/usr/bin/env bash
# The desk: the module emt and every verb of tools/emt, on good, stopped and refused studies; texts by dice; pictures where gnuplot is there, reports where
# dygraphs is, in a browser where chromium is. What is left out for want of a package is told and does not fail.
# LIBEMT=PATH takes this archive, EMTRUN=PATH this program, and neither is made. tests/desk.sh test_make runs one module of tests/desk/.
# Closing line: N passed, M failed.
set -u
cd "$(dirname "$0")/.." || exit 1

stop() {
    echo "$1"
    echo "0 passed, 1 failed"
    exit 1
}

work=$(mktemp -d)
trap 'rm -rf "$work"' EXIT
. tools/machine.sh
for tool in python3 $compiler; do
    command -v "$tool" >/dev/null 2>&1 || stop "tests/desk.sh needs '$tool'"
done
if [ -z "${EMTRUN:-}" ]; then
    tools/emtrun >"$work/rt" 2>&1 || { tail -n 5 "$work/rt"; stop "emtrun is not made"; }
    EMTRUN=target/bin/emtrun
fi
tools/bridge "$work/lib/emt-bridge" >"$work/rt" 2>&1 || { tail -n 5 "$work/rt"; stop "the bridge is not made"; }
if [ "$(uname -m)" = x86_64 ]; then
    tools/sharedlib "$work/lib/libemt.so" >"$work/rt" 2>&1 || { tail -n 5 "$work/rt"; stop "libemt.so is not made"; }
    export EMT_LIBRARY="$work/lib/libemt.so"
else
    export EMT_BRIDGE="$work/lib/emt-bridge"
fi

export EMTRUN DESK_BRIDGE="$work/lib/emt-bridge" DESK_WORK="$work/desk" PYTHONDONTWRITEBYTECODE=1
EMTRUN=$(starter "$EMTRUN")
mkdir "$DESK_WORK"
python3 tests/desk/all.py "$@"
