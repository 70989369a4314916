#!/usr/bin/env bash
# Passes the tests: the toolchain's gate over all crates, then a program that the types must reject, and the built walljob
# on damaged files and on the worked wall. Fails too where the gate could not try a must-fail edit. The gate's closing line
# comes last.
set -euo pipefail
cd "$(dirname "$0")"
said=$(mktemp)
trap 'rm -f "$said"' EXIT
rt ci | tee "$said"
if grep -Eq '^rt: ok.*, [1-9][0-9]* bad' "$said"; then
    echo 'test.sh: a must-fail edit no longer fits the code'
    exit 1
fi
tests/refused.sh
# The walljob that the gate has built and proved.
tests/files.sh "$PWD/crates/walljob/out/walljob"
tests/worked_wall.sh "$PWD/crates/walljob/out/walljob"
tail -n 1 "$said"
