#!/usr/bin/env bash
# Runs walljob on the worked wall of examples/reading-sizes, in a folder of its own, and compares all that it prints with what is stored.
# Its argument is the program to run; without one it builds it first.
set -eu
top=$(cd "$(dirname "$0")/.." && pwd)
program=${1:-$("$top/tests/build.sh")}
wall=$top/examples/reading-sizes
room=$(mktemp -d)
trap 'rm -rf "$room"' EXIT
cp "$wall/element.card" "$wall/sheet.pgm" "$room"
cd "$room"

if ! "$program" < "$wall/lines" > printed; then
    echo 'worked_wall.sh: walljob failed'
    exit 1
fi
if ! diff "$wall/printed" printed; then
    echo 'worked_wall.sh: walljob printed something else (> above) than what is stored (<)'
    exit 1
fi
echo 'worked_wall.sh: walljob tells the sizes of the worked wall'
