#!/usr/bin/env bash
# Builds walljob, and shows a worked job: each line beside what is printed for it.
set -eu
cd "$(dirname "$0")"
program=$(tests/build.sh)
job=$(mktemp -d)
trap 'rm -rf "$job"' EXIT
cp crates/walljob/data/* "$job"
cp crates/walljob/stdin "$job/lines"
cd "$job"
"$program" < lines > printed
paste lines printed
