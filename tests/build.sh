#!/usr/bin/env bash
# Builds walljob, proving first the crates below it, and prints where the program is.
# Standard error is told which crate is being proved, and how many are left after it.
set -eu
cd "$(dirname "$0")/.."

# collect NAME: adds the crates that NAME uses to the list, each behind those that it uses itself, and then NAME
crates=()
collect() {
    local name
    if [[ " ${crates[*]} " == *" $1 "* || ! -d "crates/$1" ]]; then
        return
    fi
    for name in $(sed -n "s/^$1://p" crates.txt); do
        collect "$name"
    done
    crates+=("$1")
}

collect walljob
left=${#crates[@]}
for name in "${crates[@]}"; do
    left=$((left - 1))
    echo "proving $name, $left left" >&2
    step=lib
    if [ "$name" = walljob ]; then
        step=run
    fi
    if ! said=$(cd "crates/$name" && rt "$step" < /dev/null 2>&1); then
        printf '%s\n' "$said" "build.sh: $name was not built" >&2
        exit 1
    fi
done
echo "$PWD/crates/walljob/out/walljob"
