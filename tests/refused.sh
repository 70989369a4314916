#!/usr/bin/env bash
# A program that erodes a sheet is accepted, and the same program with a tally in the sheet's place is rejected, since the
# numbers of a tally are no levels. The programs are tried in a copy outside the repository, since no listed crate may hold one that is refused.
set -eu
top=$(cd "$(dirname "$0")/.." && pwd)
copy=$(mktemp -d)
trap 'rm -rf "$copy"' EXIT
tar -C "$top" --exclude=out -cf - crates crates.txt | tar -C "$copy" -xf -
mkdir -p "$copy/crates/refused/src"
echo 'refused: elements levels morphology' >> "$copy/crates.txt"
cd "$copy"

# try_program TYPE START: tries to erode five cells of that type
try_program() {
    cat > crates/refused/src/main.rt <<PROGRAM
use elements::read_card;
use levels::Gray;
use morphology::erode;

fn main() {
    let _ = Gray::new(0);
    let cells: [$1; 5] = [$2; 5];
    let mut answer: [$1; 5] = [$2; 5];
    if let Ok(element) = read_card(&[2, 0, 0, 2, 1, 0, 0]) {
        let _ = erode(&cells, &mut answer, 5, 1, &element);
    }
}
PROGRAM
    (cd crates/refused && rt try 2>&1)
}

if ! said=$(try_program Gray 'Gray::new(0)'); then
    printf '%s\n' "$said"
    echo 'refused.sh: a program that erodes a sheet was not accepted'
    exit 1
fi
if said=$(try_program i32 0); then
    echo 'refused.sh: a program that erodes a tally was accepted'
    exit 1
fi
case $said in
*'error[unsatisfied-bound]: the trait bound `i32: Level` is not satisfied'*) echo 'refused.sh: a tally handed to erode is rejected, a sheet is accepted' ;;
*)
    printf '%s\n' "$said"
    echo 'refused.sh: a program that erodes a tally was refused for another reason'
    exit 1
    ;;
esac
