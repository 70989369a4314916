#!/usr/bin/env bash
# Runs walljob on files that are missing, empty or full of NULs, and on inputs at the limit of 65,536 bytes.
# Its argument is the program to run; without one it builds it first.
set -eu
program=${1:-$("$(dirname "$0")/build.sh")}
room=$(mktemp -d)
trap 'rm -rf "$room"' EXIT
cd "$room"

# expect NAME WANTED: walljob, with standard input, prints as its last line WANTED and ends with status 0
expect() {
    if ! "$program" > printed; then
        echo "files.sh: $1: walljob failed"
        exit 1
    fi
    if [ "$(tail -n 1 printed)" != "$2" ]; then
        echo "files.sh: $1: the last line is not '$2' but:"
        tail -n 1 printed
        exit 1
    fi
}

expect 'no files' '! 0 C 12 0' < /dev/null
: > element.card
: > sheet.pgm
expect 'empty files' '! 0 C 12 0' < /dev/null
head -c 7 /dev/zero > element.card
expect 'a card of NULs' '! 0 C 12 0' < /dev/null
printf '\1\0\0\1' > element.card
expect 'a card that points at itself' '! 0 C 15 1' < /dev/null
printf '\2\0\0\2\1\0\0' > element.card
expect 'an empty picture' '! 0 P 19 0' < /dev/null
rm sheet.pgm
expect 'no picture' '! 0 P 19 0' < /dev/null
head -c 100 /dev/zero > sheet.pgm
expect 'a picture of NULs' '! 0 P 19 0' < /dev/null
{ printf 'P5\n96 96\n255\n'; head -c 70000 /dev/zero; } > sheet.pgm
expect 'a picture that is too long' '! 0 P 20 9229' < /dev/null
printf 'P5\n5 1\n255\n\0\2\1\2\0' > sheet.pgm
printf '\0\n' > lines
expect 'a line of a NUL' '! 1 J 22 1' < lines

# V 7 and 16,382 lines A 1 are 65,532 bytes; the last byte that is read is the 2 of A 12, a place that the rack has not
{ printf 'V 7\n'; yes 'A 1' | head -n 16382; printf 'A 12\nX\n'; } > lines
expect 'the last byte of the limit is read' '! 16384 B 5 0' < lines
# the last byte that is read is the first digit of A 1, and the fifth digit is not
{ printf 'V 7\nV\n'; yes 'A 1' | head -n 16381; printf 'A 99999\nX\n'; } > lines
expect 'what lies past the limit is not read' '! 16384 B 5 0' < lines
echo 'files.sh: walljob reads its files and its input as it should'
