#!/bin/sh
# Runs the key program as a program, on standard input and output, and compares
# what it prints: the cases of cases/key-program.tsv (among them every refusal,
# no input, and inputs longer than any question) and each paper with its text
# in cases/ (link-down has more sequences than a piece has lines).
#
#   tools/run-key-program.sh
#
# Run it at the repository's root. On first use the program is proved and built.
set -eu

program=$(mktemp -d)
trap 'rm -rf "$program"' EXIT
wrong=0
runs=0

# compare NAME: what is printed of $program/input is to be $program/right
compare() {
    runs=$((runs + 1))
    bin/key <"$program/input" >"$program/printed"
    cmp -s "$program/printed" "$program/right" || { wrong=$((wrong + 1)); echo "$1 differs"; }
}

tab=$(printf '\t')
while IFS=$tab read -r case right; do
    hex=${case#keytext }
    python3 -c 'import sys; sys.stdout.buffer.write(bytes.fromhex(sys.argv[1].strip("-")))' "$hex" >"$program/input"
    printf '%s' "$right" | tr '|' '\n' >"$program/right"
    compare "$hex"
done <cases/key-program.tsv

for text in cases/*.txt; do
    paper=$(basename "$text" .txt)
    cp "papers/$paper.bin" "$program/input"
    cp "$text" "$program/right"
    compare "$paper"
done

echo "$wrong differ"
echo "$runs runs"
[ "$wrong" -eq 0 ]
