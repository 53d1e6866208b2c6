#!/usr/bin/env bash
# Counts the instructions of a lasso decision on a table of 10,000 states and 30,000 records, for loops of 1 to 256
# letters: how the work grows, whatever the machine's caches do. Usage: instructions.sh MEASURE
set -euo pipefail
measure=$1
command -v valgrind >/dev/null || { echo 'valgrind is not here: no instructions are counted'; exit 0; }
folder=$(mktemp -d)
trap 'rm -rf "$folder"' EXIT
echo 'letters  instructions  for each record and position'
for letters in 1 2 4 8 16 32 64 128 256; do
    valgrind -q --tool=callgrind --callgrind-out-file="$folder/out" --toggle-collect=tubochre_lasso \
        "$measure" --count "$letters" 2>/dev/null
    count=$(awk '/^(summary|totals):/ { print $2; exit }' "$folder/out")
    awk -v l="$letters" -v c="$count" 'BEGIN { printf "%7d  %12d  %.2f\n", l, c, c / (30000 * l) }'
done
