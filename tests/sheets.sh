#!/usr/bin/env bash
# Runs the program that prints a yearly sheet, and the independent model, on generated filings, each with an operator and a year, and
# compares every byte that they print.
# usage: tests/sheets.sh [COUNT [SEED]]; the filings of a seed, and what is asked of each, are always the same.
set -euo pipefail
. "$(dirname "$0")/common.sh"
count=${1:-3000}
seed=${2:-1}
sheet=$(built sheet)
comparison=(compare-sheet "$sheet")

# Asks for the sheet of a filing in a folder of the work: what the program prints must be what the model does.
asked() { # NAME OPERATOR YEAR
    cmp <(cd "$work/$1" && "$sheet" "$2" "$3") <("$model" sheet "$work/$1/filing.q" "$2" "$3") || fail "$1, $2, $3: not what the model prints"
}

# Every operator and year, and some that there are not, of a filing with all outcomes, of none and of one that is too long.
mkdir "$work/course" "$work/missing" "$work/long"
cp examples/course/filing.q "$work/course/filing.q"
head -c 65537 /dev/zero >"$work/long/filing.q"
for operator in $(seq 0 17) 255; do
    for year in 0 1 2 3 4 255; do
        asked course "$operator" "$year"
    done
    asked missing "$operator" 0
    asked long "$operator" 0
done
echo "sheets: $((19 * 8)) sheets of three filings agree"

# What is no number of one byte is told on standard error, and nothing is printed.
for words in "" "0" "256 0" "0 256" "x 0" "0 -1" "0 00000" "1000 0" " 0"; do
    # shellcheck disable=SC2086
    (cd "$work/course" && "$sheet" $words >"$work/printed" 2>"$work/told") || true
    [ ! -s "$work/printed" ] || fail "'$words' prints something"
    grep -q '^usage: ' "$work/told" || fail "'$words' is not told"
done
(cd "$work/course" && "$sheet" "" 0 >"$work/printed" 2>"$work/told") || true
grep -q '^usage: ' "$work/told" || fail "an empty operator is not told"
echo "sheets: words that are no operator and year are told"

filings_agree sheets
wrong_model_is_noticed sheets
