#!/usr/bin/env bash
# Runs the programs of electricity and of gas as staff do: on the examples, without a filing, on one that cannot be read, and on lengths
# around those of their buffers.
set -euo pipefail
. "$(dirname "$0")/common.sh"
gas_program=$(built quality_gas)

for example in examples/*/; do
    "$model" encode <"$example/calls.txt" | cmp - "$example/filing.q"
    # Two of the examples are refused, which is status 1.
    # shellcheck disable=SC2046
    ./settle $(option_of "$example") "$example" >"$work/printed" 2>"$work/said" || [ $? = 1 ] || fail "$(cat "$work/said")"
    cmp "$work/printed" <(model_of "$example" program "$example/filing.q")
done
cmp examples/case-m/filing.q crates/quality/data/filing.q
./settle </dev/null 2>"$work/said" | cmp - <(for example in examples/*/; do
    sed -n '/^#/p' "$example/calls.txt"
    model_of "$example" program "$example/filing.q"
done)
echo "program: the examples print what the model prints"

# Index fields of 8 bytes, cut where the first buffer is full, where the longest filing ends, and a byte before and after.
awk 'BEGIN { for (i = 0; i <= 8192; i++) print "index 0 " 10000 + i }' | "$model" encode >"$work/indices"

# What a program makes of files, in a folder whose name says what it is of.
reads_files() { # NAME PROGRAM
    local folder=$work/$1
    mkdir "$folder"
    [ "$(cd "$folder" && "$2")" = "refused 10" ] || fail "$1: a missing filing does not count as empty"
    mkdir "$folder/filing.q"
    [ -z "$(cd "$folder" && "$2" 2>"$work/said")" ] || fail "$1: a filing that cannot be read prints something"
    [ -s "$work/said" ] || fail "$1: a filing that cannot be read is not told"
    echo "program: a missing filing of $1 counts as empty, one that cannot be read is told"

    for length in 2047 2048 2049 65535 65536 65537; do
        mkdir "$folder/$length"
        head -c "$length" "$work/indices" >"$folder/$length/filing.q"
        cmp <(cd "$folder/$length" && "$2") <(model_of "$1" program "$folder/$length/filing.q")
    done
    # By way of a pipe, whose reads are short.
    mkdir "$folder/pipe"
    mkfifo "$folder/pipe/filing.q"
    (head -c 1000 "$work/indices" && sleep 0.2 && head -c 2049 "$work/indices" | tail -c +1001) >"$folder/pipe/filing.q" &
    cmp <(cd "$folder/pipe" && "$2") <(model_of "$1" program "$folder/2049/filing.q")
    wait
    echo "program: filings of $1 around the lengths of its buffers, and one by short reads, print what the model prints"
}

reads_files electricity "$program"
reads_files gas "$gas_program"
