#!/usr/bin/env bash
# Runs the programs that rewrite a filing, of electricity and of gas, and the independent model, on generated filings and compares every
# byte that they put on standard output and standard error. What was written is rewritten as itself, and settles as the filing does.
# usage: tests/rewriting.sh [COUNT [SEED]]; the filings of a seed are always the same.
set -euo pipefail
. "$(dirname "$0")/common.sh"
count=${1:-3000}
seed=${2:-1}
gas_program=$(built quality_gas)
electricity_rewrite=$(built rewrite)
gas_rewrite=$(built rewrite_gas)

# Rewrites the filing in a folder of the work: what the program puts out must be what the model does, and have so many bytes. The name of
# the folder says what it is of.
rewritten() { # NAME SIZE
    local folder=$work/$1
    (cd "$folder" && "$rewrite" >written 2>told) || true
    model_of "$1" rewrite "$folder/filing.q" >"$folder/expected" 2>"$folder/expected-told" || true
    cmp "$folder/written" "$folder/expected" || fail "$1: not what the model writes"
    cmp "$folder/told" "$folder/expected-told" || fail "$1: not what the model tells"
    [ "$(wc -c <"$folder/written")" = "$2" ] || fail "$1: $(wc -c <"$folder/written") bytes are written, not $2"
}

# The calls of a book in which every mark is cleared and every other value differs from the fresh one: the joins, then what the writer
# puts last first.
largest_book() { # INDICATORS FIGURES SETTINGS
    awk -v indicators="$1" -v figures="$2" -v settings="$3" 'BEGIN {
        split(indicators, indicator); split(figures, figure); split(settings, setting)
        for (o = 0; o < 16; o++) print "join " o
        print "rates 1 20000"
        for (i = 3; i >= 0; i--) print "index " i " " 9999 - i
        for (o = 15; o >= 0; o--) {
            for (i = 1; i in indicator; i++) print "mark " o " " indicator[i] " 0"
            for (y = 2; y >= 0; y--) for (f = 1; f in figure; f++)
                print "amount " o " " y " " figure[f] " 0 " 1 + 100 * o + 20 * y + figure[f]
            for (w = 1; w in setting; w++) print "setting " o " " setting[w] " " 100000 - o
        }
    }'
}

# Rewrites the filings of which the length is known, in folders whose names begin alike; the largest book is read from standard input.
known_filings() { # START REWRITE SIZE
    local start=$work/$1 rewrite=$2
    mkdir "$start-missing" "$start-empty" "$start-largest" "$start-refused" "$start-long"
    rewritten "$1-missing" 0
    : >"$start-empty/filing.q"
    rewritten "$1-empty" 0
    "$model" encode >"$start-largest/filing.q"
    rewritten "$1-largest" "$3"
    printf 'join 3\njoin 16\n' | "$model" encode >"$start-refused/filing.q"
    rewritten "$1-refused" 0
    [ "$(cat "$start-refused/told")" = "refused 4 at 4" ] || fail "$1: a refused field is not told on standard error"
    head -c 65537 /dev/zero >"$start-long/filing.q"
    rewritten "$1-long" 0
    [ "$(cat "$start-long/told")" = "too long" ] || fail "$1: a filing that is too long is not told on standard error"
    echo "rewriting: the largest book of $1 has $3 bytes, an empty filing 0"

    mkdir -p "$start-unreadable/filing.q"
    (cd "$start-unreadable" && "$rewrite" >written 2>told) || true
    [ ! -s "$start-unreadable/written" ] || fail "$1: a filing that cannot be read writes something"
    [ -s "$start-unreadable/told" ] || fail "$1: a filing that cannot be read is not told"
}

largest_book "5 4 3 2 1 0" "12 11 10 9 8 7 6 5 4 3 2 1 0" "4 3 2 1 0" | known_filings electricity "$electricity_rewrite" 11083
largest_book "5 4" "7 6 5 4" "2 1" | known_filings gas "$gas_rewrite" 3595

# The test program of the writer has case M's written filing at the front of the buffers that are long enough, and their other bytes as
# they were.
bytes=$("$model" rewrite examples/case-m/filing.q | od -An -v -tx1 | tr -d ' \n')
for length in 251 254; do
    grep -qx "$length = 251 ${bytes}aaaaaa" crates/writer_test/stdout || fail "writer_test does not write what the model writes"
done
echo "rewriting: the writer's test program holds what the model writes"

comparison=(compare-rewrite "$electricity_rewrite" "$program")
filings_agree rewriting
wrong_model_is_noticed rewriting
gas_filings_agree "rewriting: gas filings read as electricity's"

comparison=(--gas compare-rewrite "$gas_rewrite" "$gas_program")
filings_agree "rewriting: gas"
wrong_model_is_noticed "rewriting: gas"
