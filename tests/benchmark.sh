#!/usr/bin/env bash
# Counts the instructions of the program and of the model on the same filings of 65,536 bytes, and prints both and their ratio; then those of
# the program without a filing, and of one field of each kind.
# It needs valgrind. Nothing here is held to a limit. The figures of docs/SPEED.md are of programs that kit 5b built.
set -euo pipefail
. "$(dirname "$0")/common.sh"

# Sixteen operators with a network and all marks cleared, then amounts, interruptions, or both by turns with marks between, up to 65,536
# bytes exactly.
calls() { # KIND
    awk -v kind="$1" '
        function put(text, size) { print text; left -= size }
        function amount(i) { put("amount " i % 16 " " i % 3 " " i % 13 " 0 " 1000 + i, 15) }
        # One in six is short, and one in four withdraws the one before it.
        function interruption(i) {
            if (n++ % 4 < 3) last = i
            put("interruption " last % 16 " " (last < i) " 0 " last % 5 " " 1000 * last " " 1000 * last + (last % 6 ? 900 : 100) " " 1 + last % 50, 27)
        }
        BEGIN {
            left = 65536
            for (o = 0; o < 16; o++) put("join " o, 4)
            for (o = 0; o < 16; o++) for (w = 0; w < 5; w++) put("setting " o " " w " " 2000 + 100 * o, 13)
            for (o = 0; o < 16; o++) for (i = 0; i < 6; i++) put("mark " o " " i " 0", 6)
            put("rates 5000 10000", 11)
            for (i = 0; left >= 100; i++) {
                if (kind == "amounts" || (kind == "mixed" && i % 2 == 0)) amount(i)
                else interruption(i)
                if (kind == "mixed" && i % 10 == 0) put("mark " i % 16 " " i % 6 " " i % 2, 6)
            }
            while (left % 8 != 0) put(left % 2 ? "rates 5000 10000" : "mark 0 0 0", left % 2 ? 11 : 6)
            while (left > 0) put("index " left % 4 " " 10000 + left, 8)
        }'
}

# The instructions of a command.
instructions() { # COMMAND..
    valgrind --tool=callgrind --callgrind-out-file=/dev/null "$@" 2>&1 >/dev/null | awk '/Collected/ { print $4 }'
}

command -v valgrind >/dev/null || fail "valgrind is needed"

# So many fields of a kind after sixteen joins; the book has no network, so that settling is refused alike.
fields() { # COUNT CALL
    awk -v count="$1" -v call="$2" 'BEGIN {
        for (o = 0; o < 16; o++) print "join " o
        for (i = 0; i < count; i++) print call
    }'
}

# The instructions of one field of a kind: 2000 of them less 1000, divided by 1000. Both take the larger of the program's two buffers.
field() { # KIND CALL
    local few many
    for count in 1000 2000; do
        mkdir -p "$work/$1-$count"
        fields "$count" "$2" | "$model" encode >"$work/$1-$count/filing.q"
    done
    few=$(cd "$work/$1-1000" && instructions "$program")
    many=$(cd "$work/$1-2000" && instructions "$program")
    awk -v kind="$1" -v few="$few" -v many="$many" 'BEGIN { printf "%-24s %6d\n", kind, (many - few) / 1000 }'
}

printf '%-14s %14s %14s %7s\n' filing program model ratio
for kind in amounts interruptions mixed; do
    mkdir "$work/$kind"
    calls "$kind" | "$model" encode >"$work/$kind/filing.q"
    [ "$(wc -c <"$work/$kind/filing.q")" = 65536 ] || fail "the filing of $kind has not 65,536 bytes"
    cmp <(cd "$work/$kind" && "$program") <("$model" program "$work/$kind/filing.q")
    ours=$(cd "$work/$kind" && instructions "$program")
    theirs=$(instructions "$model" program "$work/$kind/filing.q")
    awk -v kind="$kind" -v ours="$ours" -v theirs="$theirs" \
        'BEGIN { printf "%-14s %14d %14d %7.2f\n", kind, ours, theirs, ours / theirs }'
done

mkdir "$work/none"
printf '%-14s %14d\n' none "$(cd "$work/none" && instructions "$program")"

printf '\n%-24s %6s\n' "one field" program
field amount "amount 3 1 4 0 1000"
field counted-interruption "interruption 3 0 0 0 1000 1900 5"
field left-out-interruption "interruption 3 0 0 1 1000 1900 5"
field short-interruption "interruption 3 0 0 1 1000 1100 5"
field setting "setting 3 0 1000"
field mark "mark 3 2 1"
field rates "rates 5000 10000"
field index "index 1 10250"
