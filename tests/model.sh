#!/usr/bin/env bash
# Compares what the test programs must print with what the independent model gives.
# A stored output has a case a line, "input = answer"; the programs are held to it by rt ci, and the model is held to it here.
set -euo pipefail
cd "$(dirname "$0")/.."

(cd model && cargo test --quiet --offline && cargo build --quiet --release --offline)
model=model/target/release/model
work=$(mktemp -d)
trap 'rm -rf "$work"' EXIT

# The inputs of a stored output, answered by the model, in the layout of the stored output.
answered() { # SUBCOMMAND FILE
    paste -d '=' <(sed 's/=.*//' "$2") <(sed 's/ *=.*//' "$2" | "$model" "$1" | sed 's/^/ /')
}

agrees() { # SUBCOMMAND FILE
    answered "$1" "$2" >"$work/answered"
    cmp --silent "$work/answered" "$2"
}

hold() { # SUBCOMMAND FILE
    if ! agrees "$1" "$2"; then
        echo "tests/model.sh: $2 is not what the model gives; the first lines that differ:" >&2
        diff "$work/answered" "$2" | head -n 6 >&2
        exit 1
    fi
    echo "model: $(wc -l <"$2") cases of $2 agree"
}

hold product crates/exact_test/stdout
hold share crates/apportion_test/stdout
hold walk crates/walker_test/stdout
hold calls crates/replay/stdout
cmp <("$model" table) crates/exponent_test/stdout
echo "model: $(wc -l <crates/exponent_test/stdout) weights of crates/exponent_test/stdout agree"

# The comparison can fail: one changed digit is noticed, of the calls also in the last one with the book lent.
notices() { # SUBCOMMAND FILE CHANGE
    sed "$3" "$2" >"$work/wrong"
    if cmp --silent "$work/wrong" "$2" || agrees "$1" "$work/wrong"; then
        echo "tests/model.sh: $3 in $2 was not noticed" >&2
        exit 1
    fi
}

notices share crates/apportion_test/stdout '1s/4 3 3/3 4 3/'
notices calls crates/replay/stdout '0,/= counted 0/s//= counted 1/'
notices calls crates/replay/stdout '$s/.$/&0/'
echo "model: wrong answers are noticed"
