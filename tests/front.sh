#!/usr/bin/env bash
# Tests the command that staff use, with real runs of the programs; the exercises of these tests also by the model.
set -euo pipefail
. "$(dirname "$0")/common.sh"

# As a first run of staff does, this builds what is not built, or is older than a source by its time alone. It asks every program.
# What becomes of fields is told where there are interruptions, which a gas book refuses.
for asked in "" --show "--sheet 0 2017" "--gas --show"; do
    ./settle $asked examples/course >"$work/said" 2>&1 </dev/null || fail "$(cat "$work/said")"
done
./settle --gas examples/gas >"$work/said" 2>&1 </dev/null || fail "$(cat "$work/said")"

# A file of tests on each core at a time. All that is skipped is told with its reason.
tested() { # FILE
    local name
    name=$(basename "$1" .py)
    python3 -B -m unittest --verbose "front.tests.$name" >"$work/$name.said" 2>&1
}
export -f tested
export work
if ! printf '%s\n' front/tests/test*.py | xargs -P "$(nproc)" -n 1 bash -c 'tested "$1"' _; then
    cat "$work"/test*.said >&2
    exit 1
fi
sed -n 's/.* \.\.\. skipped /front: skipped: /p' "$work"/test*.said | sort | uniq
awk '/^Ran / { count += $2 } END { print "front: " count " tests" }' "$work"/test*.said

./settle --quiet front/tests/exercise/bytes | cmp - <("$model" program front/tests/exercise/bytes/filing.q)
./settle --quiet --gas front/tests/gas/bytes | cmp - <("$model" --gas program front/tests/gas/bytes/filing.q)
echo "front: the exercises print what the model prints"

# What becomes of each field, up to the first that is refused, is what the model answers to its call.
for example in examples/*/; do
    case $example in
    examples/gas*) outcomes=$(built outcomes_gas) calls=(--gas calls) ;;
    *) outcomes=$(built outcomes) calls=(calls) ;;
    esac
    (cd "$example" && "$outcomes") >"$work/outcomes"
    cut -d ' ' -f 2- "$work/outcomes" |
        cmp - <(sed '/^#/d' "$example/calls.txt" | "$model" "${calls[@]}" | sed 's/^left out //; /^refused/q')
done
echo "front: what becomes of each field of the examples is what the model answers"
