#!/usr/bin/env bash
# Holds crates/replay/stdin, the bytes that the test program replay reads, to the commands in crates/replay/commands.txt, and these to
# what it prints: every command by value, then every command with the book lent. tests/model.sh holds the answers.
set -euo pipefail
cd "$(dirname "$0")/.."
commands=crates/replay/commands.txt
bytes=crates/replay/stdin
printed=crates/replay/stdout
work=$(mktemp -d)
trap 'rm -rf "$work"' EXIT

# The bytes of the commands in a file are these, and so are the commands that are printed.
holds() { # COMMANDS BYTES PRINTED
    grep -v -e '^#' -e '^$' "$1" >"$work/commands"
    tests/replay.py <"$1" | cmp - "$2" && cat "$work/commands" "$work/commands" | cmp - <(sed 's/ =.*//' "$3")
}

holds "$commands" "$bytes" "$printed"
echo "replay: $(wc -l <"$work/commands") commands are the bytes of $bytes, and twice the commands of $printed"

# A change of one of the three is noticed.
notices() { # FILE CHANGE
    for file in "$commands" "$bytes" "$printed"; do
        cp "$file" "$work/$(basename "$file")"
    done
    LC_ALL=C sed "$2" "$1" >"$work/$(basename "$1")"
    if cmp --silent "$work/$(basename "$1")" "$1" || holds "$work/commands.txt" "$work/stdin" "$work/stdout" >"$work/said" 2>&1; then
        echo "tests/replay.sh: $2 in $1 was not noticed" >&2
        exit 1
    fi
}

notices "$commands" '0,/^join 16$/s//join 17/'
notices "$commands" '0,/^join 16$/s//join 256/'
notices "$commands" '0,/^store figure 0 /s//store figure 1 /'
notices "$commands" '$d'
notices "$bytes" 's/\x01\x00\x01\x10/\x01\x00\x01\x11/'
notices "$printed" '0,/^join 16 /s//join 17 /'
notices "$printed" '$d'
echo "replay: changed commands, bytes and printed commands are noticed"
