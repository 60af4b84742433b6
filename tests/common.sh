# Sourced by the tests that run a program beside the model: builds the model, makes a folder that is removed at the end, and holds
# what the tests share.
cd "$(dirname "${BASH_SOURCE[0]}")/.."
(cd model && cargo build --quiet --release --offline)
model=$PWD/model/target/release/model
work=$(mktemp -d)
trap 'rm -rf "$work"' EXIT

fail() { # MESSAGE
    echo "$0: $1" >&2
    exit 1
}

# The path of a program that must be built.
built() { # NAME
    local program=$PWD/crates/$1/out/$1
    [ -x "$program" ] || fail "the program isn't built: rt run in crates/$1"
    echo "$program"
}
program=$(built quality)

# The option for what is in a folder: those of gas have a name that begins with it.
option_of() { # FOLDER
    case $(basename "$1") in
        gas*) echo --gas ;;
    esac
}

# The model, for what is in a folder.
model_of() { # FOLDER WORD..
    # shellcheck disable=SC2046
    "$model" $(option_of "$1") "${@:2}"
}

# The rest compares programs with the model on generated filings. The script sets "comparison" to the words of the subcommand before
# the folder, "seed", and "count".

# A part of the filings, compared by this model. What it says is in NAME.said.
compare_part() { # MODEL NAME FIRST COUNT
    "$1" "${comparison[@]}" "$work/$2" "$seed" "$3" "$4" >"$work/$2.said" 2>&1
}

# A part on which the model must agree. On a mismatch the filing is kept in the folder mismatches.
agreeing_part() { # NAME FIRST COUNT
    if compare_part "$model" "$1" "$2" "$3"; then
        return
    fi
    mkdir -p mismatches
    cp "$work/$1"/mismatch-*.q mismatches/ || true
    sed "s|$work/$1|mismatches|g; s|repeat: model |repeat: $model |" "$work/$1.said" >&2
    return 1
}

# Compares so many filings in two parts at a time. Both run to their end, whatever the other finds.
filings_agree() { # WHAT
    [ "$count" -ge 2 ] || fail "at least 2 filings"
    local half=$((count / 2)) agreed=yes low
    agreeing_part low 0 "$half" &
    low=$!
    agreeing_part high "$half" $((count - half)) || agreed=no
    wait "$low" || agreed=no
    [ "$agreed" = yes ]
    echo "$1: $count of seed $seed agree"
}

# Compares a part of the filings made for gas by a program of electricity, which reads most of them and settles few.
gas_filings_agree() { # WHAT
    local count=$((count / 6 + 2)) comparison=(--gas-filings "${comparison[@]}")
    filings_agree "$1"
}

# The comparison can fail: a model with one mistake is caught.
wrong_model_is_noticed() { # WHAT
    rm -rf "$work/slip"
    (cd model && cargo build --quiet --release --offline --features slip --target-dir target/slip)
    if compare_part model/target/slip/release/model slip 0 3000; then
        fail "a wrong model was not noticed"
    fi
    if ! grep -q 'is kept as' "$work/slip.said" || ! ls "$work/slip"/mismatch-*.q >"$work/kept"; then
        fail "the filing on which a wrong model was noticed is not kept"
    fi
    echo "$1: a wrong model is noticed, at $(sed -n '1s/ is kept.*//p' "$work/slip.said")"
}
