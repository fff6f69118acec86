# Sourced by tests that send cases of the independent program through a check. The test sets `name` to its own.
scratch=$(mktemp -d)
trap 'rm -rf "$scratch"' EXIT
line=${name:?}

# The cases that the independent program makes, by its arguments, through a check: what that tells goes into the line.
checked() {
    local what=$1 check=$2 told
    shift 2
    told=$(build/independent "$@" 2> "$scratch/log" | "build/$check") || {
        echo "$name: failed with $*" >&2
        cat "$scratch/log" >&2
        exit 1
    }
    line+="; $what: ${told#*: }"
}

# The same for a million random cases, by a seed that stays and one that does not.
checked_random() {
    local check=$1 cases=$2 seed
    for seed in 1094 "${SEED:-$(date +%s)}"; do
        checked "seed $seed" "$check" "$cases" "$seed" 1000000
    done
}

# To be done at the end: one line for all that was checked.
tell() {
    echo "${line/;/:}"
}
