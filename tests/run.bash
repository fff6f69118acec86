# Sourced by tests that look at all that a run of a program tells. The test sets `name` to its own.
[ -e build/faults.so ] || { echo "${name:?}: build/faults.so is missing: make test-tools" >&2; exit 1; }
scratch=$(mktemp -d)
trap 'rm -rf "$scratch"' EXIT
export LC_ALL=C

fail() {
    echo "$name: $*" >&2
    exit 1
}

# Runs a program. Its output and its errors go to files, and what build/faults.so tells where that is preloaded.
run() {
    status=0
    "$@" > "$scratch/out" 2> "$scratch/error" 9> "$scratch/calls" || status=$?
}

# The last run must have told this status, the bytes of this file, and on standard error this line, or nothing.
told() {
    local what=$1 expected_status=$2 expected=$3 line=$4 error
    [ "$status" = "$expected_status" ] || fail "$what: status $status, and not $expected_status"
    cmp "$scratch/out" "$expected" || fail "$what: another output"
    IFS= read -r -d '' error < "$scratch/error" || true
    [ "$error" = "${line:+$line$'\n'}" ] || fail "$what: on standard error: ${error%$'\n'}"
}

# The bytes that standard input has in hex.
bytes() {
    printf '%b' "$(tr -d ' \n' | sed 's/../\\x&/g')"
}

# Where the records of a file end, one line each after a line with 0. At the last of them begins what is no record.
record_ends() {
    od -An -v -tu1 -w1 "$1" | awk '
        BEGIN { print at = 0 }
        ended { next }
        NR == at + 1 { low = $1; next }
        NR == at + 2 { long = low + 256 * $1; ended = long < 4 || 64 < long; next }
        NR == at + long { print at += long }'
}

# The status and the line on standard error that are due for a file of records that is read to its end.
due() {
    local end
    end=$(record_ends "$1" | tail -n 1)
    due_status=0 due_line=
    [ "$end" = "$(stat -c %s "$1")" ] && return
    due_status=1 due_line="chiselbrow: standard input: no record at byte $end"
}
