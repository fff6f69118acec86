# Sourced by the scripts that measure a program against the C one on streams of
# records. The script sets `name` to its own.
set -euo pipefail
export LC_ALL=C     # the clock below is read with a decimal point

if [ $# -lt 2 ] || [ $# -gt 3 ]; then
    echo "usage: ${name:?}.sh PROGRAM C_PROGRAM [SEED]" >&2
    exit 2
fi
ours=$(realpath -- "$1")
c=$(realpath -- "$2")
seed=${3:-$RANDOM}

scratch=$(mktemp -d)
trap 'rm -rf -- "$scratch"' EXIT

fail() {
    echo "$name: $*" >&2
    exit 1
}

here=$(dirname -- "$(realpath -- "$0")")
"${CC:-gcc}" -std=c11 -O2 -Wall -Wextra -Wpedantic \
    -o "$scratch/make_records" \
    "$here/make_records.c" "$here/records.c" "$here/random.c" "$here/c_store.c"
echo "seed $seed"

# Sets took to the microseconds that a program takes for the stream.
time_program() {
    local start=${EPOCHREALTIME/./}
    "$1" < "$scratch/records" > /dev/null
    took=$((${EPOCHREALTIME/./} - start))
}

# Tells how fast both are on the stream, of so many records, by the least of so
# many rounds.
race() {
    local what=$1 count=$2 rounds=$3 best_ours='' best_c='' round
    for ((round = 0; round < rounds; round++)); do
        time_program "$ours"
        if [ -z "$best_ours" ] || ((took < best_ours)); then best_ours=$took; fi
        time_program "$c"
        if [ -z "$best_c" ] || ((took < best_c)); then best_c=$took; fi
    done
    awk -v what="$what" -v program="${ours##*/}" -v count="$count" -v ours="$best_ours" -v c="$best_c" 'BEGIN {
        printf "%s: %s %.1f million records a second, C %.1f million, ratio %.2f\n",
            what, program, count / ours, count / c, ours / c
    }'
}
