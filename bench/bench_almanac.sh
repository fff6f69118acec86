#!/usr/bin/env bash
# Measures the almanac's comparisons, pentads, pentads in force, submerged and
# extinguished days against the C ones, after checking that they write the same
# lines.
#
#     bench_almanac.sh ALMANAC C_COMPARE C_PENTADS C_SUBMERGED

set -euo pipefail
export LC_ALL=C     # the clock below is read with a decimal point

if [ $# -ne 4 ]; then
    echo "usage: bench_almanac.sh ALMANAC C_COMPARE C_PENTADS C_SUBMERGED" >&2
    exit 2
fi
almanac=$(realpath -- "$1")
c_compare=$(realpath -- "$2")
c_pentads=$(realpath -- "$3")
c_submerged=$(realpath -- "$4")

# A request of the almanac, and the same of the C.
ask_almanac() {
    "$almanac" "$@"
}
ask_c() {
    case $1 in
        compare) "$c_compare" "${@:2}" ;;
        pentad*) "$c_pentads" "$@" ;;
        *) "$c_submerged" "$@" ;;
    esac
}

# Both write the same lines.
same() {
    if ! cmp -- <(ask_almanac "$@") <(ask_c "$@"); then
        echo "bench_almanac: the two programs write different lines for $*" >&2
        exit 1
    fi
}

# Keeps in best[NAME] the least microseconds that a command takes.
declare -A best
time_command() {
    local name=$1 start=${EPOCHREALTIME/./} took
    "${@:2}" > /dev/null
    took=$((${EPOCHREALTIME/./} - start))
    if ((took < ${best[$name]:-1000000000})); then best[$name]=$took; fi
}

# A request over a range, so many times, of each program in turn: all of it, and
# an empty range, which is what it takes to start. The last two words are the
# first and the last number of the range, and `unit` is what they count.
measure() {
    local unit=$1 rounds=$2 round count=$((${*: -1} - ${*: -2:1} + 1)) asked=("${@:3:$#-4}")
    best=()
    for ((round = 0; round < rounds; round++)); do
        time_command almanac ask_almanac "${@:3}"
        time_command c ask_c "${@:3}"
        time_command almanac_start ask_almanac "${asked[@]}" 2 1
        time_command c_start ask_c "${asked[@]}" 2 1
    done
    awk -v name="$3" -v unit="$unit" -v count="$count" -v a="${best[almanac]}" -v a0="${best[almanac_start]}" \
        -v c="${best[c]}" -v c0="${best[c_start]}" 'BEGIN {
        printf "%s: almanac %.1f ns a %s, C %.1f ns, ratio %.2f\n",
            name, 1000 * (a - a0) / count, unit, 1000 * (c - c0) / count, (a - a0) / (c - c0)
        printf "%s run: almanac %d us for %d %ss, C %d us, ratio %.2f\n", name, a, count, unit, c, a / c
    }'
}

for systems in '1 1' '1 2' '1 3' '2 1' '2 2' '2 3' '3 1' '3 2' '3 3' '3 4'; do
    read -r first second <<< "$systems"
    same compare "$first" "$second" 0 3002
done
for system in 1 2 3 4; do
    same pentads "$system" 0 3002
    same pentad "$system" 1721000 2817500
    same pentad "$system" 0 400000
    same submerged "$system" 0 3002
    same extinguished "$system" 0 3002
done

measure year 300 compare 1 2 1 3000
measure year 15 pentads 1 1 3000
measure day 15 pentad 1 1721414 2817144
for system in 1 2; do
    measure year 50 submerged "$system" 1 3000
    measure year 100 extinguished "$system" 1 3000
done
