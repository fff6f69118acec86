# Sourced after run.bash by tests of the almanac's requests. The test sets `request` to the word for its request. Every
# function takes the systems or the season, and `same` and `written` then the years or the days.

# A number of so many digits. Linux takes no argument of more than 131071.
sevens() {
    head -c "$1" /dev/zero | tr '\0' 7
}

# Systems that there are not, some of which would come out right if they were cut to 8, 16, 32 or 64 bits.
wrong_systems=(0 4 257 65538 4294967299 18446744073709551617 "$(sevens 131071)")

# The almanac must answer what the independent program answers.
same() {
    build/independent "${request:?}" "$@" > "$scratch/expected"
    run build/almanac "$request" "$@"
    told "$request $*" 0 "$scratch/expected" ''
}

# The almanac must answer what is written out on standard input, whatever the independent program answers.
written() {
    cat > "$scratch/expected"
    run build/almanac "${request:?}" "$@"
    told "$request $*, as written out" 0 "$scratch/expected" ''
}

# Years just outside, and years that would come out right if they were cut to 16, 32 or 64 bits.
years_outside() {
    local year
    for year in 0 3001 66628 4294968388 18446744073709552708 99999999999999999999; do
        same "$@" "$year"
    done
}

# Leading noughts change nothing.
leading_noughts() {
    same "$@" 0001108
    same "$@" 00000000000000000000000000001094 1096
    same "$@" 1094 00000000000000000000000000001096
}

# Ranges that leave the years on either side, that pass a size of machine word, or that are empty.
odd_ranges() {
    same "$@" 0 2
    same "$@" 2999 3002
    same "$@" 3000 3001
    same "$@" 0 0
    same "$@" 3001 3001
    same "$@" 4294967294 4294967297
    same "$@" 18446744073709551613 18446744073709551614
    same "$@" 18446744073709551614 18446744073709551617
    same "$@" 99999999999999999998 100000000000000000001
    same "$@" 0099999999999999999998 100000000000000000001
    same "$@" 1094 1092
    same "$@" 3001 3000
    same "$@" 1000 999
    same "$@" 2 0
    same "$@" 18446744073709551617 2
    same "$@" 18446744073709551617 18446744073709551616
    same "$@" 100000000000000000001 99999999999999999998
    same "$@" 18446744073709551617 00018446744073709551614
}

# Years or days of many thousand digits.
long_years() {
    local digits
    digits=$(sevens 60000)
    same "$@" "$digits" "$digits"
    same "$@" "${digits}7" "${digits}9"
    same "$@" "${digits}098" "${digits}101"
    same "$@" "${digits}0" "$digits"
    same "$@" "8$digits" "${digits}9"
    digits=$(sevens 131070)
    same "$@" "${digits}1" "${digits}2"
}

# Ranges of more years than 32 and 64 bits count: a refused line for each, as far as is read. They begin with the first
# year past the others and would end two years after it if they were cut. A test of days sets its own.
past=3001 past_refusal=5 endless=(4294970299 18446744073709554619)
endless_ranges() {
    local last came
    for last in "${endless[@]}"; do
        came=$({ build/almanac "$request" "$@" "$past" "$last" 2> "$scratch/error" || true; } |
            head -n 100000 | uniq -c | tr -s ' ')
        [ "$came" = " 100000 refused $past_refusal" ] || fail "$request $* $past $last: $came"
    done
}

# Years and ranges of all these sorts, for a request by one system and year: of each system, and ranges of one that there
# is not.
years_of_all_sorts() {
    local system
    for system in 1 2 3; do
        years_outside "$system"
        long_years "$system"
        endless_ranges "$system"
    done
    for system in 1 2 3 4; do
        odd_ranges "$system"
    done
}
