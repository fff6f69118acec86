#!/usr/bin/env bash
# Measures chiselbrow's program against the C one on two long streams, accepted
# records and records refused 10, after checking that they write the same lines.
#
#     bench_program.sh CHISELBROW_PROGRAM C_PROGRAM [SEED]
name=bench_program
. "$(dirname -- "$0")/streams.bash"
count=2000000

# Both programs write the same lines, one for each record.
compare_lines() {
    "$ours" < "$scratch/records" > "$scratch/lines"
    "$c" < "$scratch/records" > "$scratch/c_lines"
    cmp -- "$scratch/lines" "$scratch/c_lines" || fail 'the two programs write different lines'
    [ "$(wc -l < "$scratch/c_lines")" -eq "$count" ] || fail 'not one line for each record'
}

# A stream by its name and by what make_records is asked for.
measure() {
    "$scratch/make_records" "$seed" "$count" "${@:2}" > "$scratch/records"
    compare_lines
    race "$1" "$count" 7
}

measure program
measure 'program refused 10' 10
