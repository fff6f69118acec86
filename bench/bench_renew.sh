#!/usr/bin/env bash
# Measures chiselbrow-renew against the C one on a long stream of old records, of
# all kinds mixed, after checking that they write the same bytes and notes.
#
#     bench_renew.sh CHISELBROW_RENEW C_RENEW [SEED]
name=bench_renew
. "$(dirname -- "$0")/streams.bash"
count=10000000

# Old records among which some are not converted, and after which bytes are no
# record: names 60 and 255, a length that kind 2 does not have, a length field 0.
damaged() {
    "$scratch/make_records" "$seed" 20000 old
    printf '\12\0\2\0\1\106\4\5\0\74\12\0\2\0\1\106\4\5\0\377'
    printf '\11\0\2\0\1\106\4\5\0\4\0\2\0'
    "$scratch/make_records" "$seed" 20000 old
    printf '\0\0'
    "$scratch/make_records" "$seed" 20000 old
}

# Both programs write the same, as many bytes as they read, and end with this
# status.
compare_outputs() {
    local input=$1 expected=$2 status=0 c_status=0
    "$ours" < "$input" > "$scratch/renewed" 2> "$scratch/notes" || status=$?
    "$c" < "$input" > "$scratch/c_renewed" 2> "$scratch/c_notes" || c_status=$?
    cmp -- "$scratch/renewed" "$scratch/c_renewed" || fail 'the two programs write different bytes'
    cmp -- "$scratch/notes" "$scratch/c_notes" || fail 'the two programs write different notes'
    [ "$status $c_status" = "$expected $expected" ] || fail "statuses $status and $c_status, not $expected"
    [ "$(wc -c < "$input")" -eq "$(wc -c < "$scratch/renewed")" ] || fail 'not as many bytes as were read'
}

damaged > "$scratch/damaged"
compare_outputs "$scratch/damaged" 1
"$scratch/make_records" "$seed" "$count" old > "$scratch/records"
compare_outputs "$scratch/records" 0
race renew "$count" 15
