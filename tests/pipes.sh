#!/usr/bin/env bash
# The programs that read records, in a pipe: the input may come in any pieces, they answer before they wait, chiselbrow
# ends at what is no record and chiselbrow-renew copies on from there, both end when nobody reads on, and a longer
# stream takes no more memory. SEED=N repeats a run.
set -euo pipefail
cd "$(dirname "$0")/.."
seed=${SEED:-$(date +%s)}
name="pipes (seed $seed)"
. tests/run.bash
line='G 1094 5 1 2120808 38'
no_record='standard input: no record at byte'

# Pieces: a stream of so many records, in pieces of 1 to so many bytes, with pauses of so many microseconds. The program
# may stop before it has read all, and then the feeder complains.
pieces() {
    build/independent stream "$seed" "$1" 2> /dev/null > "$scratch/stream"
    build/independent lines < "$scratch/stream" > "$scratch/expected"
    due "$scratch/stream"
    run build/chiselbrow < <(build/feed "$seed" "$2" "$3" < "$scratch/stream" 2> /dev/null)
    told "$1 records in pieces of 1 to $2 bytes" "$due_status" "$scratch/expected" "$due_line"
}
# The same of old records, and to the end.
renewed_pieces() {
    build/independent old-stream "$seed" "$1" 2> /dev/null > "$scratch/stream"
    due_status=0
    due_line=$(build/independent renew < "$scratch/stream" 2>&1 > "$scratch/expected") || due_status=1
    run build/chiselbrow-renew < <(build/feed "$seed" "$2" "$3" < "$scratch/stream")
    told "$1 old records in pieces of 1 to $2 bytes" "$due_status" "$scratch/expected" "$due_line"
}
for way in pieces renewed_pieces; do
    $way 50 3 500
    $way 300 40 500
    $way 20000 40 0
    $way 200000 3000 0
    $way 200000 70000 0
done

# Talk: the pipe to a program stays open while its lines or its bytes are awaited.
start() {
    rm -f "$scratch/records" "$scratch/lines"
    mkfifo "$scratch/records" "$scratch/lines"
    "build/$1" < "$scratch/records" > "$scratch/lines" 2> "$scratch/error" &
    program=$!
    exec 3> "$scratch/records" 4< "$scratch/lines"
}
send() { printf '%b' "$1" >&3; }
expect() {
    local came
    read -r -t 20 came <&4 || fail "no line came: $2"
    [ "$came" = "$1" ] || fail "another line came: $came: $2"
}
# The bytes that come next, in hex.
expect_bytes() {
    bytes <<< "$1" > "$scratch/expected"
    timeout 20 head -c "$(stat -c %s "$scratch/expected")" <&4 > "$scratch/came" || fail "no bytes came: $2"
    cmp "$scratch/came" "$scratch/expected" || fail "other bytes came: $2"
}
# Nothing comes any more but these bytes in hex, and the program ends with this status and this line on standard error,
# or nothing.
expect_end() {
    timeout 20 cat <&4 > "$scratch/out" || fail "it goes on: $1"
    exec 3>&- 4<&-
    status=0
    wait "$program" || status=$?
    bytes <<< "${4:-}" > "$scratch/expected"
    told "$1" "$2" "$scratch/expected" "$3"
}

start chiselbrow
send '\x09\0\x04\0\x01\x68\x5C\x20\0'
expect "$line" 'one record'
send '\x09\0\x04\0\x01\x68\x5C\x20\0\x09'
expect "$line" 'a record and one byte of the next'
send '\0\x04\0\x01'
read -r -t 0.3 came <&4 && fail "a line came before its record was whole: $came"
send '\x68\x5C\x20\0'
expect "$line" 'the rest of a record'
send '\x04\0\0\0\x09\0\x04\0\x01\x68\x5C\x20\0'
expect 'refused 2' 'the first of two records'
expect "$line" 'the second of two records'
exec 3>&-
expect_end 'the input has ended' 0 ''

# What cannot be a record ends it, whether or not more would come.
for bytes in '\0\0' '\x03\0' '\x41\0' '\0\x01'; do
    start chiselbrow
    send "$bytes"
    expect 'refused 1' "$bytes"
    expect_end "$bytes" 1 "chiselbrow: $no_record 0"
done

start chiselbrow-renew
send '\x0A\0\x02\0\x01\x46\x04\x05\0\x25'
expect_bytes '0A 00 05 00 01 46 04 05 00 26' 'one old record'
send '\x0A\0\x02\0\x01\x46\x04\x05\0\x3B\x0A'
expect_bytes '0A 00 05 00 01 46 04 05 00 3C' 'an old record and one byte of the next'
send '\0\x02\0\x01\x46\x04\x05\0\0'
expect_bytes '0A 00 05 00 01 46 04 05 00 01' 'the rest of an old record'
send '\x0A\0\x02\0\x01\x46\x04\x05\0\x3C\x09\0\x04\0\x01\x68\x5C\x20\0'
expect_bytes '0A 00 02 00 01 46 04 05 00 3C 09 00 04 00 01 68 5C 20 00' 'two records that stay'
exec 3>&-
expect_end 'the old records have ended' 1 'chiselbrow-renew: standard input: record at byte 30: refused 7'

# What cannot be a record does not end it: all that still comes is copied.
for field in '00 00' '03 00' '41 00' '00 01'; do
    start chiselbrow-renew
    bytes <<< "$field" >&3
    send '\x0A\0\x02\0\x01\x46\x04\x05\0\x25'
    sleep 0.1
    send '\x0A\0\x02\0\x01\x46\x04\x05\0\x3C'
    exec 3>&-
    expect_end "$field and old records" 1 "chiselbrow-renew: $no_record 0" \
        "$field 0A 00 02 00 01 46 04 05 00 25 0A 00 02 00 01 46 04 05 00 3C"
done

# Case 9's four records again and again, without the stray byte: 400,000 of them. The same with the second as it was
# written of old.
head -c 38 examples/case-9.bin > "$scratch/one"
bytes > "$scratch/old-one" << 'END'
0A 00 01 00 01 46 04 05 00 01
0A 00 02 00 01 46 04 05 00 25
09 00 03 00 01 46 04 D0 00
09 00 04 00 01 68 5C 20 00
END
for which in '' old-; do
    for _ in {1..1000}; do cat "$scratch/${which}one"; done > "$scratch/thousand"
    for _ in {1..100}; do cat "$scratch/thousand"; done > "$scratch/${which}many"
done

# From here on a program stands within a pipeline, whose parts may end as they like.
set +o pipefail

# Nobody reads on: the input never ends, so only the closed output can end it, be the signal of it taken or ignored.
endless() { while cat "$scratch/old-many" 2> /dev/null; do :; done; }
closed() {
    local signal=$1 program=$2 first=$3
    endless | timeout 20 env "--$signal-signal=PIPE" "build/$program" 2> "$scratch/error" |
        head -c "$(stat -c %s "$first")" > "$scratch/out"
    status=${PIPESTATUS[1]}
    told "nobody reads on from $program, $signal signal" 1 "$first" "$program: standard output: Broken pipe"
}
echo "$line" > "$scratch/first-line"
for signal in default ignore; do
    closed "$signal" chiselbrow "$scratch/first-line"
    closed "$signal" chiselbrow-renew "$scratch/one"
done

# Memory: a stream of 100 million bytes and more, and then a stray byte, with room for 64 million.
long() { for _ in {1..27}; do cat "$scratch/$1"; done; }
long_and_stray() { long "$1" && printf '\0'; }
bounded() { (ulimit -v 62500 && exec "build/$1" 2> "$scratch/error"); }
long_and_stray many | bounded chiselbrow | uniq -c | sed 's/^ *//' > "$scratch/out"
status=${PIPESTATUS[1]}
told 'a long stream' 1 <(printf '%s\n' "10800000 $line" '1 refused 1') "chiselbrow: $no_record 102600000"

# The same renewed; and where the first two bytes cannot begin a record, copied.
no_records() { printf '\0\0' && long old-many; }
renewed_to() {
    local new=$1 old=$2 line=$3 ends
    $old | bounded chiselbrow-renew | cmp - <($new) > "$scratch/out"
    ends=("${PIPESTATUS[@]}") status=${ends[1]}
    told "$old" 1 /dev/null "$line"
    [ "${ends[2]}" = 0 ] || fail "$old: other bytes"
}
renewed_to 'long_and_stray many' 'long_and_stray old-many' "chiselbrow-renew: $no_record 102600000"
renewed_to no_records no_records "chiselbrow-renew: $no_record 0"

echo "pipes: any pieces, prompt answers, a prompt end, little memory (seed $seed)"
