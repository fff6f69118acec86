#!/usr/bin/env bash
# What chiselbrow-renew makes of old files and tells of them: records of every kind, what is no record, records at the
# end of a buffer, random streams, and streams cut at every length. Records that are converted then have the lines that
# they had by the rule of their time, and all others have those of today. SEED=N repeats a run.
set -euo pipefail
cd "$(dirname "$0")/.."
name=renew
. tests/run.bash
seed=${SEED:-$(date +%s)}
program=chiselbrow-renew
said="$program: standard input:"

# An old file must become this file, and these lines must be told of it, or none; the status follows from that. A second
# time nothing more is converted, so that the file stays as it is and the same lines are told.
renewed() {
    local what=$1 old=$2 new=$3 lines=$4 due_status=1
    [ -n "$lines" ] || due_status=0
    run "build/$program" < "$old"
    told "$what" "$due_status" "$new" "$lines"
    run "build/$program" < "$new"
    told "$what, once more" "$due_status" "$new" "$lines"
}

# The same by what the independent program makes of the file.
same() {
    local lines
    lines=$(build/independent renew < "$2" 2>&1 > "$scratch/new") || true
    renewed "$1" "$2" "$scratch/new" "$lines"
}

# The lines of what the program makes of an old file: records that are converted have those that they had. All others
# have those of today: one of kind 2 that is left is refused 11, and one that was of kind 5 before is judged as such.
same_lines() {
    build/independent former < "$2" > "$scratch/expected"
    due "$2"
    "build/$program" < "$2" 2> /dev/null > "$scratch/new" || true
    run build/chiselbrow < "$scratch/new"
    told "$1, the lines" "$due_status" "$scratch/expected" "$due_line"
}

renewed 'no input' /dev/null /dev/null ''

bytes <<< '0A 00 02 00 01 46 04 05 00 25' > "$scratch/old"
bytes <<< '0A 00 05 00 01 46 04 05 00 26' > "$scratch/due"
renewed 'one record' "$scratch/old" "$scratch/due" ''

# Of the retired kind only the length and the name are judged: names 37, 59 and 0, a system, year, month and leap byte
# that there are not, a month that is not leap; names 60 and 255, and 9, 4 and 11 bytes. Other kinds are left alone,
# also kind 258, whose low byte is that of the retired one.
bytes > "$scratch/old" << 'END'
0A 00 01 00 01 46 04 05 00 01
0A 00 02 00 01 46 04 05 00 25
09 00 03 00 01 46 04 D0 00
09 00 04 00 01 68 5C 20 00
0A 00 02 00 01 44 04 0C 00 3B
0A 00 02 00 01 44 04 0C 00 00
0A 00 02 00 01 44 04 0C 00 3C
0A 00 02 00 09 FF FF 0D 02 25
09 00 02 00 01 46 04 05 00
04 00 02 00
0B 00 02 00 01 46 04 05 00 25 00
0A 00 05 00 01 46 04 05 00 26
0A 00 00 00 01 46 04 05 00 25
0A 00 06 00 01 46 04 05 00 25
0A 00 02 01 01 46 04 05 00 25
0A 00 02 00 01 46 04 05 00 FF
0A 00 02 00 01 46 04 05 01 25
END
bytes > "$scratch/due" << 'END'
0A 00 01 00 01 46 04 05 00 01
0A 00 05 00 01 46 04 05 00 26
09 00 03 00 01 46 04 D0 00
09 00 04 00 01 68 5C 20 00
0A 00 05 00 01 44 04 0C 00 3C
0A 00 05 00 01 44 04 0C 00 01
0A 00 02 00 01 44 04 0C 00 3C
0A 00 05 00 09 FF FF 0D 02 26
09 00 02 00 01 46 04 05 00
04 00 02 00
0B 00 02 00 01 46 04 05 00 25 00
0A 00 05 00 01 46 04 05 00 26
0A 00 00 00 01 46 04 05 00 25
0A 00 06 00 01 46 04 05 00 25
0A 00 02 01 01 46 04 05 00 25
0A 00 02 00 01 46 04 05 00 FF
0A 00 05 00 01 46 04 05 01 26
END
left="$said record at byte 58: refused 7
$said record at byte 78: refused 3
$said record at byte 87: refused 3
$said record at byte 91: refused 3
$said record at byte 142: refused 7"
renewed 'every kind' "$scratch/old" "$scratch/due" "$left"
cat > "$scratch/expected" << 'END'
G 1094 5 1 2120808 38
G 1094 5 1 2120808 38
G 1094 5 1 2120808 38
G 1094 5 1 2120808 38
G 1092 12 9 2119930 60
G 1092 12 10 2119931 1
refused 11
refused 4
refused 11
refused 11
refused 11
G 1094 5 1 2120808 38
refused 2
refused 2
refused 2
refused 11
refused 10 4
END
run build/chiselbrow < "$scratch/due"
told 'every kind, the lines' 0 "$scratch/expected" ''
same_lines 'every kind' "$scratch/old"

# After what is no record nothing is converted: a byte, length fields out of bounds, one that would be in bounds without
# its high byte, and a record that is cut; old records follow on all but these two.
size=$(stat -c %s "$scratch/old")
[ "$size" = 162 ] || fail "the records have $size bytes"
while read -r rest; do
    cp "$scratch/old" "$scratch/stopped"
    cp "$scratch/due" "$scratch/stopped-due"
    bytes <<< "$rest" | tee -a "$scratch/stopped" >> "$scratch/stopped-due"
    renewed "then $rest" "$scratch/stopped" "$scratch/stopped-due" "$left"$'\n'"$said no record at byte $size"
    same_lines "then $rest" "$scratch/stopped"
    bytes <<< "$rest" > "$scratch/rest"
    renewed "$rest" "$scratch/rest" "$scratch/rest" "$said no record at byte 0"
done << 'END'
0A
00 00 0A 00 02 00 01 46 04 05 00 25
03 00 02 00 0A 00 02 00 01 46 04 05 00 25
41 00 02 00 0A 00 02 00 01 46 04 05 00 25
0A 01 02 00 01 46 04 05 00 25 0A 00 02 00 01 46 04 05 00 25
FF FF 0A 00 02 00 01 46 04 05 00 25
0A 00 02 00 01 46 04 05 00
END

# These bytes so many times.
times() {
    local i
    for ((i = 0; i < $1; i++)); do echo "$2"; done | bytes
}

# So many old records, as they were and as they are to be.
many() {
    times "$1" '0A 00 02 00 01 46 04 05 00 25' > "$scratch/many"
    times "$1" '0A 00 05 00 01 46 04 05 00 26' > "$scratch/many-due"
}

# Megabytes of old records after a length field of 0 stay as they are, and those before it do not.
many 10000
for _ in {1..40}; do cat "$scratch/many"; done > "$scratch/rest"
{ cat "$scratch/many" && printf '\0\0' && cat "$scratch/rest"; } > "$scratch/old"
{ cat "$scratch/many-due" && printf '\0\0' && cat "$scratch/rest"; } > "$scratch/due"
renewed 'a bad length field in the middle' "$scratch/old" "$scratch/due" "$said no record at byte 100000"

# A length field of 64 is believed, and one of 65 is not, though the bytes are there.
many 7
for length in 40 41; do
    { bytes <<< "$length 00 02 00" && head -c $((0x$length - 4)) /dev/zero; } | tee "$scratch/old" > "$scratch/due"
    cat "$scratch/many" >> "$scratch/old"
    case $length in
        40) cat "$scratch/many-due" >> "$scratch/due" && line="$said record at byte 0: refused 3" ;;
        41) cat "$scratch/many" >> "$scratch/due" && line="$said no record at byte 0" ;;
    esac
    renewed "a length field of 0x$length" "$scratch/old" "$scratch/due" "$line"
done

# Two old records before, across and after the end of one, two and three times 65536 bytes: records of 8 bytes up to
# shortly before it, one of 4 to 44, the old ones, and then a record that is cut.
many 2
for buffers in 1 2 3; do
    before=$((buffers * 65536 - 32))
    times $((before / 8)) '08 00 00 00 00 00 00 00' > "$scratch/before"
    for length in {4..44}; do
        { printf %02x "$length" | bytes && head -c $((length - 1)) /dev/zero; } > "$scratch/filler"
        cat "$scratch/before" "$scratch/filler" "$scratch/many" <(printf '\x40') > "$scratch/old"
        cat "$scratch/before" "$scratch/filler" "$scratch/many-due" <(printf '\x40') > "$scratch/due"
        renewed "$((before + length)) bytes and two old records" "$scratch/old" "$scratch/due" \
            "$said no record at byte $((before + length + 20))"
    done
done

# Five streams that stay the same, five new ones and a large one, whose records are of all kinds, most of them retired.
stream() {
    build/independent old-stream "$1" "$2" 2> /dev/null > "$scratch/stream"
}
whole() {
    stream "$1" "$2"
    same "stream $1 of $2 records" "$scratch/stream"
    same_lines "stream $1 of $2 records" "$scratch/stream"
}
for i in {1..5}; do
    whole "$i" 5000
    whole "$((seed + i))" 5000
done
whole "$seed" 200000

# What a command makes and tells of a stream cut at each length, and its status each time.
cuts() {
    local to=$1 n status
    shift
    for n in {0..300}; do
        echo "cut $n"
        status=0
        head -c "$n" "$scratch/stream" | "$@" 2>&3 || status=$?
        echo "cut $n: status $status" >&3
    done > "$scratch/$to" 3> "$scratch/$to-told"
}
for i in 1 2 "$seed"; do
    stream "$i" 100
    cuts came "build/$program"
    cuts cut-due build/independent renew
    cmp "$scratch/came" "$scratch/cut-due" || fail "other bytes for stream $i cut"
    cmp "$scratch/came-told" "$scratch/cut-due-told" || fail "something else is told of stream $i cut"
done
echo "renew: the same bytes for 11 streams, for 3 cut at every length to 300 and for 123 at the end of a buffer, and" \
    "the lines that the converted records had, with those of today for all others (seed $seed)"
