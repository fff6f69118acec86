#!/usr/bin/env bash
# What the program writes, and how it ends: nothing for nothing, case 9, records of Jingchu, names and kinds of all
# sorts, random streams, and streams cut at every length. SEED=N repeats a run.
set -euo pipefail
cd "$(dirname "$0")/.."
name=program
. tests/run.bash
seed=${SEED:-$(date +%s)}

# A random stream of so many records.
stream() {
    build/independent stream "$1" "$2" 2> /dev/null > "$scratch/stream"
}

run build/chiselbrow < /dev/null
told 'no input' 0 /dev/null ''

cat > "$scratch/expected" << 'END'
G 1094 5 1 2120808 38
G 1094 5 1 2120808 38
G 1094 5 1 2120808 38
G 1094 5 1 2120808 38
refused 1
END
run build/chiselbrow < examples/case-9.bin
told 'case 9' 1 "$scratch/expected" 'chiselbrow: standard input: no record at byte 38'

# Jingchu: the first day of a leap month in all four kinds; leap months that are not there; days outside of years 1 to
# 3000, among them those around count day 0, which is 330191, and the first and the last day within. And two systems
# that there are not.
bytes > "$scratch/jingchu" << 'END'
0A 00 01 00 03 EE 00 0A 01 01
0A 00 05 00 03 EE 00 0A 01 19
09 00 03 00 03 EE 00 63 01
09 00 04 00 03 BB 97 1B 00
0A 00 01 00 03 EE 00 0B 01 01
0A 00 05 00 03 ED 00 0A 01 19
09 00 04 00 03 00 00 00 00
09 00 04 00 03 01 00 00 00
09 00 04 00 03 CE 09 05 00
09 00 04 00 03 CF 09 05 00
09 00 04 00 03 D0 09 05 00
09 00 04 00 03 3E 44 1A 00
09 00 04 00 03 3F 44 1A 00
09 00 04 00 03 72 FC 2A 00
09 00 04 00 03 73 FC 2A 00
09 00 04 00 04 BB 97 1B 00
09 00 04 00 00 BB 97 1B 00
END
cat > "$scratch/expected" << 'END'
W 238 10* 1 1808315 25
W 238 10* 1 1808315 25
W 238 10* 1 1808315 25
W 238 10* 1 1808315 25
refused 10 10
refused 10 0
refused 7
refused 7
refused 7
refused 7
refused 7
refused 7
W 1 11 1 1721407 57
W 3000 10 29 2817138 8
refused 7
refused 4
refused 4
END
run build/chiselbrow < "$scratch/jingchu"
told 'records of Jingchu' 0 "$scratch/expected" ''

# Names at the end of the round and past it, all of Guantian 1092, month 12; the retired kind, whole and with other
# lengths; and kinds that there are not.
bytes > "$scratch/kinds" << 'END'
0A 00 05 00 01 44 04 0C 00 3C
0A 00 05 00 01 44 04 0C 00 01
0A 00 05 00 01 44 04 0C 00 00
0A 00 05 00 01 44 04 0C 00 3D
0A 00 05 00 01 44 04 0C 00 FF
0A 00 02 00 01 44 04 0C 00 3B
0A 00 02 00 04 44 04 0C 00 FF
04 00 02 00
09 00 02 00 01 44 04 0C 00
0B 00 02 00 01 44 04 0C 00 3B 00
0A 00 00 00 01 44 04 0C 00 01
0A 00 06 00 01 44 04 0C 00 01
0A 00 02 01 01 44 04 0C 00 01
04 00 05 00
09 00 05 00 01 44 04 0C 00
END
cat > "$scratch/expected" << 'END'
G 1092 12 9 2119930 60
G 1092 12 10 2119931 1
refused 7
refused 7
refused 7
refused 11
refused 11
refused 11
refused 11
refused 11
refused 2
refused 2
refused 2
refused 3
refused 3
END
run build/chiselbrow < "$scratch/kinds"
told 'names and kinds' 0 "$scratch/expected" ''

# Ten streams that stay the same, ten new ones and a large one.
whole() {
    stream "$1" "$2"
    build/independent lines < "$scratch/stream" > "$scratch/expected"
    due "$scratch/stream"
    run build/chiselbrow < "$scratch/stream"
    told "stream $1 of $2 records" "$due_status" "$scratch/expected" "$due_line"
}
for i in {1..10}; do
    whole "$i" 5000
    whole "$((seed + i))" 5000
done
whole "$seed" 200000

# The lines of a stream cut at each length, and how the program ends where a record is cut or is not.
cuts() {
    local n status
    for n in {0..300}; do
        echo "cut $n"
        status=0
        head -c "$n" "$scratch/stream" | build/chiselbrow 2>&3 || status=$?
        echo "cut $n: status $status" >&3
    done > "$scratch/came" 3> "$scratch/ends"
}
ends_of_cuts() {
    local ends i=0 n status
    mapfile -t ends < <(record_ends "$scratch/stream")
    for n in {0..300}; do
        [ "${ends[i + 1]}" -gt "$n" ] || i=$((i + 1))
        status=0
        [ "${ends[i]}" = "$n" ] || {
            echo "chiselbrow: standard input: no record at byte ${ends[i]}"
            status=1
        }
        echo "cut $n: status $status"
    done
}
for i in 1 2 "$seed"; do
    stream "$i" 100
    cuts
    build/independent cuts 300 < "$scratch/stream" | cmp "$scratch/came" - || fail "other lines for stream $i cut"
    ends_of_cuts | cmp "$scratch/ends" - || fail "another end for stream $i cut"
done
echo "program: the same lines for 21 streams and for 3 cut at every length to 300, and the ends due (seed $seed)"
