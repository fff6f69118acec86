#!/usr/bin/env bash
# Calls that fail, are interrupted or move fewer bytes than asked for, at each place of a run (tests/faults.c). A
# failure is told by the status and by one line, and what was written before it is right as far as it goes. The others
# change nothing.
set -euo pipefail
cd "$(dirname "$0")/.."
name=faults
. tests/run.bash
EINTR=4 EIO=5 ENOSPC=28
runs=0

# A program that goes round in a circle is ended when its output or the list of its calls is 2 million bytes long.
ulimit -f 2000

# Runs the command on the input, with the faults that the environment tells. Of each call there is then the number of
# bytes that it moved, or its error.
meddled() {
    local call moved
    LD_PRELOAD=$PWD/build/faults.so run "${command[@]}" < "$input"
    runs=$((runs + 1))
    reads=() writes=() notes=()
    while read -r call moved; do
        case $call in
            read) reads+=("$moved") ;;
            write) writes+=("$moved") ;;
            note) notes+=("$moved") ;;
        esac
    done < "$scratch/calls"
}

# The run without a fault must tell what is due, and make so many calls of each name. The others are held to it.
plain() {
    meddled
    told "${command[*]}" "$due_status" "$scratch/right" "$due_line"
    [[ ${#reads[@]} -ge $1 && ${#writes[@]} -ge $2 ]] || fail "${command[*]}: too few calls were seen"
    plain_reads=("${reads[@]}") plain_writes=("${writes[@]}")
}

# What is told of the input comes line by line, each by one write.
lines_whole() {
    plain "$@"
    [ "${#notes[@]}" = "$(grep -c '' "$scratch/error")" ] || fail "${command[*]}: ${#notes[@]} writes of $due_line"
}

# What a run had read when a call failed: how many bytes, how many of them before the last read, and how many whole
# records.
had_read() {
    local moved end
    given=0 earlier=0 records=0
    for moved in "${reads[@]}"; do
        [ "$moved" -ge 0 ] || break
        earlier=$given given=$((given + moved))
    done
    for end in "${ends[@]:1}"; do
        [ "$end" -le "$given" ] || break
        records=$((records + 1))
    done
}

# How far chiselbrow-renew came, all being done that the first so many bytes ask for: over the whole records that it
# read, as it tells of those before it writes; and over all bytes if a length field that no record has is among the
# first ones, as it tells of that after it wrote. Two bytes after the records are always such a field here.
came() {
    if [ "$1" -lt $((ends[-1] + 2)) ]; then echo "${ends[records]}"; else echo "$given"; fi
}

# A failure is told after what was due before it. That is nothing, but chiselbrow-renew tells what is wrong in the input
# as far as it came.
failed() {
    local before=
    [ "$program" != chiselbrow-renew ] || before=$(awk -F ' at byte ' -v to="$3" '$2 + 0 < to' <<< "$due_line")
    told "$1" 1 "$scratch/expected" "${before:+$before$'\n'}$program: $2"
}

# After a failed read: what is due for the records that were whole before it. Chiselbrow has a line for each of them,
# and chiselbrow-renew their bytes, or all that were read if they do not go on as records.
read_failed() {
    local given earlier records to
    had_read
    to=$(came "$given")
    case $program in
        chiselbrow) head -n "$records" "$scratch/right" > "$scratch/expected" ;;
        chiselbrow-renew) head -c "$to" "$scratch/right" > "$scratch/expected" ;;
    esac
    failed "$1" 'standard input: Input/output error' "$to"
}

# After a failed write: what the writes before it took, the cut one among them. What the last read asks for is not done.
write_failed() {
    local given earlier records bytes=0 i
    had_read
    for ((i = 0; i < FAULT_AT - 1; i++)); do bytes=$((bytes + plain_writes[i])); done
    case ${FAULT_CUT:-} in
        one) bytes=$((bytes + 1)) ;;
        half) bytes=$((bytes + (plain_writes[i] + 1) / 2)) ;;
    esac
    head -c "$bytes" "$scratch/right" > "$scratch/expected"
    failed "$1" 'standard output: No space left on device' "$(came "$earlier")"
}

# The fault that the environment tells, at the first call, at the second and so on, until a run makes no such call. The
# first at least, which moves many bytes without it, then gives something else.
at_every() {
    local -n made=${FAULT}s plainly=plain_${FAULT}s
    local -x FAULT_AT
    local what
    for ((FAULT_AT = 1; ; FAULT_AT++)); do
        meddled
        what="${command[*]}: $FAULT $FAULT_AT${FAULT_CUT:+ cut to $FAULT_CUT}${FAULT_ERROR:+, error $FAULT_ERROR}"
        case "$FAULT: ${made[*]} " in
            read:*" -$EIO "*) read_failed "$what" ;;
            write:*" -$ENOSPC "*) write_failed "$what" ;;
            *) told "$what" "$due_status" "$scratch/right" "$due_line" ;;
        esac
        [ "${#made[@]}" -ge "$FAULT_AT" ] || break
        [[ $FAULT_AT -gt 1 || ${made[0]} != "${plainly[0]}" ]] || fail "$what: there was no fault"
    done
    [ "$FAULT_AT" = $((${#plainly[@]} + 1)) ] || fail "$what: there were ${#plainly[@]} calls without it"
}

# Every sort of fault of a call that fails with this error.
every_fault() {
    local -x FAULT=$1
    local error=$2 cut
    FAULT_ERROR=$error at_every
    FAULT_ERROR=$EINTR at_every
    for cut in one half; do
        FAULT_CUT=$cut at_every
        FAULT_CUT=$cut FAULT_ERROR=$error at_every
    done
}

# The input and what is due for it: the records, and bytes after them that are no record, or none.
after_records() {
    { cat "$scratch/records" && printf '%b' "$1"; } > "$input"
    mapfile -t ends < <(record_ends "$input")
    case $program in
        chiselbrow)
            build/independent lines < "$input" > "$scratch/right"
            due "$input"
            ;;
        chiselbrow-renew)
            due_status=0
            due_line=$(build/independent renew < "$input" 2>&1 > "$scratch/right") || due_status=1
            ;;
    esac
}

# The whole records of a stream.
records_of() {
    "$@" 2> /dev/null > "$scratch/stream"
    head -c "$(record_ends "$scratch/stream" | tail -n 1)" "$scratch/stream" > "$scratch/records"
}

# A program that reads records, on those of a stream.
with_records() {
    program=$1 command=("build/$1") input=$scratch/input
    shift
    records_of "$@"

    # Few records: none left over, one byte, and bytes that cannot begin a record.
    for rest in '' '\x09' '\x03\0\x04\0\x01\x68\x5C\x20\0'; do
        after_records "$rest"
        READ_MOST=1 WRITE_MOST=1 NOTE_MOST=1 INTERRUPTS=3 plain $((${ends[-1]} + 1)) "$(stat -c %s "$scratch/right")"
        export READ_MOST=10
        lines_whole 10 5
        every_fault read "$EIO"
        every_fault write "$ENOSPC"
        unset READ_MOST
    done

    # Many records, and calls that move as many bytes as the program asks for.
    for _ in {1..1000}; do echo "$scratch/records"; done | xargs cat > "$scratch/many"
    mv "$scratch/many" "$scratch/records"
    after_records '\x09'
    plain 3 2
    every_fault read "$EIO"
    every_fault write "$ENOSPC"

    # A call that is interrupted a thousand times on end.
    head -c 38 examples/case-9.bin > "$scratch/records"
    after_records ''
    INTERRUPTS=1000 plain 2 1
}
with_records chiselbrow build/independent stream 8 10
with_records chiselbrow-renew build/independent old-stream 8 10

program=almanac input=/dev/null due_status=0 due_line=

# A request of the almanac, and what is right of it.
asked() {
    command=(build/almanac "$@")
    build/independent "$@" > "$scratch/right"
}

# Its writes, of which there are so many or more, fail one by one.
every_write() {
    plain 0 "$1"
    every_fault write "$ENOSPC"
}

# The same of writes that take 300 bytes at most.
in_pieces() {
    local -x WRITE_MOST=300
    every_write "$1"
}

asked year 2 2999 3001
WRITE_MOST=1 INTERRUPTS=3 plain 0 1000
in_pieces 12
asked year 1 1 200
every_write 2

# Pentads of years and of days, with refusals on either side.
asked pentads 2 2999 3001
in_pieces 12
asked pentad 1 1720000 1735000
every_write 2

# Submerged and extinguished days, with a refusal at the end and at the beginning.
asked submerged 1 2997 3001
in_pieces 3
asked extinguished 2 0 6
in_pieces 3

# Comparisons: 13 places, none, and a refusal.
asked compare 1 2 2881 3001
in_pieces 2

# The sun's excess of the last days, and refusals.
asked sun winter 150 200
in_pieces 2

echo "faults: $runs runs go on or stop as they must"
