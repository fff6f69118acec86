#!/usr/bin/env bash
# Standard input, output and error that the system itself refuses, breaks off or has closed: the programs tell it.
set -euo pipefail
cd "$(dirname "$0")/.."
name=descriptors
. tests/run.bash

# A command line must end with this status, this output and this line on standard error, or nothing there.
export scratch
expect() {
    run timeout 20 bash -c "exec $1"
    told "$1" "$2" "$3" "$4"
}

# A pipe that nobody reads any more at 4, and one that does not block at 5.
mkfifo "$scratch/unread" "$scratch/prompt"
exec 3<> "$scratch/unread"
exec 4> "$scratch/unread"
exec 3>&- 5<> "$scratch/prompt"
dd count=0 iflag=nonblock status=none <&5

# The four records of case 9.
head -c 38 examples/case-9.bin > "$scratch/records"
build/independent lines < "$scratch/records" > "$scratch/lines"
none=/dev/null

# Old records, and what they are renewed to.
bytes <<< '0A 00 02 00 01 46 04 05 00 25 09 00 04 00 01 68 5C 20 00' > "$scratch/old"
bytes <<< '0A 00 05 00 01 46 04 05 00 26 09 00 04 00 01 68 5C 20 00' > "$scratch/new"

# The line for an output that fails, by the command and the reason.
output_fails() {
    local program=${1%% *}
    echo "${program#build/}: standard output: $2"
}

# Outputs that take nothing. Where nothing is written they do no harm.
takes_nothing() {
    expect "$1 > /dev/full" 1 $none "$(output_fails "$1" 'No space left on device')"
    expect "$1 >&-" 1 $none "$(output_fails "$1" 'Bad file descriptor')"
    expect "env --default-signal=PIPE $1 >&4" 1 $none "$(output_fails "$1" 'Broken pipe')"
    expect "env --ignore-signal=PIPE $1 >&4" 1 $none "$(output_fails "$1" 'Broken pipe')"
}
takes_nothing 'build/chiselbrow < "$scratch/records"'
takes_nothing 'build/chiselbrow < examples/case-9.bin'
takes_nothing 'build/chiselbrow < /dev/zero'
takes_nothing 'build/chiselbrow --help'
takes_nothing 'build/chiselbrow --version'
takes_nothing 'build/chiselbrow-renew < "$scratch/old"'
takes_nothing 'build/chiselbrow-renew --help'
takes_nothing 'build/chiselbrow-renew --version'
takes_nothing 'build/almanac year 1 1094'
takes_nothing 'build/almanac year 1 3001'
takes_nothing 'build/almanac pentads 1 1094'
takes_nothing 'build/almanac pentads 1 3001'
takes_nothing 'build/almanac pentad 1 2120808'
takes_nothing 'build/almanac pentad 1 0'
takes_nothing 'build/almanac submerged 1 1094'
takes_nothing 'build/almanac submerged 3 1094'
takes_nothing 'build/almanac extinguished 1 1094'
takes_nothing 'build/almanac extinguished 1 3001'
takes_nothing 'build/almanac compare 1 2 1094'
takes_nothing 'build/almanac compare 1 4 1094'
takes_nothing 'build/almanac sun winter 1'
takes_nothing 'build/almanac sun summer 183'
takes_nothing 'build/almanac --help'
takes_nothing 'build/almanac --version'
expect 'build/chiselbrow < /dev/null > /dev/full' 0 $none ''
expect 'build/chiselbrow-renew < /dev/null > /dev/full' 0 $none ''
expect 'build/almanac year 1 1094 1092 > /dev/full' 0 $none ''
expect 'build/almanac pentad 1 2120808 2120807 > /dev/full' 0 $none ''
expect 'build/almanac submerged 1 1094 1092 > /dev/full' 0 $none ''
expect 'build/almanac extinguished 1 1094 1092 > /dev/full' 0 $none ''
expect 'build/almanac compare 1 2 1094 1092 > /dev/full' 0 $none ''
expect 'build/almanac sun winter 1 0 > /dev/full' 0 $none ''

# What never ends and is no record is copied until the output fails; that it is none may be told before.
run timeout 20 bash -c 'exec build/chiselbrow-renew < /dev/zero > /dev/full'
grep -vx 'chiselbrow-renew: standard input: no record at byte 0' "$scratch/error" > "$scratch/failure" || true
mv "$scratch/failure" "$scratch/error"
told 'build/chiselbrow-renew < /dev/zero' 1 $none 'chiselbrow-renew: standard output: No space left on device'

# A pipe that is filled up and does not block has taken the beginning of what is right.
filled_up() {
    expect "$1 >&5" 1 $none "$(output_fails "$1" 'Resource temporarily unavailable')"
    cat <&5 > "$scratch/taken" 2> /dev/null || true
    [ -s "$scratch/taken" ] || fail "$1: nothing was taken"
    cmp -n "$(stat -c %s "$scratch/taken")" "$scratch/taken" "$2" || fail "$1: something else was taken"
}
for which in records lines old new; do
    for _ in {1..5000}; do echo "$scratch/$which"; done | xargs cat > "$scratch/many_$which"
done
filled_up 'build/chiselbrow < "$scratch/many_records"' "$scratch/many_lines"
filled_up 'build/chiselbrow-renew < "$scratch/many_old"' "$scratch/many_new"
build/independent year 2 1 100 > "$scratch/pages"
filled_up 'build/almanac year 2 1 100' "$scratch/pages"

# Inputs that give nothing, or nothing more. A record that has begun is not told as refused.
gives_nothing() {
    expect "build/$1 < ." 1 $none "$1: standard input: Is a directory"
    expect "build/$1 <&-" 1 $none "$1: standard input: Bad file descriptor"
    expect "build/$1 <&5" 1 $none "$1: standard input: Resource temporarily unavailable"
    cat "$2" >&5
    expect "build/$1 <&5" 1 "$3" "$1: standard input: Resource temporarily unavailable"
}
gives_nothing chiselbrow "$scratch/records" "$scratch/lines"
gives_nothing chiselbrow-renew "$scratch/old" "$scratch/new"
{ cat "$scratch/records" && printf '\x09\0\x04'; } >&5
expect 'build/chiselbrow <&5' 1 "$scratch/lines" 'chiselbrow: standard input: Resource temporarily unavailable'
build/independent year 1 1094 > "$scratch/page"
expect 'build/almanac year 1 1094 <&-' 0 "$scratch/page" ''

# A standard error that takes nothing changes neither the status nor the output.
{ cat "$scratch/lines" && echo 'refused 1'; } > "$scratch/stopped"
bytes <<< '0A 00 02 00 01 46 04 05 00 3C' > "$scratch/no-name"
{ cat "$scratch/no-name" "$scratch/old" && printf '\0'; } > "$scratch/old-stopped"
{ cat "$scratch/no-name" "$scratch/new" && printf '\0'; } > "$scratch/new-stopped"
for error in '2> /dev/full' '2>&-' '2>&4'; do
    expect "build/chiselbrow < examples/case-9.bin $error" 1 "$scratch/stopped" ''
    expect "build/chiselbrow < . $error" 1 $none ''
    expect "build/chiselbrow < examples/case-9.bin > /dev/full $error" 1 $none ''
    expect "build/chiselbrow x $error" 2 $none ''
    expect "build/chiselbrow-renew < \"\$scratch/old-stopped\" $error" 1 "$scratch/new-stopped" ''
    expect "build/chiselbrow-renew < . $error" 1 $none ''
    expect "build/chiselbrow-renew < \"\$scratch/old\" > /dev/full $error" 1 $none ''
    expect "build/chiselbrow-renew x $error" 2 $none ''
    expect "build/almanac year 1 1094 > /dev/full $error" 1 $none ''
    expect "build/almanac $error" 2 $none ''
done

echo "descriptors: what the system refuses is told"
