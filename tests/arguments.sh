#!/usr/bin/env bash
# --help, --version and arguments that are neither: what is told of them, without a look at standard input.
set -euo pipefail
cd "$(dirname "$0")/.."
name=arguments
. tests/run.bash
version=$(sed -n 's/^#define CHISELBROW_VERSION "\(.*\)".*/\1/p' include/chiselbrow.h)
[ -n "$version" ] || fail "the header tells no version"

# Nothing ever comes from 3.
mkfifo "$scratch/silent"
exec 3<> "$scratch/silent"

# The calls of a program with arguments, which must not be reads.
with() {
    LD_PRELOAD=$PWD/build/faults.so run timeout 20 "build/$program" "$@" <&3
    ! grep -q '^read' "$scratch/calls" || fail "$program $*: it reads"
}

# What a program tells of itself, the help also through an output that takes a byte at a time.
about() {
    program=$1 usage=$2
    echo "$program $version" > "$scratch/version"
    with --version
    told "$program --version" 0 "$scratch/version" ''
    with --help
    cp "$scratch/out" "$scratch/help"
    told "$program --help" 0 "$scratch/help" ''
    while read -r form; do
        grep -qxF -- "$form" "$scratch/help" || fail "$program --help does not tell: $form"
    done <<< "${3:-${usage#usage: }}"
    WRITE_MOST=1 INTERRUPTS=2 with --help
    told "$program --help in pieces" 0 "$scratch/help" ''
}

# A failed write, be it the first or a later one, is told.
unwritable() {
    local wish n
    for wish in --help --version; do
        for ((n = 1; ; n++)); do
            FAULT=write FAULT_AT=$n FAULT_ERROR=28 with "$wish"
            grep -q '^write -28' "$scratch/calls" || break
            cp "$scratch/out" "$scratch/begun"
            told "$program $wish, write $n failed" 1 "$scratch/begun" "$program: standard output: No space left on device"
        done
        [ "$n" -gt 1 ] || fail "$program $wish: no write was seen"
    done
}

# Arguments that are none of its own.
wrong() {
    with "$@"
    told "$program$(printf ' <%s>' "$@")" 2 /dev/null "$usage"
}

# What goes on after an argument of its own, or is only like it.
unlike() {
    wrong --help --help
    wrong --help --version
    wrong --version x
    wrong x --help
    wrong --hel
    wrong --help=
    wrong --HELP
    wrong ' --help'
    wrong --versions
    wrong -h
    wrong -
    wrong --
    wrong ''
    wrong '' ''
}

# A program that reads records and takes no other arguments.
reads_records() {
    LD_PRELOAD=$PWD/build/faults.so run "build/$1" < /dev/null
    grep -qx 'read 0' "$scratch/calls" || fail "the reads of $1 are not seen"
    about "$1" "$2"
    unwritable
    unlike
    wrong x
    wrong x y
    wrong examples/case-9.bin
}
reads_records chiselbrow 'usage: chiselbrow [--help | --version] < records'
reads_records chiselbrow-renew 'usage: chiselbrow-renew [--help | --version] < records > renewed'

forms='almanac year SYSTEM YEAR [LAST]
almanac pentads SYSTEM YEAR [LAST]
almanac pentad SYSTEM DAY [LAST]
almanac submerged SYSTEM YEAR [LAST]
almanac extinguished SYSTEM YEAR [LAST]
almanac compare FIRST SECOND YEAR [LAST]'
about almanac "usage: ${forms//$'\n'/ | } (see almanac --help)" "$forms"
unwritable
unlike
wrong
wrong page 1 1092
wrong Year 1 1092
wrong '' 1 1092
wrong year
wrong year 1
wrong year 1 ''
wrong year '' 1092
wrong year 1 1092 ''
wrong year one 1092
wrong year 1 MXCII
wrong year 1 1092 x
wrong year 1 -1092
wrong year 1 +1092
wrong year +1 1092
wrong year 1 1092 -1
wrong year 1 ' 1092'
wrong year 1 '1092 '
wrong year 1 10.92
wrong year 0x1 1092
wrong year 1 1092 1094 1096
wrong year 1 1092 --help
wrong year --help
wrong pentads
wrong pentads 1
wrong pentads 1 ''
wrong pentads G 1092
wrong pentads 1 1092 x
wrong pentads 1 1092 1094 1096
wrong pentads --help
wrong Pentad 1 2120808
wrong pentad
wrong pentad 1
wrong pentad 1 ''
wrong pentad G 2120808
wrong pentad 1 -1
wrong pentad 1 2120808 x
wrong pentad 1 2120808 2120809 2120810
wrong pentad 1 2120808 --help
wrong pentad --help
wrong penta 1 2120808
wrong pentadss 1 1092
for request in submerged extinguished; do
    wrong "${request^}" 1 1094
    wrong "$request"
    wrong "$request" 1
    wrong "$request" 1 ''
    wrong "$request" G 1094
    wrong "$request" 1 -1094
    wrong "$request" 1 1094 x
    wrong "$request" 1 1094 1096 1098
    wrong "$request" 1 1094 --help
    wrong "$request" --help
    wrong "${request}s" 1 1094
    wrong "${request%d}" 1 1094
done
wrong Compare 1 2 1094
wrong compare
wrong compare 1
wrong compare 1 2
wrong compare 1 2 ''
wrong compare '' 2 1094
wrong compare 1 '' 1094
wrong compare one 2 1094
wrong compare 1 two 1094
wrong compare G J 1094
wrong compare 1 2 MXCIV
wrong compare 1 2 1094 x
wrong compare 1 2 1094 ''
wrong compare -1 2 1094
wrong compare 1 +2 1094
wrong compare 1 2 -1094
wrong compare 1 2 ' 1094'
wrong compare 1 2 1094 1096 1098
wrong compare 1 2 1094 --help
wrong compare --help
wrong Sun winter 1
wrong suns winter 1
wrong sun
wrong sun winter
wrong sun 1
wrong sun 1 2
wrong sun '' 1
wrong sun autumn 1
wrong sun spring 1 2
for season in winter summer; do
    wrong sun "${season^}" 1
    wrong sun "${season}s" 1
    wrong sun "${season%?}" 1
    wrong sun "$season" ''
    wrong sun "$season" one
    wrong sun "$season" -1
    wrong sun "$season" 1.5
    wrong sun "$season" 1 x
    wrong sun "$season" 1 2 3
    wrong sun "$season" 1 --help
    wrong sun "$season" --help
    wrong sun 1 "$season"
done
wrong sun winter summer
wrong sun winter summer 1
wrong sun --help

echo "arguments: told, answered or sent back with the usage, and nothing is read"
