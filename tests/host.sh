#!/usr/bin/env bash
# The example host: case 9 and a day of Jingchu in all four kinds, refusals, arguments that are no hex, an output that
# is full.
set -euo pipefail
cd "$(dirname "$0")/.."

# Its exit status and output for some arguments, beside what is expected.
expect() {
    local expected=$1 came status=0
    shift
    came=$(build/store "$@" 2> /dev/null) || status=$?
    [ "$status $came" = "$expected" ] && return
    printf 'host: store %s\nexpected: %s\ncame: %s\n' "$*" "$expected" "$status $came" >&2
    exit 1
}

stored='0 day 2120808
record 0A 00 01 00 01 46 04 05 00 01'
expect "$stored" 0A 00 01 00 01 46 04 05 00 01
expect "$stored" '0A 00 05 00 01 46 04 05 00 26'
expect "$stored" 0900030001 4604d000
expect "$stored" 090004000168 ' 5c20 00 '
stored='0 day 1808315
record 0A 00 01 00 03 EE 00 0A 01 01'
expect "$stored" 0A 00 01 00 03 EE 00 0A 01 01
expect "$stored" 0A 00 05 00 03 EE 00 0A 01 19
expect "$stored" 09 00 03 00 03 EE 00 63 01
expect "$stored" 09 00 04 00 03 BB 97 1B 00

expect '1 refused 1' ''
expect '1 refused 2' 0A 00 06 00 01 46 04 05 00 26
expect '1 refused 11' 0A 00 02 00 01 46 04 05 00 25
expect '1 refused 11' 04 00 02 00
expect '1 refused 3' 0A 00 04 00 01 68 5C 20 00
expect '1 refused 4' 09 00 04 00 04 68 5C 20 00
expect '1 refused 6' 0A 00 01 00 01 46 04 0D 01 01
expect '1 refused 6' 0A 00 05 00 01 46 04 05 02 26
expect '1 refused 10 4' 0A 00 01 00 01 46 04 05 01 01
expect '1 refused 10 4' 0A 00 05 00 01 46 04 05 01 26
expect '1 refused 10 0' 0A 00 01 00 01 44 04 05 01 01
expect '1 refused 10 0' 0A 00 05 00 01 44 04 05 01 26
expect '1 refused 10 10' 0A 00 01 00 03 EE 00 0B 01 01
expect '1 refused 7' 0A 00 05 00 01 46 04 05 00 00
expect '1 refused 7' 0A 00 05 00 01 46 04 05 00 3D
expect '1 refused 7' 09 00 03 00 01 46 04 81 01
expect '1 refused 7' 09 00 04 00 03 CE 09 05 00

expect '2 '
expect '2 ' 0
expect '2 ' 0A 0
expect '2 ' '0A 0 0'
expect '2 ' 0G
expect '2 ' 0x0A
expect '2 ' -1
version=$(sed -n 's/^#define CHISELBROW_VERSION "\([0-9]*\.[0-9]*\.[0-9]*\)"$/\1/p' include/chiselbrow.h)
expect "0 store ${version:?}" --version

for arguments in 090004000168 0900040001685C2000 --version; do
    status=0
    build/store "$arguments" 2> /dev/null > /dev/full || status=$?
    [ "$status" = 2 ] || { echo "host: status $status for store $arguments to a full output" >&2; exit 1; }
done
told=$(build/store 0G 2>&1 > /dev/null || true)
[ "${told%%:*}" = usage ] || { echo "host: no usage line, but: $told" >&2; exit 1; }
echo "host: stored, refused and sent back as it must"
