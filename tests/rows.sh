#!/usr/bin/env bash
# The example host that imports rows: rows of both tags by each system, refusals, a file that ends within a row, one that
# cannot be read, an output that is full.
set -euo pipefail
cd "$(dirname "$0")/.."
name=rows
. tests/run.bash

# Rows in hex to a file, and what is to be told of them by a system.
tells() {
    local system=$1 expected_status=$2 expected=$3
    bytes > "$scratch/list"
    run build/rows "$system" "$scratch/list"
    told "system $system" "$expected_status" <(printf '%s' "$expected") ''
}

day='68 5C 20 00'
half='01 00 00 00 00 00 00 E0 3F'
tells 1 0 '' <<< ''
tells 1 0 $'2120808 6015 fraction\n2120808 6015 parts\n' <<< "$day $half $day 02 7F 17 00 00 00 00 00 00"
tells 2 0 $'2120808 3645 fraction\n2120808 6015 parts\n' <<< "$day $half $day 02 7F 17 00 00 00 00 00 00"
tells 2 0 $'0 0 fraction\n4294967295 7289 fraction\n' \
    <<< '00 00 00 00 01 00 00 00 00 00 00 00 80 FF FF FF FF 01 FF FF FF FF FF FF EF 3F'
tells 3 1 $'refused 4\n' <<< "$day $half"
tells 18446744073709551617 1 $'refused 4\n' <<< "$day $half"
tells 1 1 $'refused 2\n2120808 6015 fraction\n' <<< "$day 03 00 00 00 00 00 00 00 00 $day $half"
tells 1 1 $'refused 12\nrefused 12\nrefused 12\n' \
    <<< "$day 01 00 00 00 00 00 00 F8 7F $day 02 FE 2E 00 00 00 00 00 00 $day 02 00 00 00 00 00 00 00 01"
tells 1 1 $'2120808 6015 fraction\nrefused 3\n' <<< "$day $half $day"

# Nothing is printed of what cannot be asked or read.
run build/rows 1 "$scratch/none"
told 'no file' 2 /dev/null "rows: $scratch/none: No such file or directory"
run build/rows 1 "$scratch"
told 'a folder' 2 /dev/null "rows: $scratch: Is a directory"
for arguments in '' 1 "1 $scratch/list more" "x $scratch/list" "-1 $scratch/list" "1x $scratch/list"; do
    read -ra words <<< "$arguments"
    run build/rows "${words[@]}"
    told "arguments: $arguments" 2 /dev/null 'usage: rows SYSTEM FILE'
done
version=$(sed -n 's/^#define CHISELBROW_VERSION "\(.*\)"$/\1/p' include/chiselbrow.h)
run build/rows --version
told 'the version' 0 <(echo "rows ${version:?}") ''
for arguments in "1 $scratch/list" --version; do
    read -ra words <<< "$arguments"
    status=0
    build/rows "${words[@]}" 2> "$scratch/error" > /dev/full || status=$?
    : > "$scratch/out"
    told "$arguments to a full output" 2 /dev/null 'rows: No space left on device'
done
echo "rows: imported, refused and sent back as it must"
