#!/usr/bin/env bash
# The shared library exports what the header declares and does not define, and nothing else; it needs no other library,
# and its soname has the first number of the version. The example in Python stores and refuses by it.
set -euo pipefail
cd "$(dirname "$0")/.."
library=build/libchiselbrow.so

# What is expected of the library, beside what came.
expect() {
    [ "$2" = "$3" ] && return
    printf 'shared: %s\nexpected: %s\ncame: %s\n' "$1" "$2" "$3" >&2
    exit 1
}

declared=$(sed -n '/inline/!s/^[a-z].* \(chiselbrow_[a-z_]*\)(.*/\1/p' include/chiselbrow.h | LC_ALL=C sort)
expect exports "${declared:?}" "$(nm -D --defined-only --format=just-symbols "$library" | LC_ALL=C sort)"
expect 'what others must define' '' "$(nm -D --undefined-only "$library")"
major=$(sed -n 's/^#define CHISELBROW_VERSION "\([0-9]*\)\..*/\1/p' include/chiselbrow.h)
dynamic=$(readelf -dW "$library")
expect soname "libchiselbrow.so.${major:?}" "$(sed -n 's/.*soname: \[\(.*\)\]/\1/p' <<< "$dynamic")"
expect 'libraries that it needs' '' "$(grep NEEDED <<< "$dynamic" || true)"

# The example's exit status and output for some arguments.
example() {
    local came status=0
    came=$(LD_LIBRARY_PATH=build examples/store.py "$@" 2> /dev/null) || status=$?
    echo "$status $came"
}
expect 'case 9' "0 day 2120808
record 0A 00 01 00 01 46 04 05 00 01" "$(example 1 1094 5 0 1)"
expect 'a leap month' "0 day 2120778
record 0A 00 01 00 01 46 04 04 01 01" "$(example 1 1094 4 1 1)"
expect 'a leap month of Jingchu' "0 day 1808315
record 0A 00 01 00 03 EE 00 0A 01 01" "$(example 3 238 10 1 1)"
expect 'no such system' '1 refused 4' "$(example 4 1094 5 0 1)"
expect 'no such leap month' '1 refused 10 4' "$(example 1 1094 5 1 1)"
expect 'a year of twelve months' '1 refused 10 0' "$(example 1 1092 5 1 1)"
expect 'month 13, marked leap' '1 refused 6' "$(example 1 1094 13 1 1)"
expect 'day 30 of a month of 29' '1 refused 7' "$(example 1 1094 5 0 30)"
expect 'year 70000' '1 refused 5' "$(example 1 70000 5 0 1)"
expect 'month -1' '1 refused 6' "$(example 1 1094 -1 0 1)"
expect 'no day' '2 ' "$(example 1 1094 5 0)"
echo "shared: ${declared//$'\n'/, } are all that the shared library exports, and Python calls it"
