#!/usr/bin/env bash
# The storing step on every day of years 1 to 3000, in every system and in all four kinds, on every month number of
# those years with either leap mark, and on register days outside of them.
set -euo pipefail
cd "$(dirname "$0")/.."
line=every_day
for system in 1 2 3; do
    told=$({
        build/independent days "$system" && build/independent marks "$system" && build/independent outside "$system"
    } | build/store_check)
    line+="; system $system: ${told#store_check: }"
done
echo "${line/;/:}"
