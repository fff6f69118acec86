#!/usr/bin/env bash
# Runs all measurements on what make has built: nanoseconds a record for the
# storing step and the conversion, nanoseconds a row for the exchange, nanoseconds
# a head for years' heads, nanoseconds a day for the sun's excess and shortfall,
# records a second for chiselbrow and chiselbrow-renew, nanoseconds a year or a
# day for the almanac, and at the end the ratios by themselves: to C's time, or to
# that of what stands after a slash.

set -euo pipefail
cd "$(dirname "$0")/.."

{
    build/bench
    build/bench_exchange
    build/bench_heads
    build/bench_sun
    bench/bench_program.sh build/chiselbrow build/c_program
    bench/bench_renew.sh build/chiselbrow-renew build/c_renew
    bench/bench_almanac.sh build/almanac build/c_compare build/c_pentads build/c_submerged
} | awk '
    { print; fflush() }
    / ratio / {
        name = $0
        sub(/:.*/, "", name)
        sub(/^store /, "", name)
        ratios = ratios (ratios == "" ? "" : ", ") name " " $NF
    }
    END { print "ratios: " ratios }'
