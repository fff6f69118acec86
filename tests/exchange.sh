#!/usr/bin/env bash
# The exchange of rows: every count of both systems exported, and imported as parts, as its fraction and by the floats
# next to that; damaged rows and floats of all sorts, also for a host that takes the smallest floats for zero; and random
# rows, by a seed that stays and one that does not. SEED=N repeats a run.
set -euo pipefail
cd "$(dirname "$0")/.."
name=exchange
. tests/checked.bash

for system in 1 2; do
    checked "exports of system $system" exchange_check exports "$system"
    checked "fractions of system $system" exchange_check fractions "$system"
done
checked rows exchange_check rows
checked 'rows with small floats as zero' exchange_check_fast rows
checked_random exchange_check exchange-random
tell
