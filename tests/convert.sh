#!/usr/bin/env bash
# Records by name: the storing step takes kind 5 and refuses the retired kind, and the conversion turns records of that
# into such as store as those did. Every byte for a name with sound and wrong fields, every day of years 1 to 3000, and
# random and damaged records, by a seed that stays and one that does not. SEED=N repeats a run.
set -euo pipefail
cd "$(dirname "$0")/.."
name=convert
. tests/checked.bash

checked 'every name' store_check names
checked 'every old name' convert_check conversions
for system in 1 2 3; do
    checked "system $system" convert_check old-days "$system"
done
checked_random convert_check old-random
tell
