#!/usr/bin/env bash
# The storing step on random and damaged records, by a seed that stays and one that does not. SEED=N repeats a run.
set -euo pipefail
cd "$(dirname "$0")/.."
name=damaged
. tests/checked.bash

checked_random store_check random
tell
