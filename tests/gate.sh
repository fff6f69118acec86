#!/usr/bin/env bash
# The prover's gate over the whole checkout. It passes where a must-fail edit cannot be applied, and where one is refused
# only since a proof names what the edit took away. Neither shows that the edit is refused for what it makes wrong: then
# this fails.
set -euo pipefail
cd "$(dirname "$0")/.."
mkdir -p build
rt ci 2>&1 | tee build/gate.log
if grep -q '^rt: ok.*, [1-9][0-9]* bad' build/gate.log; then
    echo "gate: a must-fail edit cannot be applied (build/gate.log)" >&2
    exit 1
fi
if grep 'only because a proof file names' build/gate.log >&2; then
    echo "gate: these edits are refused for a missing name" >&2
    exit 1
fi
