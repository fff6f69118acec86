#!/usr/bin/env bash
# A program that uses a register day, a name or an ordinal where another is due must not compile.
# Each file of tests/mixups is the body of a main function; `right` must pass, every other must be a type error.
set -euo pipefail
cd "$(dirname "$0")/.."
scratch=$(mktemp -d)
trap 'rm -rf "$scratch"' EXIT
tar -c --exclude=out crates | tar -x -C "$scratch"
mkdir -p "$scratch/crates/mixup/src"
# The crates stand in order of dependence.
sed '/^reckoning:/q' crates.txt > "$scratch/crates.txt"
echo 'mixup: calendar reckoning' >> "$scratch/crates.txt"

count=0
for body in tests/mixups/*.body; do
    name=$(basename "$body" .body)
    {
        echo 'use calendar::data::{DayName, Ordinal, RegisterDay};'
        echo 'fn takes_day(_: RegisterDay) {}'
        echo 'fn takes_name(_: DayName) {}'
        echo 'fn takes_ordinal(_: Ordinal) {}'
        echo 'fn main() {'
        cat "$body"
        echo '}'
    } > "$scratch/crates/mixup/src/main.rt"
    if (cd "$scratch/crates/mixup" && rt check) > "$scratch/log" 2>&1; then
        accepted=yes
    else
        accepted=no
    fi
    if [ "$name" = right ]; then
        [ "$accepted" = yes ] || { echo "mixups: right was refused" >&2; tail -5 "$scratch/log" >&2; exit 1; }
    else
        [ "$accepted" = no ] || { echo "mixups: $name was accepted" >&2; exit 1; }
        grep -q 'error\[mismatched-types\]' "$scratch/log" || { echo "mixups: $name failed for another reason" >&2; cat "$scratch/log" >&2; exit 1; }
    fi
    count=$((count + 1))
done
echo "mixups: $count programs judged as they must be"
