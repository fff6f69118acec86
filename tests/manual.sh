#!/usr/bin/env bash
# The examples of the programs' manual pages print what the pages show; three dots stand there for anything.
set -euo pipefail
cd "$(dirname "$0")/.."
name=manual
. tests/run.bash
PATH=$PWD/build:$PATH

# The examples of a page, without the marks of its language.
examples() {
    sed -n '/^\.SH EXAMPLES/,$ { /^\.nf/,/^\.fi/p }' "$1" |
        sed "s/\\\\(aq/'/g; s/\\\\(ti/~/g; s/\\\\-/-/g; s/\\\\e/\\\\/g"
}

# Shown text as a pattern of the shell.
pattern() { sed 's/[][*?\\]/\\&/g; s/^ \.\.\.$/*/; s/ \.\.\.$/ */'; }

# The first line of an example is the command.
try() {
    local command=${1#\$ } shown came
    shown=$(pattern <<< "$2")
    came=$(bash -c "$command" 2>&1) || true
    # shellcheck disable=SC2053
    [[ $came == $shown ]] || fail "$command"$'\n'"$came"
}

count=0
for page in man/chiselbrow.1 man/almanac.1 man/chiselbrow-renew.1; do
    before=$count
    while read -r _; do
        read -r command
        shown=
        while IFS= read -r line && [ "$line" != .fi ]; do shown+=${shown:+$'\n'}$line; done
        try "$command" "$shown"
        count=$((count + 1))
    done < <(examples "$page")
    [ "$count" -gt "$before" ] || fail "$page has no examples"
done
[ "$count" -ge 6 ] || fail "only $count examples"
echo "manual: $count examples print what is shown"
