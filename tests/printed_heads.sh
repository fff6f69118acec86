#!/usr/bin/env bash
# The printed heads of Guantian years 960 to 1279 are those that the independent program reckons by the rule of Q-2, and
# a damaged page does not pass. Another page than the product's own may be named, by its path from the root or from /.
set -euo pipefail
cd "$(dirname "$0")/.."
name=printed_heads
. tests/run.bash
page=${1:-crates/printed_heads/src/page.rt}
[ -r "$page" ] || fail "there is no page $page"

build/independent heads 1 960 1279 > "$scratch/heads"
cut -d ' ' -f 1 "$scratch/heads" | cmp - <(seq 960 1279) || fail "the independent program tells other years"

# What stands between the brackets, with N for every number.
printf '    /* %4d */ N, N, N, N, N, N, N, N, N, N,\n' {960..1270..10} > "$scratch/layout"

# Tells what is wrong with a page, and fails then. People look a year up by the place of its number, so the page is read
# as it stands and not for its numbers alone.
judge() {
    awk '$0 == "pub(crate) const HEADS: [u32; 320] = [" { lists++; inside = 1; next }
         $0 == "];" { inside = 0 }
         inside
         END { exit lists != 1 || inside }' "$1" > "$scratch/list" || { echo "not one list of 320 heads"; return 1; }
    sed 's/ [0-9][0-9]*,/ N,/g' "$scratch/list" | cmp -s - "$scratch/layout" ||
        { echo "not ten to a line with their first year"; return 1; }
    # As text, so that a number with a nought before it is another.
    grep -o ' [0-9]*,' "$scratch/list" | tr -d ' ,' | paste -d ' ' "$scratch/heads" - |
        awk '$2 "" != $3 "" { print "year " $1 ": printed " $3 ", reckoned " $2; wrong = 1 }
             END { exit NR != 320 || wrong }'
}

wrong=$(judge "$page") || fail "$page: $wrong"

# The page after an edit must be refused, and in these words. An edit that changed nothing would leave a page that
# passes, and so be seen.
damaged=0
refused() {
    local what=$1 edit=$2 words=$3 came
    sed -E "$edit" "$page" > "$scratch/damaged"
    ! came=$(judge "$scratch/damaged") || fail "a page passes with $what"
    [ "$came" = "$words" ] || fail "a page with $what is refused for another reason: $came"
    damaged=$((damaged + 1))
}

# Single numbers: at both ends, in the year of the stone, and where the rule of paper 01 had the head a month earlier.
for year in 960 1094 1108 1279; do
    head=$(sed -n "s/^$year //p" "$scratch/heads")
    for other in $((head - 1)) $((head + 1)) $((head - 29)) "0$head"; do
        refused "$other in $year" "s/ $head,/ $other,/" "year $year: printed $other, reckoned $head"
    done
done
refused 'two neighbours exchanged' 's/ (2120601), (2120985),/ \2, \1,/' \
    $'year 1094: printed 2120985, reckoned 2120601\nyear 1095: printed 2120601, reckoned 2120985'

while IFS='|' read -r what edit; do
    refused "$what" "$edit" 'not ten to a line with their first year'
done << 'END'
one number to a line|/^    \/\*/s/, /,\n    /g
a line missing|/\* 1090 \*/d
the last line missing|/\* 1270 \*/d
a line twice|/\* 1090 \*/p
two lines exchanged|/\* 1080 \*/{h;d};/\* 1090 \*/G
a line more|s/.*\* 1270 \*.*/&\n    \/* 1280 *\/ 2188551,/
an empty line|s/.*\* 1090 \*/\n&/
a remark between two lines|s/.*\* 1090 \*/    \/\/ of the stone\n&/
a wrong year|s/\* 1090 \*/* 1091 */
a year out of its column|s/\*  960 \*/* 960 */
no year|s/\* 1090 \*/* */
an extra number|s/ 2120601,/& 2120601,/
a number missing|s/ 2120601,//
a number at the end of the line before|/\* 1080 \*/s/$/ 2119154,/;s/ 2119154, 2119508,/ 2119508,/
a number in a remark|s/ 2120601,/ \/* 2120601, *\//
a remark before a number|s/ 2120601,/ \/* stone *\/&/
a number in groups|s/ 2120601,/ 2_120_601,/
a sum|s/ 2120601,/ 2120600 + 1,/
two spaces|s/ 2120601,/ &/
a space at the end of a line|/\* 1090 \*/s/$/ /
END
while IFS='|' read -r what edit; do
    refused "$what" "$edit" 'not one list of 320 heads'
done << 'END'
another count|s/320\] = \[$/321] = [/
a second list|$s/$/\npub(crate) const HEADS: [u32; 320] = [\n];/
no end|/^\];$/d
END

echo "printed_heads: 320 heads are the same, and $damaged damaged pages are refused"
