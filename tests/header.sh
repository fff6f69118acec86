#!/usr/bin/env bash
# The header compiles without a warning, and what it and the manual page say by example is so: the program, the records
# and their days, the rows and their times, the day on which a year begins.
set -euo pipefail
cd "$(dirname "$0")/.."
scratch=$(mktemp -d)
trap 'rm -rf "$scratch"' EXIT
header=include/chiselbrow.h
page=man/chiselbrow.3

# What is expected of something, beside what came.
expect() {
    [ "$2" = "$3" ] && return
    printf 'header: %s\nexpected: %s\ncame: %s\n' "$1" "$2" "$3" >&2
    exit 1
}

# A program in C, compiled as C and as C++, prints this.
prints() {
    local warnings=(-Wall -Wextra -Wpedantic -Wconversion -Werror -Iinclude)
    cp "$1.c" "$1.cc"
    "${CC:-gcc}" -std=c11 "${warnings[@]}" "$1.c" build/libchiselbrow.a -o "$1-c"
    "${CXX:-g++}" -std=c++11 "${warnings[@]}" "$1.cc" build/libchiselbrow.a -o "$1-cc"
    expect "${1##*/} as C" "$2" "$("$1-c")"
    expect "${1##*/} as C++" "$2" "$("$1-cc")"
}

sed -n '/^ \*     #include/,/^ \*     }$/s/^ \* \{0,5\}//p' "$header" > "$scratch/example.c"
printed=$(sed -n 's/^ \* It prints "\(.*\)"\.$/\1/p' "$header")
prints "$scratch/example" "${printed:?}"

# The first and the last of the page's examples are a program's body.
bodies() {
    awk -v which="$1" '/^\.SH EXAMPLES/ { inside = 1 } inside && /^\.nf/ { n++; next } /^\.fi/ { n += n > 0; next }
        inside && n == which && !/^\./' "$page" | sed 's/\\e/\\/g'
}
page_prints() {
    { printf '#include <chiselbrow.h>\n#include <stdio.h>\nint main(void)\n{\n'; bodies "$2"; printf '}\n'; } > "$1.c"
    prints "$1" "$3"
}
mapfile -t page_printed < <(sed -n 's/^prints "\(.*\)"\.$/\1/p' "$page")
expect 'what the page prints first' "$printed" "${page_printed[0]}"
page_prints "$scratch/page" 1 "$printed"
page_prints "$scratch/page-rows" 5 "${page_printed[1]:?}"

# The lines of a text that begin with the bytes of a record.
records() {
    sed -n 's/^\( \*     \)\?\(0[9A]\( [0-9A-F]\{2\}\)\{8,9\}\) \{2,\}\(.*\)/\2:\4/p' "$@"
}

# Four citations store as the first of them.
sed -n '/^ \* RECORDS/,/^ \* ORDER/p' "$header" | records > "$scratch/citations"
expect 'number of citations' 4 "$(wc -l < "$scratch/citations")"
first=$(head -n 1 "$scratch/citations" | cut -d : -f 1)
while IFS=: read -r record _; do
    expect "stored: $record" "day 2120808 record $first" "$(build/store "$record" | paste -sd ' ')"
done < "$scratch/citations"

# Three stored records have the days that they are said to have; by bytes they stand as they sort, by day the other way.
sed -n '/^ \* ORDER/,/^ \* REFUSALS/p' "$header" | records > "$scratch/ordered"
expect 'number of records' 3 "$(wc -l < "$scratch/ordered")"
expect 'the records of the page' "$(cat "$scratch/ordered")" "$(records "$page")"
while IFS=: read -r record _ day; do
    expect "day of $record" "$day" " $(build/store "$record" | head -n 1)"
done < "$scratch/ordered"
LC_ALL=C sort -c "$scratch/ordered"
sort -t : -k 3 -rc "$scratch/ordered"

# Two rows of Guantian, one of each tag, tell the day and the parts that they are said to have.
rows() {
    sed -n 's/^\( \*     \)\?\([0-9A-F]\{2\}\( [0-9A-F]\{2\}\)\{12\}\) \{2,\}\(.*\)/\2:\4/p' "$@"
}
rows "$header" > "$scratch/rows"
expect 'the rows of the page' "$(cat "$scratch/rows")" "$(rows "$page")"
while IFS=: read -r row _; do printf '%b' "\\x${row// /\\x}"; done < "$scratch/rows" > "$scratch/list"
expect 'what the rows tell' '2120808 6015 fraction 2120808 6015 parts' "$(build/rows 1 "$scratch/list" | paste -sd ' ')"
expect 'what is said of them' ':day 2120808, half of it :day 2120808, 6015 parts' \
    "$(sed 's/.*:/:/' "$scratch/rows" | paste -sd ' ')"

# The day of the Julian calendar that a register day is: year, month, day.
julian() {
    local day=$(($1 + 32082)) year month
    year=$(((4 * day + 3) / 1461))
    day=$((day - 1461 * year / 4))
    month=$(((5 * day + 2) / 153))
    echo $((year - 4800 + month / 10)) $((month + 3 - month / 10 * 12)) $((day - (153 * month + 2) / 5 + 1))
}
expect 'the day of the Julian calendar for 2000-01-01 of the Gregorian' '1999 12 19' "$(julian 2451545)"
read -r _ day < <(build/store 0A 00 01 00 01 46 04 0B 00 01)
expect 'month 11, day 1 of Guantian 1094' '1093 11 21' "$(julian "$day")"
for text in "$header" "$page"; do
    expect "that day in $text" 1 \
        "$(tr -s ' *\n' ' ' < "$text" | grep -c 'Guantian year 1094, month 11, day 1 is 21 November 1093')"
done

# The page has the functions of the header.
functions=$(sed -n 's/^\([a-z].* \)\?\(chiselbrow_[a-z_]*[a-z]\)(.*/\2/p' "$header")
expect 'functions of the page' "$functions" \
    "$(sed -n '/^\.SH NAME/,/^\.SH SYNOPSIS/p' "$page" | grep -o 'chiselbrow_[a-z_]*')"
echo "header: what it and the manual page say by example is so: $printed"
