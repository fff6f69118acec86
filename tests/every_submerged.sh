#!/usr/bin/env bash
# The almanac's submerged and extinguished days of every year, in the systems that have them, and what it must refuse.
set -euo pipefail
cd "$(dirname "$0")/.."
name=every_submerged request=submerged
. tests/run.bash
. tests/requests.bash

# The almanac's page of a year must have a line that is written out.
line() {
    run build/almanac "$request" "$1" "$2"
    [ "$(grep -cxF -- "$3" "$scratch/out")" = 1 ] || fail "$request $1 $2: no line $3"
}

# Guantian 1094. The solstice is two years of 365 days and 2930 parts after that of 1092, on 2119895 at 2320 of 12030
# parts, and each next qi 15 days, 2628 parts and 12 of 36 small units later. They are at 8180, 10808 and 12, 1406 and
# 24, 4035, 6663 and 12, 9291 and 24, 11920, 2518 and 12, 5146 and 24, 7775, 10403 and 12, 1001 and 24, 3630, 6258 and
# 12, 8886 and 24, 11515, 2113 and 12, 4741 and 24, 7370, 9998 and 12, 596 and 24, 3225, 5853 and 12, 8481 and 24, and
# 11110. From 9402 on, 4393880 less 360 times the parts less 10 times the small units is
#   qi 1: 502880, 7 times 63080 and 61320       qi 6: 102680, once and 39600        qi 10: 648680, 10 times and 17880
#   qi 15: 248480, 3 times and 59240            qi 19: 794480, 12 times and 37520   qi 24: 394280, 6 times and 15800
written 1 1094 << 'END'
submerged G 1094
qi 0 2120625 -
qi 1 2120640 7
qi 2 2120656 -
qi 3 2120671 -
qi 4 2120686 -
qi 5 2120701 -
qi 6 2120716 1
qi 7 2120732 -
qi 8 2120747 -
qi 9 2120762 -
qi 10 2120777 10
qi 11 2120793 -
qi 12 2120808 -
qi 13 2120823 -
qi 14 2120838 -
qi 15 2120853 3
qi 16 2120869 -
qi 17 2120884 -
qi 18 2120899 -
qi 19 2120914 12
qi 20 2120930 -
qi 21 2120945 -
qi 22 2120960 -
qi 23 2120975 -
qi 24 2120990 6
END

# Jiyuan 1107. The solstice is a year of 365 days and 1776 parts after that of 1106, on 2125008 at 4536 of 7290 parts,
# and each next qi 15 days, 1592 parts and 3 quarters later. They are at 6312, 614 and 3, 2207 and 2, 3800 and 1, 5393,
# 6985 and 3, 1288 and 2, 2881 and 1, 4474, 6066 and 3, 369 and 2, 1962 and 1, 3555, 5147 and 3, 6740 and 2, 1043 and 1,
# 2636, 4228 and 3, 5821 and 2, 124 and 1, 1717, 3309 and 3, 4902 and 2, 6495 and 1, and 798. From 5697 and a quarter
# on, 443771 less 60 times that is
#   qi 0: 65051, 10 times 6371 and 1341         qi 5: 24626, 3 times and 5513       qi 9: 79766, 12 times and 3314
#   qi 14: 39341, 6 times and 1115              qi 18: 94481, 14 times and 5287     qi 23: 54056, 8 times and 3088
written 2 1107 << 'END'
submerged J 1107
qi 0 2125373 10
qi 1 2125389 -
qi 2 2125404 -
qi 3 2125419 -
qi 4 2125434 -
qi 5 2125449 3
qi 6 2125465 -
qi 7 2125480 -
qi 8 2125495 -
qi 9 2125510 12
qi 10 2125526 -
qi 11 2125541 -
qi 12 2125556 -
qi 13 2125571 -
qi 14 2125586 6
qi 15 2125602 -
qi 16 2125617 -
qi 17 2125632 -
qi 18 2125647 14
qi 19 2125663 -
qi 20 2125678 -
qi 21 2125693 -
qi 22 2125708 -
qi 23 2125723 8
qi 24 2125739 -
END

# Qi at the limits and around them, by so many years from the same two solstices. Guantian has none between 9401 and 24
# of 36, which are not 9402 whole parts though 16 times 63080 would be left, and 9403 and 12, which leave 15 times and
# 62480. The last remainder of a day is 12028 and 12, which leaves once and 600.
line 1 1209 'qi 5 2162704 -'
line 1 1087 'qi 22 2118403 15'
line 1 1029 'qi 19 2097173 1'
# Jiyuan's at 5697, and at 1, 2 and 3 quarters more: 60 times a quarter is 15, and 16 times 6371 are left at 1 just so.
# Its last remainder, 7289 and 3, leaves once and 15.
line 2 1884 'qi 12 2409350 -'
line 2 2104 'qi 23 2489871 16'
line 2 889 'qi 23 2046100 16'
line 2 1110 'qi 10 2126621 15'
line 2 1330 'qi 21 2207142 15'
line 2 1884 'qi 13 2409365 1'
# What is left of a part counts: 10628 and 12 of 36 leave 567680, which 120 more would make 9 times 63080 and 80; 10453
# and 12 leave 630680, which they would make 10 times; 6759 and 3 quarters leave 38186, which 45 more would make 6 times
# 6371 and 5.
line 1 960 'qi 13 2071880 8'
line 1 1064 'qi 16 2109911 9'
line 2 1072 'qi 21 2112909 5'

# What both requests refuse: the system before the year, with system 3 among those that there are not, and no number is
# cut.
refusals() {
    local system year
    for system in 3 003 4 0 4294967297 4294967298 18446744073709551618; do
        for year in 1094 0 3001 4294968390; do
            written "$system" "$year" <<< 'refused 4'
        done
    done
    written 3 236 238 << 'END'
refused 4
refused 4
refused 4
END
    written 3 3000 3001 << 'END'
refused 4
refused 4
END
    for system in 1 2; do
        for year in 0 3001 4294968390 18446744073709552710; do
            written "$system" "$year" <<< 'refused 5'
        done
        written "$system" 3001 3002 << 'END'
refused 5
refused 5
END
        written "$system" 1094 1092 < /dev/null
        endless_ranges "$system"
    done
    past_refusal=4 endless_ranges 3

    for system in 3 03 "${wrong_systems[@]}"; do
        for year in 1094 0 3001; do
            same "$system" "$year"
        done
    done
    leading_noughts 01
    leading_noughts 2
    leading_noughts 003
    for system in 1 2 3; do
        years_outside "$system"
        long_years "$system"
    done
    for system in 1 2 3 4; do
        odd_ranges "$system"
    done
}

# The distances told in the lines that begin with a word, each once and in order.
distances() {
    grep "^$1 " "$scratch/out" | cut -d ' ' -f 4 | { grep -v '^-$' || true; } | sort -n | uniq | paste -sd ' '
}

# A qi has a submerged day where the next is 16 days on and not 15. From the solstice of year 1 on 1721414 to that of
# 3001 on 2817145 are 1095731 days, 15731 more than 15 for each of 72000 qi. In Guantian ten of them have none: the
# qi before those that fall on the very beginning of a day, one in 7218, such as qi 6 of 1209. Qi 24 is counted as qi 0
# of the next year.
count_qi() {
    grep -v '^qi 24 ' "$scratch/out" | grep -c '^qi .* [0-9]*$'
}
same 1 1 3000
[ "$(count_qi)" = 15721 ] || fail "Guantian: $(count_qi) submerged days"
[ "$(distances qi)" = "$(seq -s ' ' 1 15)" ] || fail "Guantian: distances $(distances qi)"
same 2 1 3000
[ "$(count_qi)" = 15731 ] || fail "Jiyuan: $(count_qi) submerged days"
[ "$(distances qi)" = "$(seq -s ' ' 1 16)" ] || fail "Jiyuan: distances $(distances qi)"
refusals

# From here on new moons.
request=extinguished

# Guantian 1094, whose first new moon is 24 months of 29 days and 6383 parts after that of 1092, on 2119892 at 10343.
# They are at 7145, 1498, 7881, 2234, 8617, 2970, 9353, 3706, 10089, 4442, 10825, 5178 and 11561. Below 5647, 30 times
# the remainder is
#   moon 2: 44940, 7 times 5647 and 5411        moon 4: 67020, 11 times and 4903    moon 6: 89100, 15 times and 4395
#   moon 8: 111180, 19 times and 3887           moon 10: 133260, 23 times and 3379  moon 12: 155340, 27 times and 2871
written 1 1094 << 'END'
extinguished G 1094
moon 1 2120601 -
moon 2 2120631 7
moon 3 2120660 -
moon 4 2120690 11
moon 5 2120719 -
moon 6 2120749 15
moon 7 2120778 -
moon 8 2120808 19
moon 9 2120837 -
moon 10 2120867 23
moon 11 2120896 -
moon 12 2120926 27
moon 13 2120955 -
END

# Jiyuan 1107, whose first new moon is 12 months of 29 days and 3868 parts after that of 1106, on 2125001 at 4760. They
# are at 146, 4014, 592, 4460, 1038, 4906, 1484, 5352, 1930, 5798, 2376, 6244 and 2822. Below 3422, 30 times the
# remainder is
#   moon 1: 4380, once 3422 and 958             moon 3: 17760, 5 times and 650      moon 5: 31140, 9 times and 342
#   moon 7: 44520, 13 times and 34              moon 9: 57900, 16 times and 3148    moon 11: 71280, 20 times and 2840
#   moon 13: 84660, 24 times and 2532
written 2 1107 << 'END'
extinguished J 1107
moon 1 2125356 1
moon 2 2125385 -
moon 3 2125415 5
moon 4 2125444 -
moon 5 2125474 9
moon 6 2125503 -
moon 7 2125533 13
moon 8 2125562 -
moon 9 2125592 16
moon 10 2125621 -
moon 11 2125651 20
moon 12 2125680 -
moon 13 2125710 24
END

# A year of twelve months, on the same days in both systems: at 10343, 4696, 11079, 5432, 11815, 6168, 521, 6904, 1257,
# 7640, 1993 and 8376 in Guantian, and at 6276, 2854, 6722, 3300, 7168, 3746, 324, 4192, 770, 4638, 1216 and 5084 in
# Jiyuan. The second leaves 24 times 5647 and 5352, and 25 times 3422 and 70.
of_1092() {
    written "$1" 1092 << END
extinguished $2 1092
moon 1 2119892 -
moon 2 2119922 $3
moon 3 2119951 -
moon 4 2119981 28
moon 5 2120010 -
moon 6 2120040 -
moon 7 2120070 2
moon 8 2120099 -
moon 9 2120129 6
moon 10 2120158 -
moon 11 2120188 10
moon 12 2120217 -
END
}
of_1092 1 G 24
of_1092 2 J 25

# New moons at 5647 and 3422, at 0, and at 5646 and 3420, of which 30 times are 29 times 5647 and 5617, and 29 times
# 3422 and 3362.
line 1 1101 'moon 8 2123377 -'
line 1 1101 'moon 9 2123407 0'
line 1 952 'moon 4 2068834 29'
line 2 1105 'moon 8 2124824 -'
line 2 1105 'moon 9 2124854 0'
line 2 1032 'moon 12 2098276 29'

# A month with an extinguished day has 29 days and any other 30. In either system the 37105 months from the head of year
# 1 on 1721407 to that of 3001 on 2817139 have 1095732 days, 17418 fewer than 30 each.
for system in 1 2; do
    same "$system" 1 3000
    moons=$(grep -c '^moon ' "$scratch/out")
    with_one=$(grep -c '^moon .* [0-9]*$' "$scratch/out")
    [ "$moons $with_one" = '37105 17418' ] || fail "system $system: $with_one extinguished days of $moons new moons"
    [ "$(distances moon)" = "$(seq -s ' ' 0 29)" ] || fail "system $system: distances $(distances moon)"
done
refusals

echo "every_submerged: 6000 years are the same (31452 submerged and 34836 extinguished days), and so is what is refused"
