#!/usr/bin/env bash
# The sun's excess and shortfall by the almanac on every day after either solstice, and the days that it must refuse.
set -euo pipefail
cd "$(dirname "$0")/.."
name=sun request=sun
. tests/run.bash
. tests/requests.bash

# After winter L is 88 days and 10958 parts, or 1069598 parts of 12030 to a day. Up to 88, x times (2 L less x) is x
# times (2139196 less 12030 x) parts. A degree has 3294 times 12030 of them, and a ten-thousandth of it 3962.682.
#   1: 2127166, 536 times and 3168.448    2: 4230272, 1067 times and 2090.306   3: 6309318, 1592 times and 728.256
#   4: 8364304, 2110 times and 3044.980   5: 10395230, 2623 times and 1115.114  6: 12402096, 3129 times and 2864.022
#   7: 14384902, 3630 times and 366.340   8: 16343648, 4124 times and 1547.432  9: 18278334, 4612 times and 2444.616
written winter 0 9 << 'END'
0 0
1 536
2 1067
3 1592
4 2110
5 2623
6 3129
7 3630
8 4124
9 4612
END
# From 89 on, what x leaves of 182 days and 7480 parts, or 2196940 parts, times what that leaves of twice the L of
# summer, 2254684 parts. Here a degree has 3659 times 12030 times 12030, and a ten-thousandth of it 52953377.31.
#   85: 94914910, 23952 times and 750.736                   86: 94996976, 23972 times and 3563.096
#   87: 95054982, 23987 times and 2128.866                  88: 95088928, 23996 times and 410.728
#   89: 1126270 x 1128414, 24000 times and 17780340.00      90: 1114240 x 1140444, 23997 times and 6127251.93
#   91: 1102210 x 1152474, 23988 times and 22752627.72      92: 1090180 x 1164504, 23974 times and 14703090.06
written winter 85 92 << 'END'
85 23952
86 23972
87 23987
88 23996
89 24000
90 23997
91 23988
92 23974
END
#   177: 67630 x 2187054, 2793 times and 11679193.17        178: 55600 x 2199084, 2308 times and 52675568.52
#   179: 43570 x 2211114, 1819 times and 16043653.11        180: 31540 x 2223144, 1324 times and 7690201.56
#   181: 19510 x 2235174, 823 times and 27615213.87         182: 7480 x 2247204, 317 times and 22865312.73
written winter 177 184 << 'END'
177 2793
178 2308
179 1819
180 1324
181 823
182 317
refused 7
refused 7
END

# After summer L is 93 days and 8552 parts, or 1127342 parts. Up to 93, x times (2254684 less 12030 x) parts, of which a
# ten-thousandth of a degree has 4401.777.
#   1: 2242654, 509 times and 2149.507    2: 4461248, 1013 times and 2247.899   3: 6655782, 1512 times and 295.176
#   4: 8826256, 2005 times and 693.115    5: 10972670, 2492 times and 3441.716  6: 13095024, 2974 times and 4139.202
#   7: 15193318, 3451 times and 2785.573  8: 17267552, 3922 times and 3782.606  9: 19317726, 4388 times and 2728.524
written summer 0 9 << 'END'
0 0
1 509
2 1013
3 1512
4 2005
5 2492
6 2974
7 3451
8 3922
9 4388
END
# From 94 on twice the L of winter, 2139196 parts, and by 3294: a ten-thousandth of a degree has 47671064.46.
#   90: 105478560, 23962 times and 3179.526                 91: 105555814, 23980 times and 1201.540
#   92: 105609008, 23992 times and 1574.216                 93: 105638142, 23998 times and 4297.554
#   94: 1066120 x 1073076, 23998 times and 17580208.92      95: 1054090 x 1085106, 23993 times and 27533951.22
#   96: 1042060 x 1097136, 23982 times and 34072280.28      97: 1030030 x 1109166, 23965 times and 37195196.10
written summer 90 97 << 'END'
90 23962
91 23980
92 23992
93 23998
94 23998
95 23993
96 23982
97 23965
END
#   177: 67630 x 2071566, 2938 times and 42421196.52        178: 55600 x 2083596, 2430 times and 7250962.20
#   179: 43570 x 2095626, 1915 times and 16336379.10        180: 31540 x 2107656, 1394 times and 22006382.76
#   181: 19510 x 2119686, 867 times and 24260973.18         182: 7480 x 2131716, 334 times and 23100150.36
written summer 177 184 << 'END'
177 2938
178 2430
179 1915
180 1394
181 867
182 334
refused 7
refused 7
END

# Nearest to a whole number: just above it, where 522691.47 or 9.931 are left, and just below it, where 248527.77 or
# 262133.70 are missing to one more.
#   after winter 96: 1042060 x 1212624, 23863 times         140: 512740 x 1741944, 16867 times but for those
#   after summer 13: 27277822, 6197 times                   155: 332290 x 1806906, 12595 times but for those
written winter 96 <<< '96 23863'
written winter 140 <<< '140 16866'
written summer 13 <<< '13 6197'
written summer 155 <<< '155 12594'

# The days of a season and many more in one go: 183 amounts, 0 alone on the first, and 218 refused. The largest are
# those next to L, which no others reach.
whole_season() {
    local largest
    same "$1" 0 400
    [ "$(grep -cx 'refused 7' "$scratch/out")" = 218 ] || fail "$1: not 218 refused"
    [ "$(grep -c ' 0$' "$scratch/out")" = 1 ] || fail "$1: not 0 on day 0 alone"
    largest=$(sort -k 2,2nr -k 1,1n "$scratch/out" | sed -n 1,3p | paste -sd ,)
    [ "$largest" = "$2" ] || fail "$1: the largest are $largest"
}
whole_season winter '89 24000,90 23997,88 23996'
whole_season summer '93 23998,94 23998,95 23993'

# Days just outside, days at the ends of 8, 16, 31, 32, 63 and 64 bits, and days that would come out as 1 or 182 if they
# were cut to as many.
days_outside=(183 0183 184 255 256 257 438 65535 65536 65537 65718 2147483647 2147483648 2147483649 4294967295
    4294967296 4294967297 4294967478 9223372036854775807 9223372036854775808 9223372036854775809 18446744073709551615
    18446744073709551616 18446744073709551617 18446744073709551798 99999999999999999999)
# More days than 32 and 64 bits count, which would end two days after the first if they were cut.
past=183 past_refusal=7 endless=(4294967481 18446744073709551801)

for season in winter summer; do
    for day in {0..182}; do
        same "$season" "$day"
    done
    for day in "${days_outside[@]}"; do
        written "$season" "$day" <<< 'refused 7'
    done
    # Leading noughts change nothing.
    same "$season" 00
    same "$season" 0182
    same "$season" 000000000000000000000000000000088 95
    same "$season" 88 000000000000000000000000000000095
    # Ranges of one day and of many, over the turn and over the end.
    same "$season" 0 0
    same "$season" 182 182
    same "$season" 1 182
    same "$season" 88 94
    same "$season" 182 183
    same "$season" 183 65720
    # Empty ranges, some of which would not be if they were cut or read as text.
    written "$season" 1 0 < /dev/null
    written "$season" 10 9 < /dev/null
    written "$season" 183 182 < /dev/null
    written "$season" 182 20 < /dev/null
    written "$season" 256 182 < /dev/null
    written "$season" 65536 182 < /dev/null
    written "$season" 4294967296 182 < /dev/null
    written "$season" 18446744073709551616 182 < /dev/null
    odd_ranges "$season"
    long_years "$season"
    endless_ranges "$season"
done

echo "sun: 366 days are the same, and so is what is refused"
