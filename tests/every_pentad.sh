#!/usr/bin/env bash
# The almanac's pentads of every year and the pentad in force on every day, in every system, and what it must refuse.
set -euo pipefail
cd "$(dirname "$0")/.."
name=every_pentad request=pentads
. tests/run.bash
. tests/requests.bash

# A year of each system. Guantian steps 5 days, 876 parts and 4 of 36 units, Jiyuan 5 days, 530 parts and 55 of 60, and
# Jingchu 5 days, 134 parts and 11 of 36.
written 1 1092 << 'END'
pentads G 1092
pentad 0 2119895 25 2320 0
pentad 1 2119900 30 3196 4
pentad 2 2119905 35 4072 8
pentad 3 2119910 40 4948 12
pentad 4 2119915 45 5824 16
pentad 5 2119920 50 6700 20
pentad 6 2119925 55 7576 24
pentad 7 2119930 60 8452 28
pentad 8 2119935 5 9328 32
pentad 9 2119940 10 10205 0
pentad 10 2119945 15 11081 4
pentad 11 2119950 20 11957 8
pentad 12 2119956 26 803 12
pentad 13 2119961 31 1679 16
pentad 14 2119966 36 2555 20
pentad 15 2119971 41 3431 24
pentad 16 2119976 46 4307 28
pentad 17 2119981 51 5183 32
pentad 18 2119986 56 6060 0
pentad 19 2119991 1 6936 4
pentad 20 2119996 6 7812 8
pentad 21 2120001 11 8688 12
pentad 22 2120006 16 9564 16
pentad 23 2120011 21 10440 20
pentad 24 2120016 26 11316 24
pentad 25 2120022 32 162 28
pentad 26 2120027 37 1038 32
pentad 27 2120032 42 1915 0
pentad 28 2120037 47 2791 4
pentad 29 2120042 52 3667 8
pentad 30 2120047 57 4543 12
pentad 31 2120052 2 5419 16
pentad 32 2120057 7 6295 20
pentad 33 2120062 12 7171 24
pentad 34 2120067 17 8047 28
pentad 35 2120072 22 8923 32
pentad 36 2120077 27 9800 0
pentad 37 2120082 32 10676 4
pentad 38 2120087 37 11552 8
pentad 39 2120093 43 398 12
pentad 40 2120098 48 1274 16
pentad 41 2120103 53 2150 20
pentad 42 2120108 58 3026 24
pentad 43 2120113 3 3902 28
pentad 44 2120118 8 4778 32
pentad 45 2120123 13 5655 0
pentad 46 2120128 18 6531 4
pentad 47 2120133 23 7407 8
pentad 48 2120138 28 8283 12
pentad 49 2120143 33 9159 16
pentad 50 2120148 38 10035 20
pentad 51 2120153 43 10911 24
pentad 52 2120158 48 11787 28
pentad 53 2120164 54 633 32
pentad 54 2120169 59 1510 0
pentad 55 2120174 4 2386 4
pentad 56 2120179 9 3262 8
pentad 57 2120184 14 4138 12
pentad 58 2120189 19 5014 16
pentad 59 2120194 24 5890 20
pentad 60 2120199 29 6766 24
pentad 61 2120204 34 7642 28
pentad 62 2120209 39 8518 32
pentad 63 2120214 44 9395 0
pentad 64 2120219 49 10271 4
pentad 65 2120224 54 11147 8
pentad 66 2120229 59 12023 12
pentad 67 2120235 5 869 16
pentad 68 2120240 10 1745 20
pentad 69 2120245 15 2621 24
pentad 70 2120250 20 3497 28
pentad 71 2120255 25 4373 32
END
written 2 1106 << 'END'
pentads J 1106
pentad 0 2125008 38 4536 0
pentad 1 2125013 43 5066 55
pentad 2 2125018 48 5597 50
pentad 3 2125023 53 6128 45
pentad 4 2125028 58 6659 40
pentad 5 2125033 3 7190 35
pentad 6 2125039 9 431 30
pentad 7 2125044 14 962 25
pentad 8 2125049 19 1493 20
pentad 9 2125054 24 2024 15
pentad 10 2125059 29 2555 10
pentad 11 2125064 34 3086 5
pentad 12 2125069 39 3617 0
pentad 13 2125074 44 4147 55
pentad 14 2125079 49 4678 50
pentad 15 2125084 54 5209 45
pentad 16 2125089 59 5740 40
pentad 17 2125094 4 6271 35
pentad 18 2125099 9 6802 30
pentad 19 2125105 15 43 25
pentad 20 2125110 20 574 20
pentad 21 2125115 25 1105 15
pentad 22 2125120 30 1636 10
pentad 23 2125125 35 2167 5
pentad 24 2125130 40 2698 0
pentad 25 2125135 45 3228 55
pentad 26 2125140 50 3759 50
pentad 27 2125145 55 4290 45
pentad 28 2125150 60 4821 40
pentad 29 2125155 5 5352 35
pentad 30 2125160 10 5883 30
pentad 31 2125165 15 6414 25
pentad 32 2125170 20 6945 20
pentad 33 2125176 26 186 15
pentad 34 2125181 31 717 10
pentad 35 2125186 36 1248 5
pentad 36 2125191 41 1779 0
pentad 37 2125196 46 2309 55
pentad 38 2125201 51 2840 50
pentad 39 2125206 56 3371 45
pentad 40 2125211 1 3902 40
pentad 41 2125216 6 4433 35
pentad 42 2125221 11 4964 30
pentad 43 2125226 16 5495 25
pentad 44 2125231 21 6026 20
pentad 45 2125236 26 6557 15
pentad 46 2125241 31 7088 10
pentad 47 2125247 37 329 5
pentad 48 2125252 42 860 0
pentad 49 2125257 47 1390 55
pentad 50 2125262 52 1921 50
pentad 51 2125267 57 2452 45
pentad 52 2125272 2 2983 40
pentad 53 2125277 7 3514 35
pentad 54 2125282 12 4045 30
pentad 55 2125287 17 4576 25
pentad 56 2125292 22 5107 20
pentad 57 2125297 27 5638 15
pentad 58 2125302 32 6169 10
pentad 59 2125307 37 6700 5
pentad 60 2125312 42 7231 0
pentad 61 2125318 48 471 55
pentad 62 2125323 53 1002 50
pentad 63 2125328 58 1533 45
pentad 64 2125333 3 2064 40
pentad 65 2125338 8 2595 35
pentad 66 2125343 13 3126 30
pentad 67 2125348 18 3657 25
pentad 68 2125353 23 4188 20
pentad 69 2125358 28 4719 15
pentad 70 2125363 33 5250 10
pentad 71 2125368 38 5781 5
END
written 3 237 << 'END'
pentads W 237
pentad 0 1807614 44 1161 0
pentad 1 1807619 49 1295 11
pentad 2 1807624 54 1429 22
pentad 3 1807629 59 1563 33
pentad 4 1807634 4 1698 8
pentad 5 1807639 9 1832 19
pentad 6 1807645 15 123 30
pentad 7 1807650 20 258 5
pentad 8 1807655 25 392 16
pentad 9 1807660 30 526 27
pentad 10 1807665 35 661 2
pentad 11 1807670 40 795 13
pentad 12 1807675 45 929 24
pentad 13 1807680 50 1063 35
pentad 14 1807685 55 1198 10
pentad 15 1807690 60 1332 21
pentad 16 1807695 5 1466 32
pentad 17 1807700 10 1601 7
pentad 18 1807705 15 1735 18
pentad 19 1807711 21 26 29
pentad 20 1807716 26 161 4
pentad 21 1807721 31 295 15
pentad 22 1807726 36 429 26
pentad 23 1807731 41 564 1
pentad 24 1807736 46 698 12
pentad 25 1807741 51 832 23
pentad 26 1807746 56 966 34
pentad 27 1807751 1 1101 9
pentad 28 1807756 6 1235 20
pentad 29 1807761 11 1369 31
pentad 30 1807766 16 1504 6
pentad 31 1807771 21 1638 17
pentad 32 1807776 26 1772 28
pentad 33 1807782 32 64 3
pentad 34 1807787 37 198 14
pentad 35 1807792 42 332 25
pentad 36 1807797 47 467 0
pentad 37 1807802 52 601 11
pentad 38 1807807 57 735 22
pentad 39 1807812 2 869 33
pentad 40 1807817 7 1004 8
pentad 41 1807822 12 1138 19
pentad 42 1807827 17 1272 30
pentad 43 1807832 22 1407 5
pentad 44 1807837 27 1541 16
pentad 45 1807842 32 1675 27
pentad 46 1807847 37 1810 2
pentad 47 1807853 43 101 13
pentad 48 1807858 48 235 24
pentad 49 1807863 53 369 35
pentad 50 1807868 58 504 10
pentad 51 1807873 3 638 21
pentad 52 1807878 8 772 32
pentad 53 1807883 13 907 7
pentad 54 1807888 18 1041 18
pentad 55 1807893 23 1175 29
pentad 56 1807898 28 1310 4
pentad 57 1807903 33 1444 15
pentad 58 1807908 38 1578 26
pentad 59 1807913 43 1713 1
pentad 60 1807919 49 4 12
pentad 61 1807924 54 138 23
pentad 62 1807929 59 272 34
pentad 63 1807934 4 407 9
pentad 64 1807939 9 541 20
pentad 65 1807944 14 675 31
pentad 66 1807949 19 810 6
pentad 67 1807954 24 944 17
pentad 68 1807959 29 1078 28
pentad 69 1807964 34 1213 3
pentad 70 1807969 39 1347 14
pentad 71 1807974 44 1481 25
END

# The system is judged before the year, and no number is cut.
written 4 0 <<< 'refused 4'
written 4 1092 <<< 'refused 4'
written 4294967297 1092 <<< 'refused 4'
written 4294967299 237 <<< 'refused 4'
written 18446744073709551618 1092 <<< 'refused 4'
written 1 0 <<< 'refused 5'
written 2 3001 <<< 'refused 5'
written 3 0 <<< 'refused 5'
written 3 3001 <<< 'refused 5'
written 1 4294968388 <<< 'refused 5'
written 1 3001 3002 << 'END'
refused 5
refused 5
END
written 1 1094 1092 < /dev/null

same 1 1 3000
same 2 1 3000
same 3 1 3000
for system in "${wrong_systems[@]}"; do
    for year in 1092 0 3001; do
        same "$system" "$year"
    done
done
leading_noughts 01
leading_noughts 2
leading_noughts 003
years_of_all_sorts

# From here on days, of which the first is the solstice day of year 1 and the last the day before that of year 3001:
# 1721414 and 2817144 in Guantian and in Jiyuan, 1721416 and 2817156 in Jingchu.
request=pentad

# The summer solstice of the stone of 1094, and the solstices of the three years written out above.
written 1 2120808 <<< '2120808 G 1094 36'
written 1 2120802 2120813 << 'END'
2120802 G 1094 34
2120803 G 1094 35
2120804 G 1094 35
2120805 G 1094 35
2120806 G 1094 35
2120807 G 1094 35
2120808 G 1094 36
2120809 G 1094 36
2120810 G 1094 36
2120811 G 1094 36
2120812 G 1094 36
2120813 G 1094 37
END
written 1 2119894 2119895 << 'END'
2119894 G 1091 71
2119895 G 1092 0
END
written 2 2125007 2125008 << 'END'
2125007 J 1105 71
2125008 J 1106 0
END
written 3 1807613 1807614 << 'END'
1807613 W 236 71
1807614 W 237 0
END

# Pentad 11 of 1092 falls on one day in Guantian and on the next in Jiyuan.
written 1 2119949 2119951 << 'END'
2119949 G 1092 10
2119950 G 1092 11
2119951 G 1092 11
END
written 2 2119949 2119951 << 'END'
2119949 J 1092 10
2119950 J 1092 10
2119951 J 1092 11
END

# Moments at the very beginning of a day, two solstices among them; and 20 of 36, 5 of 60 and 1 of 36 units before its
# end.
written 1 2162719 2162720 << 'END'
2162719 G 1209 17
2162720 G 1209 18
END
written 2 2489886 2489887 << 'END'
2489886 J 2104 71
2489887 J 2105 0
END
written 3 2349640 2349641 << 'END'
2349640 W 1720 71
2349641 W 1721 0
END
written 1 2177485 2177486 << 'END'
2177485 G 1249 48
2177486 G 1249 49
END
written 2 2315121 2315122 << 'END'
2315121 J 1626 36
2315122 J 1626 37
END
written 3 2314276 2314277 << 'END'
2314276 W 1624 12
2314277 W 1624 13
END

# The first and the last day.
written 1 1721413 1721414 << 'END'
refused 7
1721414 G 1 0
END
written 2 1721413 1721414 << 'END'
refused 7
1721414 J 1 0
END
written 1 2817144 2817145 << 'END'
2817144 G 3000 71
refused 7
END
written 2 2817144 2817145 << 'END'
2817144 J 3000 71
refused 7
END
written 3 1721413 1721416 << 'END'
refused 7
refused 7
refused 7
1721416 W 1 0
END
written 3 2817145 <<< '2817145 W 3000 69'
written 3 2817156 2817157 << 'END'
2817156 W 3000 71
refused 7
END

# Days before count day 0 of Jingchu, which is 330191, and days after it.
written 3 0 1 << 'END'
refused 7
refused 7
END
written 3 330190 330192 << 'END'
refused 7
refused 7
refused 7
END
written 3 1721406 1721407 << 'END'
refused 7
refused 7
END

# The system is judged before the day, and no number is cut.
written 4 0 <<< 'refused 4'
written 4 2120808 <<< 'refused 4'
written 4294967297 2120808 <<< 'refused 4'
written 4294967299 2120808 <<< 'refused 4'
written 18446744073709551618 2120808 <<< 'refused 4'
written 1 0 <<< 'refused 7'
written 1 4294967295 <<< 'refused 7'
written 1 4297088104 <<< 'refused 7'
written 2 18446744073711672424 <<< 'refused 7'
written 3 4297088104 <<< 'refused 7'
written 1 2120808 2120807 < /dev/null

days=0
for system in 1 2 3; do
    same "$system" 1721000 2817500
    days=$((days + $(grep -cv refused "$scratch/out")))
done

for system in "${wrong_systems[@]}"; do
    for day in 2120808 1721413 2817145 4297088104; do
        same "$system" "$day"
    done
done
# Days at the ends of 16, 32 and 64 bits, days that would come out right if they were cut to 24, 31, 32, 63 or 64, and
# those at Jingchu's count day 0 and just before year 1.
days_outside=(0 1 65535 65536 2147483647 2147483648 4294967295 4294967296 9223372036854775807 9223372036854775808
    18446744073709551615 18446744073709551616 18898024 2149604456 4297088104 9223372036856896616 18446744073711672424
    99999999999999999999 330190 330191 330192 1721406)
past_refusal=7
for system in 1 2 3; do
    past=2817145 endless=(4297784443 18446744073712368763)
    [ "$system" != 3 ] || past=2817157 endless=(4297784455 18446744073712368775)
    for day in "${days_outside[@]}"; do
        same "$system" "$day"
    done
    # Leading noughts change nothing.
    same "0$system" 002120808
    same "$system" 000000000000000000000000000002120808 2120810
    same "$system" 2120808 000000000000000000000000000002120810
    # Empty ranges, some of which would not be if they were cut or read as text.
    same "$system" 1721414 1721413
    same "$system" "$past" $((past - 1))
    same "$system" 2120808 999999
    same "$system" 2120808 0
    same "$system" 4297088104 2120808
    same "$system" 18446744073711672424 2120809
    long_years "$system"
    endless_ranges "$system"
done
# As days, each of these ranges is refused throughout or empty; some pass a size of machine word.
for system in 1 2 3 4; do
    odd_ranges "$system"
done

echo "every_pentad: 9000 years are the same, and so are $days days and what is refused"
