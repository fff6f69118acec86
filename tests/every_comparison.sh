#!/usr/bin/env bash
# The almanac's comparisons of every pair of systems in every year, and those that it must refuse.
set -euo pipefail
cd "$(dirname "$0")/.."
name=every_comparison request=compare
. tests/run.bash
. tests/requests.bash

# Leap marks that differ, heads that differ, a month that one system lacks.
written 1 2 1162 << 'END'
compare G J 1162 2
place 5 3 2145554 2* 2145554 0
place 6 3* 2145584 3 2145584 0
END
written 1 2 1105 << 'END'
compare G J 1105 1
place 9 6 2124853 6 2124854 1
END
written 1 2 2022 << 'END'
compare G J 2022 1
place 13 - - 10* 2459908 first
END

# The same the other way round.
written 2 1 1162 << 'END'
compare J G 1162 2
place 5 2* 2145554 3 2145554 0
place 6 3 2145584 3* 2145584 0
END
written 2 1 1105 << 'END'
compare J G 1105 1
place 9 6 2124854 6 2124853 -1
END
written 2 1 2022 << 'END'
compare J G 2022 1
place 13 10* 2459908 - - second
END

# Thirteen places: Jiyuan begins this year a month later.
written 1 2 2023 << 'END'
compare G J 2023 13
place 1 11 2459908 11 2459937 29
place 2 11* 2459937 12 2459967 30
place 3 12 2459967 1 2459996 29
place 4 1 2459996 2 2460026 30
place 5 2 2460026 3 2460055 29
place 6 3 2460055 4 2460085 30
place 7 4 2460085 5 2460114 29
place 8 5 2460114 6 2460144 30
place 9 6 2460144 7 2460173 29
place 10 7 2460173 8 2460203 30
place 11 8 2460203 9 2460232 29
place 12 9 2460232 10 2460262 30
place 13 10 2460262 - - second
END
written 2 1 2023 << 'END'
compare J G 2023 13
place 1 11 2459937 11 2459908 -29
place 2 12 2459967 11* 2459937 -30
place 3 1 2459996 12 2459967 -29
place 4 2 2460026 1 2459996 -30
place 5 3 2460055 2 2460026 -29
place 6 4 2460085 3 2460055 -30
place 7 5 2460114 4 2460085 -29
place 8 6 2460144 5 2460114 -30
place 9 7 2460173 6 2460144 -29
place 10 8 2460203 7 2460173 -30
place 11 9 2460232 8 2460203 -29
place 12 10 2460262 9 2460232 -30
place 13 - - 10 2460262 first
END

# Guantian and Jiyuan have the leap month of the stone, and no place is listed.
written 1 2 1094 <<< 'compare G J 1094 0'
written 2 1 1094 <<< 'compare J G 1094 0'

# Jingchu beside the other two. In 236 the months at place 6 differ in number alone.
written 1 3 236 << 'END'
compare G W 236 3
place 5 3 1807341 2* 1807341 0
place 6 4 1807370 3 1807370 0
place 7 4* 1807400 4 1807400 0
END
written 3 1 236 << 'END'
compare W G 236 3
place 5 2* 1807341 3 1807341 0
place 6 3 1807370 4 1807370 0
place 7 4 1807400 4* 1807400 0
END
written 2 3 237 <<< 'compare J W 237 0'
written 3 2 237 <<< 'compare W J 237 0'
written 1 3 238 << 'END'
compare G W 238 1
place 13 - - 10* 1808315 first
END
written 3 2 238 << 'END'
compare W J 238 1
place 13 10* 1808315 - - second
END
written 2 3 4 << 'END'
compare J W 4 1
place 11 9 1722795 9 1722794 -1
END
written 3 2 4 << 'END'
compare W J 4 1
place 11 9 1722794 9 1722795 1
END
written 1 3 1092 << 'END'
compare G W 1092 2
place 3 1 2119951 1 2119952 1
place 5 3 2120010 3 2120011 1
END

# A system does not differ from itself.
written 1 1 2999 3001 << 'END'
compare G G 2999 0
compare G G 3000 0
refused 5
END
written 2 2 0 2 << 'END'
refused 5
compare J J 1 0
compare J J 2 0
END
written 3 3 236 238 << 'END'
compare W W 236 0
compare W W 237 0
compare W W 238 0
END

# Either system is judged before the year, and no number is cut.
written 4 2 0 <<< 'refused 4'
written 1 4 0 <<< 'refused 4'
written 4 4 0 <<< 'refused 4'
written 3 4 1094 <<< 'refused 4'
written 4 3 1094 <<< 'refused 4'
written 4294967297 2 1094 <<< 'refused 4'
written 1 4294967299 1094 <<< 'refused 4'
written 1 18446744073709551618 1094 <<< 'refused 4'
written 1 2 0 <<< 'refused 5'
written 1 2 3001 <<< 'refused 5'
written 3 1 0 <<< 'refused 5'
written 2 3 3001 <<< 'refused 5'
written 1 2 4294968390 <<< 'refused 5'
written 1 2 1094 1092 < /dev/null

places=0
for first in 1 2 3; do
    for second in 1 2 3; do
        same "$first" "$second" 1 3000
        places=$((places + $(grep -c '^place' "$scratch/out" || true)))
        years_outside "$first" "$second"
    done
done

for system in "${wrong_systems[@]}"; do
    for year in 1094 0 3001; do
        same "$system" 2 "$year"
        same 3 "$system" "$year"
        same "$system" "$system" "$year"
    done
done
leading_noughts 01 002
leading_noughts 003 1
odd_ranges 1 2
odd_ranges 3 1
odd_ranges 1 4
odd_ranges 4 2
long_years 2 3
endless_ranges 2 3

echo "every_comparison: 27000 comparisons are the same ($places places are listed), and so is what is refused"
