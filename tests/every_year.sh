#!/usr/bin/env bash
# The almanac on every year of every system, and on requests that it must refuse.
set -euo pipefail
cd "$(dirname "$0")/.."
name=every_year request=year
. tests/run.bash
. tests/requests.bash

# Jingchu 237, whose solstice the paper tells. Qi step 15 days, 402 parts and 11 of 12 small units, and new moons 29
# days and 2419 of 4559 parts. The first day is named 36, and after name 60 comes 1.
#
# A month's last two fields are its new moon's remainder and the middle qi that it holds (Q-9). N is 4045, which times
# 235 and by 19 is 50030 and 5 left. So many months of 134630 parts are 6735538900 parts of the moon, or 1477415 days
# and 3915 parts. From month to month 2419 are added, and 4559 are taken off where there are as many: there the month
# has 30 days. The qi with even numbers, 0 to 22, fall into the twelve months one by one, so that none is passed over.
names=$(for ((i = 0, day = 36; i < 355; i++, day = day == 60 ? 1 : day + 1)); do echo $day; done | paste -sd ' ')
written 3 237 << END
year W 237 12 355
qi 0 1807614 44 1161 0
qi 1 1807629 59 1563 11
qi 2 1807645 15 123 10
qi 3 1807660 30 526 9
qi 4 1807675 45 929 8
qi 5 1807690 60 1332 7
qi 6 1807705 15 1735 6
qi 7 1807721 31 295 5
qi 8 1807736 46 698 4
qi 9 1807751 1 1101 3
qi 10 1807766 16 1504 2
qi 11 1807782 32 64 1
qi 12 1807797 47 467 0
qi 13 1807812 2 869 11
qi 14 1807827 17 1272 10
qi 15 1807842 32 1675 9
qi 16 1807858 48 235 8
qi 17 1807873 3 638 7
qi 18 1807888 18 1041 6
qi 19 1807903 33 1444 5
qi 20 1807919 49 4 4
qi 21 1807934 4 407 3
qi 22 1807949 19 810 2
qi 23 1807964 34 1213 1
qi 24 1807979 49 1616 0
month 1 11 1807606 36 30 3915 0
month 2 12 1807636 6 29 1775 1
month 3 1 1807665 35 30 4194 2
month 4 2 1807695 5 29 2054 3
month 5 3 1807724 34 30 4473 4
month 6 4 1807754 4 30 2333 5
month 7 5 1807784 34 29 193 6
month 8 6 1807813 3 30 2612 7
month 9 7 1807843 33 29 472 8
month 10 8 1807872 2 30 2891 9
month 11 9 1807902 32 29 751 10
month 12 10 1807931 1 30 3170 11
next 1807961
names $names
END

same 1 1 3000
same 2 1 3000
same 3 1 3000
lines=$(wc -l < "$scratch/out")

# A wrong system is refused before a wrong year.
for system in "${wrong_systems[@]}"; do
    same "$system" 1092
    same "$system" 0
done
leading_noughts 1
leading_noughts 002
leading_noughts 03
years_of_all_sorts

echo "every_year: 9000 years are the same ($lines lines in system 3), and so is what is refused"
