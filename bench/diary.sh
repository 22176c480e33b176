#!/bin/sh
# Times the diary: 500,000 entries on 401 elements are pushed, half of them is cut back and pushed again four times, and
# each reading is asked of each element. It prints nanoseconds for an entry, and for a reading.
# It makes a small program over smil_diary in a temporary folder, and runs it as `rt run` builds it.
set -eu
. "$(dirname "$0")/program.sh"
new_program time_diary smil_diary
cp "$here/bench/programs/diary.rattle" "$program/src/main.rt"
cd "$program"
rt run 2>&1 | tee "$work/log" | grep -v '^filled' | tail -n 3
sed -n 's/^filled true true sum [0-9]* push \([0-9]*\) cut \([0-9]*\) ask \([0-9]*\)$/\1 \2 \3/p' "$work/log" | awk '{
    printf "%.1f ns to push an entry\n", $1 / 500
    printf "%.1f ns to cut an entry back and push it again\n", $2 / 1000
    printf "%.1f ns for a reading\n", $3 / 2800
}'
