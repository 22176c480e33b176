#!/bin/sh
# elements_compare.sh ORACLE [SEED] [CASES] [FILES]: compares elements one by one with the reference model in the folder
# ORACLE, after each entry of the diaries of random documents: interval by the current intervals of
# the others, what comes of each with its keys, the group of each coming, what comes first, and the
# views. It makes a small program in a temporary folder, and runs
# it by `rt try`, so with checks and unproved: its diaries come from outside. Its last line counts
# the files: `differs=0` where all is the same.
set -eu
. "$(dirname "$0")/compare.sh"
new_comparison compare_elements smil_outline smil_element smil_due
python3 "$here/compare/engine_cases.py" --kind elements --oracle "$1" --out "$work/cases" --seed "${2:-1}" --cases "${3:-1000}" --files "${4:-5}"
cp "$here/compare/programs/elements_compare.rattle" "$program/src/main.rt"
with_main
compare_cases --steps 1000 --seconds 300
