#!/bin/sh
# instances_compare.sh ORACLE [SEED] [CASES] [FILES]: compares kept instance times with the
# reference model in the folder ORACLE, after each entry of the diaries of random documents, and
# what is rebuilt with what was noted. It makes a small program over smil_instances in a temporary
# folder, and runs it by `rt try`, so with checks and unproved: its diaries come from outside. Its
# last line counts the files: `differs=0` where all is the same.
set -eu
. "$(dirname "$0")/compare.sh"
new_comparison compare_instances smil_outline smil_instances
with_outlines
python3 "$here/compare/instances_cases.py" --oracle "$1" --out "$work/cases" --seed "${2:-1}" --cases "${3:-1000}" --files "${4:-5}"
cp "$here/compare/programs/instances_compare.rattle" "$program/src/main.rt"
compare_cases
