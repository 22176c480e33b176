#!/bin/sh
# documents_compare.sh ORACLE [SEED] [CASES] [FILES]: compares graphs and clocks with the reference model in the folder
# ORACLE: of random documents the readers, the reach and the looped items of each element, and after
# each entry of a lawful diary the clocks of each element, as the entries are taken in and as
# `Clocks::of` gives them. It makes a small program in a temporary folder, and runs it by `rt try`,
# so with checks and unproved: its diaries come from outside. Its last line counts the files:
# `differs=0` where all is the same.
set -eu
. "$(dirname "$0")/compare.sh"
new_comparison compare_documents smil_outline smil_graph smil_stretch
with_outlines
python3 "$here/compare/probe_cases.py" --oracle "$1" --out "$work/cases" --seed "${2:-1}" --cases "${3:-1000}" --files "${4:-5}" --kind documents
cp "$here/compare/programs/documents_compare.rattle" "$program/src/main.rt"
compare_cases
