# Makes a program whose answers are compared with the reference model's, and runs it over cases.
# Sourced by comparisons, which write the cases and the program's main file between the two.
. "$(dirname "$0")/../bench/program.sh"

# new_comparison NAME CRATE..: a program over these crates and those below them, with two modules
# that its main file uses: `given`, by which a case is read, and `told`, by which lines are written.
new_comparison() {
    new_program "$@"
    cp "$here/compare/programs/given.rattle" "$program/src/given.rt"
    cp "$here/compare/programs/told.rattle" "$program/src/told.rt"
}

# with_outlines: a third module, `outlined`: cases that begin with an outline.
with_outlines() {
    cp "$here/compare/programs/outlined.rattle" "$program/src/outlined.rt"
}

# compare_cases [FLAG..]: runs the program over the cases in the folder `cases`, with these flags of `rt try`.
compare_cases() {
    cd "$program"
    rt try "$@" --cases "$work/cases"
}
