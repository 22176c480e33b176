# Makes a program of its own over crates of this repository. Sourced by benchmarks, which then write
# the source and run it.

# new_work: sets here, this repository, and work, a temporary folder that goes when the script ends.
new_work() {
    here=$(cd "$(dirname "$0")/.." && pwd)
    work=$(mktemp -d)
    trap 'rm -rf "$work"' EXIT
}

# new_program NAME CRATE..: sets program, in the folder work, to one over these crates and those
# below them, without source.
new_program() {
    new_work
    program=$work/crates/$1
    name=$1
    shift
    crates=$(with_below "$@")
    mkdir -p "$work/crates"
    for crate in $crates; do
        cp -r "$here/crates/$crate" "$work/crates/$crate"
        grep "^$crate:" "$here/crates.txt" >> "$work/crates.txt"
    done
    cp "$here/HANDLES" "$work/"
    (cd "$work" && rt new "crates/$name" start_io > /dev/null)
    rm -rf "$program/src" "$program/specs" "$program/proofs" "$program/stdin" "$program/stdout" "$program/BUILD.bazel"
    mkdir -p "$program/src"
    echo "$name:" $crates >> "$work/crates.txt"
}

# with_below CRATE..: these crates and all of this repository that they depend on, each once.
with_below() {
    for crate in "$@"; do
        sed -n "s/^$crate://p" "$here/crates.txt"
        echo "$crate"
    done | tr ' ' '\n' | awk 'NF && !seen[$0]++' | while read -r crate; do
        if [ -d "$here/crates/$crate" ]; then echo "$crate"; fi
    done
}

# with_main: appends `main` to the main file: it answers standard input by the file's `compare`.
with_main() {
    { echo; cat "$here/bench/programs/answering_input.rattle"; } >> "$program/src/main.rt"
}
