#!/bin/sh
# probe_compare.sh ORACLE [SEED] [CASES] [KIND..]: compares smil_test_texts and smil_test_plays with the
# reference model in the folder ORACLE on random cases, CASES of each kind, ten thousand for each
# run of a program, and prints for each kind the cases, the runs and the lines that differ; the
# first that differ are shown. The programs are those which `rt run` builds, or PROBE and PLAYS.
set -eu
. "$(dirname "$0")/../bench/program.sh"
new_work
oracle=$1
seed=${2:-1}
cases=${3:-10000}
shift "$(($# < 3 ? $# : 3))"
probe=${PROBE:-}
plays=${PLAYS:-}

# built CRATE: builds the program of a crate, and prints where it is.
built() {
    (cd "$here/crates/$1" && rt run < /dev/null > /dev/null 2>&1) && echo "$here/crates/$1/out/$1"
}

kinds=${*:-times texts outlines durations intervals endsync excl keys diaries graphs views lines trees plays}
for kind in $kinds; do
    case $kind in
    graphs | trees | plays) program=${plays:=$(built smil_test_plays)} ;;
    *) program=${probe:=$(built smil_test_texts)} ;;
    esac
    runs=0
    differ=0
    left=$cases
    while [ "$left" -gt 0 ]; do
        count=$((left < 10000 ? left : 10000))
        left=$((left - count))
        python3 "$here/compare/probe_cases.py" --oracle "$oracle" --out "$work" --seed "$((seed * 1000 + runs))" --cases "$count" --kind "$kind" > /dev/null
        "$program" < "$work/${kind}000" > "$work/answers"
        if ! cmp -s "$work/answers" "$work/${kind}000.stdout"; then
            paste -d '\n' "$work/${kind}000" "$work/${kind}000.stdout" "$work/answers" | awk 'NR % 3 == 1 { given = $0 }
                NR % 3 == 2 { wanted = $0 }
                NR % 3 == 0 && wanted != $0 { print given; print "  wanted " wanted; print "  told   " $0 }' > "$work/differ"
            head -n 9 "$work/differ"
            differ=$((differ + $(grep -c '^  told' "$work/differ")))
        fi
        runs=$((runs + 1))
    done
    echo "$kind: $cases cases in $runs runs, $differ differ"
done
