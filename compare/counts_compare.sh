#!/bin/sh
# counts_compare.sh ORACLE [SEED] [CASES]: compares how often the program that ships evaluates
# intervals with the numbers of the reference model in the folder ORACLE, over so many random
# sessions: for each accepted order at least its least number and at most its bound. It makes a
# small program over the same crates in a temporary folder, in whose copy of smil_interval the count of
# evaluations is kept when it runs, and runs it by `rt try`, so with checks and unproved. Prints how
# many orders were compared, the sums of the least numbers, the counts and the bounds, and each
# order whose count is out of them.
set -eu
. "$(dirname "$0")/../bench/program.sh"
new_program compare_counts smil_live smil_house smil_script
sed -i 's/^    share: Share<L>,/    share: Share<L>,\n    pub count: u64,/; s/Steps { book, share }/Steps { book, share, count: 0 }/; s/^        self.book.add(&mut self.share, 1);/        self.book.add(\&mut self.share, 1);\n        self.count += 1;/' \
    "$work/crates/smil_interval/src/steps.rt"
cp "$here/compare/programs/counts_compare.rattle" "$program/src/main.rt"
with_main
mkdir "$work/cases"
python3 "$here/compare/counts_compare.py" --oracle "$1" --make "$work/cases" --seed "${2:-1}" --cases "${3:-200}"
cd "$program"
rt try --steps 1000 --seconds 300 --cases "$work/cases" > "$work/told" 2>&1 || true
tail -n 1 "$work/told"
python3 "$here/compare/counts_compare.py" --oracle "$1" --compare "$work/cases" --told "$work/told"
