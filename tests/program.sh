#!/usr/bin/env bash
# Usage: program.sh OUTDIR [PROGRAM]   (after simulator/build.sh OUTDIR)
# The board program, target/bin/concur_board unless another is named: the examples with their expected output, then fixed, random and
# adversarial scripts beside the simulator made apart, byte for byte. Ends with 1 where anything differs.
set -eu
cd "$(dirname "$0")/.."
seed=20260601
random_scripts=400
program=${2:-target/bin/concur_board}

tried=0 wrong=0
for script in examples/*.txt; do
    tried=$((tried + 1))
    "$program" <"$script" | cmp - "${script%.txt}.out" || wrong=$((wrong + 1))
done
echo "example scripts: $tried, wrong $wrong"
[ "$wrong" -eq 0 ]

rm -rf "$1/scripts"
"$1/gen_scripts" "$1/scripts" "$seed" "$random_scripts"
bash tests/simulator/compare_scripts.sh "$program" "$1/simulator" "$1/scripts"
