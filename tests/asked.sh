#!/usr/bin/env bash
# Usage: asked.sh TOOL RANDOM_RUNS OUTDIR [PROGRAM]   (after simulator/build.sh OUTDIR)
# A tool that is asked about an operation, overtaker or cause, target/bin/concur_TOOL unless another program is named: the examples with
# their expected output, then fixed and random scripts and argument lists beside the simulator made apart, byte for byte; then what
# TOOL_pipe.sh tries. The simulator's own program is compared too. Ends with 1 where anything differs.
set -eu
cd "$(dirname "$0")/.."
seed=20260601
tool=$1 random_runs=$2 out=$3
program=${4:-target/bin/concur_$tool}

# A line of examples/NAME.overtakers or NAME.causes is `MEMBER ORDINAL: OUTPUT`, asked of the script examples/NAME.txt.
tried=0 wrong=0
shopt -s nullglob
for asked in examples/*."${tool}s"; do
    while read -r member ordinal output; do
        tried=$((tried + 1))
        "$program" "$member" "${ordinal%:}" <"${asked%.*}.txt" | cmp - <(echo "$output") && continue
        wrong=$((wrong + 1))
        echo "$asked: $member $ordinal"
    done <"$asked"
done
echo "$tool, example operations: $tried, wrong $wrong"
[ "$wrong" -eq 0 ]

rm -rf "$out/asked_$tool"
timeout 600 "$out/compare_tools" "$tool" "$out/asked_$tool" "$seed" "$random_runs" "$program" "$out/${tool}_simulator"
bash "tests/${tool}_pipe.sh" "$program"
