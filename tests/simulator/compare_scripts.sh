#!/bin/bash
# Usage: compare_scripts.sh PROGRAM SIMULATOR FOLDER
# Runs both on each script and compares what they print, byte for byte.
# A program that is ended by a signal or by the time limit counts as different.
if [ $# -ne 3 ]; then
    echo "usage: compare_scripts.sh PROGRAM SIMULATOR FOLDER"
    exit 2
fi
program=$1
simulator=$2
folder=$3
work=$(mktemp -d)
trap 'rm -rf "$work"' EXIT
agreed=0
differed=0
first=""
for script in "$folder"/*.txt; do
    [ -e "$script" ] || continue
    timeout 300 "$program" < "$script" > "$work/program" 2> "$work/errors"
    status=$?
    timeout 300 "$simulator" < "$script" > "$work/simulator"
    sim_status=$?
    if [ $status -lt 124 ] && [ $sim_status -eq 0 ] && cmp -s "$work/program" "$work/simulator"; then
        agreed=$((agreed + 1))
    else
        differed=$((differed + 1))
        if [ -z "$first" ]; then
            first=$script
            echo "first difference: $script (exit status: program $status, simulator $sim_status)"
            # -a: a stray NUL in an output must not hide the lines.
            diff -a "$work/program" "$work/simulator" | head -8
            head -c 400 "$work/errors"
        fi
    fi
done
echo "agreed $agreed, differed $differed"
[ $differed -eq 0 ] && [ $agreed -gt 0 ]
