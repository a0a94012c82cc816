#!/bin/bash
# Usage: build.sh OUTDIR
# Builds simulator, overtaker_simulator, cause_simulator, bill_simulator, selftest,
# gen_scripts, compare_tools, and with the stub library capi, interleavings and
# halves. For the real libraries: link.sh OUTDIR PROGRAM LIBRARY..
set -e
if [ $# -ne 1 ]; then
    echo "usage: build.sh OUTDIR"
    exit 2
fi
mkdir -p "$1"
out=$(readlink -f "$1")
cd "$(dirname "$0")"
rustc -O --edition 2021 main_sim.rs -o "$out/simulator"
for tool in overtaker cause bill; do
    rustc -O --edition 2021 "${tool}_sim.rs" -o "$out/${tool}_simulator"
done
for program in selftest gen_scripts compare_tools; do
    rustc -O --edition 2021 "$program.rs" -o "$out/$program"
done
rustc -O --edition 2021 -C panic=abort --crate-type staticlib stub_library.rs -o "$out/libconcur_stub.a"
for program in capi interleavings halves; do
    ./link.sh "$out/stub" "$program" "$out/libconcur_stub.a"
done
