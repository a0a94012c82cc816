#!/usr/bin/env bash
# Usage: compare.sh OUTDIR   (after archives.sh and simulator/build.sh OUTDIR)
# The proved C interface beside the simulator made apart: random, boundary and damaged tables and messages, every word compared; the message
# reader and writer and the two halves alone, every word and byte compared; then every interleaving of three operations, own reads and
# auction boards among them, without and with one crash at every place, beside the reference. Ends with 1 at the first difference.
set -eu
cd "$(dirname "$0")/.."
seed=20260601
table_seconds=75
half_seconds=60

for program in capi interleavings; do
    bash tests/simulator/link.sh "$1/linked" "$program" target/staticlib/libboard.a target/staticlib/libmessages.a
done
"$1/linked/capi" "$table_seconds" "$seed"
bash tests/simulator/link.sh "$1/linked" halves target/staticlib/libtest_calls.a
"$1/linked/halves" "$half_seconds" "$seed"
"$1/linked/interleavings"
