#!/usr/bin/env bash
# Usage: programs.sh [NAME..]
# Makes the programs, target/bin/concur_board, concur_overtaker, concur_cause and concur_bill, or those named. Each is proved once more as it
# is made, and run on no input. The other tests use what stands there.
set -eu
cd "$(dirname "$0")/.."
mkdir -p target/bin
[ $# -gt 0 ] || set -- concur_board concur_overtaker concur_cause concur_bill
for name in "$@"; do
    (cd "crates/$name" && rt run </dev/null >/dev/null)
    cp "crates/$name/out/$name" "target/bin/$name"
done
