#!/bin/bash
# Usage: link.sh OUTDIR PROGRAM LIBRARY..
# Links capi, interleavings or halves against static libraries that together
# have its C interface. All of them but the concur_ names is hidden first, so
# that a Rust library's own copy of std cannot clash with the program's one.
set -e
if [ $# -lt 3 ]; then
    echo "usage: link.sh OUTDIR PROGRAM LIBRARY.."
    exit 2
fi
mkdir -p "$1"
out=$(readlink -f "$1")
program=$2
shift 2
ld -r --force-group-allocation --whole-archive "$@" -o "$out/whole.o"
objcopy -w --keep-global-symbol='concur_*' "$out/whole.o" "$out/library.o"
cd "$(dirname "$0")"
rustc -O --edition 2021 "$program.rs" -o "$out/$program" -C link-arg="$out/library.o"
rm "$out/whole.o" "$out/library.o"
