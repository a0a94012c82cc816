#!/usr/bin/env bash
# Usage: archives.sh [NAME..]
# Makes the archives with the C interface, target/staticlib/libboard.a, libmessages.a and liblog_check.a, and libtest_calls.a: the reader, the
# writer and the halves as calls for the tests alone; or those named. Each is proved once more as it is made. The other tests use what
# stands there.
set -eu
cd "$(dirname "$0")/.."
mkdir -p target/staticlib
[ $# -gt 0 ] || set -- board messages log_check test_calls
for name in "$@"; do
    # A library that other crates use has its exports in a crate of their own.
    crate=$name
    [ ! -d "crates/${name}_c" ] || crate=${name}_c
    (cd "crates/$crate" && rt lib)
    cp "crates/$crate/out/lib$crate.a" "target/staticlib/lib$name.a"
done
