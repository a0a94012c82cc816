#!/usr/bin/env bash
# Usage: pipe.sh OUTDIR [PROGRAM]   (after simulator/build.sh OUTDIR)
# The board program, target/bin/concur_board unless another is named, fed through a pipe in pieces with pauses, and where reading or writing
# fails: what no contract says of it. Expected is what the simulator prints, or what stands here. Ends with 1 where anything differs.
set -eu
cd "$(dirname "$0")/.."
called=pipe
program=("$(readlink -f "${2:-target/bin/concur_board}")")
simulator=$1/simulator
source tests/piped.sh
source tests/operations.sh

# Document 01's example in pieces that end in a word, at a number, before a line feed and behind it.
fed 'mem' 'bers 2' '\nwrite 1 7' '7\n' 'deliver 1\ndeliver 1\ndel' 'iver 1\ndeliver 1\nread 2 1\n' \
    'deliver 2\ndeliver 2\ndeliver 2\ndeliver 2\n'
printf 'board 2\n1 0 1 -\n2 0 2 -\n3 0 3 -\n4 0 4 -\n5 0 0 -\n6 0 1 -\n7 0 2 -\n8 0 3 -\n9 0 4 -\n10 0 0 77\n' >"$work/expected"
same "the example in pieces"

# A last line without its line feed, after a pause, and the end of the input after another.
fed 'members 2\nwrite 1 77\n' 'deliver 1'
printf 'board 2\n1 0 1 -\n2 0 2 -\n' >"$work/expected"
same "a last line without its line feed"

# Output while the pipe stays open: what a piece prints does not wait for the next.
printf 'board 3\n1 0 0 -\n' >"$work/expected"
rm "$work/out"
{
    printf 'members 3\ncrash 2\n'
    for turn in $(seq 100); do
        cmp -s "$work/out" "$work/expected" && break
        sleep 0.1
    done
    cp "$work/out" "$work/early"
} >"$work/pipe" &
run
same "output at the end"
cp "$work/early" "$work/out"
same "output while the pipe stays open"
wait

# A refused first line ends the program, and so do 1,000,000 steps; step 1,000,000 comes after a pause.
refused_open
{ echo 'members 12'; yes 'deliver 3' | head -n 999999; } >"$work/script"
{ cat "$work/script"; printf 'crash 3\ncrash 4\n'; } | "$simulator" >"$work/expected"
last_step 'crash 3' 'crash 4'

# The line goes on behind the 65,536 bytes or not.
{ echo 'members 4'; operations 1800 'write 2 5'; } >"$work/script"
for rest in 0 1 3000; do
    head -c $((65536 + rest)) "$work/script" | "$simulator" >"$work/expected"
    buffer "$rest"
done

# Where reading fails; and where writing fails, the program ends though the pipe stays open.
unreadable
{ printf 'members 2\ndeliver 1\n'; exec sleep 90; } >"$work/pipe" &
run /dev/full
kill $!
said "writing to a full device" "$work/errors" "standard output"
[ "$status" -eq 0 ] || { wrong=$((wrong + 1)); echo "pipe: writing failed, and the program went on (status $status)"; }
unwritable 'members 2'

counted
