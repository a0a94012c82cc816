#!/usr/bin/env bash
# Usage: asked_pipe.sh TOOL FOUND MANY [PROGRAM]
# A tool that is asked about an operation, target/bin/concur_TOOL unless another program is named, fed through a pipe in pieces with pauses,
# and where reading or writing fails. Expected is what stands here: FOUND of the operation asked about, and MANY where its script has more
# than 256 steps. Ends with 1 where anything differs.
set -eu
cd "$(dirname "$0")/.."
called="$1 through a pipe"
found=$2 many=$3
tool=$(readlink -f "${4:-target/bin/concur_$1}")
program=("$tool" 1 1)
source tests/piped.sh

# Member 1's submit is taken at step 2, that of member 2 at 4, and the verdict on 1's operation is at 6.
submits='members 2\nwrite 1 7\ndeliver 1\nread 2 1\ndeliver 2\n'
echo "$found" >"$work/expected"
fed 'mem' 'bers 2' '\nwrite 1 7' '\n' 'deliver 1\nread 2 1\ndel' 'iver 2\ndeliver 1\ndeliver 1\n'
same "in pieces"
fed "$submits" 'deliver 1\n' 'deliver 1'
same "a last line without its line feed"
fed "${submits}deliver 1\ndeliver 1\n" 'deliver 1' '\n' 'crash 2\n'
same "steps behind the verdict, after a pause"

# 256 steps, and one more: the end comes after a pause.
{ printf "${submits}deliver 1\ndeliver 1\n"; yes 'deliver 0' | head -n 251; } >"$work/script"
size=$(stat -c %s "$work/script")
full $((size - 30)) 20 "$work/script"
same "256 steps, the last two after a pause"
full $((size - 30)) 19 "$work/script"
same "256 steps, the last without its line feed"
echo "$many" >"$work/expected"
full $((size - 10)) 10 "$work/script"
same "257 steps, the last after a pause"
full $((size - 10)) 9 "$work/script"
same "257 steps, the last without its line feed"

# As long as a script may be, and a byte longer: all of it stands in the pipe at the start, or its end comes after a pause.
{ printf "${submits}deliver 1\ndeliver 1\n"; yes 'deliver 0' | head -n 6545; echo 'write 0 1111111'; } >"$work/script"
for first in 65535 65534 40000 1; do
    full "$first" $((65535 - first)) "$work/script"
    same "65,535 bytes, $first of them at the start"
done
echo 17 >"$work/expected"
echo >>"$work/script"
for first in 65536 65535 1; do
    full "$first" $((65536 - first)) "$work/script"
    same "65,536 bytes, $first of them at the start"
done

fed "${submits}deliver 1\ndeliver 1\n" 'bid 1'
same "a line of another form, after a pause"
fed ''
same "no line at all"
program=("$tool" 1)
fed 'members 2\n' 'write 1 7\n'
same "one argument"

# A read that fails is not asked about with bad arguments: it may then go unnoticed.
program=("$tool" 1 1)
unreadable
unwritable 'members 2'

counted
