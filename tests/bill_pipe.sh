#!/usr/bin/env bash
# Usage: bill_pipe.sh [PROGRAM]
# The bill program, target/bin/concur_bill unless another is named, fed through a pipe in pieces with pauses, and where reading or writing
# fails. Expected is what stands here. Ends with 1 where anything differs.
set -eu
cd "$(dirname "$0")/.."
called="bill through a pipe"
program=("$(readlink -f "${1:-target/bin/concur_bill}")")
source tests/piped.sh
source tests/operations.sh

# Member 2 has had its 100 free operations; its next write is 3.5 cents.
free=$'members 2\n'$(operations 100 'read 2 1')$'\n'
printf '1 0\n2 4\n4\n' >"$work/expected"
fed 'mem' "${free#mem}wri" 'te 2 7' '7\n' 'deliver 2\ndeliver' ' 2\nd' 'eliver 2' '\n' 'deliver 2\n'
same "in pieces"
fed "$free" 'write 2 7' '\ndeliver 2\n' 'deliver 2\n' 'deliver 2'
same "the acceptance in a last line without its line feed"
printf '1 0\n2 0\n0\n' >"$work/expected"
fed "$free" 'write 2 7\ndeliver 2\ndeliver 2\n' 'deliver '
same "a last line that is cut"
fed 'members 2'
same "a first line alone, without its line feed"

# Nothing is printed before the input is over, though there is a bill by then.
printf '1 0\n2 4\n4\n' >"$work/expected"
rm "$work/out"
{
    printf "${free}write 2 7\ndeliver 2\ndeliver 2\ndeliver 2\n"
    sleep 1
    cp "$work/out" "$work/early"
} >"$work/pipe" &
run
same "a bill at the end"
silent "output before the end of the input" "$work/early"
wait

# Two writes wait for their verdicts behind 1,006 steps. 1's is accepted at step 1,000,000, and that of 2 would be behind it.
refused_open
{
    echo 'members 2'
    for member in 1 2; do operations 100 "write $member 7"; done
    for member in 1 2; do operations 1 "write $member 7" | head -n 3; done
    yes 'deliver 3' | head -n $((999999 - 1006))
} >"$work/script"
printf '1 4\n2 0\n4\n' >"$work/expected"
last_step 'deliver 1' 'deliver 2'

# An operation is 50 bytes, and the line of its third deliver ends with the 40th. Behind two lines of 47 bytes in all the 65,536 end before
# that line feed of the 1,310th operation; 1,210 billed writes are 4,235 cents. Of 46, they end behind it. Of 48, they end before the
# member's number, so that 1,309 are accepted, and 1,209 writes are 4,231.5 cents. With 3,000 bytes more it is 60 operations more.
for first in '46 4235 4235 4445' '47 4235 4235 4445' '48 4232 4235 4442'; do
    read -r bytes none one many <<<"$first"
    { echo 'members 4'; printf "%$((bytes - 11))s\n" x; operations 1800 'write 2 5'; } >"$work/script"
    for behind in "0 $none" "1 $one" "3000 $many"; do
        read -r rest cents <<<"$behind"
        printf '1 0\n2 %s\n3 0\n4 0\n%s\n' "$cents" "$cents" >"$work/expected"
        buffer "$rest"
    done
done

unreadable
unwritable 'members 2'
unwritable 'members 13'

counted
