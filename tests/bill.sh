#!/usr/bin/env bash
# Usage: bill.sh OUTDIR [PROGRAM]   (after simulator/build.sh OUTDIR)
# The bill program, target/bin/concur_bill unless another is named: the examples with their expected output, and scripts whose bills are
# worked out here by hand from request (k); then fixed, random and adversarial scripts beside the simulator made apart, byte for byte; then
# what bill_pipe.sh tries. The simulator's own program is compared too. Ends with 1 where anything differs.
set -eu
cd "$(dirname "$0")/.."
source tests/operations.sh
seed=20260601
random_runs=200
out=$1
program=${2:-target/bin/concur_bill}

tried=0 wrong=0

# printed NAME EXPECTED: what is printed of the script on standard input, beside a file.
printed() {
    tried=$((tried + 1))
    "$program" | cmp - "$2" && return
    wrong=$((wrong + 1))
    echo "bill: $1"
}

# owes NAME LINE..: the same, beside lines.
owes() {
    local name=$1
    shift
    printed "$name" <(printf '%s\n' "$@")
}

# examples/NAME.bill is the bill of the script examples/NAME.txt.
shopt -s nullglob
for bill in examples/*.bill; do
    printed "$bill" "$bill" <"${bill%.bill}.txt"
done
echo "bill, examples: $tried, wrong $wrong"

# Member 1 pays for one write, 3.5 cents, which is 4; member 2 for three reads, 1.2 cents, which is 2. All tenths together were 4.7 cents.
owes "rounded for each member" '1 4' '2 2' 6 < <(echo 'members 2'; operations 101 'write 1 7'; operations 103 'read 2 1')

# Ten writes are 350 tenths and five reads 20: nothing is rounded. The free ones were the first, so that the dear ones are paid.
owes "ten writes" '1 35' 35 < <(echo 'members 1'; operations 100 'read 1 1'; operations 10 'write 1 7')
owes "five reads" '1 2' 2 < <(echo 'members 1'; operations 100 'write 1 7'; operations 5 'read 1 1')

# Member 3 has 50 own reads and 49 reads of slot 1 accepted. Its write is aborted by 2's read, which is 2's first. The next write is its
# 100th; two writes and a read behind it are 74 tenths, 8 cents.
owes "an aborted write" '1 0' '2 0' '3 8' 8 < <(
    echo 'members 3'
    operations 50 'read 3 3'
    operations 49 'read 3 1'
    printf 'write 3 5\ndeliver 3\nread 2 3\ndeliver 2\n'
    printf 'deliver %s\n' 3 3 3 2 2 2
    operations 3 'write 3 6'
    operations 1 'read 3 2'
)

# All had 100. Member 1 crashes before its write's verdict, and the commit is still delivered; 2 crashes before it is told that its read is
# accepted; 3 crashes before its reply, so that nothing is committed; 4 is never told of its write. 3.5, 0.4, 0 and 3.5 cents.
owes "crashes" '1 4' '2 1' '3 0' '4 4' 9 < <(
    echo 'members 4'
    for member in 1 2 3 4; do operations 100 "read $member $member"; done
    printf 'write 1 5\ndeliver 1\ndeliver 1\ncrash 1\ndeliver 1\ndeliver 1\nwrite 1 6\ndeliver 1\n'
    printf 'read 2 1\ndeliver 2\ndeliver 2\ndeliver 2\ncrash 2\ndeliver 2\nread 2 1\ndeliver 2\n'
    printf 'write 3 5\ndeliver 3\ncrash 3\ndeliver 3\ndeliver 3\n'
    printf 'write 4 5\ndeliver 4\ndeliver 4\ndeliver 4\n'
)

# 199,900 writes at 35 tenths are 6,996,500 tenths. They took 1,000,000 steps; what is behind is not looked at.
owes "200,000 writes" '1 699650' '2 0' 699650 < <(echo 'members 2'; operations 200000 'write 1 7'; operations 101 'write 2 7')

owes "nothing" '1 0' '2 0' '3 0' '4 0' 0 <<<'members 4'
owes "no line" 'board refused 17' </dev/null
owes "a first line of another form" 'board refused 17' <<<'member 2'
owes "thirteen members" 'board refused 1' <<<'members 13'
echo "bill, by hand too: $tried, wrong $wrong"
[ "$wrong" -eq 0 ]

rm -rf "$out/bills"
timeout 600 "$out/compare_tools" bill "$out/bills" "$seed" "$random_runs" "$program" "$out/bill_simulator"
rm -rf "$out/bills"
bash tests/bill_pipe.sh "$program"
