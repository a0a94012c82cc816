#!/usr/bin/env bash
# Builds the proved archives and the timing programs, and runs them once: bench/run.sh [REVISION]
# With a revision, that revision's message check, begin and deliver are timed beside the ones that stand here, and nothing else.
set -eu
cd "$(dirname "$0")/.."
out=$(mktemp -d)
trap 'rm -rf "$out"' EXIT

# archive NAME [FOLDER]: proves its crate and leaves the archive in target/staticlib, here or in that folder.
archive() {
    (cd "${2:-.}" && bash tests/archives.sh "$1") >"$out/proved" 2>&1 || { cat "$out/proved"; exit 1; }
}

# timed PROGRAM ARCHIVE..: the program bench/PROGRAM.rs, linked with these archives. It is built twice: whether plain Rust copies a struct that
# it hands on by value hangs on how the compiler splits the program, and neither split is the better one for every call.
timed() {
    local program=$1 units
    shift
    for units in 1 16; do
        echo "$program, plain Rust in $units units of code:"
        rustc -C opt-level=3 -C codegen-units=$units --edition 2021 "bench/$program.rs" "${@/#/-Clink-arg=}" -o "$out/$program"
        "$out/$program"
    done
}

# 1,000,000 steps: the operations of 12 members in turn, on every slot.
busy() {
    awk 'BEGIN { print "members 12"; for (k = 0; k < 200000; k++) { m = k % 12 + 1; r = int(k / 12) % 12 + 1
        print (m == r ? "write " m " " k : "read " m " " r); for (i = 0; i < 4; i++) print "deliver " m } }'
}

# The program on whole operations of a board of 12, a tenth as many steps first: the cost of a step does not grow with the run.
program() {
    local board=target/bin/concur_board steps start end
    if [ ! -x "$board" ]; then
        echo "the board program is not timed: there is no $board: bash tests/programs.sh concur_board"
        return
    fi
    busy >"$out/script"
    for steps in 100000 1000000; do
        head -n $((steps + 1)) "$out/script" >"$out/part"
        start=$(date +%s%N)
        "$board" <"$out/part" >"$out/printed"
        end=$(date +%s%N)
        [ "$(wc -l <"$out/printed")" -eq $((steps + 1)) ]
        echo "concur_board, n = 12, $steps steps: $(((end - start) / 1000000)) ms, $(((end - start) / steps)) ns of a step"
    done
}

# by_turns WHAT ROUNDS BOARD_SCRIPT TOOL_SCRIPT TOOL [ARGUMENT..]: the board program on one script and target/bin/TOOL on the other, so many
# runs of each.
by_turns() {
    local board=target/bin/concur_board tool=target/bin/$5 times round
    for round in $(seq "$2"); do
        times=${EPOCHREALTIME/./}
        "$board" <"$3" >"$out/printed"
        times="$times ${EPOCHREALTIME/./}"
        "$tool" "${@:6}" <"$4" >"$out/printed"
        echo "$times ${EPOCHREALTIME/./}"
    done | awk -v what="$1" -v name="$5" '{ a = $2 - $1; b = $3 - $2
            if (NR == 1 || a < board) board = a; if (NR == 1 || b < tool) tool = b }
        END { printf "%s, the best of %d runs: concur_board %d us, %s %d us, ratio %.2f\n", what, NR, board, name, tool, tool / board }'
}

# built PROGRAM..: are they there? What a tool is timed beside is the board program.
built() {
    local program
    for program in "$@"; do
        [ -x "target/bin/$program" ] && continue
        echo "not timed: $* (there is no target/bin/$program: bash tests/programs.sh $program)"
        return 1
    done
}

# The tool that names who overtook an operation beside the board program, on one script of 65,535 bytes.
overtaker() {
    built concur_board concur_overtaker || return 0
    # Two members' operations on one slot cross, the next two's on the next; lines that are refused fill what is left.
    awk 'BEGIN { print "members 12"; left = 65535 - 11
        while (1) { m = k % 12 + 1; r = (k + 1) % 12 + 1; k++
            s = "read " m " " r "\ndeliver " m "\nwrite " r " " k "\ndeliver " r "\n"
            for (i = 0; i < 3; i++) s = s "deliver " m "\ndeliver " r "\n"
            if (left - length(s) < 20) break
            printf "%s", s; left -= length(s) }
        while (left >= 20) { print "deliver 0"; left -= 10 }
        printf "write 0 "; for (left -= 9; left > 0; left--) printf "1"; print "" }' >"$out/script"
    [ "$(wc -c <"$out/script")" -eq 65535 ]
    [ "$(target/bin/concur_overtaker 1 1 <"$out/script")" = "2 4" ]
    by_turns "65,535 bytes" 100 "$out/script" "$out/script" concur_overtaker 1 1
}

# The tool that finds the step that cost an operation on a script of 256 steps of which none is found, beside the board program on 65,536:
# these steps over and over. Members 2 and 3 overtake member 1 at the start, its verdict falls at the end, and in between others are busy.
cause() {
    built concur_board concur_cause || return 0
    awk 'BEGIN { print "write 1 7\ndeliver 1\nread 2 1\ndeliver 2\nread 3 1\ndeliver 3"
        for (k = 0; lines < 248; k++) { m = 4 + k % 9; print "read " m " " 4 + (k + 1) % 9; lines++
            for (i = 0; i < 4 && lines < 248; i++) { print "deliver " m; lines++ } }
        print "deliver 1\ndeliver 1" }' >"$out/steps"
    [ "$(wc -l <"$out/steps")" -eq 256 ]
    (echo "members 12"; cat "$out/steps") >"$out/script"
    (echo "members 12"; for _ in $(seq 256); do cat "$out/steps"; done) >"$out/long"
    [ "$(target/bin/concur_cause 1 1 <"$out/script")" = none ]
    by_turns "256 steps beside 65,536" 40 "$out/long" "$out/script" concur_cause 1 1
}

# The bill program beside the board program, on the same 1,000,000 steps.
bill() {
    built concur_board concur_bill || return 0
    busy >"$out/script"
    by_turns "1,000,000 steps" 10 "$out/script" "$out/script" concur_bill
}

# earlier CRATE PROGRAM: bench/PROGRAM.rs with the crate's archive here and, each of its functions under another name, the revision's. They
# are linked in either order: the one that comes first lies otherwise in memory, and that alone moves a figure by some percent.
earlier() {
    archive "$1" "$out/revision"
    nm --defined-only -g "$out/revision/target/staticlib/lib$1.a" | awk '$2 == "T" { print $3, "earlier_" $3 }' >"$out/names"
    objcopy --redefine-syms="$out/names" "$out/revision/target/staticlib/lib$1.a" "$out/libearlier_$1.a"
    archive "$1"
    timed "$2" "$out/libearlier_$1.a" "target/staticlib/lib$1.a"
    timed "$2" "target/staticlib/lib$1.a" "$out/libearlier_$1.a"
}

if [ $# -gt 0 ]; then
    mkdir "$out/revision"
    git archive "$1" | tar -x -C "$out/revision"
    earlier messages earlier_check
    earlier board earlier_board
    exit
fi
archive messages
archive test_calls
timed messages target/staticlib/libtest_calls.a target/staticlib/libmessages.a
archive board
timed board target/staticlib/libboard.a
archive log_check
timed log target/staticlib/liblog_check.a
program
overtaker
cause
bill
