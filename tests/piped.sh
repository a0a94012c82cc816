# Sourced by the tests that feed a program through a pipe, with the program and its arguments in the array `program` and what the test is
# called in `called`: a work folder with the pipe, and what is looked at after a run. `counted` ends the test.
work=$(mktemp -d)
trap 'rm -rf "$work"' EXIT
mkfifo "$work/pipe"
tried=0 wrong=0

# same NAME: the program's output is the one expected, and it had ended by itself, with nothing on standard error.
same() {
    tried=$((tried + 1))
    if [ "$status" -ne 0 ] || [ -s "$work/errors" ] || ! cmp "$work/out" "$work/expected"; then
        wrong=$((wrong + 1))
        echo "$called: $1 (status $status)"
        head -c 300 "$work/errors"
    fi
}

# said NAME FILE TEXT: the file holds one line, and it begins with the text.
said() {
    tried=$((tried + 1))
    if [ "$(wc -l <"$2")" -ne 1 ] || [ "$(head -c ${#3} "$2")" != "$3" ]; then
        wrong=$((wrong + 1))
        echo "$called: $1"
        head -c 300 "$2"
    fi
}

# silent NAME FILE: the file is empty.
silent() {
    tried=$((tried + 1))
    if [ -s "$2" ]; then
        wrong=$((wrong + 1))
        echo "$called: $1"
        head -c 300 "$2"
    fi
}

# run [OUTPUT]: the program on the pipe, for 40 seconds at most.
run() {
    status=0
    timeout 40 "${program[@]}" <"$work/pipe" >"${1:-$work/out}" 2>"$work/errors" || status=$?
}

# fed PIECE..: the program on the pipe that these pieces come through, each with a pause behind it. It may end before the last one.
fed() {
    { for piece; do printf "$piece"; sleep 0.05; done; } >"$work/pipe" &
    run
    wait $! || true
}

# full SIZE REST SCRIPT: the program on a pipe that holds SIZE bytes of the script before it starts; REST bytes more come after a pause.
full() {
    exec 3<>"$work/pipe" 4<"$work/pipe" 5>"$work/pipe" 3>&-
    head -c "$1" "$3" >&5
    { sleep 0.2; tail -c +$(($1 + 1)) "$3" | head -c "$2" >&5; } 4<&- &
    exec 5>&-
    status=0
    timeout 40 "${program[@]}" <&4 >"$work/out" 2>"$work/errors" || status=$?
    exec 4<&-
    wait $! || true
}

# buffer REST: a read of exactly the buffer's size. The pipe holds 65,536 bytes of $work/script before the program starts, and REST more
# come after a pause.
buffer() {
    full 65536 "$1" "$work/script"
    same "a read of 65,536 bytes, and $1 behind them"
}

# refused_open: a refused first line ends the program, though the pipe stays open.
refused_open() {
    { printf 'members 13\n'; exec sleep 90; } >"$work/pipe" &
    run
    kill $!
    echo 'board refused 1' >"$work/expected"
    same "a refused first line, and the pipe stays open"
}

# last_step LAST BEHIND: behind the 999,999 steps of $work/script LAST comes after a pause, and ends the program though BEHIND comes too and
# the pipe stays open.
last_step() {
    { cat "$work/script"; sleep 1; echo "$1"; sleep 0.2; echo "$2" || true; exec sleep 90; } >"$work/pipe" 2>/dev/null &
    run
    kill $! || true
    same "step 1,000,000, and the pipe stays open"
}

# unreadable: where reading fails, nothing is printed, and standard error says so.
unreadable() {
    "${program[@]}" <"$work" >"$work/out" 2>"$work/errors" || true
    silent "output of a folder" "$work/out"
    said "reading a folder" "$work/errors" "standard input"
    "${program[@]}" <&- >"$work/out" 2>"$work/errors" || true
    silent "output of a closed input" "$work/out"
    said "reading a closed input" "$work/errors" "standard input"
}

# unwritable SCRIPT: where writing fails at the end of a script, standard error says so.
unwritable() {
    printf "$1" | "${program[@]}" >/dev/full 2>"$work/errors" || true
    said "writing at the end to a full device" "$work/errors" "standard output"
}

# counted: the last line, and the status.
counted() {
    echo "$called: tried $tried, wrong $wrong"
    [ "$wrong" -eq 0 ]
}
