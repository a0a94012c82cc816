#!/bin/bash
# Usage: mutants.sh OUTDIR [PATTERN]   (after build.sh OUTDIR)
# Makes wrong stub libraries, wrong simulators and wrong tools, one fault each,
# and sees that capi, interleavings, halves, compare_scripts.sh, compare_tools,
# overtaker_pipe.sh, cause_pipe.sh, bill_pipe.sh or selftest notices every one.
# With a pattern only those whose name it matches, as '^bill'.
if [ $# -lt 1 ] || [ $# -gt 2 ] || [ ! -x "$1/simulator" ]; then
    echo "usage: mutants.sh OUTDIR [PATTERN], after build.sh OUTDIR"
    exit 2
fi
out=$(readlink -f "$1")
here=$(readlink -f "$(dirname "$0")")
work=$out/mutants
shared=$out/shared
pattern=${2:-}
noticed=0
missed=0
rm -rf "$shared"
mkdir -p "$shared"

wanted() { # name
    [[ $1 =~ $pattern ]]
}

spoil() { # files, perl change, which must change each of them
    rm -rf "$work"
    mkdir -p "$work/source"
    cp "$here"/*.rs "$work/source/"
    for file in $1; do
        perl -0pi -e "$2" "$work/source/$file"
        if cmp -s "$here/$file" "$work/source/$file"; then
            echo "NOT CHANGED: $file by $2"
            exit 2
        fi
    done
}

verdict() { # name, 1 if noticed, by what
    if [ "$2" = 1 ]; then
        noticed=$((noticed + 1))
        echo "noticed: $1 ($3)"
    else
        missed=$((missed + 1))
        echo "MISSED: $1"
    fi
}

shared_library() { # source folder
    rustc -A warnings -O --edition 2021 --crate-type cdylib "$1/stub_library.rs" -o "$shared/libconcur.so" || exit 2
}

linked_once() { # capi, interleavings and halves, against a shared library that is then replaced by each wrong one
    [ ! -x "$shared/halves" ] || return
    shared_library "$here"
    for linked in capi interleavings halves; do
        rustc -O --edition 2021 "$here/$linked.rs" -o "$shared/$linked" -C link-arg="$shared/libconcur.so" || exit 2
    done
    for linked in capi halves; do
        "$shared/$linked" 1 > "$shared/log" || { echo "the right library does not pass"; cat "$shared/log"; exit 2; }
    done
}

library() { # name, file, perl change, "too" where interleavings is asked in any case
    wanted "$1" || return
    linked_once
    spoil "$2" "$3"
    shared_library "$work/source"
    by=""
    "$shared/capi" 1 > "$work/log" 2>&1 || by="capi"
    if [ -z "$by" ] || [ "$4" = too ]; then
        "$shared/interleavings" without-crashes >> "$work/log" 2>&1 || by="$by interleavings"
    fi
    verdict "$1" "$([ -n "$by" ] && echo 1)" "$by: $(grep -h DIFF "$work/log" | head -1 | cut -c1-110)"
}

ask_halves() { # name, of the wrong library that stands there
    if "$shared/halves" 0 > "$work/log" 2>&1; then
        verdict "$1" 0
    else
        verdict "$1" 1 "$(grep -h DIFF "$work/log" | head -1 | cut -c1-180)"
    fi
}

half() { # name, file, perl change: what capi and interleavings cannot notice
    wanted "$1" || return
    linked_once
    spoil "$2" "$3"
    shared_library "$work/source"
    ask_halves "$1"
}

everywhere() { # name, perl change to what board and halves share in board.rs, "too": each is asked
    wanted "$1" || return
    library "$1" board.rs "$2" "$3"
    ask_halves "$1, in the halves"
}

alone() { # name, files, perl change: what the simulator must notice by itself; the one part of selftest that is asked, or all
    wanted "$1" || return
    spoil "$2" "$3"
    if [ -n "$4" ]; then
        perl -0pi -e "s/\n    layout\(\);.*(?=\n    println!\(.all passed)/\n    $4::all(\&mut Rng::new(seed));/s" "$work/source/selftest.rs"
    fi
    rustc -A warnings -O -C incremental="$shared/incremental" --edition 2021 "$work/source/selftest.rs" -o "$work/wrong" || exit 2
    if "$work/wrong" 1 3 > "$work/log" 2>&1; then
        verdict "$1" 0
    else
        verdict "$1" 1 "$(grep -ho 'panicked at .*' "$work/log" | head -1)"
    fi
}

program() { # name, file, perl change
    wanted "$1" || return
    [ -d "$out/scripts" ] || "$out/gen_scripts" "$out/scripts" 1 100
    spoil "$2" "$3"
    rustc -A warnings -O --edition 2021 "$work/source/main_sim.rs" -o "$work/wrong" || exit 2
    if "$here/compare_scripts.sh" "$work/wrong" "$out/simulator" "$out/scripts" > "$work/log"; then
        verdict "$1" 0
    else
        verdict "$1" 1 "$(tail -1 "$work/log")"
    fi
}

wrong_tool() { # tool, files, perl change
    spoil "$2" "$3"
    rustc -A warnings -O --edition 2021 "$work/source/$1_sim.rs" -o "$work/wrong" || exit 2
}

compare_tool() { # tool, program, log
    "$out/compare_tools" "$1" "$out/asked_$1" 1 50 "$2" > "$3" 2>&1
}

right_once() { # tool, of which the right one has to pass
    [ ! -e "$shared/$1" ] || return
    compare_tool "$1" "$out/$1_simulator" "$shared/log" || { echo "the right tool does not pass"; tail -1 "$shared/log"; exit 2; }
    touch "$shared/$1"
}

tool() { # tool, name, files, perl change: a wrong tool, or a wrong bill program
    wanted "$1: $2" || return
    right_once "$1"
    wrong_tool "$1" "$3" "$4"
    if compare_tool "$1" "$work/wrong" "$work/log"; then
        verdict "$1: $2" 0
    else
        verdict "$1: $2" 1 "$(grep -a DIFF "$work/log" | head -1 | sed "s/^DIFF.*wrong//" | cut -c1-160)"
    fi
}

overtaker() { # name, perl change to overtaker.rs or the files named, which the simulator must notice by itself too
    tool overtaker "$1" "${3:-overtaker.rs}" "$2"
    alone "overtaker alone: $1" "${3:-overtaker.rs}" "$2"
}

cause() { # the same of cause.rs
    tool cause "$1" "${3:-cause.rs}" "$2"
    alone "cause alone: $1" "${3:-cause.rs}" "$2"
}

both_tools() { # name, file, perl change to what the tools share
    tool overtaker "$1" "$2" "$3"
    tool cause "$1" "$2" "$3"
}

asked() { # name, perl change to asked.rs, which the simulator must notice by itself too
    both_tools "$1" asked.rs "$2"
    alone "tools alone: $1" asked.rs "$2"
}

bill() { # the same of bill.rs
    tool bill "$1" "${3:-bill.rs}" "$2"
    alone "bill alone: $1" "${3:-bill.rs}" "$2" billed
}

piped() { # tool, name, file, perl change: what shows through a pipe alone
    wanted "$1: $2" || return
    wrong_tool "$1" "$3" "$4"
    if bash "$here/../$1_pipe.sh" "$work/wrong" > "$work/log" 2>&1; then
        verdict "$1: $2" 0
    else
        verdict "$1: $2" 1 "$(tail -1 "$work/log")"
    fi
}

piped_tools() { # name, file, perl change to what the tools share that are asked about an operation
    piped overtaker "$@"
    piped cause "$@"
}

library "an overtaken submit clears the mark" board.rs 's/entry.submit_member = member;/entry.submit_member = if entry.submit_member != 0 { 0 } else { member };/' too
library "the first submit keeps the mark" board.rs 's/entry.submit_member = member;\n    entry.submit_count = count;/if entry.submit_member == 0 { entry.submit_member = member; entry.submit_count = count; }/' too
library "mark not cleared after an accepted commit" board.rs 's/entry.submit_member = 0;\n    entry.submit_count = 0;\n    ACCEPTED/ACCEPTED/'
library "nothing is stored" board.rs 's/if record.member == record.slot \{/if false {/' too
library "an aborted matrix is taken over" board.rs 's/(fn step_outcome.*?let mut returned = None;)/$1 block.known = block.first.matrix.clone();/s' too
library "no check 22" board.rs 's/if checks.fails_22\(\)/if false/'
library "check 22 also for the member itself" board.rs 's/k != self.m && //'
library "no check 24" board.rs 's/stored.member != block.slot/false/'
library "check 24 against the member" board.rs 's/stored.member != block.slot/stored.member == member/'
library "check 25 without its second part" board.rs 's/self.compare\(self.stored\[self.r\]\[self.r\], .*?\).is_ne\(\)/false/'
library "no check 26" board.rs 's/if checks.fails_26\(\)/if false/'
library "check 26 also for the own row" board.rs 's/if k == self.r \{\n                continue;/if false {\n                continue;/'
library "no check 27" board.rs 's/if checks.fails_27\(\)/if false/'
library "27 before 26" board.rs 's/if checks.fails_26\(\) \{\n        26\n    \} else if checks.fails_27\(\) \{\n        27/if checks.fails_27() {\n        27\n    } else if checks.fails_26() {\n        26/'
library "counts compared with a sign" board.rs 's/a.cmp\(&b\)/(a as i32).cmp(\&(b as i32))/'
library "counts compared by their low half" board.rs 's/a.cmp\(&b\)/(a as u16).cmp(\&(b as u16))/'
library "rows joined by counts with a sign" board.rs 's/if a\[k\] > b\[k\]/if a[k] as i32 > b[k] as i32/'
library "rows joined by the low half of counts" board.rs 's/if a\[k\] > b\[k\]/if a[k] as u16 > b[k] as u16/'
library "always the newest row" board.rs 's/\} else if row_below\(&block.known\[k\], &newest.matrix\[k\]\) \{/} else if true {/'
library "own entry not replaced" board.rs 's/matrix\[k\]\[m\] = own_count\(block\);//'
library "a halt keeps the messages" board.rs 's/(block.halt_number = halt;)\n.*?\n.*?\n/$1\n/'
library "a halt clears the slot" board.rs 's/(block.halt_number = halt;)/$1 block.slot = 0;/'
library "commit with the message record fields" board.rs 's/fn commit_of\(block: &Block, member: u32\) -> Record \{/fn commit_of(block: &Block, member: u32) -> Record { if block.first.slot != 0 { return block.first.clone(); }/'
library "commit with the pending sheet" board.rs 's/sheet: block.first.sheet/sheet: block.pending_sheet/'
library "read returns the own sheet" board.rs 's/Some\(block.second.sheet\)/Some(block.first.sheet)/' too
library "pending sheet of a read is zero" board.rs 's/block.pending_sheet = block.last_sheet;/block.pending_sheet = [0; 8];/'
library "last sheet taken by reads too" board.rs 's/if block.op_type == WRITE \{\n            block.last_sheet = block.pending_sheet;/if block.op_type == WRITE { block.last_sheet = block.first.sheet;/'
library "begin zeroes the messages" board.rs 's/block.phase = SUBMIT_SENT;\n\}/block.phase = SUBMIT_SENT; let n = block.known.len() as u32; block.second = zero_record(n);\n}/'
library "a crashed member gets replies" board.rs 's/to_the_member && block.crash_mark == 1/false/'
library "a crashed member sends nothing" board.rs 's/to_the_member && block.crash_mark == 1/block.crash_mark == 1/'
library "crash of a halted member" board.rs 's/block.crash_mark == 1 \|\| block.phase == HALTED/block.crash_mark == 1/'
library "9 one early" board.rs 's/>= limit \{\n        return 9/>= limit - 1 {\n        return 9/'
library "5 before 4" board.rs 's/return 4;\n    \}\n    if !in_range\(slot, n\) \{\n        return 5/return if in_range(slot, n) { 4 } else { 5 };\n    }\n    if !in_range(slot, n) {\n        return 5/'
library "second message record not checked" board.rs 's/ \|\| record_words_bad\(&words\[second_start\(n\)..\], n\)//'
library "newest record not checked" board.rs 's/\n        \|\| record_words_bad\(&words\[2 \+ record_words\(n\)..\], n\)//'
library "halt number 28 taken" board.rs 's/halt_number > 27/halt_number > 28/'
library "phase 6 needs a slot" board.rs 's/phase >= 1 && phase <= 5/phase >= 1/'
library "length before n" board.rs 's/table.is_empty\(\) \|\| !n_is_good\(table\[0\]\)/table.is_empty()/; s/if table.len\(\) != table_words\(n\) \{\n        return 2;\n    \}\n    for member/if table.len() != table_words(n) { return 2; }\n    if !n_is_good(n) { return 3; }\n    for member/'
library "returned touched at a refusal" c_sim.rs 's/let answer = board::deliver\(table, member\);/let answer = board::deliver(table, member); returned[0] = 0;/'
library "returned not cleared" c_sim.rs 's/for i in 0..9 \{/for i in 0..1 {/'
library "length of value after 4" c_sim.rs 's/if value.len\(\) != 8 \{/if value.len() != 8 \&\& member >= 1 \&\& member <= table[0] {/; s/sheet.copy_from_slice\(value\)/if value.len() == 8 { sheet.copy_from_slice(value) }/'
library "message length not compared" messages.rs 's/if length != length_field\(kind, n\) \{/if length < length_field(kind, n) {/'
library "message n not compared" messages.rs 's/if bytes\[4\] as u32 != n \{/if bytes[4] == 0 {/'
library "second record of a reply not checked" messages.rs 's/if record_fields_bad\(&second, n\) \{/if false {/'
library "kind before version" messages.rs 's/if bytes\[2\] != 1 \{/if bytes[2] != 1 \&\& bytes[3] >= 1 \&\& bytes[3] <= 4 {/'

half "a half's n after its length" board.rs 's/(fn check_block.*?)(    if !n_is_good\(n\) \{\n        return 1;\n    \}\n)(    if words.len\(\) != block_words\(n\) \{)/$1    if n < 99 \&\& words.len() != block_words(n) {\n        return 2;\n    }\n$2$3/s'
half "3 on the first entry alone" board.rs 's/(fn check_entries.*?for slot in 1..=)n/${1}1/s'
half "3 does not use a member that is not there" board.rs 's/(fn check_block.*?)block_words_bad\(words, n, member\)/$1(in_range(member, n) \&\& block_words_bad(words, n, member))/s'
half "10 before 4 at a reply" board.rs 's/(fn half_take_reply.*?)(    if !in_range\(member, n\) \{\n        return Err\(4\);\n    \}\n)(.*?return Err\(10\);\n    \}\n)/$1$3$2/s'
half "15 before 10 at a reply" board.rs 's/(    if block.phase != SUBMIT_SENT \|\| block.crash_mark == 1 \{.*?\n    \}\n)(    if seals > 3 .*?\n    \}\n)/$2$1/s'
half "15 before 10 at an outcome" board.rs 's/(    if block.phase != COMMIT_SENT \|\| block.crash_mark == 1 \{.*?\n    \}\n)(    if outcome != ACCEPTED .*?\n    \}\n)/$2$1/s'
half "a reply is taken in phase 2" board.rs 's/if block.phase != SUBMIT_SENT \|\|/if block.phase != SUBMIT_SENT \&\& block.phase != REPLY_SENT ||/'
half "an outcome is taken in phase 4" board.rs 's/if block.phase != COMMIT_SENT \|\|/if block.phase != COMMIT_SENT \&\& block.phase != ACCEPTED_SENT ||/'
half "a crashed half takes a reply" board.rs 's/block.phase != SUBMIT_SENT \|\| block.crash_mark == 1/block.phase != SUBMIT_SENT/'
half "a crashed half takes an outcome" board.rs 's/block.phase != COMMIT_SENT \|\| block.crash_mark == 1/block.phase != COMMIT_SENT/'
half "seal of the newest record alone" board.rs 's/if seals != 3/if seals \& 1 == 0/'
half "seal of the stored record alone" board.rs 's/if seals != 3/if seals \& 2 == 0/'
half "one seal is enough" board.rs 's/if seals != 3/if seals == 0/'
half "seals 4 is a halt" board.rs 's/if seals > 3/if seals > 4/'
half "the fields of a reply's stored record are not judged" board.rs 's/ \|\| record_fields_bad\(stored, n\) \{/ {/'
half "a stored record of another member is 15" board.rs 's/ \|\| record_fields_bad\(stored, n\) \{/ || record_fields_bad(stored, n) || stored.member != block.slot {/'
half "the newest record is kept for the outcome" board.rs 's/(step_reply\(&mut block, n, member, seals, newest, stored\);)/$1 if block.phase == COMMIT_SENT { block.second = newest.clone(); }/'
half "the stored record's slot is set to the block's" board.rs 's/(step_reply\(&mut block, n, member, seals, newest, stored\);)/$1 if block.phase == COMMIT_SENT { block.second.slot = block.slot; }/'
half "an aborted read returns a value" board.rs 's/let returned = step_outcome\(&mut block, n, outcome\);/let value = if block.op_type == READ { Some(block.second.sheet) } else { None };\n    step_outcome(\&mut block, n, outcome);\n    let returned = value;/'
half "11 before 4 in a half" board.rs 's/(fn half_crash.*?)    if !in_range\(member, n\) \{\n        return 4;/$1    if !in_range(member, n) {\n        return if words[1] == 1 { 11 } else { 4 };/s'
half "a submit lands in the next entry" board.rs 's/put_entry_in\(entries, n, submit.slot, &entry\)/put_entry_in(entries, n, submit.slot % n + 1, \&entry)/'
half "a submit's count is judged" board.rs 's/(fn host_submit.*?let ground = )/$1if submit.count == 0 { 6 } else { 0 }; if ground != 0 { return Err(ground); } let ground = /s'
half "the host hands out stored and newest" calls_sim.rs 's/records_to_words\(newest, stored\)/records_to_words(stored, newest)/'
half "unused counts are read" flat.rs 's/(fn record_from_words.*?)words\[count_place\(row, column\)\]/${1}words[12 + row * n as usize + column]/s'
half "unused counts are judged" calls_sim.rs 's/let newest = record_from_words\(records, n\);/let newest = record_from_words(records, n); if n < 12 \&\& records[count_place(0, n as usize)] != 0 { return 15; }/'
half "unused counts are not zero" flat.rs 's/let mut words = vec!\[0; RECORD\]/let mut words = vec![1; RECORD]/'
half "a refused message leaves the fields" calls_sim.rs 's/fields.fill\(0\);//'
half "a refused outcome leaves what was returned" calls_sim.rs 's/returned.fill\(0\);/if board::half_take_outcome(\&mut block.to_vec(), n, member, outcome).number == 0 { returned.fill(0); }/'
half "a length beside is looked at after n" calls_sim.rs 's/if records.len\(\) != RECORDS \|\|/if n_is_good(n) \&\& records.len() != RECORDS ||/'
half "results are filled at a wrong length" calls_sim.rs 's/if record.len\(\) != RECORD \|\| outcome.len\(\) != 1 \{/if record.len() != RECORD || outcome.len() != 1 {\n            outcome.fill(0);/'
half "words past a block are written" stub_calls.rs 's/Simulator::crash\(lent\(block, words\), n, member\)/lent(block, words + 1)[words] = 0;\n    Simulator::crash(lent(block, words), n, member)/'
half "a submit's count read from its other end" messages.rs 's/count: number_at\(bytes, 7\)/count: number_at(bytes, 7).swap_bytes()/'
half "rows read as columns" messages.rs 's/record.matrix\[row\]\[column\] = number_at/record.matrix[column][row] = number_at/'
half "a value read from its last word on" messages.rs 's/record.sheet\[i\] = number_at/record.sheet[7 - i] = number_at/'
half "a reply's records read in the other order" messages.rs 's/Message::Reply \{ newest: first, stored: second \}/Message::Reply { newest: second, stored: first }/'
half "a written record's slot before its member" messages.rs 's/out.push\(record.member as u8\);\n    out.push\(record.slot as u8\);/out.push(record.slot as u8);\n    out.push(record.member as u8);/'
half "the length field counts itself" messages.rs 's/output\[1\] = \(body.len\(\) % 256\)/output[1] = (whole % 256)/'
half "the written length without the length field" messages.rs 's/Ok\(whole\)/Ok(whole - 2)/'
half "the writer clears the rest of the output" messages.rs 's/(output\[2..whole\].copy_from_slice\(&body\);)/$1 output[whole..].fill(0);/'
half "the writer judges the low byte alone" messages.rs 's/three_bad\(s.member, /three_bad(s.member \& 255, /'
half "an output one byte longer is asked for" messages.rs 's/output.len\(\) < whole/output.len() <= whole/'
half "16 before 15" messages.rs 's/if bad \{\n        return Err\(15\)/if bad {\n        return Err(if output.len() < 5 { 16 } else { 15 })/'
half "15 before 1 in the writer" calls_sim.rs 's/written\[0\] = 0;/written[0] = 0; if fields[0] == 0 || fields[0] > 4 { return 15; }/'
half "a kind that is none is 14 in the writer" calls_sim.rs 's/None => return 15/None => return 14/'

half "the entry that 22 skips is counted" board.rs 's/(if k != self.m && )/if k == self.m { self.pairs += 1; }\n            $1/'
half "the pair that fails in 22 is not counted" board.rs 's/(fn fails_22.*?)return true;/$1self.pairs -= 1;\n                return true;/s'
half "25 leaves a row at the entry that fails" board.rs 's/let \(_, greater\) = self.compare_rows\(&self.stored\[k\], &self.newest\[k\]\);/let greater = (0..self.stored.len()).any(|c| self.compare(self.stored[k][c], self.newest[k][c]).is_gt());/'
half "25 goes on after a row that fails" board.rs 's/if greater \{\n/if greater {\n                for row in k + 1..self.stored.len() { self.compare_rows(\&self.stored[row], \&self.newest[row]); }\n/'
half "r in row r is counted where a row failed" board.rs 's/if greater \{\n/if greater {\n                self.pairs += 1;\n/'
half "r in row r is not counted" board.rs 's/self.compare\(self.stored\[self.r\]\[self.r\], (.*?)\).is_ne\(\)/self.stored[self.r][self.r] != $1/'
half "26 leaves a row where it is crossed" board.rs 's/let \(less, greater\) = self.compare_rows\(.*?\);/let (mut less, mut greater) = (false, false);\n            for c in 0..self.known.len() {\n                let order = self.compare(self.known[k][c], self.newest[k][c]);\n                (less, greater) = (less || order.is_lt(), greater || order.is_gt());\n                if less \&\& greater { break; }\n            }/'
half "22 goes from the last entry to the first" board.rs 's/(fn fails_22.*?for k in )(0..self.known.len\(\))/$1($2).rev()/s'
half "25 goes from the last row to the first" board.rs 's/(fn fails_25.*?for k in )(0..self.stored.len\(\))/$1($2).rev()/s'
half "26 goes from the last row to the first" board.rs 's/(fn fails_26.*?for k in )(0..self.known.len\(\))/$1($2).rev()/s'
half "27 goes from the last row to the first" board.rs 's/(fn fails_27.*?for k in )(0..self.newest.len\(\))/$1($2).rev()/s'
half "25 goes by member and then row" board.rs 's/let \(_, greater\) = self.compare_rows\(&self.stored\[k\], &self.newest\[k\]\);/let column = |matrix: \&Matrix| -> Vec<u32> { matrix.iter().map(|row| row[k]).collect() };\n            let (stored, newest) = (column(self.stored), column(self.newest));\n            let (_, greater) = self.compare_rows(\&stored, \&newest);/'
half "the unused counts of a row are counted" board.rs 's/(let \(mut less, mut greater\) = .*?;)/$1 self.pairs += 12 - a.len() as u32;/'
half "the slot's own row is counted in 26" board.rs 's/if k == self.r \{\n/if k == self.r {\n                self.compare_rows(\&self.known[k], \&self.newest[k]);\n/'
half "the slot's own row is counted in 27" board.rs 's/(if k != self.r && )/if k == self.r { self.pairs += 1; }\n            $1/'
half "the pair that fails in 27 is not counted" board.rs 's/(fn fails_27.*?)return true;/$1self.pairs -= 1;\n                return true;/s'
half "27 goes on after a pair that fails" board.rs 's/(fn fails_27.*?)return true;/$1self.pairs += (k + 1..self.newest.len()).filter(|j| *j != self.r).count() as u32;\n                return true;/s'
half "24 forgets the pairs" board.rs 's/(Verdict \{ halt, pairs:) checks.pairs/$1 if halt == 24 { 0 } else { checks.pairs }/'
half "24 is a pair" board.rs 's/(Verdict \{ halt, pairs:) checks.pairs/$1 checks.pairs + (halt == 0 || halt >= 24) as u32/'
half "the pairs start again at 25" board.rs 's/(fn fails_25.*?\n)/$1        self.pairs = 0;\n/'
half "the pairs start again at 27" board.rs 's/(fn fails_27.*?\n)/$1        self.pairs = 0;\n/'
half "the pairs are kept in a byte" board.rs 's/(Verdict \{ halt, pairs:) checks.pairs/$1 checks.pairs as u8 as u32/'
half "the ceiling is given for every reply" board.rs 's/(let Verdict \{ halt, )pairs( \} = .*?;)/$1..$2 let pairs = 2 * n * n + n;/'
half "the rows that are joined are counted" board.rs 's/(block.phase = COMMIT_SENT;\n    pairs)\n/$1 + n * (n - 1)\n/'
half "a halt gives no pairs" board.rs 's/Ok\(Taken \{ commit, pairs \}\)/Ok(Taken { pairs: if commit.is_some() { pairs } else { 0 }, commit })/'
half "a refused reply leaves the pairs" calls_sim.rs 's/pairs\[0\] = 0;//'
half "pairs are filled at a wrong length" calls_sim.rs 's/(pairs.len\(\) != 1 \{\n)/$1            pairs.fill(0);\n/'
half "two words for the pairs are taken" calls_sim.rs 's/pairs.len\(\) != 1/pairs.is_empty()/'
half "no word for the pairs is taken" calls_sim.rs 's/pairs.len\(\) != 1/pairs.len() > 1/; s/(pairs.len\(\) > 1 \{.*?\n        \}\n)/$1        let mut one = [0]; let pairs = if pairs.is_empty() { \&mut one[..] } else { pairs };\n/s'

# A member reads its own slot: what becomes stored.
owner='if record.member == record.slot \{'
by_type='s/'$owner'/if record.op_type == WRITE {/'
all_stored='s/'$owner'/if true {/'
own_record='record.member == record.slot \&\& record.op_type == READ'
everywhere "an owner's read is not stored" "$by_type" too
everywhere "another's read is stored too" "$all_stored" too
everywhere "an owner's write is not stored" "s/$owner/if $own_record {/" too
everywhere "reads are stored, and writes are not" "s/$owner/if record.op_type == READ {/" too
everywhere "the owner is who made the stored record" "s/$owner/if record.member == entry.stored.member {/"
everywhere "what is stored is a write" 's/(entry.stored = )record.clone\(\)/$1Record { op_type: WRITE, ..record.clone() }/'
everywhere "an owner's read leaves the stored sheet" \
    's/(entry.stored = record.clone\(\);)/let sheet = entry.stored.sheet; $1 if record.op_type == READ { entry.stored.sheet = sheet; }/'
everywhere "of an owner's read the matrix alone is stored" \
    's/(entry.stored) = record.clone\(\);/if record.op_type == READ { $1.matrix = record.matrix.clone(); } else { $1 = record.clone(); }/'
everywhere "an owner's read is not the newest record" "s/(entry.newest = record.clone\\(\\);)/if !($own_record) { \$1 }/" too
everywhere "an owner's read leaves its mark" "s/(entry.submit_member = 0;\\n *entry.submit_count = 0;)/if !($own_record) { \$1 }/"

# Whom it aborts, and who aborts it.
never_aborted="s/if (entry.submit_member != record.member \\|\\| .*?) \\{/if !($own_record) \\&\\& (\$1) {/"
own_submit='submit.op_type == READ \&\& submit.member == submit.slot'
own='block.op_type == READ \&\& member == block.slot'
kept='before.submit_member != 0 { entry = before; }'
aborts_nobody="s/(let .newest, stored. = step_host_submit.*?;)/let before = entry.clone(); \$1 if $own \\&\\& $kept/"
everywhere "an own read is never aborted" "$never_aborted" too
library "an own read aborts nobody" board.rs "$aborts_nobody" too
half "an own read aborts nobody, in the host half" board.rs \
    "s/(let reply = step_host_submit.*?;)/let before = entry.clone(); \$1 if $own_submit \\&\\& $kept/"

# What it carries, and what checks it.
zeros="s/(step_begin\\(&mut block.*?\\);)/\$1 if $own { block.pending_sheet = [0; 8]; }/g"
everywhere "an own read carries zeros" "$zeros" too
everywhere "an own read carries the given sheet" "s/(step_begin\\(&mut block.*?\\);)/\$1 if $own { block.pending_sheet = *sheet; }/g" too
everywhere "an own read carries the stored sheet" "s/(sheet: )(block.pending_sheet),/\$1if $own { stored.sheet } else { \$2 },/"
for check in checks.fails_22 checks.fails_23 stored.member checks.fails_25 checks.fails_26 checks.fails_27; do
    everywhere "an own read is not checked by $check" "s/if ($check.*?) \\{/if !($own) \\&\\& (\$1) {/"
done
everywhere "24 at a stored read" 's/(stored.member != block.slot)/$1 || stored.op_type == READ/' too

# What it returns and leaves; the record under way says whose read it is.
own_sent='block.op_type == READ \&\& block.first.member == block.slot'
carried="s/Some\\((block.second.sheet)\\)/Some(if $own_sent { block.first.sheet } else { \$1 })/"
everywhere "an own read returns what it carries" "$carried"
everywhere "an own read returns the last own sheet" "s/Some\\((block.second.sheet)\\)/Some(if $own_sent { block.last_sheet } else { \$1 })/"
everywhere "an own read returns nothing" "s/(returned = Some\\(.*?\\);)/if !($own_sent) { \$1 }/" too
for sheet in block.second.sheet block.pending_sheet; do
    everywhere "an own read makes $sheet the last own" "s/(returned = Some\\(.*?\\);)/\$1 if $own_sent { block.last_sheet = $sheet; }/"
done
everywhere "an own read is no accepted count" "s/(block.accepted_counts\\[r\\] = .*?;)/if !($own_sent) { \$1 }/" too
everywhere "an own read's matrix is not taken over" "s/(block.known = block.first.matrix.clone\\(\\);)/if !($own_sent) { \$1 }/"

# Number 7, for an own read still and for a write no more, at each of its places.
for place in 'library begin' 'half half_begin' 'half host_submit' 'half host_commit'; do
    read -r driver function <<< "$place"
    grounds="(pub fn $function\\(.*?let ground = )(operation_grounds\\(n, (.*?), (.*?), (.*?)\\));"
    still="match \$2 { 0 if \$5 == READ \\&\\& \$3 == \$4 => 7, other => other }"
    "$driver" "7 for an own read in $function" board.rs "s/$grounds/\$1$still;/s"
    "$driver" "no 7 in $function" board.rs "s/$grounds/\$1match \$2 { 7 => 0, other => other };/s"
done
refused=' \|\| not_allowed\(member, slot, op_type\)'
everywhere "3 at a running own read" "s/($refused)/\$1 || (op_type == READ \\&\\& slot == member)/"
everywhere "3 at an own read in phase 5" "s/($refused)/\$1 || (phase == 5 \\&\\& op_type == READ \\&\\& slot == member)/"
everywhere "no 3 at a running write to another's slot" "s/$refused//"

# Auction boards: the limit and how many members. What is wrong on these boards alone is told by their limit.
in_auction='self.limit == 9_999'
for limit in 9_998 10_000; do
    everywhere "auction boards close at $limit" "s/limit: 9_999/limit: $limit/" too
done
everywhere "auction boards are closed" 's/limit: 9_999/limit: 0/'
everywhere "auction boards close as common ones do" 's/limit: 9_999/limit: u32::MAX/'
everywhere "common boards close at 9,999" 's/limit: 4_294_967_295/limit: 9_999/'
everywhere "common boards close one early" 's/limit: 4_294_967_295/limit: 4_294_967_294/'
nine='(fn begin_grounds.*?own_counts\[.*?\]) >= limit'
everywhere "9 at the limit alone" "s/$nine/\$1 == limit/s"
everywhere "9 above the limit alone" "s/$nine/\$1 > limit/s"
everywhere "9 by the low half of the count" "s/$nine/\$1 as u16 >= limit as u16/s"
everywhere "9 by counts with a sign" \
    "s/$nine/\$1 as i32 >= limit as i32 \\&\\& limit == 9_999 || block.own_counts[slot as usize - 1] == u32::MAX/s"
everywhere "9 by the accepted count" 's/(fn begin_grounds.*?)own_counts/$1accepted_counts/s'
everywhere "9 where any slot's count is spent" \
    's/(fn begin_grounds.*?)block.own_counts\[.*?\] >= limit/$1block.own_counts.iter().any(|count| *count >= limit)/s'
everywhere "9 before 8" 's/(fn begin_grounds.*?\n)(    if block.phase.*?\n    \}\n)(    if block.own_counts.*?\n    \}\n)/$1$3$2/s'
everywhere "auction boards of three" 's/most: 4/most: 3/'
everywhere "auction boards of five" 's/most: 4/most: 5/'
everywhere "common boards of four" 's/most: 12/most: 4/'
everywhere "auction begins on every board" 's/n > self.most/false/'
everywhere "common begins refuse 1 above 4" 's/n > self.most/n > 4/'
everywhere "3 above 4 members" 's/(n > self.most \{\n *return) 1/$1 3/'
everywhere "3 at a count above the limit" 's/(fn block_words_bad.*?\n)/$1    if n <= 4 \&\& words[5] > 9_999 { return true; }\n/s'
everywhere "an auction begin counts twice" \
    "s/(step_begin\\(&mut block.*?\\);)/\$1 if $in_auction { block.own_counts[slot as usize - 1] += 1; }/g" too
everywhere "an auction begin zeroes the value" "s/(step_begin\\(&mut block.*? )sheet\\)/\$1if $in_auction { \\&[0; 8] } else { sheet })/g"
everywhere "an auction begin clears the halt number" "s/(step_begin\\(&mut block.*?\\);)/\$1 if $in_auction { block.halt_number = 0; }/g"

# Its opening.
opens='(pub fn open\(.*?)if !in_range\(n, self.most\)'
library "an auction opening takes five" board.rs "s/$opens/\$1if !in_range(n, self.most + ($in_auction) as u32)/s"
library "an auction opening takes any n" board.rs "s/$opens/\$1if !n_is_good(n)/s"
library "an auction opening refuses four" board.rs "s/$opens/\$1if !in_range(n, self.most - ($in_auction) as u32)/s"
library "2 before 1 in opening" board.rs 's/(pub fn open\(.*?\n)(.*?return 1;\n *\}\n)(.*?return 2;\n *\}\n)/$1$3$2/s'
library "2 before 1 in an auction opening alone" board.rs \
    "s/$opens/\$1if n_is_good(n) \\&\\& table.len() != table_words(n) { return 2; }\\n        if !in_range(n, self.most)/s"
library "an auction opening tells its kind" board.rs "s/(table\\[0\\] = n;)/\$1 if $in_auction { table[3] = 21; }/"
library "an auction opening keeps old words" board.rs "s/(pub fn open\\(.*?for i in )0(..table.len)/\$1if $in_auction { 6 } else { 0 }\$2/s"

# The numbers before 4, each out of its place.
at_table='(pub fn check_table\(self.*?\{\n)'
at_block='(pub fn check_block\(self.*?\{\n)'
above='let n = table.first().copied().unwrap_or(0); if n > self.most'
too_many="$above \\&\\& n_is_good(n)"
library "1 before the table's 2" board.rs "s/$at_table/\$1 $too_many \\&\\& table.len() != table_words(n) { return 1; }\\n/s"
library "1 before the table's 3" board.rs "s/$at_table/\$1 $too_many \\&\\& table.len() == table_words(n) { return 1; }\\n/s"
library "1 before 3 for the table's n" board.rs "s/$at_table/\$1 $above \\&\\& $in_auction \\&\\& !n_is_good(n) { return 1; }\\n/s"
library "1 for an empty table" board.rs "s/$at_table/\$1 if $in_auction \\&\\& table.is_empty() { return 1; }\\n/s"
library "the value's 2 before 1" c_sim.rs 's/kind.check_table\(table\)/board::check_table(table)/'
library "the value's 2 before the table's 3" c_sim.rs \
    's/(let fault = )(kind.check_table\(table\));/$1if kind == board::AUCTION \&\& value.len() != 8 { 2 } else { $2 };/'
library "an auction begin takes any length of value" c_sim.rs \
    's/if (value.len\(\) != 8)/if kind == board::COMMON \&\& $1/; s/sheet.copy.*?;/for i in 0..8.min(value.len()) { sheet[i] = value[i]; }/'
half "1 above 4 before a half's 2" board.rs \
    "s/$at_block/\$1 if n > self.most \\&\\& n_is_good(n) \\&\\& words.len() != block_words(n) { return 1; }\\n/s"
half "1 above 4 before a half's 3" board.rs \
    "s/$at_block/\$1 if n > self.most \\&\\& n_is_good(n) \\&\\& words.len() == block_words(n) { return 1; }\\n/s"
half "a half's auction begin on every board" board.rs "s/$at_block.*?\\n/\$1        check_block(words, n, member)\\n/s"
beside='match value.try_into\(\) \{'
half "a half's 1 before the value's 2" calls_sim.rs \
    "s/($beside)/if kind == board::AUCTION \\&\\& !n_is_good(n) { return 1; }\\n        \$1/"
half "1 above 4 before a half's value" calls_sim.rs \
    "s/($beside)/if n_is_good(n) \\&\\& kind.check_block(block, n, member) == 1 { return 1; }\\n        \$1/"

# A later number before 1, on a table and in a half.
good='in_range(member, n) \&\& in_range(slot, n)'
for later in '4 !in_range(member, n)' '5 in_range(member, n) \&\& !in_range(slot, n)' "6 op_type == 3 \\&\\& $good" \
    "7 not_allowed(member, slot, op_type) \\&\\& $good" "8 $good \\&\\& block[0] != IDLE" \
    "9 $good \\&\\& block[4 + slot as usize] >= 9_999"; do
    read -r number ground <<< "$later"
    earlier="let fault = match fault { 1 if n_is_good(n) \\&\\& ($ground) => $number, other => other };"
    block='let n = table[0]; let block = if in_range(member, n) { \&table[block_start(n, member)..] } else { \&*table };'
    library "$number before 1" c_sim.rs \
        "s/self, Kind/self, */; s/(let fault = kind.check_table\\(table\\);)/\$1 if fault == 1 { $block $earlier return fault; }/"
    half "$number before 1 in a half" board.rs \
        "s/(let fault = self.check_block\\(words, n, member\\);)/\$1 let block = \\&*words; $earlier/"
done

# The steps that serve both kinds.
for step in deliver crash; do
    library "$step refuses 1 above 4" board.rs "s/(pub fn $step\\(.*?let fault = )check_table/\$1AUCTION.check_table/s"
done
for step in half_take_reply half_take_outcome half_crash; do
    half "$step refuses 1 above 4" board.rs "s/(pub fn $step\\(.*?let fault = )check_block/\$1AUCTION.check_block/s"
done
for count in '== 9_999' '> 9_999'; do
    library "nothing is delivered at a count $count" board.rs \
        "s/(fn deliver_grounds.*?\\n)/\$1    if block.phase == SUBMIT_SENT \\&\\& own_count(block) $count { return 10; }\\n/s"
done

# The calls themselves; a begin on a table or in a half alone.
library "an auction opening is the common one" stub_library.rs 's/open\(AUCTION/open(COMMON/'
library "an opening is the auction's" stub_library.rs 's/open\(COMMON/open(AUCTION/'
library "an auction begin is the common one" stub_library.rs 's/begin\(AUCTION/begin(COMMON/' too
library "a begin is the auction's" stub_library.rs 's/begin\(COMMON/begin(AUCTION/'
library "an auction begin takes the slot for the member" stub_library.rs 's/(begin\(AUCTION, .*?\), )member, slot/$1slot, member/'
library "an auction begin writes past the table" stub_library.rs 's/(c_sim::begin\(AUCTION)/lent(table, words + 1)[words] = 0;\n    $1/'
library "an auction begin writes to the value" stub_library.rs \
    's/(c_sim::begin\(AUCTION)/lent(value as *mut u32, value_words).fill(0);\n    $1/'
half "a half's auction begin is the common one" stub_calls.rs 's/begin\(AUCTION/begin(COMMON/'
half "a half's begin is the auction's" stub_calls.rs 's/begin\(COMMON/begin(AUCTION/'
half "a half's auction begin takes the slot for the member" stub_calls.rs 's/(begin\(AUCTION, .*?\), n, )member, slot/$1slot, member/'
library "a table's begin with the common limit" board.rs 's/(pub fn begin\(self.*?)self.limit/$1COMMON.limit/s' too
library "a table's begin with the auction's limit" board.rs 's/(pub fn begin\(self.*?)self.limit/$1AUCTION.limit/s'
half "a half's begin with the common limit" board.rs 's/(pub fn half_begin\(self.*?)self.limit/$1COMMON.limit/s'
half "a half's begin with the auction's limit" board.rs 's/(pub fn half_begin\(self.*?)self.limit/$1AUCTION.limit/s'

program "leading zeros taken" script.rs 's/\(piece.len\(\) > 1 && piece\[0\] == b.0.\)/false/'
program "0 refused" script.rs 's/piece.len\(\) > 1 && piece/piece.len() > 0 \&\& piece/'
program "carriage return dropped" script.rs 's/(line.pop\(\);)/$1 if line.last() == Some(\&13) { line.pop(); }/'
program "the last line needs its feed" script.rs 's/if line.last\(\) == Some\(&b.\\n.\) \{/if line.last() != Some(\&10) { return Ok(None); }\n    {/'
program "one step more" script.rs 's/1_000_000/1_000_001/'
program "empty lines are no steps" script.rs 's/at \+= 1;/if line.is_empty() { continue; } at += 1;/'
program "phase shown at 17" script.rs 's/(Some\(step\) if made.answer.number != 4.*?\n)/$1            None => phase_of(made.table, 1).to_string(),\n/'
program "1 before 17" script.rs 's/if value > u32::MAX as u64 \{\n            return None/if value > u32::MAX as u64 {\n            return Some(u32::MAX)/'

# Own reads in scripts, and in the simulator beside nothing but what was worked out by hand.
refuses='s/(fn not_allowed.*?)op_type == WRITE && slot != member/$1(op_type == WRITE) != (slot == member)/s'
for fault in by_type all_stored never_aborted aborts_nobody zeros refuses; do
    program "own reads in scripts: $fault" board.rs "${!fault}"
    alone "own reads alone: $fault" board.rs "${!fault}"
done
alone "own reads alone: carried" board.rs "$carried"
alone "the book refuses own reads" reference.rs 's/op_type == WRITE && member != slot/(op_type == WRITE) != (member == slot)/'
alone "the book takes any write" reference.rs 's/op_type == WRITE && member != slot/false/'
not_own='(op.op_type == WRITE || member != op.slot)'
alone "own reads are not in the book's history" reference.rs "s/(self.history.push\\(.*?\\);)/if $not_own { \$1 }/s"
alone "own reads overtake nobody in the book" reference.rs "s/(let between = )(.*?);/\$1$not_own \\&\\& (\$2);/"

# Kinds of board in scripts, which have the common one alone, and in the simulator by itself.
program "scripts run on auction boards" script.rs 's/COMMON/AUCTION/g'
program "scripts close at 9,999" board.rs 's/limit: 4_294_967_295/limit: 9_999/'
for limit in 9_998 10_000 u32::MAX; do
    alone "alone: auction boards close at $limit" board.rs "s/limit: 9_999/limit: $limit/"
done
for most in 3 5 12; do
    alone "alone: auction boards of $most" board.rs "s/most: 4/most: $most/"
done
alone "alone: common boards close at 9,999" board.rs 's/limit: 4_294_967_295/limit: 9_999/'
alone "alone: 9 at the limit alone" board.rs "s/$nine/\$1 == limit/s"
alone "alone: 9 before 8" board.rs 's/return 8;/return if block.own_counts[slot as usize - 1] >= limit { 9 } else { 8 };/'
alone "alone: common begins refuse 1 above 4" board.rs 's/n > self.most/n > 4/'
alone "alone: 1 before the table's 3" board.rs "s/$at_table/\$1 $too_many { return 1; }\\n/s"
alone "alone: 1 above 4 before a half's 3" board.rs "s/$at_block/\$1 if n > self.most \\&\\& n_is_good(n) { return 1; }\\n/s"
alone "alone: the value's 2 before 1" c_sim.rs 's/kind.check_table\(table\)/board::check_table(table)/'
alone "alone: 2 before 1 in an auction opening" board.rs \
    "s/$opens/\$1if n_is_good(n) \\&\\& table.len() != table_words(n) { return 2; }\\n        if !in_range(n, self.most)/s"
alone "alone: an auction opening tells its kind" board.rs "s/(table\\[0\\] = n;)/\$1 if $in_auction { table[3] = 21; }/"
alone "alone: the book closes one late" reference.rs 's/\*begins >= self.limit/*begins > self.limit/'
alone "alone: the book closes one early" reference.rs 's/\*begins >= self.limit/*begins + 1 >= self.limit/'
alone "alone: the book closes at 10,000" reference.rs 's/self.limit \{/if self.limit == 9_999 { 10_000 } else { self.limit } {/'
alone "alone: the book never closes" reference.rs 's/\*begins >= self.limit/false/'
alone "alone: the book counts begins on all slots" reference.rs \
    's/(let begins = .*?;)/let all: u32 = m.begins.iter().sum(); $1/; s/\*begins >= self.limit/all >= self.limit/'
alone "alone: the book asks 9 before 8" reference.rs 's/(return 8;)/if m.begins[slot as usize - 1] >= self.limit { return 9; } $1/'

# Who overtook an operation: which submit, of all that the host took.
found='Ok\(\(\*first.expect\(.*?\)\).clone\(\)\)'
or_31='first.map(|submit| (*submit).clone()).ok_or(Ground::NoOperation)'
is_aborted='let operation = self.aborted\(member, ordinal\)\?;'
overtaker "the last who overtook" 's/min_by_key/max_by_key/'
overtaker "the lowest member who overtook" 's/(min_by_key.*?)submit.step/$1submit.member/'
overtaker "the step of the overtaker's begin" \
    "s/$found/let mut first = (*first.unwrap()).clone(); \
        first.step = self.operations.iter().find(|other| other.submit == Some(first.step)).unwrap().begin; Ok(first)/"
overtaker "a submit on another slot" 's/submit.slot == operation.slot/true/'
overtaker "a submit on another slot alone" "s/submit.slot == operation.slot/submit.slot != operation.slot/; s/$found/$or_31/"
overtaker "a submit before the own, since the begin" 's/submit.step > from/submit.step > operation.begin \&\& submit.step != from/'
overtaker "a submit at any time before the own" 's/submit.step > from/submit.step != from/'
overtaker "the own submit" 's/submit.step > from/submit.step >= from/'
overtaker "a submit after the reply alone" "s/phase == REPLY_SENT/phase == 3/; s/$found/$or_31/" "asked.rs overtaker.rs"
overtaker "a submit before the reply alone" \
    "s/\\} else if phase == ACC/} else if phase == 3 { operation.commit = Some(at); } else if phase == ACC/; \
        s/commit = Some\\(at\\);\\n/commit = operation.commit.or(Some(at));\\n/; s/$found/$or_31/" \
    "asked.rs overtaker.rs"
overtaker "an accepted operation, by a submit behind its verdict" \
    's/ && submit.step < to//;
        s/self.aborted(\(member, ordinal\))\?/self.named$1.filter(|named| !self.between(named).is_empty()).ok_or(Ground::Accepted)?/'
overtaker "an accepted operation, by its own submit" \
    "s/$is_aborted/let Ok(operation) = self.aborted(member, ordinal) else { \
        let own = self.named(member, ordinal).filter(|own| own.commit.is_some()).ok_or(Ground::NoOperation)?; \
        return Ok(Submit { step: own.submit.unwrap(), member, slot: own.slot }); };/"
overtaker "an operation without a verdict" \
    "s/$is_aborted/let Ok(operation) = self.aborted(member, ordinal) else { \
        let own = self.named(member, ordinal).filter(|own| own.commit.is_none()).ok_or(Ground::NoOperation)?; \
        let later = |submit: \\&\\&Submit| submit.slot == own.slot \\&\\& own.submit.is_some_and(|from| submit.step > from); \
        return self.submits.iter().find(later).cloned().ok_or(Ground::NoVerdict); };/"
told='s/(pub aborted: bool)/pub told: bool, $1/; s/(aborted: false)/told: false, $1/;
    s/(operation.aborted = phase.*?\n        \})/$1 else if phase == 0 { operation.told = true; }/'
asked "an abort counts when it is told" "$told; s/!operation.aborted \\{/!operation.aborted || !operation.told {/"
asked "a crash behind the verdict takes the abort away" \
    's/Step::Crash \{ \.\. \} => \{\}/Step::Crash { member } => {
        for other in self.operations.iter_mut().rev().filter(|other| other.member == member).take(1) { other.aborted = false; } }/'
mark='table[crate::board::block_start(table[0], member) + 1] == 1'
delivered='(Step::Deliver \{ member \} => )(self.note_deliver\(.*?\)\)),'
overtaker "a crashed member's submit overtakes nobody" \
    "s/$delivered/\$1 { \$2; if phase_of(table, member) == REPLY_SENT \\&\\& $mark { self.submits.pop(); } }/; s/$found/$or_31/" \
    "asked.rs overtaker.rs"
asked "a crashed member's commit has no verdict" "s/$delivered/\$1 if phase_of(table, member) == REPLY_SENT || !($mark) { \$2 }/"
overtaker "an owner's submit overtakes nobody" \
    "s/(self.submits.push\\(.*?\\);)/if member != operation.slot { \$1 }/; s/$found/$or_31/" "asked.rs overtaker.rs"
overtaker "another's submit overtakes nobody" \
    "s/(self.submits.push\\(.*?\\);)/if member == operation.slot { \$1 }/; s/$found/$or_31/" "asked.rs overtaker.rs"

# The step that cost an operation: which steps are tried.
tried='step.member\(\) != member && '
again='accepted\(run.n, &without\(&run.steps, left_out\), member, ordinal\)'
operation='run.seen.named(member, ordinal).unwrap()'
cause "the latest step" 's/(\.enumerate\(\)) \{/$1.rev() {/'
cause "own steps are tried too" "s/$tried//"
cause "own steps alone are tried" 's/step.member\(\) != member/step.member() == member/'
for untried in "delivers: matches!(step, Step::Deliver { .. })" "begins: matches!(step, Step::Write { .. } | Step::Read { .. })" \
    "writes: matches!(step, Step::Write { .. })" "step 1: before == 0" "steps above 200: left_out > 200" \
    "steps before the operation's begin: left_out < $operation.begin" "steps before its submit: Some(left_out) < $operation.submit" \
    "steps after its submit: Some(left_out) > $operation.submit" \
    "a crashed member: run.steps.contains(\\&Step::Crash { member: step.member() })" \
    "what comes before the member's last begin: run.seen.operations.iter().any(|other| other.member == step.member() \\&\\& \
        other.begin > left_out \\&\\& Some(other.begin) < $operation.commit)"; do
    cause "untried are ${untried%%: *}" "s/($tried)/\$1!(${untried#*: }) \\&\\& /"
done

# What is left out, and what counts then.
removed='steps.remove\(left_out as usize - 1\);'
at='left_out as usize - 1'
cause "the line behind it is left out too" "s/($removed)/\$1 if left_out as usize <= steps.len() { \$1 }/"
cause "the line before it is left out too" "s/($removed)/\$1 if left_out > 1 { steps.remove(left_out as usize - 2); }/"
cause "the line behind it is left out" "s/$removed/steps.remove(left_out as usize % steps.len());/"
cause "its member's next line is left out too" \
    "s/($removed)/let by = steps[$at].member(); \$1 \
        if let Some(next) = steps.iter().skip($at).position(|other| other.member() == by) { steps.remove($at + next); }/"
cause "all later lines of its member are left out" \
    "s/($removed)/let by = steps[$at].member(); let mut place = 0; \
        steps.retain(|other| { place += 1; place < left_out || other.member() != by });/"
cause "all lines of its member are left out" "s/($removed)/let by = steps[$at].member(); steps.retain(|other| other.member() != by);/"
cause "all lines from it on are left out" "s/($removed)/steps.truncate($at);/"
cause "a begin's four delivers are left out with it" \
    "s/($removed)/let gone = steps[$at].clone(); \$1 let mut place = 0; \
        let mut left = if matches!(gone, Step::Deliver { .. }) { 0 } else { 4 }; steps.retain(|other| { place += 1; \
        let one = place >= left_out \\&\\& left > 0 \\&\\& *other == Step::Deliver { member: gone.member() }; left -= one as u32; !one });/"
cause "the line is doubled" "s/($removed)/let again = steps[$at].clone(); steps.insert($at, again);/"
cause "the line goes to the start" "s/$removed/let first = steps.remove($at); steps.insert(0, first);/"
others='(1..=run.steps.len() as u32).filter(|at| run.steps[*at as usize - 1].member() != member)'
cause "two lines together where no one does" \
    "s/    Ok\\(Cause::None\\)\\n/    let others: Vec<u32> = $others.collect(); let two = |one: u32, other: u32| \
        one < other \\&\\& accepted(run.n, \\&without(\\&without(\\&run.steps, other), one), member, ordinal); \
        let first = others.iter().find(|one| others.iter().any(|other| two(**one, *other))); \
        Ok(first.map_or(Cause::None, |one| Cause::Step(*one)))\\n/"
cause "third members' lines are left out too" \
    "s/&without\\(&run.steps, left_out\\)/\\&without(\\&run.steps, left_out).into_iter() \
        .filter(|other| [member, step.member()].contains(\\&other.member())).collect::<Vec<_>>()/"
cause "what was refused stays refused" \
    "s/&without\\(&run.steps, left_out\\)/\\&(0..run.steps.len()).filter(|at| *at != before \\&\\& run.seen.answers[*at] == 0) \
        .map(|at| run.steps[at].clone()).collect::<Vec<_>>()/"
cause "nothing is run again" \
    "s/$again/{ let of = $operation; run.seen.operations.iter() \
        .filter(|other| other.slot == of.slot \\&\\& other.submit > of.submit \\&\\& other.submit < of.commit) \
        .all(|other| other.begin == left_out || other.submit == Some(left_out)) }/"
cause "it is run again on a board of twelve" 's/accepted\(run.n/accepted(12/'
verdict_of='matches!\(watch\(n, steps\).aborted\(member, ordinal\), Err\(Ground::Accepted\)\)'
submitted='let seen = watch(n, steps); seen.named(member, ordinal).is_some_and(|of| !seen.submits.iter().any(|other|
    other.slot == of.slot \&\& other.member != member'
cause "accepted is whom nobody overtakes later either" "s/$verdict_of/$submitted \\&\\& Some(other.step) > of.submit))/"
cause "accepted is whom nobody overtakes since its begin" \
    "s/$verdict_of/$submitted \\&\\& other.step > of.begin \\&\\& Some(other.step) < of.commit))/"
cause "accepted counts when it is told" \
    "$told; s/$verdict_of/watch(n, steps).named(member, ordinal).is_some_and(|of| of.told \\&\\& !of.aborted)/" "asked.rs cause.rs"
cause "accepted is the member's next operation" 's/(watch\(n, steps\).aborted\(member, ordinal)\)/$1 + 1)/'

# What is printed of it.
step_found='Cause::Step\(left_out\)\)'
cause "the number after leaving out" "s/$step_found/Cause::Step(left_out - 1))/"
cause "the first line is step 1" "s/$step_found/Cause::Step(left_out + 1))/"
cause "the number among the others' steps" \
    "s/$step_found/Cause::Step(run.steps[..=before].iter().filter(|other| other.member() != member).count() as u32))/"
cause "the number among the steps answered 0" \
    "s/$step_found/Cause::Step(run.seen.answers[..=before].iter().filter(|answer| **answer == 0).count() as u32))/"
cause "steps kept in 7 bits" "s/$step_found/Cause::Step(left_out % 128))/"
cause "the member before the step" 's/"\{\}", step/"2 {}", step/'
for printed in None NONE 0 - 31; do
    cause "$printed is printed for none" "s/\"none\"/\"$printed\"/"
done
cause "none where several steps would do" \
    "s/return Ok\\($step_found/let doing = $others.filter(|at| accepted(run.n, \\&without(\\&run.steps, *at), member, ordinal)); \
        return Ok(if doing.count() > 1 { Cause::None } else { Cause::Step(left_out) })/"

# Which operations are answered.
is_asked='run.seen.aborted\(member, ordinal\)\?;'
cause "an accepted operation is answered" "s/$is_asked/run.seen.named(member, ordinal).ok_or(Ground::NoOperation)?;/"
for ground in Accepted NoVerdict NoOperation; do
    cause "none for $ground" \
        "s/($is_asked)/if let Err(Ground::$ground) = run.seen.aborted(member, ordinal) { return Ok(Cause::None); } \$1/"
done

# Which operation, and which step.
mine='if operation.member == member \{'
asked "refused begins have ordinals" \
    's/(if answer == 0 \{\n.*?\n        \})/$1 else if !matches!(step, Step::Deliver { .. } | Step::Crash { .. }) {
        seen.note_begin(before as u32 + 1, step.member(), 1);
        let refused = seen.operations.pop().unwrap(); seen.operations.insert(0, refused); }/'
asked "ordinals from 0" 's/before == ordinal/before == ordinal.wrapping_add(1)/'
asked "ordinals over all members" \
    "s/$mine\\n *before \\+= 1;\\n *if before == ordinal/{ before += 1; if before == ordinal \\&\\& operation.member == member/"
asked "ordinals on the own slot alone" "s/$mine/if operation.member == member \\&\\& operation.slot == member {/"
asked "ordinals of the aborted alone" "s/$mine/if operation.member == member \\&\\& operation.aborted {/"
overtaker "ordinals kept in a byte" 's/before == ordinal/before as u8 as u32 == ordinal/' asked.rs
overtaker "an ordinal above 255 is 255" 's/before == ordinal/before == ordinal.min(255)/' asked.rs
overtaker "refused steps have no numbers" \
    's/(let mut seen = Seen::default\(\);)/$1 let mut made = 0;/; s/seen.note\(before as u32 \+ 1/made += 1; seen.note(made/' asked.rs
overtaker "the first line is step 1" 's/before as u32 \+ 1/before as u32 + 2/' asked.rs
overtaker "steps from 0" 's/before as u32 \+ 1/before as u32/' asked.rs
overtaker "steps kept in 12 bits" 's/self.member, self.step/self.member, self.step % 4096/'
overtaker "the step before the member" 's/self.member, self.step/self.step, self.member/'
overtaker "the operation's own member is printed" "s/$found/let mut first = (*first.unwrap()).clone(); first.member = member; Ok(first)/"
asked "what is found without a line feed" 's/"\{\}\\n", found/"{}", found/'
asked "a refusal without a line feed" 's/"\{\}\\n", ground/"{}", ground/'
overtaker "a comma between" 's/"\{\} \{\}"/"{}, {}"/'

# The refusals, and their order.
bad='return Err\(Ground::LaterLine\);'
sizes='(    if !n_is_good\(n\) \{.*?\n    \}\n)'
asked "1 before a later line's 17" "s/(    let mut steps = Vec::new.*?\\n    \\}\\n)$sizes/\$2\$1/s"
asked "31 where members are not 1 to 12" 's/Ground::Members => 1/Ground::Members => 31/'
for number in 1 31; do
    asked "no line at all is $number" "s/Ground::NoLine \\| //; s/Ground::Members => 1/Ground::NoLine => $number, Ground::Members => 1/"
done
named='let \(member, ordinal\) = read_arguments\(arguments\)\?;'
asked "31 for member or ordinal 0 before all else" "s/($named)/\$1 if member == 0 || ordinal == 0 { return Err(Ground::NoOperation); }/"
asked "31 for member 13 before all else" "s/($named)/\$1 if member > 12 { return Err(Ground::NoOperation); }/"
asked "1 before the arguments' 17" "s/($named)/if matches!(run, Err(Ground::Members)) { return Err(Ground::Members); } \$1/"
asked "31 for bad arguments" 's/Ground::Arguments \| //; s/Ground::NoOperation \|/Ground::NoOperation | Ground::Arguments |/'
asked "4 for a member above n" \
    's/(NoVerdict,\n\})/NoMember, $1/; s/(Ground::Members => 1,)/$1 Ground::NoMember => 4,/;
        s/(Ok\(run\) =>)/Ok(run) if member == 0 || member > run.n => Err(Ground::NoMember),\n            $1/'
asked "nothing is read behind a bad line" "s/$bad/break;/"
asked "bad lines are passed over" "s/$bad/continue;/"
asked "bad lines are steps, as on the board" "s/$bad/steps.push(Step::Deliver { member: 0 }); continue;/"
last='std::ptr::eq(line, later.last().unwrap())'
asked "a bad last line is let through" "s/($bad)/if $last { break; } \$1/"
asked "empty lines are passed over" "s/($bad)/if line.is_empty() { continue; } \$1/"
asked "an empty last line is let through" "s/($bad)/if line.is_empty() \\&\\& $last { break; } \$1/"
asked "a second members line is let through" "s/($bad)/if matches!(parse(line), Some(Line::Members(_))) { continue; } \$1/"
asked "a carriage return is let through" 's/parse\(line\) else/parse(line.strip_suffix(b"\\r").unwrap_or(line)) else/'
asked "an empty first line is passed over" \
    's/(let lines = lines_of\(script\);)/$1
        let lines = if lines.first().is_some_and(|first| first.is_empty()) { \&lines[1..] } else { \&lines[..] };/'
asked "65,536 bytes are let through" 's/65_535/65_536/'
asked "65,535 bytes are refused" 's/65_535/65_534/'
asked "the last line feed is not counted" 's/script.len\(\) > MOST_BYTES/script.strip_suffix(b"\\n").unwrap_or(script).len() > MOST_BYTES/'
asked "31 for a longer script" 's/Ground::TooLong \| //; s/Ground::NoOperation \|/Ground::NoOperation | Ground::TooLong |/'
both_tools "of a longer script the first 65,535 bytes are run" tool_main.rs 's/ as u64 \+ 1/ as u64/'
both_tools "status 1 at a refusal" tool_main.rs \
    's/(    standard::answer)/    let refused = std::cell::Cell::new(false);\n$1/; s/(Ok\(printed\(&answered\)\))/refused.set(answered.is_err()); $1/;
        s/    \}\)\n\}/    }) + refused.get() as i32\n}/'
both_tools "a refusal is said on standard error too" tool_main.rs \
    's/(Ok\(printed\(&answered\)\))/if answered.is_err() { eprintln!("refused"); } $1/'

# The most steps, and where 35 stands.
for most in 255 257 128 512 65_535; do
    cause "at most $most steps" "s/most_steps: 256/most_steps: $most/"
done
for number in 1 17 31 34; do
    cause "$number for too many steps" "s/TooManySteps => 35/TooManySteps => $number/" asked.rs
done
many='(    if later.len\(\) > most_steps \{\n.*?\n    \}\n)'
first_line='(    let Some\(Line::Members\(n\)\).*?\n    \};\n)'
later_lines='(    let mut steps = Vec::new.*?\n    \}\n)'
too_long='(    if script.len\(\) > MOST_BYTES \{\n.*?\n    \}\n)'
cause "a first line's 17 before 35" "s/$many$first_line/\$2\$1/s" asked.rs
cause "a later line's 17 before 35" "s/$many$first_line$later_lines/\$2\$3\$1/s" asked.rs
cause "1 before 35" "s/$many$first_line$later_lines$sizes/\$2 if !n_is_good(n) { return Err(Ground::Members); } \$1\$3\$4/s" asked.rs
cause "17 and 1 before 35" "s/$many$first_line$later_lines$sizes/\$2\$3\$4\$1/s" asked.rs
cause "35 before a longer script's 17" "s/$too_long(.*?)$many/\$2\$3\$1/s" asked.rs
cause "35 before the arguments' 17" \
    "s/($named)/if matches!(run, Err(Ground::TooManySteps)) { return Err(Ground::TooManySteps); } \$1/" asked.rs
counted='later.len\(\) > most_steps'
cause "the first line is counted" "s/$counted/lines.len() > most_steps/" asked.rs
cause "as many steps as there may be are too many" "s/$counted/later.len() >= most_steps/" asked.rs
cause "lines are counted by their line feeds" \
    "s/$counted/script.iter().filter(|byte| **byte == b'\\\\n').count() > most_steps.saturating_add(1)/" asked.rs
cause "line feeds are counted" "s/$counted/script.iter().filter(|byte| **byte == b'\\\\n').count() > most_steps/" asked.rs
cause "what is behind the last line feed is a line" \
    "s/$counted/script.split(|byte| *byte == b'\\\\n').count() > most_steps.saturating_add(1)/" asked.rs
cause "empty lines are not counted" "s/$counted/later.iter().filter(|line| !line.is_empty()).count() > most_steps/" asked.rs
cause "bad lines are not counted" "s/$counted/later.iter().filter(|line| parse(line).is_some()).count() > most_steps/" asked.rs
cause "steps are counted in a byte" "s/$counted/later.len() % 256 > most_steps/" asked.rs
cause "steps are counted in 9 bits" "s/$counted/later.len() % 512 > most_steps/" asked.rs
cause "no 35 behind a first line of another form" \
    "s/$counted/later.len() > most_steps \\&\\& matches!(parse(first), Some(Line::Members(_)))/" asked.rs
cut='(let \(first, later\) = lines.split_first.*?;)'
cause "of more steps the first 256 are run" "s/$cut/\$1 let later = \\&later[..later.len().min(most_steps)];/" asked.rs
cause "of more steps the last 256 are run" "s/$cut/\$1 let later = \\&later[later.len().saturating_sub(most_steps)..];/" asked.rs

# The arguments.
asked "a third argument is passed over" 's/arguments.len\(\) != 2/arguments.len() < 2/'
asked "an empty third argument is passed over" \
    's/arguments.len\(\) != 2/arguments.len() < 2 || arguments.len() > 2 \&\& !arguments[2].is_empty()/'
asked "one argument asks for the first operation" \
    's/arguments.len\(\) != 2/!(1..=2).contains(\&arguments.len())/; s/number\(&arguments\[1\]\)/number(arguments.get(1).map_or(b"1", |argument| argument))/'
for place in 0 1; do
    argument="number\\(&arguments\\[$place\\]\\)"
    given="\\&arguments[$place]"
    asked "argument $place with leading zeros" "s/$argument/number(given(\\&arguments[$place]))/; \
        s/(\\/\\/\\/ Member and ordinal)/fn given(all: \\&[u8]) -> \\&[u8] { \
        match all { [b'0', rest @ ..] if !rest.is_empty() => given(rest), _ => all } }\\n\$1/"
    for sign in + -; do
        asked "argument $place with a $sign" "s/$argument/number($given.strip_prefix(b\"$sign\").unwrap_or($given))/"
    done
    asked "argument $place is what its digits are" \
        "s/$argument/number($given.iter().copied().filter(|byte| byte.is_ascii_digit()).collect::<Vec<u8>>().as_slice())/"
    asked "argument $place without its line feed" "s/$argument/number($given.strip_suffix(b\"\\\\n\").unwrap_or($given))/"
    asked "argument $place as far as it is text" "s/$argument/number($given.split(|byte| *byte >= 128).next().unwrap())/"
    asked "argument $place empty is 1" "s/$argument/number(if arguments[$place].is_empty() { b\"1\" } else { $given })/"
    large="std::str::from_utf8($given).ok().and_then(|text| text.parse::<u64>().ok()).filter(|number| *number > u32::MAX as u64)"
    asked "argument $place wraps at 2^32" "s/$argument/number($given).or($large.map(|number| number as u32))/"
done

# Reading and writing.
all_read='input.take\(.*?\).read_to_end\(&mut script\)'
piped_tools "what one read gives is taken" tool_main.rs \
    "s/$all_read\\?;/script.resize(65_536, 0); let mut input = input; let size = input.read(\\&mut script)?; script.truncate(size);/"
piped_tools "an input that cannot be read is empty" tool_main.rs "s/($all_read)\\?;/\$1.unwrap_or_default();/"
piped_tools "a closed input is empty" tool_main.rs \
    "s/($all_read)\\?;/\$1.or_else(|reason| if reason.raw_os_error() == Some(9) { Ok(0) } else { Err(reason) })?;/"
piped_tools "a failed write goes unsaid" standard.rs 's/eprintln!\("standard output.*?;//'

# The tariff: which operations are free.
own='let own = accepted.iter\(\).filter\((.*?)\);'
behind_free='own.skip\(self.free\)'
for free in 0 99 101 128 1_000; do
    bill "$free are free" "s/free: 100/free: $free/"
done
counted_by() { # what a member's operations are counted by, each value with as many free ones
    echo "s/$behind_free/{ let mut before = std::collections::BTreeMap::new(); own.filter(move |operation| { \
        let number = before.entry($1).or_insert(0); *number += 1; *number > self.free }) }/"
}
bill "free ones by slot" "$(counted_by operation.slot)"
bill "free ones by kind" "$(counted_by operation.op_type)"
bill "free ones on the own slot and on the others" "$(counted_by '(operation.slot == operation.member)')"
bill "free ones are shared by all members" "s/$own\\n *$behind_free/let own = accepted.iter().skip(self.free).filter(\$1);\\n        own/"
bill "free ones by the slot's owner" \
    "s/$own\\n *$behind_free/let own = accepted.iter().filter(|operation| operation.slot == member).skip(self.free).filter(\$1);\\n        own/"
free_alone() { # those that use up free ones; the others cost nothing before that, or "always" cost
    echo "s/$behind_free/{ let mut used = 0; own.filter(move |operation| { \
        let uses = $1; let free = used < self.free \\&\\& (uses || ${2:-true}); used += (free \\&\\& uses) as usize; !free }) }/"
}
bill "reads use up no free ones" "$(free_alone 'operation.op_type == WRITE')"
bill "reads are never free" "$(free_alone 'operation.op_type == WRITE' false)"
bill "writes use up no free ones" "$(free_alone 'operation.op_type != WRITE')"
bill "writes are never free" "$(free_alone 'operation.op_type != WRITE' false)"
bill "own reads use up no free ones" "$(free_alone '(operation.op_type == WRITE || operation.slot != member)')"
bill "own reads are never free" "$(free_alone '(operation.op_type == WRITE || operation.slot != member)' false)"
bill "reads of another's slot use up no free ones" "$(free_alone 'operation.slot == member')"
bill "the last ones are free" "s/$behind_free/own.rev().skip(self.free)/"
bill "the dearest are free" "s/$behind_free/{ let mut own: Vec<_> = own.collect(); own.sort_by_key(|one| one.op_type != WRITE); own.into_iter().skip(self.free) }/"
bill "the cheapest are free" "s/$behind_free/{ let mut own: Vec<_> = own.collect(); own.sort_by_key(|one| one.op_type == WRITE); own.into_iter().skip(self.free) }/"
bill "nothing is free above 100" "s/$behind_free/own.clone().skip(if own.clone().count() > self.free { 0 } else { self.free })/"
bill "the free ones are counted in a byte" "s/$behind_free/own.enumerate().filter(|(place, _)| *place % 256 >= self.free).map(|(_, one)| one)/"
bill "every 101st is billed" "s/$behind_free/own.enumerate().filter(|(place, _)| place % (self.free + 1) == self.free).map(|(_, one)| one)/"

# What the others cost.
bill "the prices exchanged" 's/write: 35, read: 4/write: 4, read: 35/'
for write in 30 34 36 40 350; do
    bill "a write costs $write" "s/write: 35/write: $write/"
done
for read in 0 3 5 10 40; do
    bill "a read costs $read" "s/read: 4 /read: $read /"
done
is_write='if operation.op_type == WRITE \{'
bill "own reads cost as writes" "s/$is_write/if operation.slot == operation.member {/"
bill "own reads cost nothing" "s/($is_write)/if operation.op_type != WRITE \\&\\& operation.slot == operation.member { return 0; }\\n        \$1/"
bill "reads of another's slot cost nothing" "s/($is_write)/if operation.slot != operation.member { return 0; }\\n        \$1/"
bill "reads of another's slot cost as writes" "s/$is_write/if operation.op_type == WRITE || operation.slot != operation.member {/"
bill "the slot's owner pays" 's/operation.member == member/operation.slot == member/'
bill "the last one's price is paid for all" "s/(own.skip.*?)\\n    \\}/let dear = accepted.iter().rev().find(|operation| operation.member == member); \
        let number = own.skip(self.free).count() as u64; dear.map_or(0, |operation| number * self.price(operation))\\n    }/s"

# Rounding and the total.
price='self.price\(operation\)'
rounded='\+ 9\) \/ 10'
bill "each price is rounded up" "s/\\| $price/| ($price + 9) \\/ 10 * 10/"
bill "each price is rounded down" "s/\\| $price/| $price \\/ 10 * 10/"
bill "sums are rounded down" "s/$rounded/) \\/ 10/"
for more in 4 5 8 10; do
    bill "sums are rounded with $more tenths more" "s/$rounded/+ $more) \\/ 10/"
done
bill "tenths are printed" "s/$rounded/)/"
bill "cents are kept in 16 bits" "s/(\\(self.tenths\\(accepted, member\\) $rounded)/(\$1) % 65_536/"
bill "tenths are kept in 16 bits" "s/self.tenths\\(accepted, member\\) $rounded/self.tenths(accepted, member) % 65_536 + 9) \\/ 10/"
summed='self.cents.iter\(\).sum\(\)'
all_tenths='s/pub cents: Vec<u64>,/pub cents: Vec<u64>, pub tenths: u64,/;
    s/Bill \{ cents: (.*?) \}\n/Bill { cents: $1, tenths: (1..=n).map(|member| self.tenths(accepted, member)).sum() }\n/;'
bill "the total of unrounded sums, rounded up" "$all_tenths s/$summed/(self.tenths + 9) \\/ 10/"
bill "the total of unrounded sums, rounded down" "$all_tenths s/$summed/self.tenths \\/ 10/"
bill "the total without the last member" "s/$summed/self.cents[..self.cents.len() - 1].iter().sum()/"
bill "the total without the first member" "s/$summed/self.cents[1..].iter().sum()/"
bill "the total is the largest bill" "s/$summed/*self.cents.iter().max().unwrap()/"
bill "the total is the last bill" "s/$summed/*self.cents.last().unwrap()/"
bill "the total in 16 bits" "s/$summed/self.cents.iter().sum::<u64>() % 65_536/"

# What is printed.
line='writeln!\(out, "\{\} \{\}", member, cents\)\?;'
total='writeln!\(out, "\{\}", self.total\(\)\)'
bill "no line for 0 cents" "s/($line)/if *cents > 0 { \$1 }/"
bill "no line behind the last who pays" "s/($line)/if self.cents[member as usize - 1..].iter().any(|cents| *cents > 0) { \$1 }/"
bill "a heading as the board has it" "s/(for \\(member, cents\\) in .*? \\{\\n)/writeln!(out, \"board {}\", self.cents.len())?;\\n        \$1/"
bill "number and cents exchanged" "s/$line/writeln!(out, \"{} {}\", cents, member)?;/"
bill "members from 0" 's/\(1\.\.\)\.zip\(&self/(0..).zip(\&self/'
bill "members downwards" 's/\(1\.\.\)\.zip\(&self.cents\)/(1..).zip(\&self.cents).collect::<Vec<(u32, _)>>().into_iter().rev()/'
for between in ', ' '  ' '\\t' ': '; do
    bill "'$between' between" "s/\"\\{\\} \\{\\}\", member/\"{}$between{}\", member/"
done
bill "cents with their tenths" "s/$line/writeln!(out, \"{} {}.0\", member, cents)?;/"
bill "no total" "s/$total/Ok(())/"
bill "the total with a word" "s/$total/writeln!(out, \"total {}\", self.total())/"
bill "the total without its line feed" "s/$total/write!(out, \"{}\", self.total())/"
bill "an empty line before the total" "s/$total/writeln!(out, \"\\\\n{}\", self.total())/"
bill "the total before the members" "s/(        for \\(member, cents\\).*?\\n        \\}\\n)        $total/        $total?;\\n\$1        Ok(())/s"
bill "no total for one member" "s/($total)/if self.cents.len() == 1 { return Ok(()); }\\n        \$1/"
bill "a line for twelve members always" 's/Bill \{ cents: \(1\.\.=n\)/Bill { cents: (1..=n.max(12))/'

# When an operation is billed.
is_accepted='phase_of\(made.table, member\) == ACCEPTED_SENT'
pushed='accepted.push\((.*?)\);'
waits='s/(let mut accepted = Vec::new\(\);)/$1 let mut waiting: Vec<Option<Accepted>> = vec![None; n as usize + 1];/;'
bill "billed at the submit" 's/== ACCEPTED_SENT/== 2/'
bill "billed at the reply" 's/== ACCEPTED_SENT/== 3/'
bill "billed at completion" "$waits s/$pushed\\n *\\}/waiting[member as usize] = Some(\$1); } \
    else if made.answer.number == 0 \\&\\& phase_of(made.table, member) == 0 { accepted.extend(waiting[member as usize].take()); }/"
bill "aborted ones are billed" "s/$is_accepted/phase_of(made.table, member) >= ACCEPTED_SENT \\&\\& phase_of(made.table, member) <= 5/"
bill "aborted ones alone are billed" 's/== ACCEPTED_SENT/== 5/'
bill "aborted ones use up free ones" "s/$is_accepted/[4, 5].contains(\\&phase_of(made.table, member))/; \
    s/let Block \\{ slot, op_type, .. \\} = (.*?);/let Block { slot, op_type, phase, .. } = \$1; let op_type = if phase == 5 { 0 } else { op_type };/; \
    s/($is_write)/if operation.op_type == 0 { return 0; }\\n        \$1/"
deliver_line='if let Some\(Step::Deliver \{ member \}\) = made.step \{'
crashes='if let (Some(Step::Crash { member }), 0) = (made.step.clone(), made.answer.number)'
bill "crashed members owe nothing" "s/($deliver_line)/$crashes { accepted.retain(|one: \\&Accepted| one.member != member); }\\n        \$1/"
bill "what a member is not told by its crash is not billed" \
    "s/($deliver_line)/$crashes { if phase_of(made.table, member) == ACCEPTED_SENT { \
        let last = accepted.iter().rposition(|one: \\&Accepted| one.member == member); accepted.remove(last.unwrap()); } }\\n        \$1/"
bill "a crashed member's commit is not billed" "s/($is_accepted)/\$1 \\&\\& block_of(made.table, member).crash_mark == 0/"
bill "a crash behind the verdict is billed" 's/Some\(Step::Deliver \{ member \}\)/Some(Step::Deliver { member } | Step::Crash { member })/'
bill "a refused deliver behind the verdict is billed" 's/made.answer.number == 0 && /made.answer.number != 4 \&\& /'
bill "a refused begin behind the verdict is billed" \
    "s/$deliver_line/if let Some(step) = made.step.clone() { let member = step.member();/; \
        s/made.answer.number == 0 && ($is_accepted)/(made.answer.number == 0 \\&\\& matches!(step, Step::Deliver { .. }) || made.answer.number == 8) \\&\\& \$1/"
bill "operations on the last slot are not billed" "s/$pushed/if slot < n || n == 1 { accepted.push(\$1); }/"
bill "of the same kind one after another one is billed" \
    "s/$pushed/if accepted.last() != Some(\\&\$1) { accepted.push(\$1); }/"

# Lines and steps, as the bill program reads them.
script() { # the same of script.rs
    bill "$1" "$2" script.rs
}
for most in 999_999 1_000_001 65_536 900_000; do
    script "the bill ends after $most steps" "s/1_000_000/$most/"
done
script "the bill goes on to the end of the input" 's/at < MOST_STEPS/true/'
counts='at \+= 1;'
script "bad lines are no steps" "s/$counts/if !matches!(parse(\\&line), Some(Line::Step(_))) { continue; } $counts/"
script "empty lines are no steps" "s/$counts/if line.is_empty() { continue; } $counts/"
script "refused calls are no steps" "s/(see\\(&Made.*?;)/let refused = answer.number != 0 \\&\\& step.is_some(); \$1 at -= refused as u64;/"
script "a bad line ends the run" 's/None => \(None, Answer \{ number: 17, returned: None \}\)/None => break/'
script "a refused call ends the run" 's/(see\(&Made.*?;)/let refused = answer.number != 0; $1 if refused \&\& step_is_call { break; }/; s/(let \(step, answer\) = match parse\(&line\))/let step_is_call = matches!(parse(\&line), Some(Line::Step(_))); $1/'
script "a second first line opens anew" \
    's/Some\(Line::Members\(_\)\) \| None => /Some(Line::Members(again)) if again == n => { table = new_table(n); (None, Answer { number: 17, returned: None }) }\n            Some(Line::Members(_)) | None => /'
feed='if line.last\(\) == Some\(&b.\\n.\) \{'
script "a last line without its line feed is dropped" "s/$feed/if line.last() != Some(\\&10) { return Ok(None); }\\n    {/"
script "a carriage return is dropped" 's/(line.pop\(\);)/$1 if line.last() == Some(\&13) { line.pop(); }/'
script "leading zeros are taken" 's/\(piece.len\(\) > 1 && piece\[0\] == b.0.\)/false/'
script "spaces at the end are dropped" 's/(line.pop\(\);)/$1 while line.last() == Some(\&32) { line.pop(); }/'
script "words are compared by their first letter" 's/word == b"(\w)\w+"/word.first() == Some(\&b"$1"[0])/g'
script "a third number is passed over" 's/pieces.len\(\) == 3/pieces.len() >= 3/'
bill "17 for members that are too many" 's/return Ok\(refused\(number\)\)/return Ok(refused(17.max(number)))/'
bill "a refusal's number alone" 's/return Ok\(refused\(number\)\)/return Ok(format!("{}\\n", number))/'
bill "a refused input has a total of 0" 's/return Ok\(refused\(number\)\)/return Ok("0\\n".to_string())/'
bill "a refused input prints nothing" 's/return Ok\(refused\(number\)\)/return Ok(String::new())/'
bill "bill refused" 's/return Ok\(refused\(number\)\)/return Ok(refused(number).replace("board", "bill"))/'
bill "no line at all is a bill of nothing" \
    's/(let n = match first_line)/if input.fill_buf()?.is_empty() { return Ok("0\\n".to_string()); }\n    $1/'
bill "a refused first line is passed over" \
    's/(Err\(number\) => return)/Err(_) if !input.fill_buf()?.is_empty() => return printed(input, tariff),\n        $1/'
script "members above 12 are taken for 12" 's/Some\(Line::Members\(_\)\) => Err\(1\)/Some(Line::Members(n)) if n > 12 => Ok(12),\n        Some(Line::Members(_)) => Err(1)/'
script "no member is taken for one" 's/Some\(Line::Members\(_\)\) => Err\(1\)/Some(Line::Members(0)) => Ok(1),\n        Some(Line::Members(_)) => Err(1)/'

# The bill through a pipe.
answered='bill::printed\(&mut BufReader::new\(input\), &bill::TARIFF\)\?'
piped bill "what one read gives is taken" bill_sim.rs \
    "s/$answered/{ use std::io::Read; let mut piece = vec![0; 65_536]; let mut input = input; let size = input.read(\\&mut piece)?; \
        bill::printed(\\&mut \\&piece[..size], \\&bill::TARIFF)? }/"
piped bill "all of the input is read first" bill_sim.rs \
    "s/$answered/{ use std::io::Read; let mut all = Vec::new(); let mut input = input; input.read_to_end(\\&mut all)?; \
        bill::printed(\\&mut \\&all[..], \\&bill::TARIFF)? }/"
piped bill "an input that cannot be read is empty" bill_sim.rs \
    's/(bill::printed\(.*?\))\?/$1.unwrap_or("board refused 17\\n".to_string())/'
piped bill "a closed input is empty" bill_sim.rs \
    's/(bill::printed\(.*?\))\?/$1.or_else(|reason| if reason.raw_os_error() == Some(9) { Ok("board refused 17\\n".to_string()) } else { Err(reason) })?/'
piped bill "the rest is read behind the last step" bill.rs \
    's/(let n = match first_line.*)Ok\((tariff.bill.*?\.to_string\(\))\)/$1let all = accepted(input, n)?; while next_line(input)?.is_some() {}\n    Ok(tariff.bill(n, \&all).to_string())/s;
        s/make_steps, refused/make_steps, next_line, refused/'
piped bill "the rest is read behind a refused line" bill.rs \
    's/Err\(number\) => return/Err(number) => { while next_line(input)?.is_some() {} return/; s/refused\(number\)\),/refused(number)); }/;
        s/make_steps, refused/make_steps, next_line, refused/'
piped bill "a bill at every acceptance" bill.rs \
    "s/($pushed)/\$1 println!(\"{}\", TARIFF.bill(n, \\&accepted));/"
piped bill "a failed write goes unsaid" standard.rs 's/eprintln!\("standard output.*?;//'

rm -rf "$work" "$shared"
echo "noticed $noticed, missed $missed"
[ $missed -eq 0 ]
