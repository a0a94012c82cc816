// What the C interface must do, on the simulator and on slices.
// A value of another length than 8, or returned of another than 9, is
// number 2, after the table's own 2 and 3, at a begin after 1, and before 4.

use crate::board::{self, Kind};

pub fn words(n: u32) -> u32 {
    board::table_words(n) as u32
}

pub fn open(kind: Kind, table: &mut [u32], n: u32) -> u32 {
    kind.open(table, n)
}

pub fn begin(kind: Kind, table: &mut [u32], member: u32, slot: u32, op_type: u32, value: &[u32]) -> u32 {
    let fault = kind.check_table(table);
    if fault != 0 {
        return fault;
    }
    if value.len() != 8 {
        return 2;
    }
    let mut sheet = [0; 8];
    sheet.copy_from_slice(value);
    kind.begin(table, member, slot, op_type, &sheet)
}

pub fn deliver(table: &mut [u32], member: u32, returned: &mut [u32]) -> u32 {
    let fault = board::check_table(table);
    if fault != 0 {
        return fault;
    }
    if returned.len() != 9 {
        return 2;
    }
    let answer = board::deliver(table, member);
    if answer.number != 0 {
        return answer.number;
    }
    match answer.returned {
        Some(sheet) => {
            returned[0] = 1;
            returned[1..9].copy_from_slice(&sheet);
        }
        None => {
            for i in 0..9 {
                returned[i] = 0;
            }
        }
    }
    0
}

pub fn crash(table: &mut [u32], member: u32) -> u32 {
    board::crash(table, member)
}
