// Messages to time.
use crate::plain_messages as plain;

/// A record with no byte zero after its first three.
fn a_record(n: u32) -> plain::Record {
    let mut r = plain::Record { member: 1, slot: n, operation: 1, count: 0x01020304, ..Default::default() };
    for i in 0..8 {
        r.value[i] = 0x11223344 + i as u32;
    }
    for j in 0..n as usize {
        for k in 0..n as usize {
            r.matrix[j].counts[k] = 0x55667788 + (12 * j + k) as u32;
        }
    }
    r
}

fn a_message(kind: u32, n: u32) -> Vec<u8> {
    let mut m = plain::Message { kind, member: 1, slot: n, operation: 1, count: 0x01020304, outcome: 1, ..Default::default() };
    m.newest = a_record(n);
    m.stored = a_record(n);
    let mut out = vec![0; 1235];
    let (number, length) = plain::write(m, n, &mut out);
    assert_eq!(number, 0);
    out.truncate(length);
    out
}

/// A message of each kind, with its name.
pub fn each_message(n: u32, mut f: impl FnMut(&str, &[u8])) {
    let kinds = [("submit", plain::SUBMIT), ("reply", plain::REPLY), ("commit", plain::COMMIT), ("outcome", plain::OUTCOME)];
    for (what, kind) in kinds {
        f(what, &a_message(kind, n));
    }
}
