// Sheets and rows of edition 1 as what they are in edition 2.
use crate::limits::{FIRST, NO_END, SECOND};
use crate::records::*;

// A sheet of edition 1 with edition 2 in its head; none where the head doesn't say edition 1.
pub fn second(sheet: &[u8]) -> Option<Bytes> {
    (sheet.len() >= 6 && sheet[4..6] == [1, 0]).then(|| [&sheet[..4], &[2, 0], &sheet[6..]].concat())
}

// A readable sheet of edition 1 as one of edition 2 with so many groups before its own: a root, whose last son its own root
// becomes, and other sons of it, all free. The sets of its own groups that fit are the same.
pub fn after(others: u16, sheet: &[u8]) -> Bytes {
    let word = |at: usize| u16::from_le_bytes([sheet[at], sheet[at + 1]]);
    let (g, s, q) = (word(6), word(8), word(10));
    let mut b = SECOND.head(others + g, s, q);
    b.extend(group(0, 0, NO_END, 0));
    b.extend(group(1, 0, NO_END, 0).repeat(others as usize - 1));
    let mut at = 12;
    for k in 0..g + s {
        // Parent or group, the field at 4.
        let of = match word(at + 4) {
            0 if k == 0 => 1,
            0 => 0,
            of => others + of,
        };
        let end = at + 2 + word(at) as usize;
        b.extend(&sheet[at..at + 4]);
        b.extend(of.to_le_bytes());
        b.extend(&sheet[at + 6..end]);
        at = end;
    }
    b.extend(&sheet[at..]);
    b
}

// Rows of edition 1 as rows of edition 2, their groups moved up by 0, or by 128 or more and then in the root too; none
// where these are not whole rows of edition 1.
pub fn second_rows(others: u16, reg: &[u8]) -> Option<Bytes> {
    let mut b = Vec::new();
    for row in reg.chunks(FIRST.row) {
        if row.len() < FIRST.row || row[..4] != words(&[FIRST.row_length, FIRST.row_kind]) {
            return None;
        }
        let bits = u128::from_le_bytes(row[10..].try_into().unwrap());
        let (low, high) = if others == 0 { (bits, 0) } else { ((bits != 0) as u128, bits << (others - 128)) };
        b.extend(words(&[SECOND.row_length, SECOND.row_kind]));
        b.extend(&row[4..10]);
        b.extend(low.to_le_bytes());
        b.extend(high.to_le_bytes());
    }
    Some(b)
}

// A readable sheet as it is, and where it is of edition 1 what it is in edition 2: with the same groups, with these as the
// last of 256, with these after 128 others. 'others' is how many are before them; none for the sheet as it is.
pub struct Form {
    pub what: &'static str,
    pub others: Option<u16>,
    pub sheet: Bytes,
}

impl Form {
    pub fn rows(&self, reg: &[u8]) -> Bytes {
        self.others.map_or_else(|| reg.to_vec(), |n| second_rows(n, reg).expect("rows of edition 1"))
    }

    pub fn group(&self, g: u16) -> u16 {
        if g == 0 { 0 } else { g + self.others.unwrap_or(0) }
    }
}

pub fn forms(sheet: &[u8]) -> Vec<Form> {
    let mut all = vec![Form { what: "", others: None, sheet: sheet.to_vec() }];
    if let Some(same) = second(sheet) {
        let last = SECOND.groups - sheet[6] as u16;
        all.push(Form { what: ", edition 2", others: Some(0), sheet: same });
        all.push(Form { what: ", edition 2, the last groups", others: Some(last), sheet: after(last, sheet) });
        if last != 128 {
            all.push(Form { what: ", edition 2, after 128 groups", others: Some(128), sheet: after(128, sheet) });
        }
    }
    all
}
