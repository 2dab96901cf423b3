// Registers by their rows. What takes no edition is of edition 1.
use crate::limits::{Edition, FIRST, LEFT, RIGHT};
use crate::records::*;

pub use crate::format::Ear;

pub const ROW: usize = FIRST.row;

impl Edition {
    // A row of an ear: number and side.
    pub fn row_of(self, (number, side): Ear, groups: &[usize]) -> Bytes {
        let mut b = number.to_le_bytes().to_vec();
        b.extend(side.to_le_bytes());
        b.extend(self.membership(groups));
        record(self.row_kind, &b)
    }

    pub fn membership(self, groups: &[usize]) -> Bytes {
        let mut bits = vec![0u8; self.membership];
        for g in groups {
            bits[(g - 1) / 8] |= 1 << ((g - 1) % 8);
        }
        bits
    }

    // A row of the k-th ear, where everybody has two: 1 left, 1 right, 2 left and so on. Of 0 the number is 0.
    pub fn row(self, k: u32, groups: &[usize]) -> Bytes {
        self.row_of(ear(k), groups)
    }

    // Rows 1 to n, each of its own ear, with the groups that 'held' says.
    pub fn rows(self, n: usize, held: impl Fn(usize) -> Vec<usize>) -> Bytes {
        (1..=n).flat_map(|r| self.row(r as u32, &held(r))).collect()
    }

    // One member on rows with these groups.
    pub fn one_member(self, parts: &[Vec<usize>]) -> Bytes {
        parts.iter().flat_map(|held| self.row(9, held)).collect()
    }
}

pub fn row_of(ear: Ear, groups: &[usize]) -> Bytes {
    FIRST.row_of(ear, groups)
}

pub fn membership(groups: &[usize]) -> Bytes {
    FIRST.membership(groups)
}

pub fn row(k: u32, groups: &[usize]) -> Bytes {
    FIRST.row(k, groups)
}

pub fn ear(k: u32) -> Ear {
    (k.div_ceil(2), if k % 2 == 1 { LEFT } else { RIGHT })
}

// The same row with another length and kind in its frame.
pub fn reframed(row: &[u8], length: u16, kind: u16) -> Bytes {
    framed(length, kind, &row[4..])
}

// Lengths and kinds that a row may not have: kind 32 has L = 22 (document 01), kind 34 L = 40 (document 02, card 5).
pub const WRONG_FRAMES: [(u16, u16); 17] = [
    (23, 33), (25, 33), (22, 33), (0, 33), (1, 33), (2, 33), (280, 33), (65535, 33),
    (24, 32), (22, 32), (24, 34), (40, 34), (24, 31), (24, 0), (24, 289), (24, 8448), (33, 24),
];

// Numbers of rows around 64, 128 and the most there may be.
pub const SIZES: [usize; 10] = [0, 1, 63, 64, 65, 127, 128, 129, 2047, 2048];

// The rows of n that are tried: around 64, the last, and some near the 2,048th.
pub fn edges(n: usize) -> Vec<usize> {
    let mut all: Vec<usize> = [1, 63, 64, 65, 2017, 2047, 2048, n].into_iter().filter(|&r| 1 <= r && r <= n).collect();
    all.sort_unstable();
    all.dedup();
    all
}

pub fn rows(n: usize, held: impl Fn(usize) -> Vec<usize>) -> Bytes {
    FIRST.rows(n, held)
}

// The same, but for the rows that are listed.
pub fn rows_but(n: usize, held: impl Fn(usize) -> Vec<usize>, but: &[(usize, Vec<usize>)]) -> Bytes {
    rows(n, |r| but.iter().find(|b| b.0 == r).map_or_else(|| held(r), |b| b.1.clone()))
}

// Rows in this order: which ear, and the groups.
pub fn listed(list: &[(u32, Vec<usize>)]) -> Bytes {
    list.iter().flat_map(|(k, held)| row(*k, held)).collect()
}

pub fn one_member(parts: &[Vec<usize>]) -> Bytes {
    FIRST.one_member(parts)
}

// Rows in this order: ear and groups.
pub fn of_ears(list: &[(Ear, Vec<usize>)]) -> Bytes {
    list.iter().flat_map(|(ear, held)| row_of(*ear, held)).collect()
}

// Group 'at' is 'disjoint' with 'cover' and has the next two for sons; the group after them is 'same' and has the next,
// which is the last, for its son. All others are sons of the root, and no group has bounds.
pub fn family(at: u16) -> Bytes {
    let of = |g: u16| match g {
        1 => (0, 0),
        _ if g == at => (1, 3),
        _ if g == at + 1 || g == at + 2 => (at, 0),
        _ if g == at + 3 => (1, 4),
        _ if g == at + 4 => (at + 3, 0),
        _ => (1, 0),
    };
    free(&(1..=at + 4).map(of).collect::<Vec<_>>())
}

// A row that fits it: of one son, of the other, of the 'same' group.
pub fn fitting(at: usize, r: usize) -> Vec<usize> {
    match r % 3 {
        0 => vec![1, at, at + 1],
        1 => vec![1, at, at + 2],
        _ => vec![1, at + 3, at + 4],
    }
}

// Rows of a family at a group, each with the group and rule that it alone breaks.
pub fn breaking(at: u16) -> Vec<(Vec<usize>, u16, u16)> {
    let g = at as usize;
    vec![
        (vec![g, g + 1], at, 1),
        (vec![1, g + 1], at + 1, 1),
        (vec![1, g + 2], at + 2, 1),
        (vec![1, g + 3], at + 4, 2),
        (vec![1, g + 4], at + 4, 1),
        (vec![1, g], at, 3),
        (vec![1, g, g + 1, g + 2], at, 4),
        // In two sons and not in the group.
        (vec![1, g + 1, g + 2], at, 4),
        (vec![g + 1, g + 2], at, 4),
    ]
}
