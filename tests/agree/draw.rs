// Sheets and registers by chance, from one seed: most readable, with bounds near the counts, many broken at one place.

use crate::limits::{Edition, COVER, DISJOINT, EDITIONS, NAMES, NO_END, ROWS, SAME};
use crate::sheet;
use std::sync::OnceLock;

pub struct Rng(u64);

impl Rng {
    pub fn new(seed: u64, number: u64) -> Rng {
        let mut r = Rng(seed.wrapping_mul(0x9e37_79b9_7f4a_7c15) ^ number.wrapping_mul(0xd6e8_feb8_6659_fd93) | 1);
        for _ in 0..8 {
            r.next();
        }
        r
    }
    fn next(&mut self) -> u64 {
        self.0 ^= self.0 << 13;
        self.0 ^= self.0 >> 7;
        self.0 ^= self.0 << 17;
        self.0.wrapping_mul(0x2545_f491_4f6c_dd1d)
    }
    fn below(&mut self, n: usize) -> usize {
        (self.next() >> 33) as usize % n.max(1)
    }
    // True in p of 100.
    fn chance(&mut self, p: usize) -> bool {
        self.below(100) < p
    }
    fn pick<T: Copy>(&mut self, from: &[T]) -> T {
        from[self.below(from.len())]
    }
}

pub struct Pair {
    pub edition: Edition,
    pub groups: usize,
    pub rows: usize,
    pub members: Option<usize>, // none where the register is damaged
    pub sheet: Vec<u8>,
    pub register: Vec<u8>,
    pub room: usize, // bytes of the reply's buffer
}

// The groups of a member: group g is bit g - 1.
type Groups = [u64; 4];

fn has(set: &Groups, g: usize) -> bool {
    set[(g - 1) / 64] >> ((g - 1) % 64) & 1 == 1
}

fn flip(set: &mut Groups, g: usize) {
    set[(g - 1) / 64] ^= 1 << ((g - 1) % 64);
}

fn put(set: &mut Groups, g: usize) {
    set[(g - 1) / 64] |= 1 << ((g - 1) % 64);
}

fn clear(set: &mut Groups, g: usize) {
    set[(g - 1) / 64] &= !(1 << ((g - 1) % 64));
}

// Groups are numbered from 1; place 0 is not used.
struct Tree {
    parent: Vec<usize>,
    sons: Vec<Vec<usize>>,
    mode: Vec<u16>,
}

impl Tree {
    fn new(rng: &mut Rng, n: usize) -> Tree {
        let (shape, style, one) = (rng.below(8), rng.below(4), rng.below(8) as u16);
        let mut tree = Tree { parent: vec![0; n + 1], sons: vec![Vec::new(); n + 1], mode: vec![0; n + 1] };
        for g in 2..=n {
            tree.parent[g] = match shape {
                0 => g - 1,
                1 => 1,
                2 => g / 2,
                3 => (g + 2) / 4,
                4 => if g % 2 == 0 { g - 1 } else { g - 2 },
                5 => g - 1 - rng.below((g - 1).min(3)),
                6 => 1 + rng.below((g - 1).min(4)),
                _ => 1 + rng.below(g - 1),
            };
            tree.sons[tree.parent[g]].push(g);
        }
        let odd = rng.below(8); // in 100: modes that leave groups empty
        for g in 1..=n {
            let mode = match style {
                0 => rng.below(8) as u16,
                1 => one,
                2 => rng.pick(&[0, 1, 2, 3]),
                _ => rng.pick(&[0, 1, 2, 3, 1, 3, 4, 6]),
            };
            tree.mode[g] = match tree.sons[g].len() {
                _ if rng.chance(odd) => mode,
                0 => mode & !COVER,
                1 => mode,
                _ if mode & SAME != 0 => mode & !DISJOINT,
                _ => mode,
            };
        }
        tree
    }

    // From a group up to the root, and down again where that has to be.
    fn member(&self, rng: &mut Rng) -> Groups {
        let n = self.parent.len() - 1;
        let mut set = [0; 4];
        let mut g = if rng.chance(20) { n } else { 1 + rng.below(n) };
        while g != 0 {
            put(&mut set, g);
            g = self.parent[g];
        }
        for g in 1..=n {
            let (sons, mode) = (&self.sons[g], self.mode[g]);
            if sons.is_empty() || !has(&set, g) {
                continue;
            }
            if mode & SAME != 0 {
                sons.iter().for_each(|&s| put(&mut set, s));
            } else if mode & COVER != 0 && !sons.iter().any(|&s| has(&set, s)) {
                put(&mut set, rng.pick(sons));
            }
            if mode & DISJOINT == 0 && rng.chance(30) {
                put(&mut set, rng.pick(sons));
            }
        }
        set
    }

    // One member goes wrong at a group, its parent or its sons.
    fn spoil(&self, rng: &mut Rng, set: &mut Groups) {
        let n = self.parent.len() - 1;
        let g = edge(rng, n);
        match rng.below(5) {
            0 | 1 => flip(set, g),
            2 if g > 1 => {
                put(set, g);
                clear(set, self.parent[g]);
            }
            3 => {
                put(set, g);
                self.sons[g].iter().for_each(|&s| clear(set, s));
            }
            _ => {
                for _ in 0..2 {
                    if !self.sons[g].is_empty() {
                        put(set, rng.pick(&self.sons[g]));
                    }
                }
            }
        }
    }
}

// One of n, often the last, the first or around a whole word.
fn edge(rng: &mut Rng, n: usize) -> usize {
    match rng.below(10) {
        0..=2 => n,
        3 => 1,
        4 | 5 => rng.pick(&[63, 64, 65, 127, 128, 129, 191, 192, 193, 255, 256]).min(n),
        _ => 1 + rng.below(n),
    }
}

fn record(kind: u16, fields: &[u16]) -> Vec<u8> {
    let all = [&[2 + 2 * fields.len() as u16, kind], fields].concat();
    all.iter().flat_map(|x| x.to_le_bytes()).collect()
}

const LETTERS: &[u8] = b"ABCDEFGHIJKLMNOPQRSTUVWXYZ0123456789-";

// 128 labels that the Rust program's table of labels wants in one slot.
fn one_slot() -> &'static Vec<Vec<u8>> {
    static LABELS: OnceLock<Vec<Vec<u8>>> = OnceLock::new();
    LABELS.get_or_init(|| {
        let all = (0..).map(|i: u32| format!("SLOT-{i}").into_bytes());
        all.filter(|label| sheet::hash(label) == 250).take(NAMES).collect()
    })
}

fn labels(rng: &mut Rng, most: usize, many: usize) -> Vec<Vec<u8>> {
    let style = rng.below(6);
    let mut out: Vec<Vec<u8>> = (0..many)
        .map(|i| match style {
            0 => one_slot()[i].clone(),
            1 => format!("{i:0>most$}").into_bytes(),
            2 => format!("{i:-<0$}", 3 + rng.below(most - 2)).into_bytes(),
            _ => {
                let fill = rng.below(most - 2);
                let mut label: Vec<u8> = (0..fill).map(|_| rng.pick(LETTERS)).collect();
                label.extend(format!("{i:03}").bytes());
                label
            }
        })
        .collect();
    if many > 1 && rng.chance(6) {
        let (a, b) = (rng.below(many), edge(rng, many) - 1);
        out[b] = out[a].clone();
    }
    if many > 0 && rng.chance(3) {
        let i = edge(rng, many) - 1;
        match rng.below(3) {
            0 => out[i].resize(most + 1 + rng.below(2), b'X'),
            1 => out[i].clear(),
            _ => {
                let at = rng.below(out[i].len());
                out[i][at] = rng.pick(b"@[/:,.a z\0\xff");
            }
        }
    }
    out
}

fn sheet_of(rng: &mut Rng, edition: Edition, tree: &Tree, counts: &[usize]) -> Vec<u8> {
    let n = counts.len() - 1;
    let names = rng.pick(&[0, 0, 0, 1, 3, 8, 100, NAMES]);
    let claims = if names == 0 { 0 } else { rng.pick(&[0, 0, 1, 4, 64]) };
    let mut out = record(1, &[edition.number, n as u16, names as u16, claims]);
    let (near, wrong) = (rng.below(4), if rng.chance(35) { edge(rng, n) } else { 0 });
    for g in 1..=n {
        let (mut lo, mut hi) = (counts[g].saturating_sub(rng.below(near)), counts[g] + rng.below(near));
        match rng.below(6) {
            0 => lo = 0,
            1 => hi = NO_END as usize,
            _ => {}
        }
        if g == wrong {
            if counts[g] > 0 && rng.chance(50) { hi = counts[g] - 1 } else { lo = counts[g] + 1 }
        }
        out.extend(record(2, &[tree.parent[g] as u16, lo as u16, hi as u16, tree.mode[g]]));
    }
    for label in labels(rng, edition.label, names) {
        out.extend([4 + label.len() as u16, 3, rng.below(n + 1) as u16].iter().flat_map(|x| x.to_le_bytes()));
        out.extend(label);
    }
    for _ in 0..claims {
        let mut name = || 1 + rng.below(names) as u16;
        let lists = [2, 1, name(), name(), name()];
        out.extend(match rng.below(4) {
            0 => record(4, &[lists[2], 0, NO_END]),
            kind => record(4 + kind as u16, &lists),
        });
    }
    out
}

fn word(bytes: &[u8], at: usize) -> u16 {
    u16::from_le_bytes([bytes[at], bytes[at + 1]])
}

fn set_word(bytes: &mut [u8], at: usize, x: u16) {
    bytes[at..at + 2].copy_from_slice(&x.to_le_bytes());
}

fn damage_sheet(rng: &mut Rng, bytes: &mut Vec<u8>) {
    let mut starts = vec![0]; // of records
    while let Some(&at) = starts.last().filter(|&&at| at + 4 <= bytes.len()) {
        starts.push(at + 2 + word(bytes, at) as usize);
    }
    starts.pop();
    let value = rng.pick(&[0, 1, 2, 3, 4, 7, 8, 10, 64, 65, 128, 129, 256, 257, 258, 65534, 65535]);
    let at = rng.pick(&starts);
    match rng.below(8) {
        0 => bytes.truncate(rng.below(bytes.len())),
        1 => bytes.extend_from_within(..1 + rng.below(12)),
        2 => set_word(bytes, 4 + 2 * rng.below(4), value), // of the head
        3 => {
            let length = if rng.chance(50) { word(bytes, at).wrapping_add(1) } else { value };
            set_word(bytes, at, length);
        }
        4 => set_word(bytes, at + 2, if rng.chance(50) { 1 + rng.below(9) as u16 } else { value }),
        5 => {
            let field = at + 4 + 2 * rng.below(4);
            if field + 2 <= bytes.len() {
                set_word(bytes, field, value);
            }
        }
        6 => {
            let field = at + 4;
            if field + 2 <= bytes.len() {
                let moved = word(bytes, field).wrapping_add(rng.pick(&[1, 65535, 200]));
                set_word(bytes, field, moved);
            }
        }
        _ => {
            let at = rng.below(bytes.len());
            bytes[at] ^= 1 << rng.below(8);
        }
    }
}

fn damage_register(rng: &mut Rng, edition: Edition, n: usize, bytes: &mut Vec<u8>) {
    let (row, most) = (edition.row, edition.groups as usize);
    let rows = bytes.len() / row;
    if rows == 0 {
        bytes.extend((0..rng.below(2 * row)).map(|i| i as u8));
        return;
    }
    for _ in 0..rng.pick(&[1, 1, 1, 2]) {
        let at = row * (edge(rng, rows) - 1);
        match rng.below(9) {
            0 => {
                let cut = rng.below(row.min(bytes.len() - at));
                bytes.truncate(at + cut);
                return;
            }
            1 => {
                bytes.extend_from_within(..1 + rng.below(row));
                return;
            }
            2 => set_word(bytes, at, rng.pick(&[0, 22, 24, 40, 23, 65535])),
            3 => set_word(bytes, at + 2, rng.pick(&[20, 32, 33, 34, 35, 65535])),
            4 | 5 => set_word(bytes, at + 8, rng.pick(&[0, 1, 2, 3, 256, 257, 258, 65535])),
            6 => {
                let number = rng.pick(&[0, 1, 2, 65536, u32::MAX]);
                bytes[at + 4..at + 8].copy_from_slice(&number.to_le_bytes());
            }
            7 if n < most => {
                let bit = if rng.chance(50) { n } else { n + rng.below(most - n) };
                bytes[at + 10 + bit / 8] |= 1 << (bit % 8);
            }
            _ => {
                let other = row * rng.below(rows);
                for i in 4..10 {
                    bytes.swap(at + i, other + i);
                }
            }
        }
    }
}

// Each member's rows, in order: numbers rise, with one ear or both.
fn rows_of(rng: &mut Rng, edition: Edition, members: &[Groups], joined: usize) -> Vec<u8> {
    let mut out = Vec::new();
    let (mut number, mut side) = (0u32, 2);
    for (left, set) in (0..members.len()).rev().zip(members) {
        if side == 1 && rng.chance(60) {
            side = 2;
        } else {
            // Room for one number more for each member to come.
            number += 1 + if rng.chance(3) { rng.below((u32::MAX - number) as usize - left) as u32 / 2 } else { 0 };
            side = 1 + rng.below(2) as u16;
        }
        let many = if rng.chance(joined) { 2 + rng.below(2) } else { 1 };
        let mut rest = *set;
        for i in 1..=many {
            // The last row has what is left, the others any part, which may come again.
            let here = if i == many { rest } else { set.map(|w| w & rng.next()) };
            (0..4).for_each(|k| if rng.chance(80) { rest[k] &= !here[k] });
            out.extend(edition.row_length.to_le_bytes());
            out.extend(edition.row_kind.to_le_bytes());
            out.extend(number.to_le_bytes());
            out.extend(side.to_le_bytes());
            out.extend(here.iter().flat_map(|w| w.to_le_bytes()).take(edition.membership));
        }
    }
    out
}

pub fn pair(rng: &mut Rng) -> Pair {
    let edition = rng.pick(&EDITIONS);
    let most = edition.groups as usize;
    let n = match rng.below(10) {
        0..=5 => 1 + rng.below(10),
        6 | 7 => 1 + rng.below(most),
        8 => most,
        _ => rng.pick(&[63, 64, 65, 127, 128, 129, 191, 192, 193, 255]).min(most),
    };
    let tree = Tree::new(rng, n);
    let many = match rng.below(200) {
        0 => ROWS - 2 + rng.below(5),
        1..=9 => 0,
        10..=19 => rng.pick(&[62, 63, 64, 65, 66]),
        20..=29 => rng.pick(&[126, 127, 128, 129, 130]),
        30..=34 => rng.below(400),
        _ => 1 + rng.below(12),
    };
    let drawn: Vec<Groups> = (0..1 + rng.below(8)).map(|_| tree.member(rng)).collect();
    let mut members: Vec<Groups> = (0..many).map(|_| rng.pick(&drawn)).collect();
    let counts_of = |members: &[Groups]| {
        let mut counts = vec![0; n + 1];
        for (k, word) in members.iter().flat_map(|set| set.iter().enumerate()) {
            let mut word = *word;
            while word != 0 {
                counts[64 * k + word.trailing_zeros() as usize + 1] += 1;
                word &= word - 1;
            }
        }
        counts
    };
    let mut counts = counts_of(&members);
    if many > 0 && rng.chance(50) {
        for _ in 0..rng.pick(&[1, 1, 2]) {
            let at = edge(rng, many) - 1;
            tree.spoil(rng, &mut members[at]);
        }
        if rng.chance(70) {
            counts = counts_of(&members);
        }
    }
    let mut sheet = sheet_of(rng, edition, &tree, &counts);
    let joined = rng.pick(&[0, 0, 0, 10, 60]);
    let mut register = rows_of(rng, edition, &members, joined);
    let rows = register.len() / edition.row;
    let mut known = Some(many);
    if rng.chance(20) {
        damage_sheet(rng, &mut sheet);
        known = None;
    }
    if rng.chance(25) {
        // Rows of the other edition at times.
        if rng.chance(5) {
            register = rows_of(rng, EDITIONS[2 - edition.number as usize], &members, joined);
        } else {
            damage_register(rng, edition, n, &mut register);
        }
        known = None;
    }
    let room = if rng.chance(88) { rng.pick(&[8, 8, 9, 24]) } else { rng.below(8) };
    Pair { edition, groups: n, rows, members: known, sheet, register, room }
}
