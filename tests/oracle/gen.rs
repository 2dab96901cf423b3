// Sheets, registers and damage by chance, from one seed.

use crate::format::{dword, Edition, Groups, EDITIONS};
use std::collections::HashSet;

pub struct Rng(u64);

impl Rng {
    pub fn new(seed: u64) -> Rng {
        let mut r = Rng(seed.wrapping_mul(0x9e37_79b9_7f4a_7c15) ^ 0x2545_f491_4f6c_dd1d);
        if r.0 == 0 {
            r.0 = 1;
        }
        for _ in 0..8 {
            r.next();
        }
        r
    }
    pub fn next(&mut self) -> u64 {
        self.0 ^= self.0 << 13;
        self.0 ^= self.0 >> 7;
        self.0 ^= self.0 << 17;
        self.0.wrapping_mul(0x2545_f491_4f6c_dd1d)
    }
    pub fn below(&mut self, n: u64) -> u64 {
        (self.next() >> 33) % n.max(1)
    }
    pub fn index(&mut self, n: usize) -> usize {
        self.below(n as u64) as usize
    }
    // True in p of 100.
    pub fn chance(&mut self, p: u64) -> bool {
        self.below(100) < p
    }
    pub fn pick<T: Copy>(&mut self, from: &[T]) -> T {
        from[self.index(from.len())]
    }
}

pub struct Tree {
    pub parent: Vec<usize>, // of group i, from 0; the root's is not used
    pub mode: Vec<u16>,
    pub sons: Vec<Vec<usize>>,
    can: Vec<bool>, // can one member be in it at all?
    // At times a cover group that needs all but one of what its sons can have: two of them can share a member, three can't.
    short: Option<usize>,
}

impl Tree {
    fn new(rng: &mut Rng, n: usize) -> Tree {
        let parent = Tree::shape(rng, n);
        Tree::of(rng, parent)
    }

    fn shape(rng: &mut Rng, n: usize) -> Vec<usize> {
        let shape = rng.below(7);
        let mut parent = vec![0];
        for i in 1..n {
            parent.push(match shape {
                0 => i - 1,
                1 => 0,
                2 => (i - 1) / 2,
                3 => (i - 1) / 5,
                4 => i - 1 - rng.index(i.min(3)),
                5 => rng.index(i.min(4)),
                _ => rng.index(i),
            });
        }
        parent
    }

    // With these parents, and modes by chance.
    fn of(rng: &mut Rng, parent: Vec<usize>) -> Tree {
        let n = parent.len();
        let style = rng.below(6);
        let one = rng.below(8) as u16;
        let mode: Vec<u16> = (0..n)
            .map(|_| match style {
                0 => rng.below(8) as u16,
                1 => one,
                2 => rng.pick(&[0, 1, 2, 3]),
                3 => rng.pick(&[2, 2, 3, 0, 4]),
                4 => if rng.chance(15) { rng.below(8) as u16 } else { rng.pick(&[0, 2, 3]) },
                _ => rng.pick(&[0, 1, 2, 3, 1, 3, 4, 6]),
            })
            .collect();
        let mut sons = vec![Vec::new(); n];
        for i in 1..n {
            sons[parent[i]].push(i);
        }
        let wide: Vec<usize> = (0..n).filter(|&g| sons[g].len() >= 3).collect();
        let short = (!wide.is_empty() && rng.chance(15)).then(|| rng.pick(&wide));
        let mut tree = Tree { parent, mode, sons, can: vec![true; n], short };
        // Mostly no cover on leaves: it leaves them empty, and all above that they force.
        let keep = rng.below(30);
        for g in 0..n {
            if tree.sons[g].is_empty() && tree.mode[g] & 2 != 0 && !rng.chance(keep) {
                tree.mode[g] &= 5;
            }
            if tree.sons[g].len() >= 2 && tree.mode[g] & 5 == 5 && !rng.chance(keep) {
                tree.mode[g] &= 4;
            }
        }
        if let Some(g) = short {
            tree.mode[g] = 2;
        }
        for g in (0..n).rev() {
            let (m, sons) = (tree.mode[g], &tree.sons[g]);
            let able = sons.iter().filter(|&&s| tree.can[s]).count();
            tree.can[g] = if sons.is_empty() {
                m & 2 == 0
            } else if m & 4 != 0 {
                able == sons.len() && (m & 1 == 0 || sons.len() == 1)
            } else {
                m & 2 == 0 || able >= 1
            };
        }
        tree
    }

    // What one member may be in, drawn from the root down.
    pub fn member(&self, rng: &mut Rng) -> Groups {
        let mut set = Groups::default();
        if self.can[0] {
            self.fill(rng, 0, &mut set);
        }
        set
    }

    fn fill(&self, rng: &mut Rng, g: usize, set: &mut Groups) {
        set.put(g);
        let able: Vec<usize> = self.sons[g].iter().copied().filter(|&s| self.can[s]).collect();
        let m = self.mode[g];
        if m & 4 != 0 {
            for &s in &self.sons[g] {
                self.fill(rng, s, set);
            }
        } else if !able.is_empty() {
            let sure = rng.index(able.len());
            let share = rng.pick(&[10, 50, 90]);
            for (k, &s) in able.iter().enumerate() {
                let take = if k == sure {
                    m & 2 != 0 || rng.chance(70)
                } else {
                    m & 1 == 0 && rng.chance(share)
                };
                if take {
                    self.fill(rng, s, set);
                }
            }
        }
    }

    fn near(&self, rng: &mut Rng, g: usize) -> usize {
        let p = self.parent[g];
        match rng.below(6) {
            0 => p,
            1 if !self.sons[g].is_empty() => rng.pick(&self.sons[g]),
            2 | 3 if !self.sons[p].is_empty() => rng.pick(&self.sons[p]),
            4 => g,
            _ => rng.index(self.parent.len()),
        }
    }
}

pub struct Draft {
    pub edition: Edition, // of the sheet, and of the registers that are drawn for it
    pub tree: Tree,
    pub members: Vec<(Groups, u64)>, // members, with how often, that the bounds were drawn around
    pub records: Vec<Vec<u8>>,
    pub groups: usize,
    pub names: usize,
}

pub fn record(kind: u16, body: &[u8]) -> Vec<u8> {
    let mut r = Vec::with_capacity(body.len() + 4);
    r.extend(((body.len() + 2) as u16).to_le_bytes());
    r.extend(kind.to_le_bytes());
    r.extend(body);
    r
}

fn words(ws: &[u16]) -> Vec<u8> {
    ws.iter().flat_map(|w| w.to_le_bytes()).collect()
}

fn field(x: u64) -> u16 {
    x.min(65534) as u16
}

struct Namer {
    groups: Vec<u16>,
    limit: usize,
}

impl Namer {
    fn name(&mut self, rng: &mut Rng, group: u16) -> u16 {
        let known: Vec<usize> =
            (0..self.groups.len()).filter(|&i| self.groups[i] == group).collect();
        if (known.is_empty() || rng.chance(10)) && self.groups.len() < self.limit {
            self.groups.push(group);
            return self.groups.len() as u16;
        }
        if known.is_empty() {
            return rng.index(self.groups.len()) as u16 + 1;
        }
        rng.pick(&known) as u16 + 1
    }
}

// How many groups a sheet of more than a few has.
fn many_groups(rng: &mut Rng, edition: Edition) -> usize {
    match edition {
        Edition::One => match rng.below(5) {
            0 => 128,
            1 => 9 + rng.index(20),
            2 => 120 + rng.index(9),
            _ => 2 + rng.index(127),
        },
        Edition::Two => match rng.below(16) {
            0 => 256,
            1 => 248 + rng.index(9),
            2 => 129 + if rng.chance(20) { 0 } else { rng.index(128) },
            3 => rng.pick(&[63, 64, 65, 127, 128, 129, 191, 192, 193, 255]),
            4..=8 => 2 + rng.index(127),
            _ => 9 + rng.index(20),
        },
    }
}

pub fn draft(rng: &mut Rng) -> Draft {
    let edition = rng.pick(&EDITIONS);
    let large = rng.chance(22);
    let n = if large { many_groups(rng, edition) } else { 1 + rng.index(6) };
    draft_of(rng, edition, large, n)
}

fn draft_of(rng: &mut Rng, edition: Edition, large: bool, n: usize) -> Draft {
    let tree = Tree::new(rng, n);

    let kinds = if large { rng.below(20) } else { rng.below(4) };
    let heavy = rng.chance(if large { 50 } else { 4 });
    let mut members: Vec<(Groups, u64)> = Vec::new();
    for _ in 0..kinds {
        let weight = if heavy {
            rng.pick(&[1, 2, 100, 5000, 20000, 65534])
        } else {
            1 + rng.below(2)
        };
        members.push((tree.member(rng), weight));
    }
    members.retain(|m| !m.0.none());

    let mut bounds: Vec<(u16, u16)> = Vec::new();
    let tight = rng.below(5);
    for g in 0..n {
        let size: u64 = members.iter().filter(|m| m.0.has(g)).map(|m| m.1).sum();
        let style = match tight {
            0 => 0,
            1 => rng.below(3),
            2 => rng.below(10),
            3 => 3 + rng.below(8),
            _ => rng.below(8),
        };
        let hi = |x: u64| if x > 65534 { 65535 } else { x as u16 };
        bounds.push(match style {
            0 => (field(size), hi(size)),
            1 => (field(size.saturating_sub(rng.below(2))), hi(size + rng.below(2))),
            2 => (field(size.saturating_sub(rng.below(3))), hi(size)),
            3 => (0, hi(size)),
            4 => (field(size), 65535),
            5 => (field(size), hi(size + rng.below(3))),
            6 => (0, 65535),
            7 => (field(size.saturating_sub(rng.below(4))), hi(size + rng.below(4))),
            8 => (rng.below(3) as u16, rng.below(5) as u16),
            9 => (0, if large { 65534 } else { 3 }),
            _ => (field(size.saturating_sub(rng.below(1000))), hi(size + rng.below(1000))),
        });
    }
    if rng.chance(40) {
        for _ in 0..1 + rng.below(3) {
            let b = &mut bounds[rng.index(n)];
            match rng.below(5) {
                0 => b.0 = (b.0 + 1).min(65534),
                1 => b.1 = b.1.saturating_sub(1),
                2 => b.0 = b.0.saturating_sub(1),
                3 if b.1 < 65534 => b.1 += 1,
                4 if rng.chance(15) => *b = (65534, rng.pick(&[0, 3, 65533, 65534, 65535])),
                _ => {}
            }
        }
    }

    if let Some(g) = tree.short {
        bounds.fill((0, 65535));
        for &s in &tree.sons[g] {
            bounds[s].1 = 1 + rng.below(2) as u16;
            bounds[g].0 += bounds[s].1;
        }
        bounds[g].0 -= 1;
    }

    // Claims first, in terms of groups; the names that they need are made on the way.
    let wanted = match rng.below(12) {
        0 => 0,
        1 => 64,
        _ => 1 + rng.index(8),
    };
    let limit = match rng.below(8) {
        0 => 1,
        1 => 3,
        _ => 128,
    };
    let mut namer = Namer { groups: Vec::new(), limit };
    let mut claims = Vec::new();
    for _ in 0..wanted {
        let (g, way) = match tree.short {
            Some(g) if rng.chance(30) => (g, 3),
            _ => (rng.index(n), rng.below(6)),
        };
        let size: u64 = members.iter().filter(|m| m.0.has(g)).map(|m| m.1).sum();
        if rng.chance(30) {
            let group = if rng.chance(6) { 0 } else { g as u16 + 1 };
            let name = namer.name(rng, group);
            let lo = match rng.below(5) {
                0 | 1 => 0,
                2 => field(size + rng.below(2)),
                3 => field(size.saturating_sub(rng.below(2))),
                _ => rng.pick(&[0, 1, 2, 65533, 65534]),
            };
            let hi = match rng.below(6) {
                0 | 1 => 65535,
                2 => field(size + rng.below(2)),
                3 => field(size.saturating_sub(rng.below(2))),
                4 => field(size + rng.below(5)),
                _ => rng.pick(&[0, 1, 65533, 65534]),
            };
            claims.push(record(4, &words(&[name, lo, hi])));
            continue;
        }
        let kind = 5 + rng.below(3) as u16;
        let most = if rng.chance(15) { 8 } else { 3 };
        let (mut m, mut k) = (1 + rng.index(most), 1 + rng.index(most));
        let mut left: Vec<usize> = Vec::new();
        let mut right: Vec<usize> = Vec::new();
        let mut right_empty = 6;
        let sons = &tree.sons[g];
        match way {
            0 if !sons.is_empty() => {
                left.push(g);
                right.extend(sons.iter().take(8));
                if rng.chance(30) && right.len() > 1 {
                    right.remove(rng.index(right.len()));
                }
                (m, k) = (1, right.len());
            }
            1 if sons.len() >= 2 => {
                for _ in 0..m {
                    left.push(rng.pick(sons));
                }
                for _ in 0..k {
                    right.push(rng.pick(sons));
                }
            }
            2 => {
                left = vec![g; m];
                for _ in 0..k {
                    right.push(tree.near(rng, g));
                }
            }
            // All sons of one group, mostly with nobody in the other list.
            3 if !sons.is_empty() => {
                left.extend(sons.iter().take(8));
                right.push(tree.near(rng, g));
                (m, k) = (left.len(), 1);
                right_empty = 70;
            }
            // A way that one member may go.
            4 => {
                let set = tree.member(rng);
                let (within, without): (Vec<usize>, Vec<usize>) = (0..n).partition(|&x| set.has(x));
                for (names, many, from) in [(&mut left, m, within), (&mut right, k, without)] {
                    for _ in 0..many {
                        names.push(if from.is_empty() { tree.near(rng, g) } else { rng.pick(&from) });
                    }
                }
            }
            _ => {
                for _ in 0..m {
                    left.push(tree.near(rng, g));
                }
                let h = tree.near(rng, g);
                for _ in 0..k {
                    right.push(tree.near(rng, h));
                }
            }
        }
        if rng.chance(4) {
            right[rng.index(k)] = left[rng.index(m)];
        }
        // Names of the empty set: one here and there, at times all of the right list.
        let mut list = vec![m as u16, k as u16];
        for (groups, empty) in [(left, 3), (right, if rng.chance(right_empty) { 100 } else { 3 })] {
            for x in groups {
                let group = if rng.chance(empty) { 0 } else { x as u16 + 1 };
                list.push(namer.name(rng, group));
            }
        }
        claims.push(record(kind, &words(&list)));
    }
    let extra = match rng.below(10) {
        0 => 128,
        1 => rng.index(128),
        2..=5 => rng.index(4),
        _ => 0,
    };
    for _ in 0..extra {
        if namer.groups.len() < 128 {
            namer.groups.push(rng.index(n + 1) as u16);
        }
    }

    let mut labels = Labels::new(rng, edition);
    let mut records = vec![record(
        1,
        &words(&[edition.number(), n as u16, namer.groups.len() as u16, claims.len() as u16]),
    )];
    for g in 0..n {
        let parent = if g == 0 { 0 } else { tree.parent[g] as u16 + 1 };
        records.push(record(2, &words(&[parent, bounds[g].0, bounds[g].1, tree.mode[g]])));
    }
    for &group in &namer.groups {
        let mut body = group.to_le_bytes().to_vec();
        body.extend(labels.next(rng));
        records.push(record(3, &body));
    }
    records.extend(claims);
    Draft { edition, tree, members, records, groups: n, names: namer.groups.len() }
}

const ALPHABET: &[u8] = b"ABCDEFGHIJKLMNOPQRSTUVWXYZ0123456789-";

fn letters(rng: &mut Rng, many: usize) -> Vec<u8> {
    (0..many).map(|_| rng.pick(ALPHABET)).collect()
}

// Labels that are all different; at times many of them begin or end alike.
struct Labels {
    used: HashSet<Vec<u8>>,
    longest: usize,
    alike: Option<Vec<u8>>,
}

impl Labels {
    fn new(rng: &mut Rng, edition: Edition) -> Labels {
        let limit = edition.label_limit();
        let longest = rng.pick(&[3, 5, 16, limit, limit]);
        let alike = (longest == limit && rng.chance(50)).then(|| letters(rng, limit));
        Labels { used: HashSet::new(), longest, alike }
    }

    fn next(&mut self, rng: &mut Rng) -> Vec<u8> {
        loop {
            let label = match &self.alike {
                // Often alike in all bytes but one, in one short of a word of bytes, or in whole words.
                Some(alike) if rng.chance(80) => {
                    let most = alike.len() - 1;
                    let any = rng.index(most);
                    let many = rng.pick(&[most, most, any, 7, 8, 15, 16, 16, 24, 31]).min(most);
                    let others = if rng.chance(50) { 1 } else { 1 + rng.index(alike.len() - many) };
                    let (alike, others) = (&alike[..many], &letters(rng, others)[..]);
                    if rng.chance(75) { [alike, others].concat() } else { [others, alike].concat() }
                }
                _ => {
                    let many = 1 + rng.index(self.longest);
                    letters(rng, many)
                }
            };
            if self.used.insert(label.clone()) {
                return label;
            }
        }
    }
}

// A sheet whose root has the greatest end that its edition allows, or one near it.
pub fn widest(rng: &mut Rng) -> Draft {
    let edition = rng.pick(&EDITIONS);
    let n = edition.group_limit() - rng.pick(&[0, 0, 0, 0, 0, 0, 1, 8]);
    let mut tree = Tree::of(rng, vec![0; n]);
    tree.mode.fill(0);
    tree.mode[0] = rng.pick(&[2, 3]);
    let mut records = vec![record(1, &words(&[edition.number(), n as u16, 1, 3]))];
    let root = if rng.chance(80) { (0, 65535) } else { (rng.pick(&[0, 1, 65534]), 65534) };
    records.push(record(2, &words(&[0, root.0, root.1, tree.mode[0]])));
    let few = rng.pick(&[0, 0, 0, 3]);
    for _ in 1..n {
        let hi = if rng.chance(few) { rng.pick(&[0, 1, 65533]) } else { 65534 };
        let lo = if rng.chance(10) { rng.pick(&[1, 65534]) } else { 0 };
        records.push(record(2, &words(&[1, lo.min(hi), hi, 0])));
    }
    records.push(record(3, &[1, 0, b'A']));
    for (lo, hi) in [(0, 65534), (0, 65535), (65534, 65535)] {
        records.push(record(4, &words(&[1, lo, hi])));
    }
    Draft { edition, tree, members: Vec::new(), records, groups: n, names: 1 }
}

// A sheet around what edition 1 allows, mostly of edition 2: few groups or about 128, and no label above 16 bytes, one of them
// (often the first or the last), or several.
pub fn near_first(rng: &mut Rng) -> Draft {
    let edition = if rng.chance(85) { Edition::Two } else { Edition::One };
    let few = 1 + rng.index(6);
    let many = rng.pick(&[few, few, few, 65, 127, 128, 128, 128, 129, 129, 193, 256]);
    let n = many.min(edition.group_limit());
    let mut d = draft_of(rng, edition, n > 6, n);
    let one = rng.index(d.names);
    let long = match rng.below(7) {
        _ if edition == Edition::One => 0..0,
        0 | 1 | 2 => 0..0,
        3 => 0..1,
        4 => d.names.saturating_sub(1)..d.names,
        5 => one..one + 1,
        _ => one..d.names,
    };
    let mut used = HashSet::new();
    for k in 0..d.names {
        loop {
            let any = 3 + rng.index(14);
            let bytes = if long.contains(&k) { rng.pick(&[17, 17, 18, 24, 31, 32, 32]) } else { rng.pick(&[15, 16, 16, any]) };
            let label = letters(rng, bytes);
            if used.insert(label.clone()) {
                let at = 1 + d.groups + k;
                d.records[at] = record(3, &[&d.records[at][4..6], &label[..]].concat());
                break;
            }
        }
    }
    d
}

// A register for it, at times of as many rows as there may be, or one more.
pub fn near_most(rng: &mut Rng, d: &Draft) -> Vec<u8> {
    let mut bytes = if rng.chance(85) {
        register(rng, d)
    } else {
        let sets: Vec<Groups> = (0..4).map(|_| d.tree.member(rng)).collect();
        let many = rng.pick(&[2047, 2048, 2048, 2049, 2049]);
        let rows: Vec<Row> = (0..many).map(|r| (r > 0 && rng.chance(20), rng.pick(&sets))).collect();
        written(rng, &rows, d.edition)
    };
    if rng.chance(30) {
        let (at, way) = (some_row(rng, &bytes, d.edition), rng.pick(&[BAD_KIND, BAD_SIDE, NUMBER_0, BIT_ABOVE, BIT_ABOVE]));
        damage_row(rng, &mut bytes, d.edition, at, d.groups, way);
    }
    bytes
}

fn set_word(r: &mut [u8], at: usize, x: u16) {
    if at + 1 < r.len() {
        r[at..at + 2].copy_from_slice(&x.to_le_bytes());
    }
}

// The first, a middle or the last record, or any; often the first or last of its kind.
fn some_record(rng: &mut Rng, d: &Draft) -> usize {
    let n = d.records.len();
    let i = match rng.below(10) {
        0 => 0,
        1 => n / 2,
        2 => n - 1,
        3 => 1,
        4 => d.groups,
        5 => d.groups + 1,
        6 => d.groups + d.names,
        7 => d.groups + d.names + 1,
        _ => rng.index(n),
    };
    i.min(n - 1)
}

pub fn damage(rng: &mut Rng, d: &Draft) -> Vec<u8> {
    let mut records = d.records.clone();
    let mut as_written = false; // the bytes stay as these records have them
    let at = some_record(rng, d);
    let odd = |rng: &mut Rng| -> u16 {
        let own = at as u16;
        let (g, s) = (d.groups as u16, d.names as u16);
        rng.pick(&[
            0, 1, 2, 3, 7, 8, 9, 63, 64, 65, 127, 128, 129, 255, 256, 257, 65533, 65534, 65535, own,
            own.wrapping_sub(1), own + 1, g, g + 1, s, s + 1,
        ])
    };
    match rng.below(18) {
        0 => {
            let now = (records[at].len() - 2) as u16;
            let x = rng.pick(&[
                0, 1, 2, 3, 4, 5, 6, 8, 9, 10, 11, 12, 20, 21, 22, 36, 37, 38, 39, 40, 65535, now + 1,
                now.wrapping_sub(1), now + 2,
            ]);
            set_word(&mut records[at], 0, x);
        }
        1 => {
            let x = rng.pick(&[0, 1, 2, 3, 4, 5, 6, 7, 8, 8, 9, 17, 32, 256, 258, 259, 260, 263, 65535]);
            set_word(&mut records[at], 2, x);
        }
        2 | 3 | 4 | 5 => {
            let fields = (records[at].len() - 4) / 2;
            let k = rng.index(fields.max(1));
            let x = odd(rng);
            set_word(&mut records[at], 4 + 2 * k, x);
            if rng.chance(25) {
                let (k, x) = (rng.index(fields.max(1)), odd(rng));
                set_word(&mut records[at], 4 + 2 * k, x);
            }
        }
        6 => {
            // Another length, and the record made to it.
            let len = rng.pick(&[0usize, 1, 2, 3, 6, 7, 8, 9, 10, 12, 18, 19, 20, 34, 35, 36, 37, 38, 40]);
            let mut body = records[at][4..].to_vec();
            body.resize(len, b'A');
            let kind = records[at][2] as u16;
            records[at] = record(kind, &body);
        }
        7 if d.names >= 2 => {
            let a = 1 + d.groups + rng.index(d.names);
            let b = 1 + d.groups + rng.index(d.names);
            let label = records[a][6..].to_vec();
            let mut body = records[b][4..6].to_vec();
            body.extend(label);
            records[b] = record(3, &body);
        }
        8 if d.names >= 1 => {
            let a = 1 + d.groups + rng.index(d.names);
            let k = 6 + rng.index(records[a].len() - 6);
            records[a][k] = rng.pick(b"a@[/:,. \0\xff_z`{");
        }
        9 => {
            records.remove(at);
        }
        10 => {
            let b = rng.index(records.len());
            records.swap(at, b);
        }
        11 => {
            let copy = records[at].clone();
            records.insert(at, copy);
        }
        // The other edition, or none.
        12 => set_word(&mut records[0], 4, d.edition.other().number()),
        13 => set_word(&mut records[0], 4, rng.pick(&[0, 3, 3, 4, 255, 256, 257, 258, 513, 32770, 65535])),
        // Another number of groups, or one group more.
        14 => set_word(&mut records[0], 6, rng.pick(&[0, 0, 128, 129, 129, 255, 256, 257, 257, 512])),
        15 => {
            let parent = 1 + rng.index(d.groups) as u16;
            records.insert(1 + d.groups, record(2, &words(&[parent, 0, 65535, 0])));
            set_word(&mut records[0], 6, d.groups as u16 + 1);
            as_written = true;
        }
        // A label as long as an edition's labels may be, or one byte more; at times used before.
        16 if d.names >= 1 => {
            let a = 1 + d.groups + rng.index(d.names);
            let many = rng.pick(&[16, 17, 17, 32, 33, 33]);
            let mut label = letters(rng, many);
            if rng.chance(50) {
                label = records[a][6..].iter().copied().cycle().take(many).collect();
            }
            let body = [&records[a][4..6], &label].concat();
            records[a] = record(3, &body);
            if d.names >= 2 && rng.chance(40) {
                let b = 1 + d.groups + rng.index(d.names);
                let body = [&records[b][4..6], &label].concat();
                records[b] = record(3, &body);
            }
            as_written = true;
        }
        _ => {}
    }
    let mut bytes = records.concat();
    if bytes.is_empty() || !as_written && rng.chance(40) {
        match rng.below(6) {
            0 | 1 => bytes.truncate(rng.index(bytes.len() + 1)),
            2 => {
                for _ in 0..1 + rng.below(5) {
                    let k = rng.index(bytes.len() + 1);
                    bytes.insert(k, rng.next() as u8);
                }
            }
            3 => {
                if !bytes.is_empty() {
                    let k = rng.index(bytes.len());
                    bytes.remove(k);
                }
            }
            4 => {
                for _ in 0..1 + rng.below(3) {
                    if !bytes.is_empty() {
                        let k = rng.index(bytes.len());
                        bytes[k] ^= 1 << rng.below(8);
                    }
                }
            }
            _ => {
                let n = rng.pick(&[1, 2, 3, 4, 12, 100]);
                for _ in 0..n {
                    bytes.push(rng.next() as u8);
                }
            }
        }
    }
    bytes
}

// A row: whether it goes on with the member of the row before, and its groups.
type Row = (bool, Groups);

// One member on so many rows: its groups on the first or the last of them, on all, in turns, the higher ones on the last
// alone (so that the others break no rule 1), or each on any row and at times on more.
fn spread(rng: &mut Rng, set: Groups, rows: usize) -> Vec<Row> {
    let mut parts = vec![Groups::default(); rows];
    let way = rng.below(9);
    let more = rng.pick(&[0, 20, 60]);
    let high = rng.index(set.all().last().map_or(1, |g| g + 2));
    for g in set.all() {
        match way {
            0 => parts[0].put(g),
            1 => parts[rows - 1].put(g),
            2 => parts.iter_mut().for_each(|p| p.put(g)),
            3 => parts[g % rows].put(g),
            4 | 5 if g >= high => parts[rows - 1].put(g),
            4 | 5 => parts.iter_mut().for_each(|p| p.put(g)),
            _ => {
                parts[rng.index(rows)].put(g);
                while rng.chance(more) {
                    parts[rng.index(rows)].put(g);
                }
            }
        }
    }
    parts.iter().enumerate().map(|(r, &part)| (r > 0, part)).collect()
}

// Members' sets as rows: a row for each; or several rows for some members, with its groups spread over them; or some sets
// joined with the one before, as rows of one member.
fn as_rows(rng: &mut Rng, sets: &[Groups]) -> Vec<Row> {
    let often = rng.pick(&[10, 50, 100]);
    match rng.below(4) {
        0 | 1 => sets.iter().map(|&set| (false, set)).collect(),
        2 => {
            let mut rows = Vec::new();
            for &set in sets {
                let many = if rng.chance(often) { rng.pick(&[2, 2, 2, 3, 3, 9]) } else { 1 };
                rows.extend(spread(rng, set, many));
            }
            rows
        }
        _ => sets.iter().enumerate().map(|(r, &set)| (r > 0 && rng.chance(often), set)).collect(),
    }
}

pub fn register(rng: &mut Rng, d: &Draft) -> Vec<u8> {
    let n = d.groups;
    let mut sets: Vec<Groups> = Vec::new();
    match rng.below(8) {
        0 => {}
        // Nearly what the bounds were drawn around.
        1..=5 => {
            for &(set, weight) in &d.members {
                for _ in 0..weight.min(40) {
                    sets.push(set);
                }
            }
            for _ in 0..rng.below(3) {
                sets.push(Groups::default());
            }
        }
        6 => {
            for _ in 0..rng.below(12) {
                let mut set = Groups::default();
                (0..n).filter(|_| rng.chance(50)).for_each(|g| set.put(g));
                sets.push(set);
            }
        }
        _ => {
            let many = if rng.chance(4) { rng.pick(&[2047, 2048, 2048, 2049, 500]) } else { rng.index(30) };
            for _ in 0..many {
                sets.push(d.tree.member(rng));
            }
        }
    }
    if rng.chance(50) && !sets.is_empty() {
        for _ in 0..1 + rng.below(2) {
            let k = rng.index(sets.len());
            match rng.below(4) {
                0 => sets[k] = d.tree.member(rng),
                1 => sets.push(d.tree.member(rng)),
                2 if sets.len() > 1 => {
                    sets.remove(k);
                }
                _ => sets[k].flip(rng.index(n)),
            }
        }
    }
    let rows = as_rows(rng, &sets);
    let mut bytes = written(rng, &rows, d.edition);
    if rng.chance(30) {
        damage_rows(rng, &mut bytes, d.edition, n);
    }
    bytes
}

// How members take up the rows of a register.
#[derive(Clone, Copy, PartialEq)]
enum Taken {
    OneEach,
    TwoEach,
    AllByOne,
    TwoAtEdges,
    Mixed,
}

// How many rows each member has, one after another, for so many rows.
fn runs(rng: &mut Rng, taken: Taken, many: usize) -> Vec<usize> {
    let mut runs = Vec::new();
    let late = rng.pick(&[127, 1983, 2015, 2046]);
    let mut at = 0;
    while at < many {
        let run = match taken {
            Taken::OneEach => 1,
            // At times but the first.
            Taken::TwoEach => if at == 0 { 1 + rng.index(2) } else { 2 },
            Taken::AllByOne => many,
            // Rows 64 and 65, two others, and 2,047 and 2,048.
            Taken::TwoAtEdges => if at == 63 || at == late || at == 2046 { 2 } else { 1 },
            Taken::Mixed => rng.pick(&[1, 1, 1, 2, 2, 3, 7, 63, 64, 65, 200]),
        };
        runs.push(run.min(many - at));
        at += run;
    }
    runs
}

// A sheet and registers of many rows; the turn decides how members take them up.
pub fn full(rng: &mut Rng, turn: u64) -> (Vec<u8>, Vec<Vec<u8>>) {
    let edition = EDITIONS[turn as usize % 2];
    let n = match (edition, rng.below(4)) {
        (Edition::One, 0) => 128,
        (Edition::One, 1) => 65 + rng.index(64),
        (_, 0) => 256,
        (_, 1) => 129 + rng.index(128),
        (_, 2) => 2 + rng.index(edition.group_limit() - 1),
        (Edition::One, _) => rng.pick(&[1, 7, 63, 64, 65, 127]),
        _ => rng.pick(&[1, 7, 64, 65, 127, 128, 129, 191, 192, 193, 255]),
    };
    use Taken::*;
    let taken = [OneEach, TwoEach, OneEach, AllByOne, TwoAtEdges, Mixed][turn as usize / 2 % 6];
    let many = if matches!(taken, AllByOne | TwoAtEdges) && rng.chance(80) {
        2048
    } else if rng.chance(75) {
        2040 + rng.index(10)
    } else {
        rng.pick(&[63, 64, 65, 127, 128, 129, 1984, 1985, 2016, 2017])
    };
    let tight = rng.below(3);
    let tree = Tree::new(rng, n);
    let (sheet, mut registers) = around(rng, edition, &tree, taken, many, tight, 0);
    // And the first register with one row turned back, the last or another.
    for way in [BAD_KIND, BAD_SIDE, NUMBER_0, BIT_ABOVE] {
        let mut bytes = registers[0].clone();
        let r = rng.pick(&[many - 1, many - 1, many - 1, 63, 64, 2039, 0]).min(many - 1);
        damage_row(rng, &mut bytes, edition, edition.row() * r, n, way);
        registers.push(bytes);
    }
    (sheet, registers)
}

// A small sheet, mostly with few bounds, and registers of few rows, most of them of members on several rows.
pub fn joined(rng: &mut Rng) -> (Vec<u8>, Vec<Vec<u8>>) {
    let edition = rng.pick(&EDITIONS);
    let (n, many) = (2 + rng.index(9), 2 + rng.index(11));
    let taken = rng.pick(&[Taken::TwoEach, Taken::TwoEach, Taken::AllByOne, Taken::Mixed]);
    let tight = rng.pick(&[0, 1, 3, 9, 9]);
    let tree = Tree::new(rng, n);
    around(rng, edition, &tree, taken, many, tight, 0)
}

// A sheet of more than 128 groups, those from 129 on below one of the first, and registers of few rows, spoilt at groups from
// 129 on.
pub fn late(rng: &mut Rng) -> (Vec<u8>, Vec<Vec<u8>>) {
    let more = if rng.chance(30) { 128 } else { 1 + rng.index(128) };
    let many = 2 + rng.index(11);
    let mut parent = Tree::shape(rng, 128);
    let below = rng.index(4);
    parent.extend(Tree::shape(rng, more).iter().enumerate().map(|(g, p)| if g == 0 { below } else { 128 + p }));
    let tree = Tree::of(rng, parent);
    let taken = rng.pick(&[Taken::OneEach, Taken::OneEach, Taken::TwoEach, Taken::Mixed]);
    let tight = rng.pick(&[0, 1, 3, 9, 9]);
    around(rng, Edition::Two, &tree, taken, many, tight, 128)
}

// A sheet of groups alone and registers of so many rows: one that mostly fits it, some with rows spoilt, at groups with the
// index 'from' and above, some damaged. A group has bounds around what the first one's members have: all groups where tight
// is 0, the fewer the greater it is.
fn around(
    rng: &mut Rng,
    edition: Edition,
    tree: &Tree,
    taken: Taken,
    many: usize,
    tight: u64,
    from: usize,
) -> (Vec<u8>, Vec<Vec<u8>>) {
    let n = tree.parent.len();
    // A member's groups are spread over its rows, or each row could be a member; then bounds are at times drawn around rows.
    let spread_out = rng.chance(60);
    let around_rows = !spread_out && rng.chance(40);
    let mut rows: Vec<Row> = Vec::new();
    for run in runs(rng, taken, many) {
        let set = |rng: &mut Rng| if rng.chance(3) { Groups::default() } else { tree.member(rng) };
        if spread_out {
            let set = set(rng);
            rows.extend(spread(rng, set, run));
        } else {
            rows.extend((0..run).map(|r| (r > 0, set(rng))));
        }
    }
    let mut held: Vec<Groups> = Vec::new();
    for &(again, set) in &rows {
        match held.last_mut() {
            Some(last) if again && !around_rows => last.add(set),
            _ => held.push(set),
        }
    }
    let mut sheet = record(1, &words(&[edition.number(), n as u16, 0, 0]));
    // At times one group counts too few or too many.
    let wrong = rng.chance(10).then(|| from + rng.index(n - from));
    for g in 0..n {
        let size = held.iter().filter(|set| set.has(g)).count() as u16;
        let (lo, hi) = match if tight == 0 { 0 } else { rng.below(3 * tight + 2) } {
            _ if wrong == Some(g) => rng.pick(&[(size + 1, 65535), (0, size.saturating_sub(1))]),
            0 => (size, size),
            1 => (size.saturating_sub(1), size + 1),
            2 => (size, 65535),
            3 => (0, size),
            _ => (0, 65535),
        };
        sheet.extend(record(2, &words(&[if g == 0 { 0 } else { tree.parent[g] as u16 + 1 }, lo, hi, tree.mode[g]])));
    }
    let mut registers = Vec::new();
    for k in 0..5 {
        let mut now = rows.clone();
        for _ in 0..[0, 1, 1, 1, 2][k] {
            let edge = rng.pick(&[0, 62, 63, 64, 126, 127, 128, 1983, 1984, 2016, 2046, 2047, many - 1, many - 1]);
            let r = if edge < many && rng.chance(80) { edge } else { rng.index(many) };
            if rng.chance(30) {
                spoil(rng, tree, &mut now[r].1, from);
                continue;
            }
            // The member, on all its rows.
            let first = (0..=r).rev().find(|&r| !now[r].0).unwrap_or(0);
            let end = (r + 1..many).find(|&r| !now[r].0).unwrap_or(many);
            let mut set = Groups::default();
            now[first..end].iter().for_each(|row| set.add(row.1));
            spoil(rng, tree, &mut set, from);
            now.splice(first..end, spread(rng, set, end - first));
        }
        let mut bytes = written(rng, &now, edition);
        if k == 4 && rng.chance(75) {
            damage_rows(rng, &mut bytes, edition, n);
        }
        registers.push(bytes);
    }
    (sheet, registers)
}

// Other groups than those that fit: out of a parent, out of all sons, in one more son, out of a son of a 'same' group, in two
// sons of a 'disjoint' group, or one group other; where there are any, at groups with the index 'from' and above.
fn spoil(rng: &mut Rng, tree: &Tree, set: &mut Groups, from: usize) {
    let n = tree.parent.len();
    let held: Vec<usize> = set.all().filter(|&g| g >= from).collect();
    let g = if held.is_empty() { from + rng.index(n - from) } else { rng.pick(&held) };
    let sons = &tree.sons[g];
    let equal: Vec<usize> = held.iter().copied().filter(|&s| s > 0 && tree.mode[tree.parent[s]] & 4 != 0).collect();
    let several: Vec<usize> = held.iter().copied().filter(|&g| tree.mode[g] & 1 != 0 && tree.sons[g].len() > 1).collect();
    match rng.below(10) {
        0 => set.remove(tree.parent[g]),
        1 => sons.iter().for_each(|&s| set.remove(s)),
        2 if !sons.is_empty() => set.put(rng.pick(sons)),
        3 if sons.len() > 1 => {
            set.put(sons[0]);
            set.put(sons[sons.len() - 1]);
            if rng.chance(50) {
                set.remove(g);
            }
        }
        4 => *set = tree.member(rng),
        5 | 6 if !equal.is_empty() => set.remove(rng.pick(&equal)),
        7 | 8 if !several.is_empty() => {
            let sons = &tree.sons[rng.pick(&several)];
            set.put(sons[0]);
            set.put(sons[sons.len() - 1]);
        }
        _ => set.flip(from + rng.index(n - from)),
    }
}

// Rows as bytes, with a number and a side for each member. A right ear has at times the number of the left one before it;
// and at times a member's rows are taken for rows of both ears.
fn written(rng: &mut Rng, rows: &[Row], edition: Edition) -> Vec<u8> {
    let (mut number, mut side) = (0u32, RIGHT);
    let mut bytes: Vec<u8> = Vec::new();
    let step = rng.pick(&[1u64, 2, 1000, 1_000_000]);
    let (starts_left, both) = (rng.pick(&[0, 60, 100, 100]), rng.pick(&[0, 50, 100, 100]));
    let split = rng.pick(&[0, 0, 10, 100, 100]);
    for (again, set) in rows {
        if side == LEFT && rng.chance(if *again { split } else { both }) {
            side = RIGHT;
        } else if !again {
            // At times with the same low bytes.
            number += if rng.chance(2) { rng.pick(&[256, 65536, 1 << 24]) } else { 1 + rng.below(step) as u32 };
            side = if rng.chance(starts_left) { LEFT } else { RIGHT };
        }
        let mut body = number.to_le_bytes().to_vec();
        body.extend(side.to_le_bytes());
        body.extend(set.bytes(edition));
        bytes.extend(record(edition.row_kind(), &body));
    }
    bytes
}

const LEFT: u16 = 1;
const RIGHT: u16 = 2;

// Sides other than left and right; of some the low byte is one of them.
const BAD_SIDES: [u16; 14] = [0, 0, 3, 3, 4, 255, 256, 257, 258, 512, 513, 0x8002, 0xff01, 65535];

// A row as it was before sides: kind 32, 24 bytes.
fn old_row(row: &[u8]) -> Vec<u8> {
    record(32, &[&row[4..8], &row[10..26]].concat())
}

// A row with as many bytes as the other edition's.
fn resized(row: &[u8], edition: Edition, kind: u16) -> Vec<u8> {
    let mut body = row[4..].to_vec();
    body.resize(edition.other().row() - 4, 0);
    record(kind, &body)
}

// One change to the bytes of rows, or several, to one row or to some; mostly such as are turned back.
fn damage_rows(rng: &mut Rng, bytes: &mut Vec<u8>, edition: Edition, n: usize) {
    let mut r = some_row(rng, bytes, edition);
    for _ in 0..rng.pick(&[1, 1, 1, 2, 2, 3, 3]) {
        let way = rng.below(WAYS);
        damage_row(rng, bytes, edition, r, n, way);
        if rng.chance(50) {
            r = some_row(rng, bytes, edition);
        }
    }
}

// Where the first, a middle or the last row begins, or one at a word's edge, or any; 0 where there is none.
fn some_row(rng: &mut Rng, bytes: &[u8], edition: Edition) -> usize {
    let count = bytes.len() / edition.row();
    let r = match rng.below(6) {
        0 => 0,
        1 => count / 2,
        2 | 3 => count.saturating_sub(1),
        4 => rng.pick(&[1, 63, 64]),
        _ => rng.index(count),
    };
    edition.row() * if r < count { r } else { 0 }
}

const BAD_KIND: u64 = 0;
const BAD_SIDE: u64 = 1;
const NUMBER_0: u64 = 2;
const BIT_ABOVE: u64 = 3;
const WAYS: u64 = 22;

fn damage_row(rng: &mut Rng, bytes: &mut Vec<u8>, edition: Edition, r: usize, n: usize, way: u64) {
    let (size, limit, other) = (edition.row(), edition.group_limit(), edition.other());
    let whole = r + size <= bytes.len();
    match way {
        BAD_KIND if whole => {
            let kind = rng.pick(&[0, 31, 32, 32, other.row_kind(), other.row_kind(), 35, 289, 290, 2]);
            set_word(bytes, r + 2, kind);
        }
        BAD_SIDE | 4 | 5 if whole => set_word(bytes, r + 8, rng.pick(&BAD_SIDES)),
        NUMBER_0 if whole => bytes[r + 4..r + 8].fill(0),
        // Just above G, the last bit, in the half that edition 2 adds, or any.
        BIT_ABOVE if whole && n < limit => {
            let any = n + rng.index(limit - n);
            let g = rng.pick(&[n, limit - 1, any.max(limit / 2), any]);
            bytes[r + 10 + g / 8] |= 1 << (g % 8);
        }
        6 if whole => {
            let length = rng.pick(&[0, 1, 22, 23, 25, 39, 41, 280, 296, other.row_length(), other.row_length(), 65535]);
            set_word(bytes, r, length);
        }
        7 => bytes.truncate(rng.index(bytes.len() + 1)),
        8 => bytes.push(rng.next() as u8),
        9 => bytes.extend([edition.row_length() as u8, 0, edition.row_kind() as u8]),
        // The number of the row before, or a lower one.
        10 | 11 if whole && r > 0 => {
            let before = dword(bytes, r - size + 4);
            let number = if way == 10 { before } else { before.saturating_sub(1 + rng.below(before as u64) as u32) };
            bytes[r + 4..r + 8].copy_from_slice(&number.to_le_bytes());
        }
        12 if whole => bytes[r + 4..r + 8].fill(255),
        // The other ear.
        13 if whole => bytes[r + 8] ^= (LEFT ^ RIGHT) as u8,
        // The right ear, then the left one of its number.
        14 if whole && r > 0 => {
            bytes.copy_within(r - size + 4..r - size + 8, r + 4);
            set_word(bytes, r - size + 8, RIGHT);
            set_word(bytes, r + 8, LEFT);
        }
        15 if whole => {
            let old = old_row(&bytes[r..r + size]);
            bytes.splice(r..r + size, old);
        }
        16 => *bytes = bytes.chunks_exact(size).flat_map(old_row).collect(),
        // The other edition's row; with the bytes of this one's; this one's kind with the other's length.
        17 if whole => {
            let row = resized(&bytes[r..r + size], edition, other.row_kind());
            bytes.splice(r..r + size, row);
        }
        18 if whole => {
            set_word(bytes, r, other.row_length());
            set_word(bytes, r + 2, other.row_kind());
        }
        19 if whole => {
            let row = resized(&bytes[r..r + size], edition, edition.row_kind());
            bytes.splice(r..r + size, row);
        }
        // A register with such rows alone.
        20 => {
            let kind = if rng.chance(70) { other.row_kind() } else { edition.row_kind() };
            *bytes = bytes.chunks_exact(size).flat_map(|row| resized(row, edition, kind)).collect();
        }
        _ => {
            if !bytes.is_empty() {
                let k = rng.index(bytes.len());
                bytes[k] ^= 1 << rng.below(8);
            }
        }
    }
}
