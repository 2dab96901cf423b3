// Sheets and registers as documents 01 and 02 write them, read in the plainest way.

use std::collections::BTreeMap;

// What an edition sets (document 02, card 5).
#[derive(Clone, Copy, Debug, PartialEq)]
pub enum Edition {
    One,
    Two,
}

pub const EDITIONS: [Edition; 2] = [Edition::One, Edition::Two];

impl Edition {
    pub fn of(number: u16) -> Option<Edition> {
        match number {
            1 => Some(Edition::One),
            2 => Some(Edition::Two),
            _ => None,
        }
    }
    pub fn number(self) -> u16 {
        self as u16 + 1
    }
    pub fn other(self) -> Edition {
        EDITIONS[1 - self as usize]
    }
    pub fn group_limit(self) -> usize {
        [128, 256][self as usize]
    }
    pub fn label_limit(self) -> usize {
        [16, 32][self as usize]
    }
    pub fn row_kind(self) -> u16 {
        [33, 34][self as usize]
    }
    // L of a row, and all its bytes.
    pub fn row_length(self) -> u16 {
        [24, 40][self as usize]
    }
    pub fn row(self) -> usize {
        [26, 42][self as usize]
    }
    // No finite end of a range is above it.
    pub fn greatest_end(self) -> u64 {
        [8_322_818, 16_711_170][self as usize]
    }
}

// Some groups of a sheet, by index from 0: those that one member is in.
#[derive(Clone, Copy, Debug, Default, PartialEq, Eq, PartialOrd, Ord)]
pub struct Groups([u128; 2]);

impl Groups {
    pub fn has(self, g: usize) -> bool {
        self.0[g / 128] >> (g % 128) & 1 == 1
    }
    pub fn put(&mut self, g: usize) {
        self.0[g / 128] |= 1 << (g % 128);
    }
    pub fn remove(&mut self, g: usize) {
        self.0[g / 128] &= !(1 << (g % 128));
    }
    pub fn flip(&mut self, g: usize) {
        self.0[g / 128] ^= 1 << (g % 128);
    }
    pub fn add(&mut self, other: Groups) {
        self.0[0] |= other.0[0];
        self.0[1] |= other.0[1];
    }
    pub fn none(self) -> bool {
        self == Groups::default()
    }
    pub fn all(self) -> impl Iterator<Item = usize> {
        (0..256).filter(move |&g| self.has(g))
    }
    // As a row of the edition has them.
    pub fn bytes(self, edition: Edition) -> Vec<u8> {
        let both = self.0.map(u128::to_le_bytes).concat();
        both[..edition.group_limit() / 8].to_vec()
    }
}

#[derive(Clone, Debug)]
pub struct Group {
    pub parent: Option<usize>, // index, from 0
    pub lo: u64,
    pub hi: Option<u64>,
    pub mode: u16,
}

impl Group {
    pub fn disjoint(&self) -> bool {
        self.mode & 1 != 0
    }
    pub fn cover(&self) -> bool {
        self.mode & 2 != 0
    }
    pub fn same(&self) -> bool {
        self.mode & 4 != 0
    }
}

// A set that a claim speaks of: a group's, or the empty one.
pub type Named = Option<usize>;

#[derive(Clone, Debug)]
pub enum Claim {
    Count { set: Named, lo: u64, hi: Option<u64> },
    Lists { kind: ListKind, left: Vec<Named>, right: Vec<Named> },
}

#[derive(Clone, Copy, Debug, PartialEq)]
pub enum ListKind {
    Inside,
    Apart,
    Place,
}

// By their record kinds, from 5 on.
pub const LIST_KINDS: [ListKind; 3] = [ListKind::Inside, ListKind::Apart, ListKind::Place];

impl ListKind {
    pub fn word(self) -> &'static str {
        ["inside", "apart", "place"][self as usize]
    }

    // Where the member is of whom sets are shown; has: whether it is in a set.
    pub fn sought(self, left: &[Named], right: &[Named], has: impl Fn(&Named) -> bool) -> bool {
        match self {
            ListKind::Inside => left.iter().any(&has) && !right.iter().any(&has),
            ListKind::Apart => left.iter().any(&has) && right.iter().any(&has),
            ListKind::Place => left.iter().all(&has) && !right.iter().any(&has),
        }
    }
}

impl Claim {
    pub fn word(&self) -> &'static str {
        match self {
            Claim::Count { .. } => "count",
            Claim::Lists { kind, .. } => kind.word(),
        }
    }

    // Whether the claim holds where its reply shows sets: a denial shows sets that break it, and the yes of a place those
    // that have its member.
    pub fn holds_by_sets(&self) -> bool {
        matches!(self, Claim::Lists { kind: ListKind::Place, .. })
    }
}

#[derive(Clone, Debug)]
pub struct Sheet {
    pub edition: Edition,
    pub groups: Vec<Group>,
    pub sons: Vec<Vec<usize>>,
    pub names: Vec<Named>,
    pub claims: Vec<Claim>,
}

// A refusal and its record number.
pub type Refusal = (u32, u32);

pub fn make_sons(groups: &[Group]) -> Vec<Vec<usize>> {
    let mut sons = vec![Vec::new(); groups.len()];
    for (i, g) in groups.iter().enumerate() {
        if let Some(p) = g.parent {
            sons[p].push(i);
        }
    }
    sons
}

struct Reader<'a> {
    rest: &'a [u8],
    no: u32,
}

impl<'a> Reader<'a> {
    // The next record: kind and body, with refusal 1 met.
    fn next(&mut self) -> Result<(u16, &'a [u8]), Refusal> {
        self.no += 1;
        if self.rest.len() < 4 {
            return Err((1, self.no));
        }
        let l = word(self.rest, 0) as usize;
        if l < 2 || self.rest.len() < 2 + l {
            return Err((1, self.no));
        }
        let record = &self.rest[2..2 + l];
        self.rest = &self.rest[2 + l..];
        Ok((word(record, 0), &record[2..]))
    }
}

pub fn word(b: &[u8], at: usize) -> u16 {
    b[at] as u16 + 256 * b[at + 1] as u16
}

pub fn dword(b: &[u8], at: usize) -> u32 {
    word(b, at) as u32 + 65536 * word(b, at + 2) as u32
}

// A sheet's bytes with these ranges, least and greatest (u32::MAX for none), in place of the groups' bounds; none where a
// finite end is above 65,534, which has no field (document 02, card 13).
pub fn replaced(sheet: &[u8], ranges: impl Iterator<Item = (u32, u32)>) -> Option<Vec<u8>> {
    let mut bytes = sheet.to_vec();
    for (g, (least, greatest)) in ranges.enumerate() {
        if least > 65534 || (greatest > 65534 && greatest != u32::MAX) {
            return None;
        }
        let at = 12 * (g + 1);
        bytes[at + 6..at + 8].copy_from_slice(&(least as u16).to_le_bytes());
        bytes[at + 8..at + 10].copy_from_slice(&(greatest.min(65535) as u16).to_le_bytes());
    }
    Some(bytes)
}

// Kind and body of each record, as far as there are whole ones.
pub fn records(sheet: &[u8]) -> impl Iterator<Item = (u16, &[u8])> {
    let mut reader = Reader { rest: sheet, no: 0 };
    std::iter::from_fn(move || reader.next().ok())
}

fn upper(hi: u16) -> Option<u64> {
    if hi == 65535 { None } else { Some(hi as u64) }
}

pub fn read_sheet(bytes: &[u8]) -> Result<Sheet, Refusal> {
    let mut reader = Reader { rest: bytes, no: 0 };

    let (kind, body) = reader.next()?;
    if kind != 1 {
        return Err((2, 1));
    }
    if body.len() != 8 {
        return Err((3, 1));
    }
    let (edition, g, s, q) = (word(body, 0), word(body, 2), word(body, 4), word(body, 6));
    let Some(edition) = Edition::of(edition) else { return Err((4, 1)) };
    if g < 1 || g as usize > edition.group_limit() || s > 128 || q > 64 {
        return Err((4, 1));
    }

    let mut groups = Vec::new();
    for number in 1..=g {
        let (kind, body) = reader.next()?;
        let no = reader.no;
        if kind != 2 {
            return Err((2, no));
        }
        if body.len() != 8 {
            return Err((3, no));
        }
        let (parent, lo, hi, mode) = (word(body, 0), word(body, 2), word(body, 4), word(body, 6));
        if lo > 65534 || mode > 7 {
            return Err((4, no));
        }
        let allowed = if number == 1 { parent == 0 } else { parent >= 1 && parent < number };
        if !allowed {
            return Err((5, no));
        }
        groups.push(Group {
            parent: if parent == 0 { None } else { Some(parent as usize - 1) },
            lo: lo as u64,
            hi: upper(hi),
            mode,
        });
    }

    let mut names = Vec::new();
    let mut labels: Vec<&[u8]> = Vec::new();
    for _ in 0..s {
        let (kind, body) = reader.next()?;
        let no = reader.no;
        if kind != 3 {
            return Err((2, no));
        }
        if body.len() < 3 || body.len() > 2 + edition.label_limit() {
            return Err((3, no));
        }
        let (group, label) = (word(body, 0), &body[2..]);
        let alphabet = b"ABCDEFGHIJKLMNOPQRSTUVWXYZ0123456789-";
        if label.iter().any(|b| !alphabet.contains(b)) {
            return Err((4, no));
        }
        if group > g {
            return Err((5, no));
        }
        if labels.contains(&label) {
            return Err((6, no));
        }
        labels.push(label);
        names.push(if group == 0 { None } else { Some(group as usize - 1) });
    }

    let mut claims = Vec::new();
    for _ in 0..q {
        let (kind, body) = reader.next()?;
        let no = reader.no;
        let look_up = |n: u16| -> Result<Named, Refusal> {
            if n >= 1 && n <= s { Ok(names[n as usize - 1]) } else { Err((5, no)) }
        };
        match kind {
            4 => {
                if body.len() != 6 {
                    return Err((3, no));
                }
                let (name, lo, hi) = (word(body, 0), word(body, 2), word(body, 4));
                if lo > 65534 {
                    return Err((4, no));
                }
                claims.push(Claim::Count { set: look_up(name)?, lo: lo as u64, hi: upper(hi) });
            }
            5..=7 => {
                let l = body.len() + 2;
                if l % 2 != 0 || l < 10 || l > 38 {
                    return Err((3, no));
                }
                let (m, n) = (word(body, 0) as usize, word(body, 2) as usize);
                if m < 1 || m > 8 || n < 1 || n > 8 || l != 6 + 2 * (m + n) {
                    return Err((4, no));
                }
                let mut all = Vec::new();
                for i in 0..m + n {
                    all.push(look_up(word(body, 4 + 2 * i))?);
                }
                let right = all.split_off(m);
                claims.push(Claim::Lists { kind: LIST_KINDS[kind as usize - 5], left: all, right });
            }
            _ => return Err((2, no)),
        }
    }
    if !reader.rest.is_empty() {
        return Err((7, reader.no + 1));
    }
    let sons = make_sons(&groups);
    Ok(Sheet { edition, groups, sons, names, claims })
}

// A member as a row names it: number and side (1 left, 2 right).
pub type Ear = (u32, u16);

pub fn ear(row: &[u8]) -> Ear {
    (dword(row, 4), word(row, 8))
}

// The rows of a register as they stand: member and membership.
pub fn read_register(bytes: &[u8], edition: Edition, groups: usize) -> Result<Vec<(Ear, Groups)>, Refusal> {
    let mut rows: Vec<(Ear, Groups)> = Vec::new();
    let mut rest = bytes;
    while !rest.is_empty() {
        let no = rows.len() as u32 + 1;
        if no == 2049 {
            return Err((10, no));
        }
        if rest.len() < edition.row() || word(rest, 0) != edition.row_length() || word(rest, 2) != edition.row_kind() {
            return Err((11, no));
        }
        let (number, side) = ear(rest);
        if side != 1 && side != 2 {
            return Err((15, no));
        }
        // By number, then by side.
        let falls = rows.last().is_some_and(|(before, _)| number < before.0 || number == before.0 && side < before.1);
        if number == 0 || falls {
            return Err((12, no));
        }
        let mut held = Groups::default();
        for g in 0..edition.group_limit() {
            if bit(rest, g) {
                if g >= groups {
                    return Err((13, no));
                }
                held.put(g);
            }
        }
        rows.push(((number, side), held));
        rest = &rest[edition.row()..];
    }
    Ok(rows)
}

// Whether a row has the bit of the group with this index.
pub fn bit(row: &[u8], g: usize) -> bool {
    row[10 + g / 8] >> (g % 8) & 1 == 1
}

// The members that rows name, each with weight 1: one is in a group where any of its rows is (document 02, card 2), and
// both ears of a number are two (card 4).
pub fn members(rows: &[(Ear, Groups)]) -> Vec<(Groups, u64)> {
    joined(rows, |ear| ear)
}

// Rows joined where they have the same 'of'.
pub fn joined<T: Ord>(rows: &[(Ear, Groups)], of: impl Fn(Ear) -> T) -> Vec<(Groups, u64)> {
    let mut groups_of = BTreeMap::new();
    for &(ear, groups) in rows {
        groups_of.entry(of(ear)).or_insert(Groups::default()).add(groups);
    }
    groups_of.into_values().map(|groups| (groups, 1)).collect()
}

// Lowest broken group, from 1, and its first broken rule; 0 and 0 where all fits. Members come
// with a weight, so that a run of equal members is one entry.
pub fn broken_rule(sheet: &Sheet, members: &[(Groups, u64)]) -> (u16, u16) {
    for (g, group) in sheet.groups.iter().enumerate() {
        let found = |rule: u16| (g as u16 + 1, rule);
        if let Some(p) = group.parent {
            if members.iter().any(|&(m, _)| m.has(g) && !m.has(p)) {
                return found(1);
            }
            if sheet.groups[p].same() && members.iter().any(|&(m, _)| m.has(p) && !m.has(g)) {
                return found(2);
            }
        }
        let in_sons = |m: Groups| sheet.sons[g].iter().filter(|&&s| m.has(s)).count();
        if group.cover() && members.iter().any(|&(m, _)| m.has(g) && in_sons(m) == 0) {
            return found(3);
        }
        if group.disjoint() && members.iter().any(|&(m, _)| in_sons(m) >= 2) {
            return found(4);
        }
        let count: u64 = members.iter().filter(|&&(m, _)| m.has(g)).map(|&(_, w)| w).sum();
        if count < group.lo {
            return found(5);
        }
        if group.hi.is_some_and(|hi| count > hi) {
            return found(6);
        }
    }
    (0, 0)
}

fn within(m: Groups, set: &Named) -> bool {
    set.is_some_and(|g| m.has(g))
}

// Whether the claim's reply may show these members, the last of them member 0: they break it, or have the member of a
// place as member 0.
fn may_show(claim: &Claim, members: &[(Groups, u64)]) -> bool {
    match claim {
        Claim::Count { set, lo, hi } => {
            let count: u64 =
                members.iter().filter(|&&(m, _)| within(m, set)).map(|&(_, w)| w).sum();
            count < *lo || hi.is_some_and(|hi| count > hi)
        }
        Claim::Lists { kind, left, right } => {
            let asked = if claim.holds_by_sets() { members.len() - 1 } else { 0 };
            members[asked..].iter().any(|&(m, _)| kind.sought(left, right, |s| within(m, s)))
        }
    }
}

// A reply that shows sets: its frames, and that the sets fit and are such as the claim's reply may show.
pub fn check_shown(sheet: &Sheet, claim: &Claim, reply: &[u8]) -> Result<(), String> {
    if reply[..6] != [4, 0, 18, 0, claim.holds_by_sets() as u8, 0] {
        return Err(format!("verdict record {:?}", &reply[..6]));
    }
    let mut runs = Vec::new();
    for (g, r) in reply[6..].chunks(14).enumerate() {
        let (first, count, mark) = (dword(r, 4), dword(r, 8), word(r, 12));
        if word(r, 0) != 12 || word(r, 2) != 19 || first < 1 || mark > 1 {
            return Err(format!("record {} of the sets is {r:?}", g + 1));
        }
        runs.push((first, count, mark));
    }
    let members = expand(&runs);
    let (g, rule) = broken_rule(sheet, &members);
    if g != 0 {
        return Err(format!("the sets don't fit: group {g}, rule {rule}; {runs:?}"));
    }
    if !may_show(claim, &members) {
        let fault = if claim.holds_by_sets() { "member 0 has another place" } else { "the sets don't break the claim" };
        return Err(format!("{fault}; {runs:?}"));
    }
    Ok(())
}

// Runs (first, count, mark) as members with weights, by cutting at all ends. Every entry has
// weight 1 or more, and the last is member 0.
pub fn expand(runs: &[(u32, u32, u16)]) -> Vec<(Groups, u64)> {
    let mut cuts: Vec<u64> = Vec::new();
    for &(first, count, _) in runs {
        cuts.push(first as u64);
        cuts.push(first as u64 + count as u64);
    }
    cuts.sort_unstable();
    cuts.dedup();
    let mut members = Vec::new();
    for pair in cuts.windows(2) {
        let mut held = Groups::default();
        for (g, &(first, count, _)) in runs.iter().enumerate() {
            if first as u64 <= pair[0] && pair[0] < first as u64 + count as u64 {
                held.put(g);
            }
        }
        members.push((held, pair[1] - pair[0]));
    }
    let mut zero = Groups::default();
    for (g, &(_, _, mark)) in runs.iter().enumerate() {
        if mark == 1 {
            zero.put(g);
        }
    }
    members.push((zero, 1));
    members
}

pub fn show(sheet: &Sheet) -> String {
    let mut out = format!("edition {}\n", sheet.edition.number());
    let end = |hi: &Option<u64>| hi.map_or("-".to_string(), |h| h.to_string());
    let set = |s: &Named| s.map_or("{}".to_string(), |g| format!("g{}", g + 1));
    let list = |l: &[Named]| l.iter().map(set).collect::<Vec<_>>().join(" ");
    for (i, g) in sheet.groups.iter().enumerate() {
        out += &format!(
            "group {}: parent {}, {} to {}, mode {}\n",
            i + 1,
            g.parent.map_or(0, |p| p + 1),
            g.lo,
            end(&g.hi),
            g.mode
        );
    }
    for (i, n) in sheet.names.iter().enumerate() {
        out += &format!("name {}: {}\n", i + 1, set(n));
    }
    for (i, c) in sheet.claims.iter().enumerate() {
        out += &match c {
            Claim::Count { set: s, lo, hi } => {
                format!("claim {}: count of {} is {} to {}\n", i + 1, set(s), lo, end(hi))
            }
            Claim::Lists { kind, left, right } => {
                format!("claim {}: {} {} {}\n", i + 1, list(left), kind.word(), list(right))
            }
        };
    }
    out
}
