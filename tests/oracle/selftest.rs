// The oracle held to document 01's meaning in its plainest form: families of sets, one set of
// members for each group, all of them gone through; and registers by the sets that they list.

use crate::conversion::{register_towards, sheet_towards};
use crate::format::*;
use crate::gen::Rng;
use crate::large::{arrangement, Large};
use crate::small::Small;
use std::collections::BTreeMap;

// Families over members 0..people; a set is the bits of its members.
fn families(sheet: &Sheet, people: u32, mut each: impl FnMut(&[u32])) {
    let n = sheet.groups.len();
    let sets = 1u32 << people;
    let mut family = vec![0u32; n];
    loop {
        if fits(sheet, &family) {
            each(&family);
        }
        let mut g = 0;
        while g < n {
            family[g] += 1;
            if family[g] < sets {
                break;
            }
            family[g] = 0;
            g += 1;
        }
        if g == n {
            return;
        }
    }
}

// The six lines of 'Meaning', in their order.
fn fits(sheet: &Sheet, family: &[u32]) -> bool {
    (0..family.len()).all(|g| {
        let group = &sheet.groups[g];
        let sons: Vec<u32> = sheet.sons[g].iter().map(|&s| family[s]).collect();
        let union = sons.iter().fold(0, |a, b| a | b);
        let part = group.parent.is_none_or(|p| family[g] & !family[p] == 0);
        let same = !group.same() || sons.iter().all(|&s| s == family[g]);
        let cover = !group.cover() || family[g] & !union == 0;
        let apart = !group.disjoint()
            || (0..sons.len()).all(|i| (0..i).all(|j| sons[i] & sons[j] == 0));
        let count = family[g].count_ones() as u64;
        part && same && cover && apart && count >= group.lo && group.hi.is_none_or(|h| count <= h)
    })
}

// The family breaks the claim; or it has some member in all left sets of a place and in no right set.
fn shown(claim: &Claim, family: &[u32]) -> bool {
    let set = |n: &Named| n.map_or(0, |g| family[g]);
    let union = |l: &[Named]| l.iter().map(set).fold(0, |a, b| a | b);
    let common = |l: &[Named]| l.iter().map(set).fold(u32::MAX, |a, b| a & b);
    match claim {
        Claim::Count { set: s, lo, hi } => {
            let count = set(s).count_ones() as u64;
            count < *lo || hi.is_some_and(|h| count > h)
        }
        Claim::Lists { kind, left, right } => 0 != match kind {
            ListKind::Inside => union(left) & !union(right),
            ListKind::Apart => union(left) & union(right),
            ListKind::Place => common(left) & !union(right),
        },
    }
}

fn random_sheet(rng: &mut Rng, n: usize, most: u64, endless: u64) -> Sheet {
    let mut groups = Vec::new();
    for i in 0..n {
        let lo = rng.below(most + 1);
        let hi = if rng.chance(endless) {
            None
        } else if rng.chance(5) {
            Some(rng.below(most + 1))
        } else {
            Some(lo + rng.below(most + 1 - lo))
        };
        let lo = if rng.chance(40) { 0 } else { lo };
        let parent = if i == 0 { None } else { Some(rng.index(i)) };
        groups.push(Group { parent, lo, hi, mode: rng.below(8) as u16 });
    }
    let sons = make_sons(&groups);
    let mut claims = Vec::new();
    // The right list is more often empty; otherwise few members are in no set of it.
    let set = |rng: &mut Rng, empty: u64| if rng.chance(empty) { None } else { Some(rng.index(n)) };
    for _ in 0..8 {
        let list = |rng: &mut Rng, empty: u64| -> Vec<Named> {
            (0..1 + rng.below(3)).map(|_| set(rng, empty)).collect()
        };
        claims.push(match rng.below(4) {
            0 => Claim::Count {
                set: set(rng, 7),
                lo: rng.below(most + 1),
                hi: if rng.chance(40) { None } else { Some(rng.below(most + 1)) },
            },
            k => Claim::Lists { kind: LIST_KINDS[k as usize - 1], left: list(rng, 7), right: list(rng, 50) },
        });
    }
    Sheet { edition: Edition::One, groups, sons, names: Vec::new(), claims }
}

// The sheet with these ranges in place of its bounds, where they are others (document 02, card 13).
fn with_ranges(sheet: &Sheet, range: impl Fn(usize) -> (u64, Option<u64>)) -> Option<Sheet> {
    let mut out = sheet.clone();
    for (g, group) in out.groups.iter_mut().enumerate() {
        (group.lo, group.hi) = range(g);
    }
    let same = out.groups.iter().zip(&sheet.groups).all(|(a, b)| (a.lo, a.hi) == (b.lo, b.hi));
    (!same).then_some(out)
}

// How often claims of each kind were denied and held.
#[derive(Default)]
struct Verdicts(BTreeMap<&'static str, [u64; 2]>);

impl Verdicts {
    fn met(&mut self, claim: &Claim, shown: bool) {
        let holds = claim.holds_by_sets() == shown;
        self.0.entry(claim.word()).or_default()[holds as usize] += 1;
    }

    fn say(&self) -> String {
        assert!(self.0.len() == 4 && self.0.values().flatten().all(|&n| n > 0), "some verdict was never met");
        let kinds = self.0.iter().map(|(kind, [denied, holds])| format!("{kind} {holds} hold and {denied} denied"));
        kinds.collect::<Vec<_>>().join(", ")
    }
}

// The rules of a register, in their order, over the sets that it lists: the lowest broken group and its first rule.
fn broken(sheet: &Sheet, family: &[u32]) -> (u16, u16) {
    for (g, group) in sheet.groups.iter().enumerate() {
        let sons: Vec<u32> = sheet.sons[g].iter().map(|&s| family[s]).collect();
        let union = sons.iter().fold(0, |a, b| a | b);
        let count = family[g].count_ones() as u64;
        let rules = [
            group.parent.is_some_and(|p| family[g] & !family[p] != 0),
            group.parent.is_some_and(|p| sheet.groups[p].same() && family[p] != family[g]),
            group.cover() && family[g] & !union != 0,
            group.disjoint() && sons.iter().map(|s| s.count_ones()).sum::<u32>() > union.count_ones(),
            count < group.lo,
            group.hi.is_some_and(|hi| count > hi),
        ];
        if let Some(rule) = rules.iter().position(|&broken| broken) {
            return (g as u16 + 1, rule as u16 + 1);
        }
    }
    (0, 0)
}

// A row as each edition has it: length, kind, member, side, membership with these bits, counted from 0.
fn row(edition: Edition, (number, side): Ear, bits: &[usize]) -> Vec<u8> {
    let mut out = if edition == Edition::One { vec![24, 0, 33, 0] } else { vec![40, 0, 34, 0] };
    out.extend(number.to_le_bytes());
    out.extend(side.to_le_bytes());
    out.resize(if edition == Edition::One { 26 } else { 42 }, 0);
    bits.iter().for_each(|b| out[10 + b / 8] |= 1 << (b % 8));
    out
}

// All registers of up to three rows under three groups, with numbers 0 to 2 and sides 0 to 3: the first row is refused that
// has another side than 1 or 2 (15), the number 0 or an earlier row above it (12); all others are judged by the sets that
// they list, of four members. In edition 2 the three groups are 1, 129 and 256 of 256, and rows are read alone.
fn registers() {
    let (mut refused, mut read, mut kept) = (BTreeMap::new(), 0u64, BTreeMap::new());
    for many in 0..4u32 {
        for code in 0..96u32.pow(many) {
            let of = |c: u32| ((c / 8 % 3, (c / 24) as u16), c % 8);
            let rows: Vec<(Ear, u32)> = (0..many).map(|r| of(code / 96u32.pow(r) % 96)).collect();
            let answers = [(Edition::One, [0, 1, 2], 3), (Edition::Two, [0, 128, 255], 256)].map(|(edition, at, groups)| {
                let held = |set: u32| (0..3).filter(|g| set >> g & 1 == 1).map(|g| at[g]).collect::<Vec<usize>>();
                let bytes = rows.iter().flat_map(|&(ear, set)| row(edition, ear, &held(set))).collect::<Vec<u8>>();
                let answer = read_register(&bytes, edition, groups);
                if let Ok(found) = &answer {
                    let same = |(a, b): (&(Ear, Groups), &(Ear, u32))| a.0 == b.0 && a.1.all().eq(held(b.1));
                    assert!(found.len() == rows.len() && found.iter().zip(&rows).all(same), "{rows:?}");
                }
                answer
            });
            // One after another: 1 left, 1 right, 2 left, 2 right.
            let place = |r: usize| 2 * rows[r].0.0 + rows[r].0.1 as u32 - 3;
            let bad = (0..rows.len()).find_map(|r| match rows[r].0 {
                (_, 0 | 3) => Some((15, r as u32 + 1)),
                (number, _) if number == 0 || (0..r).any(|q| place(q) > place(r)) => Some((12, r as u32 + 1)),
                _ => None,
            });
            if let Some(bad) = bad {
                *refused.entry(bad).or_insert(0) += 1;
                assert_eq!([Err(bad), Err(bad)], answers, "{rows:?}");
                continue;
            }
            read += 1;
            let [Ok(found), Ok(_)] = answers else { panic!("{rows:?}") };
            let mut family = vec![0u32; 3];
            for (r, (_, set)) in rows.iter().enumerate() {
                (0..3).filter(|g| set >> g & 1 == 1).for_each(|g| family[g] |= 1 << place(r));
            }
            // Registers of the same members and sets are judged once.
            let members = members(&found);
            let joined = members.len() < rows.len();
            *kept.entry((members, family, joined)).or_insert(0) += 1;
        }
    }
    let (mut sheets, mut answers) = (0u64, [[0u64; 2]; 7]);
    for (parents, last) in [([None, Some(0), Some(0)], 2), ([None, Some(0), Some(1)], 8)] {
        // Of a group without sons 'cover' alone matters.
        for code in 0..8 * last * 2 * 10u16 {
            let modes = [code % 8, code / 8 % last * if last == 2 { 2 } else { 1 }, code / (8 * last) % 2 * 2];
            // One group with bounds, or none.
            let at = code / (16 * last);
            let bounds = |g: u16| if at / 3 == g { [(1, Some(1)), (2, None), (0, Some(0))][at as usize % 3] } else { (0, None) };
            let group = |g: usize| Group { parent: parents[g], lo: bounds(g as u16).0, hi: bounds(g as u16).1, mode: modes[g] };
            let groups: Vec<Group> = (0..3).map(group).collect();
            let sheet = Sheet { edition: Edition::One, sons: make_sons(&groups), groups, names: Vec::new(), claims: Vec::new() };
            sheets += 1;
            for ((members, family, joined), many) in &kept {
                let want = broken(&sheet, family);
                assert_eq!(want == (0, 0), fits(&sheet, family), "{members:?}\n{}", show(&sheet));
                assert_eq!(want, broken_rule(&sheet, members), "{members:?}\n{}", show(&sheet));
                answers[want.1 as usize][*joined as usize] += many;
            }
        }
    }
    assert!(answers.iter().flatten().all(|&n| n > 0), "some answer was never met");
    let by = |n: u32| refused.iter().filter(|((m, _), _)| *m == n).map(|(_, many)| many).sum::<u64>();
    assert_eq!(6, refused.len(), "a row was never refused");
    println!(
        "self-test, registers: {} refused by 12, {} by 15, {read} read under {sheets} sheets, {} fit ({} with joined rows)",
        by(12),
        by(15),
        answers[0][0] + answers[0][1],
        answers[0][1]
    );
}

// What the editions tell apart (document 02, card 5), value by value: every edition, every number of groups, every length of a
// label, labels that differ in one byte, every bit of a row under every number of groups, lengths and kinds of a row.
fn editions() {
    let record = |kind: u16, body: &[u8]| [&(body.len() as u16 + 2).to_le_bytes()[..], &kind.to_le_bytes(), body].concat();
    let words = |fields: &[u16]| fields.iter().flat_map(|f| f.to_le_bytes()).collect::<Vec<u8>>();
    let head = |edition: u16, groups: u16, names: u16| record(1, &words(&[edition, groups, names, 0]));
    let said = |bytes: &[u8]| read_sheet(bytes).map(|s| s.edition);
    let mut asked = 0u64;
    for edition in 0..=65535 {
        for groups in [0, 1, 128, 129, 256, 257] {
            let most = match edition {
                1 => 128,
                2 => 256,
                _ => 0,
            };
            // A head alone: where it passes, the first group is cut.
            let want = if groups >= 1 && groups <= most { (1, 2) } else { (4, 1) };
            assert_eq!(Err(want), said(&head(edition, groups, 0)).map(|_| ()), "edition {edition}, {groups} groups");
            asked += 1;
        }
    }
    for (edition, number, most, longest) in [(Edition::One, 1, 128, 16), (Edition::Two, 2, 256, 32)] {
        for groups in 0..=300 {
            let mut bytes = head(number, groups, 0);
            (0..groups).for_each(|g| bytes.extend(record(2, &words(&[g, 0, 65535, 0]))));
            let want = if groups >= 1 && groups <= most { Ok(edition) } else { Err((4, 1)) };
            assert_eq!(want, said(&bytes), "edition {number}, {groups} groups");
            asked += 1;
        }
        let named = |labels: &[Vec<u8>]| {
            let mut bytes = [head(number, 1, labels.len() as u16), record(2, &words(&[0, 0, 65535, 0]))].concat();
            labels.iter().for_each(|label| bytes.extend(record(3, &[&[1, 0], &label[..]].concat())));
            said(&bytes)
        };
        for n in 0..=40 {
            let label = vec![b'A'; n];
            let fits = n >= 1 && n <= longest;
            assert_eq!(if fits { Ok(edition) } else { Err((3, 3)) }, named(&[label.clone()]), "a label of {n} bytes");
            if fits {
                assert_eq!(Err((6, 4)), named(&[label.clone(), label.clone()]), "a label of {n} bytes twice");
            }
            for k in 0..if fits { n } else { 0 } {
                let mut other = label.clone();
                other[k] = b'B';
                assert_eq!(Ok(edition), named(&[label.clone(), other]), "labels of {n} bytes, another byte {k}");
            }
            asked += 2 + n as u64;
        }
        for groups in 1..=most as usize {
            for bit in 0..most as usize {
                let mut held = Groups::default();
                held.put(bit);
                let want = if bit < groups { Ok(vec![((1, 1), held)]) } else { Err((13, 1)) };
                assert_eq!(want, read_register(&row(edition, (1, 1), &[bit]), edition, groups), "bit {bit}, {groups} groups");
                asked += 1;
            }
        }
        for length in 0..=60u16 {
            for kind in 0..=60u16 {
                let mut bytes = row(edition, (1, 1), &[]);
                bytes.resize(length.max(8) as usize + 2, 0);
                bytes[..4].copy_from_slice(&words(&[length, kind]));
                let good = (length, kind) == if number == 1 { (24, 33) } else { (40, 34) };
                let want = if good { Ok(vec![((1, 1), Groups::default())]) } else { Err((11, 1)) };
                assert_eq!(want, read_register(&bytes, edition, 1), "edition {number}, length {length}, kind {kind}");
                asked += 1;
            }
        }
    }
    println!("self-test, editions: {asked} heads, labels and rows");
}

// Document 02, card 6, value by value: every number of groups, a label of every length at every one of some names, two long labels,
// and rows with every bit, every two bits, all bits and none, on one row and on several, each beside the row that is written out.
fn conversions() {
    let record = |kind: u16, body: &[u8]| [&(body.len() as u16 + 2).to_le_bytes()[..], &kind.to_le_bytes(), body].concat();
    let words = |fields: &[u16]| fields.iter().flat_map(|f| f.to_le_bytes()).collect::<Vec<u8>>();
    // Impossible where a bound says so: that is never asked.
    let sheet = |edition: u16, groups: u16, labels: &[usize]| {
        let mut bytes = record(1, &words(&[edition, groups, labels.len() as u16, 0]));
        (0..groups).for_each(|g| bytes.extend(record(2, &words(&[g, g % 3, 1, 0]))));
        for (k, &n) in labels.iter().enumerate() {
            bytes.extend(record(3, &[&[0, 0], &vec![b'A' + k as u8; n][..]].concat()));
        }
        bytes
    };
    let mut asked = 0u64;
    let mut towards = |groups: u16, labels: &[usize], want: Result<(), Refusal>| {
        let (first, second) = (sheet(1, groups, labels), sheet(2, groups, labels));
        assert_eq!(want.map(|_| first.clone()), sheet_towards(&second, Edition::One), "{groups} groups, labels {labels:?}");
        assert_eq!(Ok(second.clone()), sheet_towards(&second, Edition::Two), "{groups} groups, labels {labels:?}");
        if want.is_ok() {
            assert_eq!(Ok(first.clone()), sheet_towards(&first, Edition::One), "{groups} groups, labels {labels:?}");
            assert_eq!(Ok(second.clone()), sheet_towards(&first, Edition::Two), "{groups} groups, labels {labels:?}");
        } else {
            // Before any row.
            for bad in [vec![0], row(Edition::Two, (0, 3), &[255])] {
                assert_eq!(want.map(|_| bad.clone()), register_towards(&second, &bad, Edition::One));
            }
        }
        asked += 1;
    };
    for groups in 1..=256 {
        let many = if groups <= 128 { Ok(()) } else { Err((16, 0)) };
        towards(groups, &[], many);
        towards(groups, &[16, 1, 16], many);
        towards(groups, &[16, 17, 32], many.and(Err((17, groups as u32 + 3))));
    }
    for n in 1..=32 {
        for at in 0..5 {
            for groups in [1, 2, 128] {
                let mut labels = [16; 5];
                labels[at] = n;
                let record = groups as u32 + at as u32 + 2;
                towards(groups, &labels, if n <= 16 { Ok(()) } else { Err((17, record)) });
                labels[4] = 17;
                towards(groups, &labels, Err((17, if n <= 16 { groups as u32 + 6 } else { record })));
            }
        }
    }
    for groups in [128usize, 127, 65, 9] {
        let sheets = EDITIONS.map(|e| sheet(e.number(), groups as u16, &[]));
        let both = |ears: &[(Ear, Vec<usize>)]| {
            let rows = EDITIONS.map(|e| ears.iter().flat_map(|(ear, bits)| row(e, *ear, bits)).collect::<Vec<u8>>());
            for (own, to) in [(0, 0), (0, 1), (1, 0), (1, 1)] {
                assert_eq!(Ok(rows[to].clone()), register_towards(&sheets[own], &rows[own], EDITIONS[to]), "{ears:?}");
            }
        };
        let all: Vec<usize> = (0..groups).collect();
        both(&[]);
        both(&[((1, 1), vec![]), ((1, 1), vec![]), ((1, 2), all.clone()), ((1, 2), vec![]), ((u32::MAX, 1), all.clone())]);
        for &a in &all {
            both(&[((a as u32 + 1, 2), vec![a]), ((a as u32 + 1, 2), vec![a, groups - 1]), ((1000, 1), vec![])]);
            all.iter().for_each(|&b| both(&[((7, 1), vec![a, b])]));
            asked += 1 + groups as u64;
        }
    }
    println!("self-test, conversions: {asked} sheets and registers");
}

// The sheet among 129 to 256 groups, under a root that asks nothing, and where its groups are now. The others ask nothing of
// its groups: they are of mode 0, without upper ends.
fn among_many(rng: &mut Rng, sheet: &Sheet) -> (Sheet, Vec<usize>) {
    let n = 129 + rng.index(128);
    let mut at: Vec<usize> = Vec::new();
    while at.len() < sheet.groups.len() {
        let g = if rng.chance(70) { 128 + rng.index(n - 128) } else { 1 + rng.index(n - 1) };
        if !at.contains(&g) {
            at.push(g);
        }
    }
    at.sort_unstable();
    let mut groups = Vec::new();
    for g in 0..n {
        groups.push(match at.iter().position(|&k| k == g) {
            Some(k) => Group { parent: Some(sheet.groups[k].parent.map_or(0, |p| at[p])), ..sheet.groups[k].clone() },
            None if g == 0 => Group { parent: None, lo: 0, hi: None, mode: 0 },
            None => {
                let parent = rng.index(g);
                Group { parent: Some(if at.contains(&parent) { 0 } else { parent }), lo: rng.below(3), hi: None, mode: 0 }
            }
        });
    }
    (Sheet { edition: Edition::Two, sons: make_sons(&groups), groups, names: Vec::new(), claims: Vec::new() }, at)
}

fn moved(claim: &Claim, at: &[usize]) -> Claim {
    let set = |s: &Named| s.map(|g| at[g]);
    match claim {
        Claim::Count { set: s, lo, hi } => Claim::Count { set: set(s), lo: *lo, hi: *hi },
        Claim::Lists { kind, left, right } => {
            Claim::Lists { kind: *kind, left: left.iter().map(set).collect(), right: right.iter().map(set).collect() }
        }
    }
}

pub fn run(seed: u64) {
    // All finite, so that a few people are enough: the root's hi bounds them.
    let mut rng = Rng::new(seed);
    let (mut sheets, mut possible, mut other, mut verdicts) = (0u64, 0u64, 0u64, Verdicts::default());
    while sheets < 12_000 {
        let n = 1 + rng.index(4);
        let people = if n == 4 { 3 } else { 4 };
        let mut sheet = random_sheet(&mut rng, n, people as u64, 15);
        // Members outside the root are in no group, so 'people' is all that is needed.
        if sheet.groups[0].hi.is_none() {
            sheet.groups[0].hi = Some(people as u64);
        }
        sheets += 1;
        let mut some = false;
        let mut ranges = vec![(u64::MAX, 0); n];
        let mut showing = vec![false; sheet.claims.len()];
        let mut fitting = Vec::new();
        families(&sheet, people, |f| {
            some = true;
            fitting.push(f.to_vec());
            for g in 0..n {
                let c = f[g].count_ones() as u64;
                ranges[g] = (ranges[g].0.min(c), ranges[g].1.max(c));
            }
            for (s, c) in showing.iter_mut().zip(&sheet.claims) {
                *s |= shown(c, f);
            }
        });
        let small = Small::new(&sheet, 10_000_000).expect("a small sheet");
        let large = Large::new(&sheet);
        let text = show(&sheet);
        assert_eq!(some, small.possible, "possible, enumeration\n{text}");
        assert_eq!(some, large.possible(), "possible, closed forms\n{text}");
        if !some {
            continue;
        }
        possible += 1;
        for g in 0..n {
            let want = (ranges[g].0, Some(ranges[g].1));
            assert_eq!(want, small.ranges[g], "range of {}, enumeration\n{text}", g + 1);
            assert_eq!(want, large.range(g), "range of {}, closed forms\n{text}", g + 1);
        }
        // With its ranges as bounds the same families fit; the arrangement is one of them, none has fewer members in the
        // root, and its runs lie in the root's.
        if let Some(replaced) = with_ranges(&sheet, |g| (ranges[g].0, Some(ranges[g].1))) {
            other += 1;
            let mut again = Vec::new();
            families(&replaced, people, |f| again.push(f.to_vec()));
            assert_eq!(fitting, again, "families with the ranges as bounds\n{text}");
        }
        let runs: Vec<u32> = arrangement(&sheet, &large.up).iter().map(|r| ((1 << r.1) - 1) << (r.0 - 1)).collect();
        assert!(fitting.contains(&runs), "the arrangement\n{text}");
        assert!(fitting.iter().all(|f| runs[0].count_ones() <= f[0].count_ones()), "the smallest\n{text}");
        assert!(runs.iter().all(|r| r & !runs[0] == 0), "a run outside the root's\n{text}");
        for (c, claim) in sheet.claims.iter().enumerate() {
            verdicts.met(claim, showing[c]);
            assert_eq!(showing[c], small.shown(claim), "claim {}, enumeration\n{text}", c + 1);
            assert_eq!(showing[c], large.shown(claim), "claim {}, closed forms\n{text}", c + 1);
        }
    }
    assert!(other > 0 && possible < sheets, "some case was never met");
    println!(
        "self-test, families of sets: {sheets} sheets ({possible} possible, {other} with other ranges than bounds); claims: {}",
        verdicts.say()
    );

    // No sheet of up to three groups with bounds up to 2 gets other ranges or another arrangement from its ranges as
    // bounds: all of them, by closed forms.
    let (mut sheets, mut possible, mut other) = (0u64, 0u64, 0u64);
    let kinds: Vec<Group> = (0..96)
        .map(|k| Group { parent: None, lo: k % 3, hi: [Some(0), Some(1), Some(2), None][k as usize / 3 % 4], mode: k as u16 / 12 })
        .collect();
    for parents in [&[None][..], &[None, Some(0)], &[None, Some(0), Some(0)], &[None, Some(0), Some(1)]] {
        for code in 0..kinds.len().pow(parents.len() as u32) {
            let groups: Vec<Group> = (0..parents.len())
                .map(|g| Group { parent: parents[g], ..kinds[code / kinds.len().pow(g as u32) % kinds.len()].clone() })
                .collect();
            let sheet = Sheet { edition: Edition::One, sons: make_sons(&groups), groups, names: Vec::new(), claims: Vec::new() };
            sheets += 1;
            let large = Large::new(&sheet);
            if !large.possible() {
                continue;
            }
            possible += 1;
            let Some(replaced) = with_ranges(&sheet, |g| large.range(g)) else { continue };
            other += 1;
            let again = Large::new(&replaced);
            let text = show(&sheet);
            assert!((0..parents.len()).all(|g| again.range(g) == large.range(g)), "ranges as bounds\n{text}");
            assert_eq!(arrangement(&sheet, &large.up), arrangement(&replaced, &again.up), "arrangement\n{text}");
        }
    }
    println!("self-test, ranges as bounds: {sheets} sheets ({possible} possible, {other} with other ranges than bounds)");

    // All places under a root and three sons, hi up to 2 and a son's lo up to 1: two people are enough.
    let (mut sheets, mut possible, mut held, mut pairs_only) = (0u64, 0u64, 0u64, 0u64);
    let lists: Vec<Vec<Named>> = (0..16)
        .map(|s: u32| if s == 0 { vec![None] } else { (0..4).filter(|g| s >> g & 1 == 1).map(Some).collect() })
        .collect();
    let claim = |l: usize, r: usize| Claim::Lists { kind: ListKind::Place, left: lists[l].clone(), right: lists[r].clone() };
    let claims: Vec<Claim> = (0..256).map(|c| claim(c / 16, c % 16)).collect();
    for code in 0..72 * 216u64 {
        let son = |k: u64| Group { parent: Some(0), lo: k % 2, hi: Some(k / 2 % 3), mode: 0 };
        let (root, k) = (code / 216, code % 216);
        let root = Group { parent: None, lo: root % 3, hi: Some(root / 3 % 3), mode: (root / 9) as u16 };
        let groups = vec![root, son(k), son(k / 6), son(k / 36)];
        let sheet = Sheet { edition: Edition::One, sons: make_sons(&groups), groups, names: Vec::new(), claims: Vec::new() };
        sheets += 1;
        let mut some = false;
        let mut showing = [false; 256];
        families(&sheet, 2, |f| {
            some = true;
            for (s, c) in showing.iter_mut().zip(&claims) {
                *s = *s || shown(c, f);
            }
        });
        if !some {
            continue;
        }
        possible += 1;
        let small = Small::new(&sheet, 10_000_000).expect("a small sheet");
        let large = Large::new(&sheet);
        for (c, claim) in claims.iter().enumerate() {
            held += showing[c] as u64;
            assert_eq!(showing[c], small.shown(claim), "{claim:?}, enumeration\n{}", show(&sheet));
            assert_eq!(showing[c], large.shown(claim), "{claim:?}, closed forms\n{}", show(&sheet));
            // Any two of its left sets can share such a member, all can't.
            let (l, r) = (c / 16, c % 16);
            let pairs = (1..16usize).filter(|p| p & !l == 0 && p.count_ones() == 2);
            pairs_only += (l.count_ones() > 2 && !showing[c] && pairs.into_iter().all(|p| showing[16 * p + r])) as u64;
        }
    }
    assert!(held > 0 && pairs_only > 0, "some case was never met");
    println!(
        "self-test, places: {sheets} sheets ({possible} possible), all places: {held} hold, {pairs_only} only of any two left sets"
    );

    // Enumeration against closed forms, also without upper ends.
    let (mut sheets, mut possible, mut among, mut verdicts) = (0u64, 0u64, 0u64, Verdicts::default());
    while sheets < 60_000 {
        let n = 1 + rng.index(6);
        let sheet = random_sheet(&mut rng, n, 3, 25);
        let Some(small) = Small::new(&sheet, 400_000) else { continue };
        sheets += 1;
        let large = Large::new(&sheet);
        let text = show(&sheet);
        assert_eq!(small.possible, large.possible(), "possible\n{text}");
        let many = (sheets % 20 == 0).then(|| among_many(&mut rng, &sheet));
        let wide = many.as_ref().map(|(sheet, at)| (Large::new(sheet), sheet, at));
        if let Some((wide, ..)) = &wide {
            assert_eq!(small.possible, wide.possible(), "possible, among many groups\n{text}");
        }
        if !small.possible {
            continue;
        }
        possible += 1;
        for g in 0..n {
            assert_eq!(small.ranges[g], large.range(g), "range of {}\n{text}", g + 1);
        }
        for (c, claim) in sheet.claims.iter().enumerate() {
            let shown = small.shown(claim);
            verdicts.met(claim, shown);
            assert_eq!(shown, large.shown(claim), "claim {}\n{text}", c + 1);
        }
        if let Some((wide, sheet_of_many, at)) = wide {
            among += 1;
            let (runs, runs_of_many) = (arrangement(&sheet, &large.up), arrangement(sheet_of_many, &wide.up));
            for g in 0..n {
                assert_eq!(small.ranges[g], wide.range(at[g]), "range of {}, now {}\n{text}", g + 1, at[g] + 1);
                assert_eq!(runs[g], runs_of_many[at[g]], "run of {}, now {}\n{text}", g + 1, at[g] + 1);
            }
            for (c, claim) in sheet.claims.iter().enumerate() {
                let shown = wide.shown(&moved(claim, at));
                assert_eq!(small.shown(claim), shown, "claim {}, among many groups\n{text}", c + 1);
            }
        }
    }
    println!(
        "self-test, enumeration and closed forms: {sheets} sheets ({possible} possible, {among} of these also among 129 to 256 \
         groups); claims: {}",
        verdicts.say()
    );
    registers();
    editions();
    conversions();
    println!("self-test: 7 passed, 0 failed");
}
