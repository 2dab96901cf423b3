// Document 02, card 5, by hand: what each edition allows, in sheets and in rows.
use crate::library::Ask;
use crate::limits::*;
use crate::records::*;
use crate::rows::*;
use crate::table::*;

pub fn all(t: &mut Table) {
    heads(t);
    names(t);
    labels(t);
    late_records(t);
    longest(t);
    rows_of_either(t);
    bits(t);
}

impl Table {
    fn readable(&mut self, what: &str, sheet: &[u8]) {
        self.checked(what, sheet, &[], 0, 0);
    }

    // The register check of an empty register over all values of a two-byte field: the refusal and its record, or none.
    fn every_sheet(&mut self, what: &str, sheet: impl Fn(u16) -> Bytes, wanted: impl Fn(u16) -> Option<(u64, u64)>) {
        let number = |x| wanted(x).map_or(8, |(n, r)| n * 4_294_967_296 + r);
        let wrong: Vec<u16> = (0..=65535).filter(|&x| call(Ask::Register(&[]), &sheet(x), &mut [0; 8]) != number(x)).collect();
        self.note(&format!("every {what}"), wrong.is_empty(), format!("another answer for {wrong:?}"));
    }
}

// 4 at the head: the edition, and G by the edition; S and Q are the same in both.
fn heads(t: &mut Table) {
    let small = |edition: u16| [record(1, &words(&[edition, 1, 1, 1])), group(0, 0, 9, 0), name(1, "A"), count(1, 0, 9)].concat();
    for edition in [1, 2] {
        t.register(&format!("a small sheet of edition {edition}"), &small(edition), &[], 0, 0);
    }
    let others = [0, 3, 4, 127, 128, 254, 255, 256, 257, 258, 259, 511, 512, 513, 514, 32768, 32769, 32770, 65534, 65535];
    for edition in others {
        t.sheet(&format!("a small sheet of edition {edition}"), &small(edition), 4, 1);
    }
    t.every_sheet("edition", small, |x| if x == 1 || x == 2 { None } else { Some((4, 1)) });
    // A head alone: its fields pass, and the first group is missing; or one doesn't.
    for edition in [0, 1, 2, 3, 65535] {
        let most = match edition {
            1 => 128,
            2 => 256,
            _ => 0,
        };
        let wanted = |passes: bool| Some(if passes && most > 0 { (1, 2) } else { (4, 1) });
        let field = |at: usize, x: u16| {
            let mut w = [edition, 1, 0, 0];
            w[at] = x;
            record(1, &words(&w))
        };
        t.every_sheet(&format!("G of a head of edition {edition}"), |x| field(1, x), |x| wanted(1 <= x && x <= most));
        t.every_sheet(&format!("S of a head of edition {edition}"), |x| field(2, x), |x| wanted(x <= 128));
        t.every_sheet(&format!("Q of a head of edition {edition}"), |x| field(3, x), |x| wanted(x <= 64));
    }
    // Whole sheets at each limit and beyond.
    for e in EDITIONS {
        for n in [1, 2, 127, 128, 129, 130, 192, 255, 256, 257, 258, 384, 385, 512, 513] {
            let what = format!("{n} groups in edition {}", e.number);
            if n <= e.groups {
                t.register_with(&what, &e.star(n, 0), &[], 0, 0, &[0, 7, 8, 40]);
            } else {
                t.sheet_once(&what, &e.star(n, 0), 4, 1);
            }
        }
        for (s, q) in [(128, 64), (129, 64), (128, 65), (129, 65), (256, 64), (128, 128), (0, 0), (1, 64), (128, 0)] {
            for g in [1, e.groups, e.groups + 1] {
                let list = listed_groups(g, &[]);
                let sheet = e.sheet(&list, &vec![g; s], &vec![count(1, 0, NO_END); q]);
                let what = format!("{g} groups, {s} names and {q} claims in edition {}", e.number);
                if g <= e.groups && s <= NAMES && q <= CLAIMS {
                    t.readable(&what, &sheet);
                } else {
                    t.sheet_once(&what, &sheet, 4, 1);
                }
            }
        }
    }
    // What comes before 4 in the same record, and what comes after it in later ones.
    for edition in [0, 3, 256, 257, 258, 513, 65535] {
        let rest = base()[1..].concat();
        let first = |head: Bytes| [head, rest.clone()].concat();
        let what = format!("edition {edition}");
        t.sheet(&format!("{what} and no more bytes"), &record(1, &words(&[edition, 3, 3, 3])), 4, 1);
        t.sheet(&format!("{what}, G 0"), &first(record(1, &words(&[edition, 0, 3, 3]))), 4, 1);
        t.sheet(&format!("{what}, G 256"), &first(record(1, &words(&[edition, 256, 3, 3]))), 4, 1);
        t.sheet(&format!("{what}, a head of length 12"), &first(record(1, &words(&[edition, 3, 3, 3, 0]))), 3, 1);
        t.sheet(&format!("{what}, a head of length 4"), &first(record(1, &words(&[edition]))), 3, 1);
        t.sheet(&format!("{what}, kind 2"), &first(record(2, &words(&[edition, 3, 3, 3]))), 2, 1);
        t.sheet(&format!("{what}, the head cut"), &record(1, &words(&[edition, 3, 3, 3]))[..11], 1, 1);
        t.sheet(&format!("{what}, a byte after the last record"), &[first(record(1, &words(&[edition, 3, 3, 3]))), vec![0]].concat(), 4, 1);
    }
}

// 3: a name's L is 5 to 20 or 5 to 36. What is wrong beside it comes later.
fn names(t: &mut Table) {
    let long = "ABCDEFGHIJKLMNOPQRSTUVWXYZ-0123456789".repeat(9);
    for e in EDITIONS {
        let label = |n: usize| &long[..n];
        let last = |label: &str| [e.head(1, 1, 0), group(0, 0, 9, 0), name(1, label)].concat();
        for n in (0..=70).chain([128, 129, 255, 256, 257, 272, 273, 288, 289]) {
            let what = format!("a label of {n} bytes in edition {}", e.number);
            for no in [5, 6, 7] {
                let sheet = e.with(no, name(1, label(n)));
                if 1 <= n && n <= e.label {
                    // The others are A, B and C.
                    let twice = n == 1 && no > 5;
                    if twice {
                        t.sheet(&format!("{what}, record {no}"), &sheet, 6, no as u64);
                    } else {
                        t.readable(&format!("{what}, record {no}"), &sheet);
                    }
                } else {
                    t.sheet_once(&format!("{what}, record {no}"), &sheet, 3, no as u64);
                }
            }
            if 1 <= n && n <= e.label {
                t.readable(&format!("{what}, the last record"), &last(label(n)));
                t.sheet(&format!("{what}, without its last byte"), &last(label(n))[..24 + 5 + n], 1, 3);
                t.sheet(&format!("{what}, a byte after it"), &[last(label(n)), vec![65]].concat(), 7, 4);
            } else {
                t.sheet_once(&format!("{what}, the last record"), &last(label(n)), 3, 3);
            }
        }
        t.sheet("a name of length 2", &e.with(5, record(3, &[])), 3, 5);
        t.sheet("a name of length 3", &e.with(5, record(3, &[1])), 3, 5);
        // One byte too long, with what comes after 3.
        let beyond = "A".repeat(e.label) + "a";
        t.sheet_once("3+4, one byte too long and small", &e.with(6, name(1, &beyond)), 3, 6);
        t.sheet_once("3+5, one byte too long and group 9", &e.with(6, name(9, label(e.label + 1))), 3, 6);
        let two = [e.head(1, 2, 0), group(0, 0, 9, 0), name(1, label(e.label + 1)), name(1, label(e.label + 1))].concat();
        t.sheet_once("3+6, one byte too long, twice", &two, 3, 3);
        // 4: each place of a label.
        for n in [1, 8, 15, 16, 17, 23, 24, 25, 31, 32] {
            for at in (0..n).filter(|_| n <= e.label) {
                for byte in [b'a', b' ', b'['] {
                    let mut b = e.with(6, name(2, label(n)));
                    let start = e.base()[..5].concat().len() + 6;
                    b[start + at] = byte;
                    t.sheet_once(&format!("byte {byte} at {at} of a label of {n} in edition {}", e.number), &b, 4, 6);
                }
            }
        }
        for (n, at) in [(1, 0), (16, 15), (17, 16), (32, 0), (32, 15), (32, 16), (32, 31)] {
            if n <= e.label {
                let with_byte = |x: u16| {
                    let mut b = [e.head(1, 1, 0), group(0, 0, 9, 0), name(1, label(n))].concat();
                    b[30 + at] = x as u8;
                    b
                };
                let allowed = |x: u16| b"ABCDEFGHIJKLMNOPQRSTUVWXYZ0123456789-".contains(&(x as u8));
                t.every_sheet(&format!("byte at {at} of a label of {n} in edition {}", e.number), with_byte, |x| if allowed(x) { None } else { Some((4, 3)) });
            }
        }
    }
}

// 6: labels are compared whole.
fn labels(t: &mut Table) {
    let long = "KLINIK-42-HAMBURG-NORD-STATION-7";
    assert_eq!(long.len(), 32);
    let changed = |n: usize, at: usize| {
        let mut b = long[..n].as_bytes().to_vec();
        b[at] = if b[at] == b'Q' { b'X' } else { b'Q' };
        String::from_utf8(b).unwrap()
    };
    for e in EDITIONS {
        let named = |labels: &[&str]| {
            let mut b = [e.head(1, labels.len() as u16, 0), group(0, 0, 9, 0)].concat();
            for (i, label) in labels.iter().enumerate() {
                b.extend(name((i % 2) as u16, label));
            }
            b
        };
        for n in 1..=e.label {
            let a = &long[..n];
            let what = format!("labels of {n} bytes in edition {}", e.number);
            t.sheet_once(&format!("{what}, equal"), &named(&[a, a]), 6, 4);
            for at in 0..n {
                let b = &changed(n, at);
                t.readable(&format!("{what}, other at {at}"), &named(&[a, b]));
                t.sheet_once(&format!("{what}, other at {at}, the first again"), &named(&[a, b, a]), 6, 5);
                t.sheet_once(&format!("{what}, other at {at}, the second again"), &named(&[a, b, b, a]), 6, 5);
            }
            // One begins as the other.
            for m in 1..n {
                t.readable(&format!("{what}, and its first {m}"), &named(&[a, &long[..m]]));
                t.readable(&format!("{what}, after its first {m}"), &named(&[&long[..m], a]));
                t.readable(&format!("{what}, and its last {m}"), &named(&[a, &a[n - m..]]));
            }
        }
        // 128 labels of the greatest length that are different in two bytes alone: the first two, the last two, those in
        // the middle.
        for at in [0, e.label / 2 - 1, e.label / 2, e.label - 2] {
            let label = |k: usize| {
                let mut b = long[..e.label].as_bytes().to_vec();
                b[at] = b'A' + (k / 26) as u8;
                b[at + 1] = b'A' + (k % 26) as u8;
                String::from_utf8(b).unwrap()
            };
            let all: Vec<String> = (1..=128).map(label).collect();
            let list: Vec<&str> = all.iter().map(|l| l.as_str()).collect();
            let what = format!("128 labels, different at {at}, in edition {}", e.number);
            t.readable(&what, &named(&list));
            for k in [1, 2, 63, 64, 65, 127] {
                let mut again = list.clone();
                again[127] = list[k - 1];
                t.sheet_once(&format!("{what}, the last as number {k}"), &named(&again), 6, 130);
                again[127] = list[127];
                again[k] = list[k - 1];
                t.sheet_once(&format!("{what}, number {} as the one before", k + 1), &named(&again), 6, 3 + k as u64);
            }
        }
    }
    let two = |a: &str, b: &str| [SECOND.head(1, 2, 0), group(0, 0, 9, 0), name(1, a), name(1, b)].concat();
    let (x, y) = (&long[..16], &long[16..]);
    t.readable("halves exchanged", &two(&[x, y].concat(), &[y, x].concat()));
    t.readable("a half twice, and once", &two(&[x, x].concat(), x));
    t.readable("a half twice, and the other twice", &two(&[x, x].concat(), &[y, y].concat()));
    t.sheet("a half twice, again", &two(&[x, x].concat(), &[x, x].concat()), 6, 4);
    t.readable("32 times A, and B last", &two(&"A".repeat(32), &("A".repeat(31) + "B")));
    t.readable("32 times A, and 31 times", &two(&"A".repeat(32), &"A".repeat(31)));
    t.readable("17 times A, and 16 times", &two(&"A".repeat(17), &"A".repeat(16)));
    t.sheet("5+6, a label of 32", &[SECOND.head(1, 2, 0), group(0, 0, 9, 0), name(1, long), name(2, long)].concat(), 5, 4);
}

// A sheet of edition 2 with all there may be: records 1 head, 2 to 257 groups, 258 to 385 names, 386 to 449 claims.
// Name 1 is the root's, name k from 2 on that of group 258 - k; labels and claims have their greatest length.
fn full() -> Vec<Bytes> {
    let mut b = vec![SECOND.head(256, 128, 64)];
    b.extend((1..=256).map(|g| group(if g == 1 { 0 } else { 1 }, 0, NO_END, 0)));
    b.extend((1..=128).map(|k| name(if k == 1 { 1 } else { 258 - k }, &format!("THE-LONGEST-LABEL-OF-NUMBER-{k:04}"))));
    let (low, high) = ([2, 3, 4, 5, 6, 7, 8, 9], [121, 122, 123, 124, 125, 126, 127, 128]);
    for k in 0..64 {
        b.push(match k % 4 {
            0 => inside(&low, &[1, 121, 122, 123, 124, 125, 126, 127]),
            1 => inside(&low, &high),
            2 => apart(&low, &high),
            _ => place(&low, &high),
        });
    }
    b
}

fn full_with(no: usize, new: Bytes) -> Bytes {
    let mut b = full();
    b[no - 1] = new;
    b.concat()
}

// 1 to 6 at late records of edition 2.
fn late_records(t: &mut Table) {
    let all = full();
    for no in [1, 2, 128, 129, 130, 131, 193, 256, 257, 258, 259, 321, 384, 385, 386, 387, 448, 449] {
        let start = all[..no - 1].concat();
        for keep in [0, 1, 3, 4, all[no - 1].len() - 1] {
            t.sheet(&format!("{keep} bytes for record {no} of 449"), &[start.clone(), all[no - 1][..keep].to_vec()].concat(), 1, no as u64);
        }
        let r = no as u64;
        let body = &all[no - 1][4..];
        let kind = all[no - 1][2] as u16;
        t.sheet(&format!("kind 8 at record {no}"), &full_with(no, record(8, body)), 2, r);
        t.sheet(&format!("kind {} at record {no}", kind + 256), &full_with(no, record(kind + 256, body)), 2, r);
        t.sheet(&format!("a byte more in record {no}"), &full_with(no, record(kind, &[body, &[65]].concat())), 3, r);
        match no {
            1 => {}
            2..=257 => {
                let g = no as u16 - 1;
                let parent = if g == 1 { 0 } else { g - 1 };
                t.readable(&format!("group {g} with parent {parent}"), &full_with(no, group(parent, 0, NO_END, 0)));
                t.sheet(&format!("lo 65,535 in group {g}"), &full_with(no, group(parent, 65535, NO_END, 0)), 4, r);
                t.sheet(&format!("mode 8 in group {g}"), &full_with(no, group(parent, 0, NO_END, 8)), 4, r);
                t.sheet(&format!("mode 8 and parent {g} in group {g}"), &full_with(no, group(g, 0, NO_END, 8)), 4, r);
                let wrong = if g == 1 { vec![1, 2, 256, 257, 65535] } else { vec![0, g, g + 1, 256, 257, 256 + g, 65535] };
                for parent in wrong {
                    t.sheet(&format!("group {g} with parent {parent}"), &full_with(no, group(parent, 0, NO_END, 0)), 5, r);
                }
            }
            258..=385 => {
                for g in [0, 1, 128, 129, 255, 256] {
                    t.readable(&format!("record {no}, a name for group {g}"), &full_with(no, name(g, "ANOTHER-LABEL-OF-EDITION-2")));
                }
                for g in [257, 258, 384, 512, 513, 65535] {
                    t.sheet(&format!("record {no}, a name for group {g}"), &full_with(no, name(g, "ANOTHER-LABEL-OF-EDITION-2")), 5, r);
                }
                t.sheet(&format!("record {no}, a small letter"), &full_with(no, name(257, "ANOTHER-LABEL-OF-EDITION-Two")), 4, r);
                if no > 258 {
                    t.sheet(&format!("record {no}, the first label"), &full_with(no, name(256, "THE-LONGEST-LABEL-OF-NUMBER-0001")), 6, r);
                    t.sheet(&format!("record {no}, the first label and group 257"), &full_with(no, name(257, "THE-LONGEST-LABEL-OF-NUMBER-0001")), 5, r);
                }
                t.readable(&format!("record {no}, the first label but its last byte"), &full_with(no, name(256, "THE-LONGEST-LABEL-OF-NUMBER-000")));
            }
            _ => {
                t.readable(&format!("record {no}, a count of name 128"), &full_with(no, count(128, 0, 9)));
                t.sheet(&format!("record {no}, lo 65,535"), &full_with(no, count(129, 65535, 9)), 4, r);
                for n in [0, 129, 256, 257, 65535] {
                    t.sheet(&format!("record {no}, a count of name {n}"), &full_with(no, count(n, 0, 9)), 5, r);
                    for kind in [5, 6, 7] {
                        t.sheet(&format!("record {no}, kind {kind}, the last name {n}"), &full_with(no, lists(kind, &[1; 8], &[1, 1, 1, 1, 1, 1, 1, n])), 5, r);
                    }
                }
            }
        }
    }
    // A name's group is at most G, in either edition.
    let in_second = [1, 127, 128, 129, 200, 255, 256].map(|g| (SECOND, g));
    for (e, g) in [1, 127, 128].map(|g| (FIRST, g)).into_iter().chain(in_second) {
        let one = |of: u16| e.sheet(&listed_groups(g, &[]), &[of], &[]);
        t.readable(&format!("{g} groups, a name for the last"), &one(g));
        for of in [g + 1, g + 128, g + 256, 257, 65535] {
            t.sheet(&format!("{g} groups, a name for group {of}"), &one(of), 5, g as u64 + 2);
        }
    }
    t.sheet("6 before a cut record 449", &full_with(300, name(1, "THE-LONGEST-LABEL-OF-NUMBER-0001"))[..10_000], 6, 300);
}

// The longest readable sheet of each edition, and a byte more.
fn longest(t: &mut Table) {
    let mut large = full().concat();
    assert_eq!(large.len(), 10_508);
    t.register("the longest sheet of edition 2", &large, &[], 0, 0);
    t.register("the longest sheet of edition 2, a member of groups 1 and 256", &large, &SECOND.row(1, &[1, 256]), 0, 0);
    t.register("the longest sheet of edition 2, a member of 256 alone", &large, &SECOND.row(1, &[256]), 256, 1);
    t.ranges("the longest sheet of edition 2", &large, &[[0, NONE, 1, 0]; 256]);
    t.verdicts("the longest sheet of edition 2", &large, &[Holds, Denied, Denied, Holds].repeat(16));
    t.no_claim("the longest sheet of edition 2", &large, &[0, 65, 128, 256, 257, 65536, 65537, NONE]);
    t.sheet("the longest sheet of edition 2 without its last byte", &large[..10_507], 1, 449);
    // As edition 1 it has too many groups.
    let mut as_first = large.clone();
    as_first[4] = 1;
    t.sheet_once("the longest sheet of edition 2 as edition 1", &as_first, 4, 1);
    for more in [1, 2, 4, 12, 4096, 5875, 5876, 5877] {
        t.sheet(&format!("the longest sheet of edition 2 and {more} bytes"), &[large.clone(), vec![0; more]].concat(), 7, 450);
    }
    large.extend(count(1, 0, 9));
    t.sheet("the longest sheet of edition 2 and a claim", &large, 7, 450);

    // Edition 1: 6,924 bytes, with 128 groups and labels of 16 bytes.
    let list: Vec<Bytes> = (1..=128).map(|g| group(g - 1, 0, NO_END, 0)).collect();
    let mut first = [FIRST.head(128, 128, 64), list.concat()].concat();
    first.extend((1..=128).flat_map(|k| name(129 - k, &format!("LABEL-NUMBER-{k:03}"))));
    first.extend(place(&[1, 2, 3, 4, 5, 6, 7, 8], &[9; 8]).repeat(64));
    assert_eq!(first.len(), 6924);
    // A chain: name 9 means a group above those of 1 to 8.
    t.verdicts("the longest sheet of edition 1, a chain", &first, &[Denied; 64]);
    t.ranges("the longest sheet of edition 1, a chain", &first, &[[0, NONE, 1, 0]; 128]);
    for more in [1, 2, 4, 12, 1268, 3584, 9460, 9461] {
        t.sheet(&format!("the longest sheet of edition 1 and {more} bytes"), &[first.clone(), vec![0; more]].concat(), 7, 322);
    }
}

// 11: the kind and length of a row are those of the sheet's edition.
fn rows_of_either(t: &mut Table) {
    for e in EDITIONS {
        let other = EDITIONS[2 - e.number as usize];
        let s = e.base().concat();
        let row = |k: u32| e.row(k, &[1]);
        let rows = |n: usize| e.rows(n, |_| vec![]);
        let ed = format!("edition {}", e.number);
        t.register_with(&format!("{ed}, one row"), &s, &row(1), 0, 0, &[0, 7, 8, 9]);
        // Every kind and length, with as many bytes as either edition's row has.
        let piece = |bytes: usize| -> Bytes { [e.row(9, &[1]), vec![0; 42]].concat()[..bytes].to_vec() };
        t.every(&format!("length under {ed}"), &s, |l| reframed(&piece(e.row), l, e.row_kind), &[e.row_length], 11);
        t.every(&format!("kind under {ed}"), &s, |k| reframed(&piece(e.row), e.row_length, k), &[e.row_kind], 11);
        t.every(&format!("length under {ed}, kind {}", other.row_kind), &s, |l| reframed(&piece(e.row), l, other.row_kind), &[], 11);
        t.every(&format!("kind under {ed}, length {}", other.row_length), &s, |k| reframed(&piece(e.row), other.row_length, k), &[], 11);
        t.every(&format!("length under {ed}, kind {}, {} bytes", other.row_kind, other.row), &s, |l| reframed(&piece(other.row), l, other.row_kind), &[], 11);
        let what = format!("kind under {ed}, length {}, {} bytes", other.row_length, other.row);
        t.every(&what, &s, |k| reframed(&piece(other.row), other.row_length, k), &[], 11);
        let frames = [
            (24, 33), (40, 34), (24, 34), (40, 33), (22, 32), (24, 32), (40, 32), (40, 35), (24, 35), (38, 34), (39, 34), (41, 34), (42, 34), (26, 33),
            (23, 33), (25, 33), (296, 34), (280, 33), (10280, 34), (6168, 33), (40, 290), (40, 8704), (24, 289), (24, 8448), (34, 40), (33, 24),
            (0, 34), (1, 34), (2, 34), (10, 34), (65535, 34), (40, 0), (40, 1), (24, 0),
        ];
        for (length, kind) in frames.into_iter().filter(|&f| f != (e.row_length, e.row_kind)) {
            for bytes in [26, 42] {
                let b = reframed(&piece(bytes), length, kind);
                let what = format!("{ed}, length {length} and kind {kind} in {bytes} bytes");
                t.register_refused_once(&format!("{what}, the only row"), &s, &b, 11, 1);
                t.register_refused_once(&format!("{what}, the first row"), &s, &[b.clone(), row(21)].concat(), 11, 1);
                t.register_refused_once(&format!("{what}, the second of three"), &s, &[row(1), b.clone(), row(21)].concat(), 11, 2);
                t.register_refused_once(&format!("{what}, the last row"), &s, &[row(1), row(2), b].concat(), 11, 3);
            }
        }
        // Rows of the other edition, whatever else is wrong with them.
        for (what, b) in [
            ("", other.row(21, &[1])),
            (" in no group", other.row(21, &[])),
            (" with number 0", other.row_of((0, LEFT), &[1])),
            (" with side 3", other.row_of((21, 3), &[1])),
            (" with a bit above G", other.row(21, &[4])),
            (" with its last bit", other.row(21, &[other.groups as usize])),
            (" with number 0, side 0 and a bit above G", other.row_of((0, 0), &[4])),
        ] {
            let what = format!("{ed}, a row of kind {}{what}", other.row_kind);
            t.register_refused_once(&what, &s, &b, 11, 1);
            t.register_refused_once(&format!("{what}, twice"), &s, &[b.clone(), b.clone()].concat(), 11, 1);
            t.register_refused_once(&format!("{what}, before others"), &s, &[b.clone(), row(41), row(42)].concat(), 11, 1);
            t.register_refused_once(&format!("{what}, after others"), &s, &[row(1), row(2), b.clone()].concat(), 11, 3);
            t.register_refused_once(&format!("{what}, after a broken rule"), &s, &[e.row(1, &[2]), b.clone()].concat(), 11, 2);
            t.register_refused_once(&format!("{what}, at row 2,048"), &s, &[rows(2047), b.clone()].concat(), 11, 2048);
            t.register_refused_once(&format!("{what}, after 2,048 rows"), &s, &[rows(2048), b].concat(), 10, 2049);
        }
        // 13 rows of kind 34 are as long as 21 of kind 33.
        for n in [2, 13, 21, 26, 42, 2047, 2048, 2049] {
            t.register_refused_once(&format!("{ed}, {n} rows of kind {}", other.row_kind), &s, &other.rows(n, |_| vec![1]), 11, 1);
        }
        // Cut at every byte.
        for keep in 1..e.row {
            let cut = row(5000)[..keep].to_vec();
            let what = format!("{ed}, {keep} bytes of a row");
            t.register_refused_once(&format!("{what}, the only one"), &s, &cut, 11, 1);
            t.register_refused_once(&format!("{what}, after five"), &s, &[rows(5), cut.clone()].concat(), 11, 6);
            t.register_refused_once(&format!("{what}, after 2,047"), &s, &[rows(2047), cut.clone()].concat(), 11, 2048);
            t.register_refused_once(&format!("{what}, after 2,048"), &s, &[rows(2048), cut].concat(), 10, 2049);
        }
        // Bytes behind a whole row are a row of their own.
        for more in 1..e.row {
            t.register_refused_once(&format!("{ed}, a row and {more} bytes"), &s, &[row(1), vec![0; more]].concat(), 11, 2);
        }
        // 10.
        let any = e.groups(&[(0, 0, NO_END, 0)]);
        let members = |n: usize| e.rows(n, |_| vec![1]);
        t.register_with(&format!("{ed}, 2,047 rows"), &any, &members(2047), 0, 0, &[0, 7, 8, 9]);
        t.register_with(&format!("{ed}, 2,048 rows"), &any, &members(2048), 0, 0, &[0, 7, 8, 9]);
        t.register_with(&format!("{ed}, 2,048 rows, nine at most"), &s, &members(2048), 1, 6, &[0, 7, 8, 9]);
        t.register_refused_once(&format!("{ed}, 2,049 rows"), &any, &members(2049), 10, 2049);
        t.register_refused_once(&format!("{ed}, 2,050 rows"), &any, &members(2050), 10, 2049);
        t.register_refused_once(&format!("{ed}, 2,048 rows and a wrong one"), &any, &[members(2048), vec![0; e.row]].concat(), 10, 2049);
        t.register_refused_once(&format!("{ed}, 3,309 rows of the other"), &any, &other.rows(3309, |_| vec![1]), 11, 1);
        // 11, 15, 12, 13 in one row.
        let all = |kind: u16, side: u16, number: u32| reframed(&e.row_of((number, side), &[4]), e.row_length, kind);
        for (n, b) in [
            (11, all(32, 3, 0)),
            (11, all(other.row_kind, 3, 0)),
            (15, all(e.row_kind, 3, 0)),
            (15, all(e.row_kind, 0, 5)),
            (12, all(e.row_kind, 1, 0)),
            (13, all(e.row_kind, 2, 5)),
        ] {
            t.register_refused_once(&format!("{ed}, {n} before what comes after it"), &s, &b, n, 1);
            t.register_refused_once(&format!("{ed}, {n} before what comes after it, in row 2"), &s, &[row(1), b].concat(), n, 2);
        }
    }
}

// 13, bit by bit: those up to G pass, those above it don't, by the edition's width.
fn bits(t: &mut Table) {
    for e in EDITIONS {
        for g in [1, 2, 63, 64, 65, 127, 128, 129, 191, 192, 193, 255, 256] {
            if g > e.groups {
                continue;
            }
            let s = e.star(g, 0);
            let g = g as usize;
            let last = 8 * e.membership;
            let what = format!("edition {}, {g} groups", e.number);
            for bit in 1..=g {
                t.checked(&format!("{what}, bit {bit}"), &s, &e.row(1, &[1, bit]), 0, 0);
            }
            t.checked(&format!("{what}, all bits"), &s, &e.row(1, &(1..=g).collect::<Vec<_>>()), 0, 0);
            for bit in g + 1..=last {
                t.register_refused_once(&format!("{what}, bit {bit} alone"), &s, &e.row(1, &[bit]), 13, 1);
                t.register_refused_once(&format!("{what}, bits 1 and {bit}"), &s, &e.row(1, &[1, bit]), 13, 1);
                t.register_refused_once(&format!("{what}, bits to {bit}"), &s, &e.row(1, &(1..=bit).collect::<Vec<_>>()), 13, 1);
                t.register_refused_once(&format!("{what}, bit {bit} in the second row of a member"), &s, &e.one_member(&[vec![1], vec![1, bit]]), 13, 2);
            }
            if g < last {
                for r in [63, 64, 65, 2048] {
                    for bit in [g + 1, last] {
                        // Before it, the last group's member is not in the root (where there are others).
                        let reg = e.rows(r, |k| if k == r { vec![1, bit] } else { vec![g] });
                        t.register_refused_once(&format!("{what}, bit {bit} at row {r}"), &s, &reg, 13, r as u64);
                    }
                }
                t.register_refused_once(&format!("{what}, 12 and bit {last}"), &s, &e.row(0, &[last]), 12, 1);
                t.register_refused_once(&format!("{what}, 15 and bit {last}"), &s, &e.row_of((1, 3), &[last]), 15, 1);
                t.register_refused_once(&format!("{what}, bit {last}, then 12"), &s, &[e.row(5, &[last]), e.row(0, &[])].concat(), 13, 1);
                t.register_refused_once(&format!("{what}, all bits there are"), &s, &e.row(1, &(1..=last).collect::<Vec<_>>()), 13, 1);
                let longer = [s.clone(), vec![0]].concat();
                let what = format!("{what}, bit {} after a sheet turned back by 7", g + 1);
                t.register_refused_once(&what, &longer, &e.row(1, &[g + 1]), 7, g as u64 + 2);
            }
        }
    }
}
