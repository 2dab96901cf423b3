// Ears: both of a number, their order, bad sides, and rows as they were before sides.
use crate::limits::*;
use crate::records::*;
use crate::rows::*;
use crate::table::*;

pub fn all(t: &mut Table) {
    ears(t);
    ears_judged(t);
    ears_by_place(t);
    ear_order(t);
    sides(t);
    old_rows(t);
}

// Document 02, card 4: a member is a number and a side, so that both ears of one number count two.
fn ears(t: &mut Table) {
    let root = |lo: usize, hi: usize| groups(&[(0, lo as u16, hi as u16, 0)]);
    let any = NO_END as usize;
    let (l, r) = (LEFT, RIGHT);
    let mut exactly = |what: &str, list: &[Ear], n: usize| {
        let reg: Bytes = list.iter().flat_map(|&ear| row_of(ear, &[1])).collect();
        t.register(&format!("{what}, {n} to {n}"), &root(n, n), &reg, 0, 0);
        t.register(&format!("{what}, lo {}", n + 1), &root(n + 1, any), &reg, 1, 5);
        t.register(&format!("{what}, hi {}", n - 1), &root(0, n - 1), &reg, 1, 6);
    };
    for n in [1, 255, 256, 257, 65535, 65536, 16777216, 4294967294, NONE] {
        exactly(&format!("the left ear of {n}"), &[(n, l)], 1);
        exactly(&format!("the right ear of {n}"), &[(n, r)], 1);
        exactly(&format!("both ears of {n}"), &[(n, l), (n, r)], 2);
        exactly(&format!("both ears of {n}, the left on two rows"), &[(n, l), (n, l), (n, r)], 2);
        exactly(&format!("both ears of {n}, the right on two rows"), &[(n, l), (n, r), (n, r)], 2);
        exactly(&format!("both ears of {n} on two rows each"), &[(n, l), (n, l), (n, r), (n, r)], 2);
    }
    for (a, b) in [(1, 2), (1, 257), (255, 256), (1, 65537), (65535, 65536), (1, 16777217), (4294967294, NONE)] {
        exactly(&format!("both ears of {a} and {b}"), &[(a, l), (a, r), (b, l), (b, r)], 4);
        exactly(&format!("left ears of {a} and {b}"), &[(a, l), (b, l)], 2);
        exactly(&format!("right ears of {a} and {b}"), &[(a, r), (b, r)], 2);
        exactly(&format!("the right ear of {a}, the left of {b}"), &[(a, r), (b, l)], 2);
        exactly(&format!("the left ear of {a}, the right of {b}"), &[(a, l), (b, r)], 2);
        exactly(&format!("both ears of {a}, the right of {b} on two rows"), &[(a, l), (a, r), (b, r), (b, r)], 3);
    }
}

// Both ears of one number, judged each for itself by every rule.
fn ears_judged(t: &mut Table) {
    // Groups 1 root; 2 'disjoint' and 'cover' with sons 3 and 4; 5 'same' with son 6.
    let s = family(2);
    for (left, right, group, rule) in [
        (vec![1, 2, 3], vec![1, 2, 3], 0, 0),
        (vec![1, 2, 3], vec![], 0, 0),
        (vec![], vec![1, 2, 3], 0, 0),
        // 'Disjoint': one ear in each son, or one in both.
        (vec![1, 2, 3], vec![1, 2, 4], 0, 0),
        (vec![1, 2, 4], vec![1, 2, 3], 0, 0),
        (vec![1, 2, 3, 4], vec![1, 2, 3], 2, 4),
        (vec![1, 2, 3], vec![1, 2, 3, 4], 2, 4),
        (vec![3, 4], vec![1, 2, 3], 2, 4),
        // The other ear is in the parent.
        (vec![1], vec![2, 3], 2, 1),
        (vec![2, 3], vec![1], 2, 1),
        (vec![1, 2, 3], vec![1, 3], 3, 1),
        (vec![1, 4], vec![1, 2, 4], 4, 1),
        (vec![1, 3], vec![1, 4], 3, 1),
        (vec![1, 5, 6], vec![1, 6], 6, 1),
        (vec![1, 6], vec![1, 5, 6], 6, 1),
        (vec![3], vec![4], 3, 1),
        // The other ear is in the son: 'same' and 'cover'.
        (vec![1, 5], vec![1, 5, 6], 6, 2),
        (vec![1, 5, 6], vec![1, 5], 6, 2),
        (vec![1, 5], vec![1, 6], 6, 1),
        (vec![1, 5, 6], vec![1, 5, 6], 0, 0),
        (vec![1, 2], vec![1, 2, 3], 2, 3),
        (vec![1, 2, 4], vec![1, 2], 2, 3),
        (vec![1, 2], vec![1, 4], 2, 3),
        // All at once.
        (vec![1, 2, 3, 5, 6], vec![1, 2, 4, 5, 6], 0, 0),
        (vec![1, 2, 3, 5], vec![1, 2, 4, 6], 6, 1),
        (vec![1, 2, 3, 5, 6], vec![1, 2, 5, 6], 2, 3),
    ] {
        let what = format!("left {left:?}, right {right:?}");
        let ears = [(9, LEFT), (9, RIGHT)];
        t.register(&what, &s, &of_ears(&[(ears[0], left.clone()), (ears[1], right.clone())]), group, rule);
        // Each ear on two rows: a part on each, or nothing on one.
        let halves = |held: &[usize]| {
            let (a, b): (Vec<usize>, Vec<usize>) = held.iter().partition(|&g| g % 2 == 0);
            [(a.clone(), b.clone()), (b, a), (held.to_vec(), vec![]), (vec![], held.to_vec())]
        };
        for (a, b) in halves(&left) {
            for (c, d) in halves(&right) {
                let reg = of_ears(&[(ears[0], a.clone()), (ears[0], b.clone()), (ears[1], c.clone()), (ears[1], d)]);
                t.checked(&format!("{what}, in parts {a:?} and {c:?}"), &s, &reg, group, rule);
            }
        }
        // The same of two numbers: sides don't matter.
        for (a, b) in [(LEFT, LEFT), (LEFT, RIGHT), (RIGHT, LEFT), (RIGHT, RIGHT)] {
            let reg = of_ears(&[((8, a), left.clone()), ((9, b), right.clone())]);
            t.checked(&format!("{what}, as sides {a} of 8 and {b} of 9"), &s, &reg, group, rule);
        }
    }
    // Neither ear's rows join the other's.
    for (list, group, rule) in [
        (vec![(LEFT, vec![1, 2]), (LEFT, vec![3]), (RIGHT, vec![1, 2]), (RIGHT, vec![4])], 0, 0),
        (vec![(LEFT, vec![1, 2]), (RIGHT, vec![3]), (RIGHT, vec![1, 2])], 2, 3),
        (vec![(LEFT, vec![1, 2]), (LEFT, vec![3]), (RIGHT, vec![4])], 4, 1),
        (vec![(LEFT, vec![3]), (RIGHT, vec![1, 2]), (RIGHT, vec![3])], 3, 1),
        (vec![(LEFT, vec![1, 2, 3]), (LEFT, vec![4]), (RIGHT, vec![])], 2, 4),
        (vec![(LEFT, vec![]), (RIGHT, vec![1, 2, 3]), (RIGHT, vec![4])], 2, 4),
        (vec![(LEFT, vec![1, 2, 3]), (RIGHT, vec![1, 2, 4]), (RIGHT, vec![1, 2, 4])], 0, 0),
        (vec![(LEFT, vec![1, 5]), (RIGHT, vec![1, 5]), (RIGHT, vec![6])], 6, 2),
        (vec![(LEFT, vec![1, 5]), (LEFT, vec![6]), (RIGHT, vec![1, 5])], 6, 2),
    ] {
        let rows: Vec<(Ear, Vec<usize>)> = list.iter().map(|(side, held)| ((9, *side), held.clone())).collect();
        t.register(&format!("rows of both ears {list:?}"), &s, &of_ears(&rows), group, rule);
    }
    // Bounds on a son.
    let son = |lo: u16, hi: u16| groups(&[(0, 0, NO_END, 0), (1, lo, hi, 0)]);
    for (left, right, n) in [(vec![1, 2], vec![1, 2], 2), (vec![1, 2], vec![1], 1), (vec![1], vec![1, 2], 1), (vec![1], vec![1], 0)] {
        let reg = of_ears(&[((9, LEFT), left.clone()), ((9, RIGHT), right.clone())]);
        let what = format!("group 2 of 1 to 1, left {left:?}, right {right:?}");
        let (group, rule) = [(2, 5), (0, 0), (2, 6)][n];
        t.register(&what, &son(1, 1), &reg, group, rule);
    }
    // An impossible sheet counts ears too.
    let both = of_ears(&[((1, LEFT), vec![1]), ((1, RIGHT), vec![1])]);
    t.register("an impossible sheet, both ears below lo", &groups(&[(0, 3, 1, 0)]), &both, 1, 5);
    t.register("an impossible sheet, both ears above hi", &groups(&[(0, 2, 1, 0)]), &both, 1, 6);
}

// Both ears at the rows around 64, 128 and the last, all other rows of one ear each.
fn ears_by_place(t: &mut Table) {
    for at in [2, 63, 124] {
        let s = family(at);
        let g = at as usize;
        for (left, right, group, rule) in [
            (vec![1, g, g + 1], vec![1, g, g + 2], 0, 0),
            (vec![g, g + 1], vec![1], at, 1),
            (vec![1, g], vec![1, g + 1], at, 3),
            (vec![1, g, g + 2], vec![1, g], at, 3),
            (vec![1, g + 3], vec![1, g + 3, g + 4], at + 4, 2),
            (vec![1, g + 1], vec![1, g, g + 1], at + 1, 1),
            (vec![1, g, g + 1, g + 2], vec![], at, 4),
            (vec![], vec![1, g, g + 1, g + 2], at, 4),
        ] {
            for r in [1, 62, 63, 64, 65, 127, 128, 2046, 2047] {
                let mut sizes = vec![r + 1, r + 2, 2048];
                sizes.dedup();
                for n in sizes.into_iter().filter(|&n| n <= 2048) {
                    let reg: Bytes = (1..=n)
                        .flat_map(|k| {
                            if k == r {
                                row_of((r as u32, LEFT), &left)
                            } else if k == r + 1 {
                                row_of((r as u32, RIGHT), &right)
                            } else {
                                row_of((k as u32, if k % 3 == 0 { LEFT } else { RIGHT }), &fitting(g, k))
                            }
                        })
                        .collect();
                    t.checked(&format!("family at {at}, left {left:?} on row {r} and right {right:?} after it, {n} rows"), &s, &reg, group, rule);
                }
            }
        }
    }
    // Counts: n ears, of each number one or both.
    let root = |n: usize| groups(&[(0, n as u16, n as u16, 0)]);
    for n in SIZES.into_iter().filter(|&n| n > 0) {
        for (how, of) in [
            ("left ears", (|k| (k, LEFT)) as fn(u32) -> Ear),
            ("right ears", |k| (k, RIGHT)),
            ("both ears of each", ear),
            ("both ears of each but the first", |k| ear(k + 1)),
        ] {
            let reg: Bytes = (1..=n as u32).flat_map(|k| row_of(of(k), &[1])).collect();
            t.checked(&format!("{n} rows, {how}, {n} to {n}"), &root(n), &reg, 0, 0);
            t.checked(&format!("{n} rows, {how}, {} to {}", n + 1, n + 1), &root(n + 1), &reg, 1, 5);
            t.checked(&format!("{n} rows, {how}, {} to {}", n - 1, n - 1), &root(n - 1), &reg, 1, 6);
        }
    }
    // One number on n rows, its left ear on the first k of them.
    for n in [2, 64, 65, 128, 129, 2047, 2048] {
        for k in [0, 1, 63, 64, 65, n / 2, n - 1, n] {
            if k > n {
                continue;
            }
            let reg: Bytes = (1..=n).flat_map(|r| row_of((7, if r <= k { LEFT } else { RIGHT }), if r == 1 || r == n { &[1] } else { &[] })).collect();
            let many = if k == 0 || k == n { 1 } else { 2 };
            t.checked(&format!("one number on {n} rows, {k} of the left ear"), &root(many), &reg, 0, 0);
            t.checked(&format!("one number on {n} rows, {k} of the left ear, one more"), &root(many + 1), &reg, 1, 5);
            t.checked(&format!("one number on {n} rows, {k} of the left ear, one less"), &root(many - 1), &reg, 1, 6);
        }
    }
}

// Rows rise by number, then by side (12); what rises passes, and equal pairs join.
fn ear_order(t: &mut Table) {
    let s = base().concat();
    let (l, r) = (LEFT, RIGHT);
    let rows = |list: &[Ear]| -> Bytes { list.iter().flat_map(|&ear| row_of(ear, &[1])).collect() };
    for (list, members) in [
        (vec![(1, l), (1, r)], 2),
        (vec![(1, r), (2, l)], 2),
        (vec![(1, l), (2, l)], 2),
        (vec![(1, l), (2, r)], 2),
        (vec![(1, r), (2, r)], 2),
        (vec![(1, l), (1, l)], 1),
        (vec![(1, r), (1, r)], 1),
        (vec![(1, l), (1, l), (1, r), (1, r)], 2),
        (vec![(1, l), (1, r), (2, l), (2, r)], 4),
        (vec![(1, r), (1, r), (2, l), (2, l), (2, r)], 3),
        (vec![(255, r), (256, l)], 2),
        (vec![(255, l), (256, r)], 2),
        (vec![(256, r), (257, l)], 2),
        (vec![(511, r), (512, l)], 2),
        (vec![(65535, r), (65536, l)], 2),
        (vec![(65536, r), (65537, l)], 2),
        (vec![(131071, r), (131072, l)], 2),
        (vec![(16777215, r), (16777216, l)], 2),
        (vec![(1, r), (NONE, l)], 2),
        (vec![(NONE - 1, r), (NONE, l), (NONE, r)], 3),
        (vec![(NONE, l), (NONE, r), (NONE, r)], 2),
    ] {
        t.register(&format!("ears {list:?}"), &groups(&[(0, members, members, 0)]), &rows(&list), 0, 0);
    }
    for (list, at) in [
        (vec![(1, r), (1, l)], 2),
        (vec![(2, l), (1, r)], 2),
        (vec![(2, r), (1, l)], 2),
        (vec![(2, l), (1, l)], 2),
        (vec![(2, r), (1, r)], 2),
        (vec![(1, l), (1, r), (1, l)], 3),
        (vec![(1, l), (1, l), (1, r), (1, l)], 4),
        (vec![(1, r), (1, r), (1, l)], 3),
        (vec![(1, l), (2, r), (2, l)], 3),
        (vec![(1, l), (2, l), (1, r)], 3),
        (vec![(1, r), (2, l), (1, r)], 3),
        (vec![(256, l), (255, r)], 2),
        (vec![(256, r), (255, l)], 2),
        (vec![(512, l), (511, r)], 2),
        (vec![(65536, l), (65535, r)], 2),
        (vec![(65537, l), (65536, r)], 2),
        (vec![(131072, l), (131071, r)], 2),
        (vec![(16777216, l), (16777215, r)], 2),
        (vec![(NONE, r), (NONE, l)], 2),
        (vec![(NONE, l), (NONE - 1, r)], 2),
        (vec![(NONE, l), (1, r)], 2),
        // The number 0, on either side.
        (vec![(0, l)], 1),
        (vec![(0, r)], 1),
        (vec![(0, l), (0, r)], 1),
        (vec![(0, r), (1, l)], 1),
        (vec![(1, l), (0, r)], 2),
        (vec![(1, r), (0, r)], 2),
        (vec![(1, l), (1, r), (0, l)], 3),
        (vec![(NONE, r), (0, r)], 2),
    ] {
        t.register_refused(&format!("ears {list:?}"), &s, &rows(&list), 12, at);
    }
    // At the rows around 64 and at the last, after both ears of each number.
    for at in [64, 65, 66, 128, 129, 2047, 2048] {
        let before = |k: u32| rows(&(1..at as u32).map(|r| ear(k + r)).collect::<Vec<Ear>>());
        for k in [0, 1] {
            let last = ear(k + at as u32 - 1);
            let lower = if last.1 == RIGHT { (last.0, LEFT) } else { (last.0 - 1, RIGHT) };
            t.register_refused(&format!("{lower:?} at row {at} after {last:?}"), &s, &[before(k), row_of(lower, &[1])].concat(), 12, at);
            t.register_refused(&format!("left of 1 at row {at} after {last:?}"), &s, &[before(k), row_of((1, LEFT), &[1])].concat(), 12, at);
            // Group 1 has at most nine: all are read.
            for next in [last, ear(k + at as u32), (last.0 + 1, RIGHT)] {
                t.checked(&format!("{next:?} at row {at} after {last:?}"), &s, &[before(k), row_of(next, &[1])].concat(), 1, 6);
            }
        }
    }
}

// 15: a side other than 1 or 2, whole fields compared; after 11, before 12 and 13, and before any reply.
fn sides(t: &mut Table) {
    let s = base().concat();
    let good = |k: u32| row(k, &[1]);
    let others = [
        0, 3, 4, 5, 127, 128, 129, 254, 255, 256, 257, 258, 259, 511, 512, 513, 514, 769, 4096, 4097, 32768, 32769, 32770, 65281,
        65282, 65534, 65535,
    ];
    for side in others {
        let what = format!("side {side}");
        let bad = |number: u32, held: &[usize]| row_of((number, side), held);
        t.register_refused(&format!("{what} in the only row"), &s, &bad(5, &[1]), 15, 1);
        t.register_refused(&format!("{what} of the greatest number"), &s, &bad(NONE, &[1]), 15, 1);
        t.register_refused(&format!("{what} in the first row"), &s, &[bad(1, &[1]), good(3)].concat(), 15, 1);
        t.register_refused(&format!("{what} in the middle"), &s, &[good(1), bad(2, &[1]), good(7)].concat(), 15, 2);
        t.register_refused(&format!("{what} in the last row"), &s, &[good(1), good(2), bad(2, &[])].concat(), 15, 3);
        t.register_refused(&format!("{what} in every row"), &s, &[bad(1, &[]), bad(1, &[]), bad(2, &[])].concat(), 15, 1);
        // With what comes after it in checking order, in one row.
        t.register_refused(&format!("{what}, number 0"), &s, &bad(0, &[1]), 15, 1);
        t.register_refused(&format!("{what}, number 0 in the last row"), &s, &[good(3), bad(0, &[1])].concat(), 15, 2);
        t.register_refused(&format!("{what}, the number falls"), &s, &[good(9), bad(4, &[1])].concat(), 15, 2);
        t.register_refused(&format!("{what} after the left ear of its number"), &s, &[row_of((5, LEFT), &[]), bad(5, &[1])].concat(), 15, 2);
        t.register_refused(&format!("{what} after the right ear of its number"), &s, &[row_of((5, RIGHT), &[]), bad(5, &[1])].concat(), 15, 2);
        t.register_refused(&format!("{what}, a bit above G"), &s, &bad(5, &[4]), 15, 1);
        t.register_refused(&format!("{what}, bit 128"), &s, &[good(1), bad(5, &[1, 128])].concat(), 15, 2);
        t.register_refused(&format!("{what}, number 0 and a bit above G"), &s, &bad(0, &[4]), 15, 1);
        t.register_refused(&format!("{what}, the number falls, a bit above G"), &s, &[good(9), bad(4, &[65])].concat(), 15, 2);
        // With what comes before it.
        for (length, kind) in WRONG_FRAMES {
            t.register_refused(&format!("{what}, length {length} and kind {kind}"), &s, &[good(1), reframed(&bad(5, &[1]), length, kind)].concat(), 11, 2);
        }
        t.register_refused(&format!("{what}, number 0, a bit above G and kind 32"), &s, &reframed(&bad(0, &[4]), 24, 32), 11, 1);
        for keep in [1, 8, 9, 10, 25] {
            t.register_refused(&format!("{what}, {keep} bytes"), &s, &[good(1), bad(5, &[1])[..keep].to_vec()].concat(), 11, 2);
        }
        // Of two rows the earlier one counts.
        for (n, how, row) in [
            (11, "a wrong kind", reframed(&row_of((5, LEFT), &[1]), 24, 32)),
            (12, "number 0", row_of((0, LEFT), &[1])),
            (13, "a bit above G", row_of((5, LEFT), &[1, 4])),
        ] {
            t.register_refused(&format!("{what}, then {how}"), &s, &[bad(5, &[1]), row.clone()].concat(), 15, 1);
            t.register_refused(&format!("{how}, then {what}"), &s, &[row, bad(5, &[1])].concat(), n, 1);
        }
        t.register_refused(&format!("{what}, then a cut row"), &s, &[bad(5, &[1]), vec![24, 0]].concat(), 15, 1);
        t.register_refused(&format!("{what}, then a number that falls"), &s, &[bad(5, &[1]), row_of((4, LEFT), &[1])].concat(), 15, 1);
        t.register_refused(&format!("a number that falls, then {what}"), &s, &[good(9), good(7), bad(5, &[1])].concat(), 12, 2);
        // A broken rule before it and after it.
        t.register_refused(&format!("a broken rule, then {what}"), &s, &[row_of((1, LEFT), &[2]), bad(5, &[2]), row_of((6, LEFT), &[3])].concat(), 15, 2);
        // A sheet that is turned back, and one that nothing fits.
        t.register_refused(&format!("7 and {what}"), &[s.clone(), vec![0]].concat(), &bad(5, &[1]), 7, 11);
        t.register_refused(&format!("6 and {what}"), &with(6, name(2, "A")), &bad(5, &[1]), 6, 6);
        t.register_refused(&format!("an impossible sheet and {what}"), &groups(&[(0, 3, 2, 0)]), &bad(5, &[1]), 15, 1);
    }
    t.every("side", &s, |side| row_of((5, side), &[1]), &[LEFT, RIGHT], 15);
    // The number and the membership are not looked at.
    for number in [1, 2, 256, 257, 258, 512, 65536, 65537, 131072, NONE] {
        t.register_refused(&format!("side 0 of {number}"), &s, &row_of((number, 0), &[1, 2]), 15, 1);
        for side in [LEFT, RIGHT] {
            t.register(&format!("side {side} of {number}"), &s, &row_of((number, side), &[1, 2]), 0, 0);
        }
    }
    // At the rows around 64 and at the last, after rows that break rules.
    let broken = family(2);
    for at in [1, 2, 63, 64, 65, 127, 128, 2047, 2048, 2049] {
        let before = rows_but(at - 1, |k| fitting(2, k), &[(1, vec![1, 2]), (at / 2, vec![3, 4]), (at - 1, vec![1, 5])]);
        let joined: Bytes = (1..at).flat_map(|_| row(1, &[1, 2])).collect();
        for side in [0, 3, 256, 257, 258, 514, 65535] {
            for (start, how) in [(&before, "rows that break rules"), (&joined, "rows of one ear")] {
                let n = if at == 2049 { 10 } else { 15 };
                let reg = [start.clone(), row_of((5000, side), &[1])].concat();
                t.register_refused(&format!("side {side} at row {at} after {how}"), &broken, &reg, n, at as u64);
                let more = [reg, row_of((5000, LEFT), &[1])].concat();
                t.register_refused(&format!("side {side} at row {at} after {how}, others follow"), &broken, &more, n, at as u64);
            }
        }
        if at < 2049 {
            for side in [LEFT, RIGHT] {
                let (group, rule) = if at == 1 { (0, 0) } else { (2, 3) };
                let reg = [joined.clone(), row_of((5000, side), &[1])].concat();
                t.checked(&format!("side {side} at row {at} after rows of one ear"), &broken, &reg, group, rule);
            }
        }
    }
}

// 11: rows as they were before sides, and rows of other lengths, alone and among others.
fn old_rows(t: &mut Table) {
    let s = base().concat();
    let body = |number: u32, side: &[u8], groups: &[usize]| [&number.to_le_bytes(), side, &membership(groups)].concat();
    let old = |number: u32| record(32, &body(number, &[], &[1]));
    assert_eq!(old(1).len(), 24);
    t.register_refused("an old row", &s, &old(1), 11, 1);
    t.register_refused("two old rows", &s, &[old(1), old(2)].concat(), 11, 1);
    t.register_refused("thirteen old rows, as long as twelve", &s, &(1..=13).flat_map(old).collect::<Bytes>(), 11, 1);
    t.register_refused("2,048 old rows", &s, &(1..=2048).flat_map(old).collect::<Bytes>(), 11, 1);
    t.register_refused("an old row of number 0", &s, &old(0), 11, 1);
    t.register_refused("an old row after another", &s, &[row(1, &[1]), old(2)].concat(), 11, 2);
    t.register_refused("an old row before another", &s, &[old(1), row(3, &[1])].concat(), 11, 1);
    t.register_refused("an old row between others", &s, &[row(1, &[1]), old(2), row(7, &[1])].concat(), 11, 2);
    t.register_refused("an old row at row 2,048", &s, &[rows(2047, |_| vec![]), old(5000)].concat(), 11, 2048);
    t.register_refused("an old row after 2,048", &s, &[rows(2048, |_| vec![]), old(5000)].concat(), 10, 2049);
    let left = LEFT.to_le_bytes();
    for (what, b) in [
        ("kind 33 without a side", record(33, &body(5, &[], &[1]))),
        ("kind 32 with a side", record(32, &body(5, &left, &[1]))),
        ("kind 34 with a side", record(34, &body(5, &left, &[1]))),
        ("kind 34 with 32 bytes of membership", record(34, &[body(5, &left, &[1]), vec![0; 16]].concat())),
        ("kind 33 with 32 bytes of membership", record(33, &[body(5, &left, &[1]), vec![0; 16]].concat())),
        ("kind 33 with a side of one byte", record(33, &body(5, &left[..1], &[1]))),
        ("kind 33 with a byte more", record(33, &[body(5, &left, &[1]), vec![0]].concat())),
        ("kind 33 without membership", record(33, &[5, 0, 0, 0, 1, 0])),
        ("the frame alone, of length 2", record(33, &[])),
        ("a group's record", group(1, 0, 9, 0)),
    ] {
        t.register_refused(&format!("{what}, the only row"), &s, &b, 11, 1);
        t.register_refused(&format!("{what}, the first row"), &s, &[b.clone(), row(21, &[1])].concat(), 11, 1);
        t.register_refused(&format!("{what}, the last row"), &s, &[row(1, &[1]), row(2, &[1]), b.clone()].concat(), 11, 3);
        t.register_refused(&format!("{what}, then side 0"), &s, &[b, row_of((9, 0), &[1])].concat(), 11, 1);
    }
}
