// Members on several rows.
use crate::limits::*;
use crate::records::*;
use crate::rows::*;
use crate::table::*;

pub fn all(t: &mut Table) {
    joined_rows(t);
    joined_families(t);
    joined_counts(t);
    joined_refusals(t);
}

// Document 02, card 2: equal members in neighbouring rows are one member, in the groups of either row.
fn joined_rows(t: &mut Table) {
    // One member on n rows, in the root by all of them, by one, by none.
    let root = |lo: u16, hi: u16| groups(&[(0, lo, hi, 0)]);
    for n in [2, 3, 63, 64, 65, 127, 128, 129, 2047, 2048] {
        let what = format!("one member on {n} rows");
        let all = one_member(&vec![vec![1]; n]);
        t.checked(&format!("{what}, 1 to 1"), &root(1, 1), &all, 0, 0);
        t.checked(&format!("{what}, lo 2"), &root(2, NO_END), &all, 1, 5);
        t.checked(&format!("{what}, {n} to {n}"), &root(n as u16, n as u16), &all, 1, 5);
        t.checked(&format!("{what}, hi 0"), &root(0, 0), &all, 1, 6);
        t.checked(&format!("{what} and another, 2 to 2"), &root(2, 2), &[row(8, &[1]), all[ROW..].to_vec()].concat(), 0, 0);
        for r in edges(n) {
            let mut parts = vec![vec![]; n];
            parts[r - 1] = vec![1];
            t.checked(&format!("{what}, row {r} alone in the root, 1 to 1"), &root(1, 1), &one_member(&parts), 0, 0);
            t.checked(&format!("{what}, row {r} alone in the root, hi 0"), &root(0, 0), &one_member(&parts), 1, 6);
        }
        let none = one_member(&vec![vec![]; n]);
        t.checked(&format!("{what}, in no group, 0 to 0"), &root(0, 0), &none, 0, 0);
        t.checked(&format!("{what}, in no group, lo 1"), &root(1, NO_END), &none, 1, 5);
    }

    // Groups 1 root; 2 'disjoint' and 'cover' with sons 3 and 4; 5 'same' with son 6.
    let s = family(2);
    for (parts, group, rule) in [
        (vec![vec![1, 2, 3], vec![1, 2, 3]], 0, 0),
        (vec![vec![], vec![]], 0, 0),
        (vec![vec![1, 2, 3], vec![]], 0, 0),
        (vec![vec![], vec![1, 2, 3]], 0, 0),
        // A son's bit in one row, its parent's in the other.
        (vec![vec![1, 3], vec![1, 2]], 0, 0),
        (vec![vec![2, 3], vec![1]], 0, 0),
        (vec![vec![1], vec![2, 3]], 0, 0),
        (vec![vec![3], vec![2], vec![1]], 0, 0),
        (vec![vec![1], vec![2], vec![3]], 0, 0),
        (vec![vec![1, 2], vec![], vec![3]], 0, 0),
        (vec![vec![3], vec![1]], 3, 1),
        (vec![vec![2], vec![3]], 2, 1),
        (vec![vec![6], vec![1], vec![]], 6, 1),
        // 'Cover', by another row alone.
        (vec![vec![1, 2], vec![1, 4]], 0, 0),
        (vec![vec![1, 2], vec![1, 2, 4]], 0, 0),
        (vec![vec![1, 2, 3], vec![1, 2]], 0, 0),
        (vec![vec![1, 2], vec![1]], 2, 3),
        (vec![vec![1, 2], vec![1, 2]], 2, 3),
        (vec![vec![1, 2], vec![1, 5, 6]], 2, 3),
        // 'Disjoint': two sons, and no row is in both.
        (vec![vec![1, 2, 3], vec![1, 2, 4]], 2, 4),
        (vec![vec![1, 2, 4], vec![1, 2, 3]], 2, 4),
        (vec![vec![1, 2, 3], vec![], vec![1, 2, 4]], 2, 4),
        (vec![vec![1, 2, 3], vec![4]], 2, 4),
        (vec![vec![3], vec![4]], 2, 4),
        (vec![vec![1, 2], vec![3], vec![4]], 2, 4),
        // 'Same', jointly.
        (vec![vec![1, 5], vec![1, 6]], 0, 0),
        (vec![vec![1, 6], vec![1, 5]], 0, 0),
        (vec![vec![5, 6], vec![1]], 0, 0),
        (vec![vec![6], vec![5], vec![1]], 0, 0),
        (vec![vec![1, 5], vec![1, 5]], 6, 2),
        (vec![vec![1], vec![5]], 6, 2),
        (vec![vec![1, 6], vec![1, 6]], 6, 1),
        // All at once.
        (vec![vec![1, 3, 5], vec![2, 6]], 0, 0),
        (vec![vec![1, 2, 3], vec![1, 5]], 6, 2),
        (vec![vec![1, 2, 3, 5], vec![4, 6]], 2, 4),
    ] {
        t.register(&format!("one member, {parts:?}"), &s, &one_member(&parts), group, rule);
    }
    // The same rows of two members, or with another member between them.
    t.register("two members, the first in the root and 2", &s, &listed(&[(1, vec![1, 2]), (2, vec![1, 4])]), 2, 3);
    t.register("two members, one in each son", &s, &listed(&[(1, vec![1, 2, 3]), (2, vec![1, 2, 4])]), 0, 0);
    t.register("two members, 5 and 6", &s, &listed(&[(1, vec![1, 5]), (2, vec![1, 6])]), 6, 1);
    t.register("two members of two rows", &s, &listed(&[(1, vec![1, 3]), (1, vec![2]), (2, vec![4]), (2, vec![1, 2])]), 0, 0);
    t.register("two members of two rows, the second uncovered", &s, &listed(&[(1, vec![1, 3]), (1, vec![2]), (2, vec![2]), (2, vec![1])]), 2, 3);
    t.register("the lower group by the later member", &s, &listed(&[(1, vec![1, 5]), (1, vec![1]), (2, vec![1, 2, 3]), (2, vec![4])]), 2, 4);
    t.register("the lower rule by the later member", &s, &listed(&[(1, vec![1, 2, 3]), (1, vec![4]), (2, vec![1]), (2, vec![2])]), 2, 3);
    t.register("a member of one row after one of two", &s, &listed(&[(1, vec![1]), (1, vec![2, 3]), (2, vec![2, 3])]), 2, 1);
    // Counts, also where the sheet is impossible.
    let two = |lo: u16, hi: u16| groups(&[(0, 0, NO_END, 0), (1, lo, hi, 0)]);
    let both = listed(&[(1, vec![1, 2]), (1, vec![1, 2]), (2, vec![1, 2]), (3, vec![2]), (3, vec![1])]);
    t.register("a group in both rows counts once, hi 3", &two(3, 3), &both, 0, 0);
    t.register("a group in both rows counts once, hi 2", &two(0, 2), &both, 2, 6);
    t.register("a group in both rows counts once, lo 4", &two(4, NO_END), &both, 2, 5);
    let impossible = groups(&[(0, 3, 2, 0)]);
    t.register("an impossible sheet, one member on three rows", &impossible, &one_member(&vec![vec![1]; 3]), 1, 5);
    let six = listed(&[(1, vec![1]), (1, vec![]), (2, vec![1]), (2, vec![1]), (3, vec![]), (3, vec![1])]);
    t.register("an impossible sheet, three members on six rows", &impossible, &six, 1, 6);
    // Whole numbers are compared.
    for side in [LEFT, RIGHT] {
        let one = |n: u32| row_of((n, side), &[1]);
        for n in [1, 255, 256, 65535, 65536, 16777216, 4294967294, NONE] {
            t.register(&format!("number {n}, side {side}, on two rows"), &root(1, 1), &[one(n), one(n)].concat(), 0, 0);
        }
        for (a, b) in [(1, 257), (1, 65537), (1, 16777217), (255, 511), (256, 512), (65536, 131072), (4294967294, NONE)] {
            t.register(&format!("numbers {a} and {b}, side {side}"), &root(2, 2), &[one(a), one(b)].concat(), 0, 0);
            let both = [one(a), one(a), one(b), one(b)].concat();
            t.register(&format!("numbers {a} and {b}, side {side}, on two rows each"), &root(2, 2), &both, 0, 0);
        }
    }
}

// Joins by place: of rows, and of members, which are not at the rows of their numbers.
fn joined_families(t: &mut Table) {
    for at in [2, 63, 124] {
        let s = family(at);
        let g = at as usize;
        // The two rows of a member, and what it breaks.
        let pairs = [
            (vec![g, g + 1], vec![1], 0, 0),
            (vec![g + 1], vec![1, g], 0, 0),
            (vec![1, g], vec![1, g + 2], 0, 0),
            (vec![1, g + 3], vec![1, g + 4], 0, 0),
            (vec![1, g, g + 1], vec![1, g, g + 1], 0, 0),
            (vec![], vec![], 0, 0),
            (vec![], vec![1, g, g + 2], 0, 0),
            (vec![1, g, g + 2], vec![1, g + 3, g + 4], 0, 0),
            (vec![g], vec![g + 1], at, 1),
            (vec![g + 1], vec![1], at + 1, 1),
            (vec![1], vec![1, g + 3], at + 4, 2),
            (vec![1, g], vec![1], at, 3),
            (vec![], vec![1, g], at, 3),
            (vec![1, g, g + 1], vec![1, g, g + 2], at, 4),
            (vec![g + 2], vec![g + 1], at, 4),
        ];
        for (first, second, group, rule) in &pairs {
            let what = format!("family at {at}, {first:?} and {second:?}");
            // One member on rows r and r + 1, all others on one row.
            for r in [1, 62, 63, 64, 65, 127, 128, 2046, 2047] {
                let mut sizes = vec![r + 1, r + 2, 2048];
                sizes.dedup();
                for n in sizes.into_iter().filter(|&n| n <= 2048) {
                    let held = |k: usize| if k == r { first.clone() } else if k == r + 1 { second.clone() } else { fitting(g, k) };
                    let reg: Bytes = (1..=n).flat_map(|k| row((if k > r { k - 1 } else { k }) as u32, &held(k))).collect();
                    t.checked(&format!("{what} on rows {r} and {} of {n}", r + 1), &s, &reg, *group, *rule);
                }
            }
            // Each member on two rows, the k-th of them on these.
            for n in [64, 65, 129, 1024] {
                for k in [1, 32, 33, 63, 64, 65, 128, 129, 1023, 1024].into_iter().filter(|&k| k <= n) {
                    let reg: Bytes = (1..=n)
                        .flat_map(|m| {
                            let all = fitting(g, m);
                            let (a, b) = if m == k { (first.clone(), second.clone()) } else { (all[1..].to_vec(), vec![1]) };
                            [row(m as u32, &a), row(m as u32, &b)].concat()
                        })
                        .collect();
                    t.checked(&format!("{what} for member {k} of {n}, two rows each"), &s, &reg, *group, *rule);
                }
            }
            // The first member on many rows, then others on one; the k-th member is on rows 2,047 and 2,048.
            for k in [2, 63, 64, 65, 128, 129] {
                let long = 2048 - k;
                let mut reg = vec![(1, vec![1, g]), (1, vec![g + 1])];
                reg.extend((2..long).map(|_| (1, vec![])));
                reg.extend((2..k).map(|m| (m as u32, fitting(g, m))));
                reg.extend([(k as u32, first.clone()), (k as u32, second.clone())]);
                assert_eq!(reg.len(), 2048);
                t.checked(&format!("{what} for member {k}, the first one on {long} rows"), &s, &listed(&reg), *group, *rule);
            }
        }
        // One member with its two parts at both ends of its n rows.
        for n in [3, 64, 65, 66, 128, 129, 2047, 2048] {
            for (first, second, group, rule) in &pairs {
                let mut parts = vec![vec![]; n];
                (parts[0], parts[n - 1]) = (first.clone(), second.clone());
                t.checked(&format!("family at {at}, one member, {first:?} on row 1 and {second:?} on row {n}"), &s, &one_member(&parts), *group, *rule);
            }
        }
    }
    // One member on 128 rows, each in one group of a chain, from above and from below.
    let chain = free(&(1..=128).map(|g| (g - 1, if g < 128 { 3 } else { 0 })).collect::<Vec<_>>());
    for (order, place) in [("down", [1, 128]), ("up", [128, 1])] {
        let at = |k: usize| if place[0] == 1 { k } else { 129 - k };
        let but = |out: usize| one_member(&(1..=128).map(|k| if at(k) == out { vec![] } else { vec![at(k)] }).collect::<Vec<_>>());
        t.checked(&format!("chain, {order}, a row for each group"), &chain, &but(0), 0, 0);
        for (out, group, rule) in [(1, 2, 1), (2, 1, 3), (64, 63, 3), (65, 64, 3), (127, 126, 3), (128, 127, 3)] {
            t.checked(&format!("chain, {order}, a row for each group but {out}"), &chain, &but(out), group, rule);
        }
    }
    // 127 sons.
    for g in [2, 63, 64, 65, 66, 127, 128] {
        t.checked(&format!("cover star, the root and {g}"), &star(128, 2), &one_member(&[vec![1], vec![g]]), 0, 0);
        t.checked(&format!("cover star, {g} and the root"), &star(128, 2), &one_member(&[vec![g], vec![1]]), 0, 0);
        t.checked(&format!("disjoint star, {g} twice"), &star(128, 1), &one_member(&[vec![1, g], vec![1, g]]), 0, 0);
    }
    for (a, b) in [(2, 3), (2, 128), (63, 64), (64, 65), (64, 128), (65, 66), (2, 65), (127, 128)] {
        t.checked(&format!("disjoint star, {a} and then {b}"), &star(128, 1), &one_member(&[vec![1, a], vec![1, b]]), 1, 4);
        t.checked(&format!("disjoint star, {b} and then {a}"), &star(128, 1), &one_member(&[vec![1, b], vec![1, a]]), 1, 4);
        t.checked(&format!("disjoint star, {a} and {b} of two members"), &star(128, 1), &listed(&[(1, vec![1, a]), (2, vec![1, b])]), 0, 0);
    }
    let each: Vec<Vec<usize>> = (2..=128).map(|g| vec![1, g]).collect();
    t.checked("disjoint star, one member in each son", &star(128, 1), &one_member(&each), 1, 4);
    t.checked("cover star, one member in each son", &star(128, 2), &one_member(&each), 0, 0);
    // All sons of a 'same' group: odd numbers on one row, even ones on the other.
    for last in [3, 64, 65, 128] {
        let s = star(last, 4);
        let half = |odd: usize, out: usize| (1..=last as usize).filter(|&g| g % 2 == odd && g != out).collect::<Vec<_>>();
        t.checked(&format!("{last} equal groups on two rows"), &s, &one_member(&[half(1, 0), half(0, 0)]), 0, 0);
        t.checked(&format!("{last} equal groups on two rows, without the last"), &s, &one_member(&[half(1, last as usize), half(0, last as usize)]), last, 2);
        t.checked(&format!("{last} equal groups on two rows, without the second"), &s, &one_member(&[half(0, 2), half(1, 2)]), 2, 2);
        t.checked(&format!("{last} equal groups on two rows, without the root"), &s, &one_member(&[half(0, 1), half(1, 1)]), 2, 1);
    }
}

// A member counts once, however many of its rows have the group.
fn joined_counts(t: &mut Table) {
    for last in [1, 2, 64, 65, 128] {
        // The root, or its last son, with these bounds.
        let bounded = |lo: usize, hi: usize| {
            let mut list: Vec<(u16, u16, u16, u16)> = (1..=last).map(|g| (if g == 1 { 0 } else { 1 }, 0, NO_END, 0)).collect();
            (list[last as usize - 1].1, list[last as usize - 1].2) = (lo as u16, hi as u16);
            groups(&list)
        };
        let any = NO_END as usize;
        let within = if last == 1 { vec![1] } else { vec![1, last as usize] };
        let out = if last == 1 { vec![] } else { vec![1] };
        let mut exactly = |what: &str, reg: &Bytes, n: usize| {
            t.checked(&format!("{what}, {n} to {n}"), &bounded(n, n), reg, 0, 0);
            t.checked(&format!("{what}, lo {}", n + 1), &bounded(n + 1, any), reg, last, 5);
            if n > 0 {
                t.checked(&format!("{what}, hi {}", n - 1), &bounded(0, n - 1), reg, last, 6);
            }
        };
        // n members on two rows each: in the group by the first row, the second, either, both.
        for n in [1, 2, 32, 33, 63, 64, 65, 127, 128, 129, 1023, 1024] {
            for (how, a, b) in [("first", true, false), ("second", false, true), ("both", true, true), ("neither", false, false)] {
                let held = |on: bool| if on { within.clone() } else { out.clone() };
                let reg: Bytes = (1..=n).flat_map(|m| [row(m, &held(a)), row(m, &held(b))].concat()).collect();
                exactly(&format!("{n} members, group {last} on {how}"), &reg, if a || b { n as usize } else { 0 });
            }
            let on = |m: u32, second: bool| row(m, if (m % 2 == 0) != second { &within } else { &[] });
            let turns: Bytes = (1..=n).flat_map(|m| [on(m, false), on(m, true)].concat()).collect();
            exactly(&format!("{n} members, group {last} on either row"), &turns, n as usize);
            // The last one is in it by its second row alone, and nobody else is.
            let alone: Bytes = (1..=n).flat_map(|m| [row(m, &out), row(m, if m == n { &within } else { &out })].concat()).collect();
            exactly(&format!("{n} members, group {last} for the last alone"), &alone, 1);
        }
        // n rows, of which two are one member's.
        for n in SIZES.into_iter().filter(|&n| n > 1) {
            for r in edges(n).into_iter().filter(|&r| r < n) {
                let member = |k: usize| (if k > r { k - 1 } else { k }) as u32;
                let what = format!("{n} rows, {r} and {} of one member, group {last}", r + 1);
                let whole: Bytes = (1..=n).flat_map(|k| row(member(k), &within)).collect();
                exactly(&what, &whole, n - 1);
                let half: Bytes = (1..=n).flat_map(|k| row(member(k), if k == r { &out } else { &within })).collect();
                exactly(&format!("{what}, by the second"), &half, n - 1);
                let none: Bytes = (1..=n).flat_map(|k| row(member(k), if k == r || k == r + 1 { &out } else { &within })).collect();
                exactly(&format!("{what}, by neither"), &none, n - 2);
            }
        }
    }
}

// Refusals 10 to 13 and 15 beside rows of one member; the row given counts rows.
fn joined_refusals(t: &mut Table) {
    let s = base().concat();
    // 12 is kept for 0 and for a falling pair.
    t.register("5, 5, 6", &s, &listed(&[(5, vec![]), (5, vec![]), (6, vec![])]), 0, 0);
    t.register("5, 6, 6", &s, &listed(&[(5, vec![]), (6, vec![1]), (6, vec![2])]), 0, 0);
    for (members, r) in [
        (vec![5, 5, 4], 3),
        (vec![5, 5, 5, 4], 4),
        (vec![5, 5, 4, 4], 3),
        (vec![5, 4, 4], 2),
        (vec![5, 5, 6, 5], 4),
        (vec![5, 6, 5], 3),
        (vec![5, 5, 1], 3),
        (vec![511, 511, 510], 3),
        (vec![NONE, NONE, NONE - 1], 3),
        (vec![NONE, NONE, 1], 3),
        (vec![0, 0], 1),
        (vec![0, 5, 5], 1),
        (vec![5, 5, 0], 3),
        (vec![5, 0, 0], 2),
        (vec![1, 1, 0], 3),
        (vec![NONE, NONE, 0], 3),
    ] {
        let list: Vec<(u32, Vec<usize>)> = members.iter().map(|&m| (m, vec![1])).collect();
        t.register_refused(&format!("ears {members:?}"), &s, &listed(&list), 12, r);
    }
    // 13 in the first, the second and the third of them; then what comes first.
    t.register_refused("bit 4 in the first of two", &s, &one_member(&[vec![4], vec![1]]), 13, 1);
    t.register_refused("bit 4 in the second of two", &s, &one_member(&[vec![1], vec![1, 4]]), 13, 2);
    t.register_refused("bit 4 in both", &s, &one_member(&[vec![4], vec![4]]), 13, 1);
    t.register_refused("bit 128 in the second of two", &s, &one_member(&[vec![1], vec![128]]), 13, 2);
    t.register_refused("bit 65 in the third of three", &s, &one_member(&[vec![1], vec![], vec![65]]), 13, 3);
    t.register_refused("bit 65 in the second of two, 64 groups", &star(64, 0), &one_member(&[vec![1, 64], vec![1, 65]]), 13, 2);
    t.register_refused("12+13 after two of one member", &s, &listed(&[(5, vec![]), (5, vec![]), (4, vec![4])]), 12, 3);
    t.register_refused("13 in the second of two, then 12", &s, &listed(&[(5, vec![]), (5, vec![4]), (4, vec![])]), 13, 2);
    t.register_refused("13 in the second of two, then 11", &s, &[one_member(&[vec![1], vec![4]]), vec![0; ROW]].concat(), 13, 2);
    t.register_refused("a broken rule, then 13 in the same member", &s, &one_member(&[vec![2], vec![4]]), 13, 2);
    t.register_refused("a broken rule, then 12", &s, &listed(&[(9, vec![2]), (9, vec![3]), (8, vec![1])]), 12, 3);
    // 11: the second of two rows of one member is cut, or of wrong kind or length.
    let second = row(9, &[1]);
    for keep in 1..ROW {
        t.register_refused(&format!("{keep} bytes for the second of two"), &s, &[row(9, &[1]), second[..keep].to_vec()].concat(), 11, 2);
        t.register_refused(&format!("{keep} bytes for the third of three"), &s, &[one_member(&[vec![1], vec![2]]), second[..keep].to_vec()].concat(), 11, 3);
    }
    for (length, kind) in WRONG_FRAMES {
        let wrong = reframed(&second, length, kind);
        let what = format!("length {length} and kind {kind}");
        t.register_refused(&format!("{what} in the first of two"), &s, &[wrong.clone(), second.clone()].concat(), 11, 1);
        t.register_refused(&format!("{what} in the second of two"), &s, &[second.clone(), wrong.clone()].concat(), 11, 2);
        t.register_refused(&format!("{what} in the second of three"), &s, &[second.clone(), wrong, second.clone()].concat(), 11, 2);
    }
    // At a late row, after rows of one member, or of members on two rows, that break a rule.
    for r in [2, 3, 64, 65, 2047, 2048, 2049] {
        let one: Vec<(u32, Vec<usize>)> = (1..r).map(|_| (7, vec![2])).collect();
        let two: Vec<(u32, Vec<usize>)> = (1..r).map(|k| (3 + k / 2, vec![2])).collect();
        for (before, how) in [(one, "one member"), (two, "members on two rows")] {
            let last = before[before.len() - 1].0;
            let mut bad = vec![
                (12, "member 0", row(0, &[1])),
                (12, "a member that falls", row(last - 1, &[1])),
                (12, "a member that falls to 1", row(1, &[1])),
                (12, "a member that falls and a bit above G", row(last - 1, &[4])),
                (13, "the same member and a bit above G", row(last, &[1, 4])),
                (13, "the same member and bit 128", row(last, &[128])),
                (13, "another member and a bit above G", row(last + 1, &[1, 4])),
                (15, "the same number, side 0", row_of((ear(last).0, 0), &[1])),
                (15, "the same number, side 3", row_of((ear(last).0, 3), &[1])),
                (15, "the same number, its side and 256", row_of((ear(last).0, ear(last).1 + 256), &[1])),
                (15, "the same number, side 3 and a bit above G", row_of((ear(last).0, 3), &[1, 4])),
                (15, "number 0 and side 3", row_of((0, 3), &[1])),
                (15, "a number that falls and side 3", row_of((ear(last).0 - 1, 3), &[1])),
                (11, "the same member, kind 32", reframed(&row(last, &[1]), 24, 32)),
                (11, "the same member, length 22", reframed(&row(last, &[1]), 22, 33)),
            ];
            bad.extend([1, 4, 8, 10, 25].map(|keep| (11, "the same member, cut", row(last, &[1])[..keep].to_vec())));
            for (n, what, b) in bad {
                let n = if r == 2049 { 10 } else { n };
                let start = [listed(&before), b].concat();
                t.register_refused(&format!("{what} at row {r} after {how}"), &s, &start, n, r as u64);
                if start.len() % ROW == 0 {
                    t.register_refused(&format!("{what} at row {r} after {how}, others follow"), &s, &[start, row(last, &[1])].concat(), n, r as u64);
                }
            }
            for (what, member) in [("the same member", last), ("another member", last + 1)] {
                let reg = [listed(&before), row(member, &[1])].concat();
                let what = format!("{what} at row {r} after {how}");
                if r == 2049 {
                    t.register_refused(&what, &s, &reg, 10, 2049);
                } else {
                    // Group 2 has a member outside the root, unless this row puts the only one in.
                    let alone = member == last && before.iter().all(|b| b.0 == last);
                    let (group, rule) = if alone { (0, 0) } else { (2, 1) };
                    t.checked(&what, &s, &reg, group, rule);
                }
            }
        }
    }
    // 10: rows are counted, not members.
    let rows_of = |n: u32, each: u32| -> Bytes { (0..n).flat_map(|k| row(1 + k / each, &[])).collect() };
    for each in [2, 3, 64, 2047, 2048, 2049] {
        t.register(&format!("2,048 rows, {each} for a member"), &s, &rows_of(2048, each), 0, 0);
        t.register_refused(&format!("2,049 rows, {each} for a member"), &s, &rows_of(2049, each), 10, 2049);
        t.register_refused(&format!("2,050 rows, {each} for a member"), &s, &rows_of(2050, each), 10, 2049);
        t.register_refused(&format!("2,048 rows, {each} for a member, and a byte"), &s, &[rows_of(2048, each), vec![24]].concat(), 10, 2049);
    }
}
