// Registers by size: around 64, 128 and 2,048 rows, decided by one row or by rows far apart.
use crate::limits::*;
use crate::records::*;
use crate::rows::*;
use crate::table::*;

pub fn all(t: &mut Table) {
    sizes(t);
    counts(t);
    first_broken(t);
    late_refusals(t);
}

// Registers by size, fitting and broken by one row.
fn sizes(t: &mut Table) {
    for at in [2, 63, 124] {
        let s = family(at);
        let g = at as usize;
        let fits = |r: usize| fitting(g, r);
        let broken = breaking(at);
        for n in SIZES {
            t.checked(&format!("{n} rows, family at {at}"), &s, &rows(n, fits), 0, 0);
            t.checked(&format!("{n} rows in no group, family at {at}"), &s, &rows(n, |_| vec![]), 0, 0);
            for r in edges(n) {
                t.checked(&format!("{n} rows, family at {at}, row {r} in no group"), &s, &rows_but(n, fits, &[(r, vec![])]), 0, 0);
                t.checked(&format!("{n} rows, family at {at}, row {r} in the root alone"), &s, &rows_but(n, fits, &[(r, vec![1])]), 0, 0);
                for (held, group, rule) in &broken {
                    let what = format!("{n} rows, family at {at}, row {r} is {held:?}");
                    t.checked(&what, &s, &rows_but(n, fits, &[(r, held.clone())]), *group, *rule);
                    t.checked(&format!("{what}, all others in no group"), &s, &rows_but(n, |_| vec![], &[(r, held.clone())]), *group, *rule);
                }
            }
        }
        for r in edges(2049) {
            t.register_refused(&format!("2,049 rows, family at {at}, row {r} breaks a rule"), &s, &rows_but(2049, fits, &[(r, vec![1, g])]), 10, 2049);
        }
        t.register_refused(&format!("2,049 rows, family at {at}"), &s, &rows(2049, fits), 10, 2049);
        // Without 'disjoint' a member of two sons breaks rule 1 at the first of them.
        let mut list: Vec<(u16, u16)> = (1..=at + 2).map(|h| (if h == 1 { 0 } else if h <= at { 1 } else { at }, 0)).collect();
        for mode in [0, 2] {
            list[g - 1].1 = mode;
            for r in edges(2048) {
                let reg = rows_but(2048, |_| vec![1, g, g + 2], &[(r, vec![1, g + 1, g + 2])]);
                t.checked(&format!("mode {mode} at {at}, row {r} in two sons"), &free(&list), &reg, at + 1, 1);
            }
        }
    }
    // All sons of a 'same' group equal it; the row lacks the last, the one before, both, or the group.
    for (first, last) in [(2, 3), (64, 65), (127, 128)] {
        let s = free(&(1..=last).map(|g| if g == 1 { (0, 4) } else { (1, 0) }).collect::<Vec<_>>());
        let all: Vec<usize> = (1..=last as usize).collect();
        let without = |out: &[u16]| all.iter().copied().filter(|&g| !out.contains(&(g as u16))).collect::<Vec<usize>>();
        for n in [65, 2048] {
            t.checked(&format!("{n} rows, {last} equal groups"), &s, &rows(n, |_| all.clone()), 0, 0);
            for r in edges(n) {
                for (out, group, rule) in [(vec![last], last, 2), (vec![first], first, 2), (vec![first, last], first, 2), (vec![1], 2, 1)] {
                    let reg = rows_but(n, |_| all.clone(), &[(r, without(&out))]);
                    t.checked(&format!("{n} rows, {last} equal groups, row {r} without {out:?}"), &s, &reg, group, rule);
                }
            }
        }
    }
}

// Counts by size, decided by one row.
fn counts(t: &mut Table) {
    for last in [1, 2, 64, 65, 128] {
        // The root, or its last son, with these bounds.
        let bounded = |lo: usize, hi: u16| {
            let mut list: Vec<(u16, u16, u16, u16)> = (1..=last).map(|g| (if g == 1 { 0 } else { 1 }, 0, NO_END, 0)).collect();
            list[last as usize - 1].1 = lo as u16;
            list[last as usize - 1].2 = hi;
            groups(&list)
        };
        let within = if last == 1 { vec![1] } else { vec![1, last as usize] };
        let out = if last == 1 { vec![] } else { vec![1] };
        for n in SIZES.into_iter().filter(|&n| n > 0) {
            let what = format!("{n} rows, group {last}");
            let whole = rows(n, |_| within.clone());
            let none = rows(n, |_| vec![]);
            t.checked(&format!("{what}, lo is met"), &bounded(n, NO_END), &whole, 0, 0);
            t.checked(&format!("{what}, one below lo"), &bounded(n + 1, NO_END), &whole, last, 5);
            t.checked(&format!("{what}, hi is met"), &bounded(0, n as u16), &whole, 0, 0);
            t.checked(&format!("{what}, one above hi"), &bounded(0, n as u16 - 1), &whole, last, 6);
            t.checked(&format!("{what}, all in no group, hi 0"), &bounded(0, 0), &none, 0, 0);
            t.checked(&format!("{what}, all in no group, lo 1"), &bounded(1, NO_END), &none, last, 5);
            for r in edges(n) {
                for (held, how) in [(&out, "outside"), (&vec![], "in no group")] {
                    let reg = rows_but(n, |_| within.clone(), &[(r, held.clone())]);
                    t.checked(&format!("{what}, row {r} {how}, lo is met"), &bounded(n - 1, NO_END), &reg, 0, 0);
                    t.checked(&format!("{what}, row {r} {how}, one below lo"), &bounded(n, NO_END), &reg, last, 5);
                    t.checked(&format!("{what}, row {r} {how}, hi is met"), &bounded(n - 1, n as u16 - 1), &reg, 0, 0);
                    if n > 1 {
                        t.checked(&format!("{what}, row {r} {how}, one above hi"), &bounded(0, n as u16 - 2), &reg, last, 6);
                    }
                }
                // Nobody else is in the group.
                let alone = rows_but(n, |_| out.clone(), &[(r, within.clone())]);
                t.checked(&format!("{what}, row {r} alone, 1 to 1"), &bounded(1, 1), &alone, 0, 0);
                t.checked(&format!("{what}, row {r} alone, lo 2"), &bounded(2, NO_END), &alone, last, 5);
                t.checked(&format!("{what}, row {r} alone, hi 0"), &bounded(0, 0), &alone, last, 6);
            }
        }
    }
}

// Several broken groups, and several broken rules of one group, in rows far apart and in either order.
fn first_broken(t: &mut Table) {
    // A row in a son and not in the root breaks rule 1 at that son.
    let s = star(128, 0);
    let groups_at = [2, 64, 65, 128];
    let rows_at = [1, 64, 65, 2048];
    for chosen in 1..16usize {
        let list: Vec<usize> = (0..4).filter(|k| chosen >> k & 1 == 1).collect();
        let lowest = groups_at[list[0]] as u16;
        for (order, place) in [("rising", [0, 1, 2, 3]), ("falling", [3, 2, 1, 0])] {
            let but: Vec<(usize, Vec<usize>)> = list.iter().map(|&k| (rows_at[place[k]], vec![groups_at[k]])).collect();
            t.checked(&format!("broken groups, {order}: {but:?}"), &s, &rows_but(2048, |r| vec![1, 2 + r % 127], &but), lowest, 1);
        }
    }
    // Group 2 is the only son of a 'same' root and has two sons; a row for each of rules 1 to 4, and bounds for 5 and 6.
    let breaks = [vec![2, 3], vec![1], vec![1, 2], vec![1, 2, 3, 4]];
    for chosen in 0..16usize {
        let list: Vec<usize> = (0..4).filter(|k| chosen >> k & 1 == 1).collect();
        for (lo, hi, of_count) in [(0, NO_END, 0), (65534, NO_END, 5), (0, 0, 6), (65534, 0, 5)] {
            let s = groups(&[(0, 0, NO_END, 4), (1, lo, hi, 3), (2, 0, NO_END, 0), (2, 0, NO_END, 0)]);
            let rule = list.first().map_or(of_count, |k| *k as u16 + 1);
            let group = if rule == 0 { 0 } else { 2 };
            for (order, place) in [("rising", [0, 1, 2, 3]), ("falling", [3, 2, 1, 0])] {
                let but: Vec<(usize, Vec<usize>)> = list.iter().map(|&k| (rows_at[place[k]], breaks[k].clone())).collect();
                let reg = rows_but(2048, |r| vec![1, 2, 3 + r % 2], &but);
                t.checked(&format!("broken rules of group 2, {lo} to {hi}, {order}: {but:?}"), &s, &reg, group, rule);
            }
        }
    }
    // A member in two sons and not in the group, and other groups broken in later rows.
    for at in [2, 63, 124] {
        let g = at as usize;
        for r in [1, 63, 64, 65, 2047] {
            for (held, later, group, rule) in [
                (vec![1, g + 1, g + 2], vec![1, g + 3], at, 4),
                (vec![1, g + 1, g + 2], vec![1, g + 1], at, 4),
                (vec![1, g + 1, g + 2], vec![1, g], at, 3),
                (vec![1, g + 1, g + 2], vec![g], at, 1),
                (vec![1, g + 3], vec![1, g + 1, g + 2], at, 4),
                (vec![1, g + 3], vec![1, g], at, 3),
                (vec![1, g + 3], vec![1, g + 2], at + 2, 1),
                (vec![1, g], vec![1, g + 1, g + 2], at, 3),
                (vec![1, g + 4], vec![1, g + 3], at + 4, 1),
                (vec![1, g + 3], vec![1, g + 4], at + 4, 1),
            ] {
                let reg = rows_but(2048, |r| fitting(g, r), &[(r, held.clone()), (2048, later.clone())]);
                t.checked(&format!("family at {at}, row {r} is {held:?}, row 2,048 {later:?}"), &family(at), &reg, group, rule);
            }
        }
    }
}

// Refusals by 10 to 13 and 15 at a late row, after rows that break rules; a refusal is named before any rule.
fn late_refusals(t: &mut Table) {
    let s = family(2);
    for r in [1, 64, 65, 2048, 2049] {
        let before = |n: usize| rows_but(n, |k| fitting(2, k), &[(1, vec![1, 2]), (n / 2, vec![3, 4]), (n, vec![1, 5])]);
        let after: Bytes = (r + 1..=r + 3).flat_map(|m| row(m as u32, &[1])).collect();
        let no = r as u32;
        // 11: a wrong kind or length, a row that is cut.
        let mut bad = vec![
            (11, "a kind of 32", reframed(&row(no, &[]), 24, 32)),
            (11, "a length of 22", reframed(&row(no, &[]), 22, 33)),
            (11, "a length of 280", reframed(&row(no, &[]), 280, 33)),
            (15, "side 0", row_of((no, 0), &[1])),
            (15, "side 3", row_of((no, 3), &[1])),
            (15, "side 257", row_of((no, 257), &[1])),
            (12, "member 0", row(0, &[1])),
            (13, "a bit above G", row(no, &[1, 7])),
            (13, "bit 65", row(no, &[1, 65])),
            (13, "bit 128", row(no, &[128])),
            (12, "member 0 and a bit above G", row(0, &[7])),
            (15, "side 3 and a bit above G", row_of((no, 3), &[7])),
            (15, "side 3 and number 0", row_of((0, 3), &[1])),
            (15, "side 3, number 0 and a bit above G", row_of((0, 3), &[7])),
            (11, "a wrong kind, side 3, number 0 and a bit above G", reframed(&row_of((0, 3), &[7]), 24, 32)),
        ];
        if r > 1 {
            bad.push((12, "the member before that of the row before", row(no - 2, &[1])));
            bad.push((12, "member 1", row(1, &[1])));
            bad.push((15, "side 3 of number 1", row_of((1, 3), &[1])));
            bad.push((15, "side 0 of the row before's number", row_of((ear(no - 1).0, 0), &[1])));
        }
        for (n, what, b) in bad {
            let n = if r == 2049 { 10 } else { n };
            let start = [before(r - 1), b].concat();
            t.register_refused(&format!("{what} at row {r}, the last"), &s, &start, n, r as u64);
            t.register_refused(&format!("{what} at row {r}, others follow"), &s, &[start, after.clone()].concat(), n, r as u64);
        }
        for keep in [1, 3, 4, 8, 9, 10, 16, 24, 25] {
            let cut = [before(r - 1), row(no, &[1])[..keep].to_vec()].concat();
            t.register_refused(&format!("{keep} bytes for row {r}"), &s, &cut, if r == 2049 { 10 } else { 11 }, r as u64);
        }
    }
    // 12: the row before decides, not an earlier one. Row k has ear 10 k.
    for r in [2, 64, 65, 66, 128, 129, 2047, 2048] {
        let tens = |n: usize| -> Bytes { (1..=n).flat_map(|k| row(10 * k as u32, if k == 1 { &[1, 2] } else { &[1] })).collect() };
        let last = 10 * (r as u32 - 1);
        for k in [last - 1, last - 9, 1] {
            t.register_refused(&format!("ear {k} at row {r}, after {last}"), &s, &[tens(r - 1), row(k, &[1])].concat(), 12, r as u64);
        }
        t.checked(&format!("ear {last} again at row {r}"), &s, &[tens(r - 1), row(last, &[1])].concat(), 2, 3);
        t.checked(&format!("ear {} at row {r}", last + 1), &s, &[tens(r - 1), row(last + 1, &[1])].concat(), 2, 3);
        t.checked(&format!("the greatest at row {r}"), &s, &[tens(r - 1), row_of((NONE, RIGHT), &[1])].concat(), 2, 3);
    }
    // 13: the bit just above G.
    for g in [1, 63, 64, 65, 127] {
        let s = star(g, 0);
        let g = g as usize;
        for r in [1, 64, 65, 2048] {
            // Before it, the last group's member is not in the root (where there are others).
            let held = |k: usize| if k % 2 == 1 { vec![g] } else { vec![1] };
            let (group, rule) = if g > 1 && r > 1 { (g as u16, 1) } else { (0, 0) };
            for high in [g + 1, 128] {
                let reg = rows_but(r, held, &[(r, vec![1, high])]);
                t.register_refused(&format!("{g} groups, bit {high} at row {r}"), &s, &reg, 13, r as u64);
                t.register_refused(&format!("{g} groups, bits to {high} at row {r}"), &s, &rows_but(r, held, &[(r, (1..=high).collect())]), 13, r as u64);
            }
            t.checked(&format!("{g} groups, bit {g} at row {r}"), &s, &rows_but(r, held, &[(r, vec![1, g])]), group, rule);
        }
    }
}
