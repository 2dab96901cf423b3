// Document 02, card 5, by hand: groups 129 to 256, and trees of all groups that an edition may have.
use crate::limits::*;
use crate::records::*;
use crate::rows::*;
use crate::table::*;

const ANY: (u16, u16) = (0, NO_END);

// Groups on both sides of the edges of words, and the last.
const UPPER: [u16; 9] = [127, 128, 129, 130, 191, 192, 193, 255, 256];

pub fn all(t: &mut Table) {
    rules(t);
    upper_sets(t);
    each_alone(t);
    families(t);
    chains(t);
    stars(t);
    bushes(t);
    claims(t);
}

// Each rule broken at one group, by one row among others of the root.
fn rules(t: &mut Table) {
    let e = SECOND;
    for g in UPPER {
        let n = g as usize;
        // Sheet, row, and what it breaks.
        let mut cases: Vec<(String, Bytes, Vec<usize>, u16, u16)> = Vec::new();
        let mut case = |what: String, sheet: &Bytes, held: &[usize], group: u16, rule: u16| cases.push((what, sheet.clone(), held.to_vec(), group, rule));
        let mut parents = vec![1, 2, g / 2, g - 1];
        parents.dedup();
        for p in parents {
            let q = p as usize;
            let s = e.groups_with(256, &[(g, (p, 0, NO_END, 0))]);
            let out: &[usize] = if p == 1 { &[] } else { &[1] };
            case(format!("rule 1, parent {p}"), &s, &[out, &[n]].concat(), g, 1);
            case(format!("rule 1, parent {p}, met"), &s, &[out, &[q, n]].concat(), 0, 0);
            case(format!("rule 1, parent {p} alone"), &s, &[out, &[q]].concat(), 0, 0);
            if p > 1 {
                let s = e.groups_with(256, &[(p, (1, 0, NO_END, 4)), (g, (p, 0, NO_END, 0))]);
                case(format!("rule 2, parent {p}"), &s, &[1, q], g, 2);
                case(format!("rule 2, parent {p}, met"), &s, &[1, q, n], 0, 0);
                case(format!("rule 2, parent {p}, rule 1"), &s, &[1, n], g, 1);
            }
        }
        let s = e.star(256, 4);
        case("rule 2 under the root".into(), &s, &(1..=256).filter(|&h| h != n).collect::<Vec<_>>(), g, 2);
        let s = e.groups_with(256, &[(g, (1, 0, NO_END, 2))]);
        case("rule 3 without sons".into(), &s, &[1, n], g, 3);
        for son in [g + 1, 256] {
            if g < 256 {
                let s = e.groups_with(256, &[(g, (1, 0, NO_END, 2)), (son, (g, 0, NO_END, 0))]);
                case(format!("rule 3, son {son}"), &s, &[1, n], g, 3);
                case(format!("rule 3, son {son}, met"), &s, &[1, n, son as usize], 0, 0);
                case(format!("rule 3, son {son}, rule 1 at it"), &s, &[1, son as usize], son, 1);
            }
        }
        // Groups 255 and 256 can't have two sons.
        if g <= 254 {
            for (a, b) in [(g + 1, g + 2), (g + 1, 256), (255, 256)] {
                let s = e.groups_with(256, &[(g, (1, 0, NO_END, 1)), (a, (g, 0, NO_END, 0)), (b, (g, 0, NO_END, 0))]);
                let (x, y) = (a as usize, b as usize);
                case(format!("rule 4, sons {a} and {b}"), &s, &[1, n, x, y], g, 4);
                case(format!("rule 4, sons {a} and {b}, outside"), &s, &[1, x, y], g, 4);
                case(format!("rule 4, sons {a} and {b}, of these alone"), &s, &[x, y], g, 4);
                case(format!("rule 4, son {a}"), &s, &[1, n, x], 0, 0);
                case(format!("rule 4, son {b}"), &s, &[1, n, y], 0, 0);
            }
        }
        let bounds = |lo: u16, hi: u16| e.groups_with(256, &[(g, (1, lo, hi, 0))]);
        case("rule 5".into(), &bounds(1, NO_END), &[1], g, 5);
        case("rule 5, met".into(), &bounds(1, NO_END), &[1, n], 0, 0);
        case("rule 5, one below".into(), &bounds(2, NO_END), &[1, n], g, 5);
        case("rule 6".into(), &bounds(0, 0), &[1, n], g, 6);
        case("rule 6, met".into(), &bounds(1, 1), &[1, n], 0, 0);
        case("rule 5 before 6".into(), &bounds(2, 0), &[1, n], g, 5);
        for (what, s, held, group, rule) in cases {
            let what = format!("group {g}, {what}");
            t.checked(&what, &s, &e.row(1, &held), group, rule);
            for (n, r) in [(2, 1), (65, 64), (65, 65), (2048, 1), (2048, 2047), (2048, 2048)] {
                // The other rows are in no group, since a 'same' root has sons.
                t.checked(&format!("{what}, row {r} of {n}"), &s, &e.rows(n, |k| if k == r { held.clone() } else { vec![] }), group, rule);
            }
            // The same member on two rows, the upper half of its groups on one of them.
            let (low, high): (Vec<usize>, Vec<usize>) = held.iter().partition(|&&h| h <= 128);
            t.checked(&format!("{what}, in halves"), &s, &e.one_member(&[low.clone(), high.clone()]), group, rule);
            t.checked(&format!("{what}, in halves, the upper first"), &s, &e.one_member(&[high, low]), group, rule);
        }
        // No rows at all.
        t.checked(&format!("group {g}, no rows, lo 1"), &bounds(1, NO_END), &[], g, 5);
        t.checked(&format!("group {g}, no rows, 0 to 0"), &bounds(0, 0), &[], 0, 0);
        // 2,048 members of it.
        let all = e.rows(2048, |_| vec![1, n]);
        t.checked(&format!("group {g}, 2,048 to 2,048"), &bounds(2048, 2048), &all, 0, 0);
        t.checked(&format!("group {g}, lo 2,049"), &bounds(2049, NO_END), &all, g, 5);
        t.checked(&format!("group {g}, hi 2,047"), &bounds(0, 2047), &all, g, 6);
        // Both ears of one number are two members, the same ear on two rows is one.
        let ears = |a: u16, b: u16| [e.row_of((7, a), &[1, n]), e.row_of((7, b), &[1, n])].concat();
        t.checked(&format!("group {g}, both ears, 2 to 2"), &bounds(2, 2), &ears(LEFT, RIGHT), 0, 0);
        t.checked(&format!("group {g}, one ear twice, 2 to 2"), &bounds(2, 2), &ears(LEFT, LEFT), g, 5);
        t.checked(&format!("group {g}, one ear twice, 1 to 1"), &bounds(1, 1), &ears(RIGHT, RIGHT), 0, 0);
    }
    // Several broken groups: the lowest is named.
    let s = e.star(256, 0);
    for (a, b) in [(2, 256), (128, 129), (128, 256), (129, 256), (192, 193), (255, 256), (2, 130), (64, 192)] {
        let reg = |x: usize, y: usize| e.rows(2048, |k| if k == 1 { vec![x] } else if k == 2048 { vec![y] } else { vec![1, 2 + k % 255] });
        t.checked(&format!("groups {a} and {b} break rule 1"), &s, &reg(a, b), a as u16, 1);
        t.checked(&format!("groups {b} and {a} break rule 1"), &s, &reg(b, a), a as u16, 1);
        t.checked(&format!("one member breaks rule 1 at {a} and {b}"), &s, &e.row(1, &[a, b]), a as u16, 1);
    }
}

// Sets that need the upper half.
fn upper_sets(t: &mut Table) {
    let e = SECOND;
    let all: Vec<usize> = (1..=256).collect();
    let but = |out: usize| all.iter().copied().filter(|&g| g != out).collect::<Vec<_>>();
    let upper: Vec<usize> = (129..=256).collect();
    let (plain, disjoint, cover, same) = (e.star(256, 0), e.star(256, 1), e.star(256, 2), e.star(256, 4));

    // A root and 255 sons.
    for (a, b) in [(2, 256), (2, 129), (2, 130), (64, 192), (127, 129), (128, 129), (128, 255), (128, 256), (129, 130), (129, 256), (192, 193), (255, 256)] {
        t.checked(&format!("disjoint sons {a} and {b}"), &disjoint, &e.row(1, &[1, a, b]), 1, 4);
        t.checked(&format!("disjoint sons {a} and {b}, not in the root"), &disjoint, &e.row(1, &[a, b]), 1, 4);
        t.checked(&format!("disjoint sons {a} and {b} on two rows"), &disjoint, &e.one_member(&[vec![1, a], vec![1, b]]), 1, 4);
        t.checked(&format!("disjoint sons {b} and {a} on two rows"), &disjoint, &e.one_member(&[vec![b], vec![1, a]]), 1, 4);
        t.checked(&format!("disjoint sons {a} and {b}, two members"), &disjoint, &[e.row(1, &[1, a]), e.row(2, &[1, b])].concat(), 0, 0);
        let ears = [e.row_of((9, LEFT), &[1, a]), e.row_of((9, RIGHT), &[1, b])].concat();
        t.checked(&format!("disjoint sons {a} and {b}, both ears of one number"), &disjoint, &ears, 0, 0);
    }
    for g in 2..=256 {
        t.checked(&format!("disjoint star, {g}"), &disjoint, &e.row(1, &[1, g]), 0, 0);
        t.checked(&format!("cover star, {g}"), &cover, &e.row(1, &[1, g]), 0, 0);
        t.checked(&format!("cover star, the root, then {g}"), &cover, &e.one_member(&[vec![1], vec![g]]), 0, 0);
        t.checked(&format!("{g} without the root"), &plain, &e.row(1, &[g]), g as u16, 1);
        t.checked(&format!("{g} without the root, disjoint"), &disjoint, &e.row(1, &[g]), g as u16, 1);
        t.checked(&format!("{g} without the root, cover"), &cover, &e.row(1, &[g]), g as u16, 1);
        t.checked(&format!("equal groups, all but {g}"), &same, &e.row(1, &but(g)), g as u16, 2);
    }
    t.checked("cover star, the root alone", &cover, &e.row(1, &[1]), 1, 3);
    t.checked("equal groups", &same, &e.row(1, &all), 0, 0);
    t.checked("equal groups, all but the root", &same, &e.row(1, &but(1)), 2, 1);
    t.checked("equal groups in halves", &same, &e.one_member(&[upper.clone(), (1..=128).collect()]), 0, 0);
    t.checked("equal groups, the lower half alone", &same, &e.row(1, &(1..=128).collect::<Vec<_>>()), 129, 2);
    // Members of groups above 128 alone.
    t.checked("the upper half alone", &plain, &e.row(1, &upper), 129, 1);
    t.checked("the upper half alone, disjoint", &disjoint, &e.row(1, &upper), 1, 4);
    t.checked("the upper half alone, cover", &cover, &e.row(1, &upper), 129, 1);
    t.checked("the upper half alone, equal groups", &same, &e.row(1, &upper), 129, 1);
    t.checked("the upper half and the root", &plain, &e.row(1, &[vec![1], upper.clone()].concat()), 0, 0);
    t.checked("2,048 members of the upper half", &plain, &e.rows(2048, |_| upper.clone()), 129, 1);
    t.checked("2,048 members of the root, 129 and 256", &plain, &e.rows(2048, |_| vec![1, 129, 256]), 0, 0);
    // One member in each son.
    let both = e.star(256, 3);
    let each: Bytes = (2..=256).flat_map(|g| e.row(g as u32, &[1, g])).collect();
    t.checked("disjoint cover star, a member in each son", &both, &each, 0, 0);
    t.checked("disjoint cover star, one more in the root", &both, &[e.row(1, &[1]), each.clone()].concat(), 1, 3);
    t.checked("disjoint cover star, one more in 128 and 256", &both, &[e.row(1, &[1, 128, 256]), each].concat(), 1, 4);
    t.checked("cover star, one member in each son", &cover, &e.one_member(&(2..=256).map(|g| vec![1, g]).collect::<Vec<_>>()), 0, 0);
    t.checked("disjoint star, one member in each son", &disjoint, &e.one_member(&(2..=256).map(|g| vec![1, g]).collect::<Vec<_>>()), 1, 4);

    // A chain of 256, 'disjoint' with 'cover' but for the last group.
    let chain = |last: u16| e.groups(&(1..=256).map(|g| (g - 1, 0, NO_END, if g < 256 { 3 } else { last })).collect::<Vec<_>>());
    let s = chain(0);
    for g in 1..256 {
        t.checked(&format!("chain of 256, down to {g}"), &s, &e.row(1, &(1..=g).collect::<Vec<_>>()), g as u16, 3);
        if g > 1 {
            t.checked(&format!("chain of 256, all but {g}"), &s, &e.row(1, &but(g)), g as u16 - 1, 3);
        }
    }
    t.checked("chain of 256, all but the root", &s, &e.row(1, &but(1)), 2, 1);
    t.checked("chain of 256", &s, &e.row(1, &all), 0, 0);
    t.checked("chain of 256, a row for each group", &s, &e.one_member(&all.iter().map(|&g| vec![g]).collect::<Vec<_>>()), 0, 0);
    t.checked("chain of 256, a row for each group, upward", &s, &e.one_member(&all.iter().map(|&g| vec![257 - g]).collect::<Vec<_>>()), 0, 0);
    t.checked("chain of 256, a row for each group but 129", &s, &e.one_member(&but(129).iter().map(|&g| vec![g]).collect::<Vec<_>>()), 128, 3);
    t.checked("chain of 256, the last with cover and no sons", &chain(3), &e.row(1, &all), 256, 3);
    t.checked("chain of 256, the last with disjoint and no sons", &chain(1), &e.row(1, &all), 0, 0);

    // Groups 2 and 3 are 'disjoint' with 'cover'. The sons of 2 are 128 and 256, those of 3 are 129 and 255.
    let far = e.groups_with(
        256,
        &[
            (2, (1, 0, NO_END, 3)),
            (3, (1, 0, NO_END, 3)),
            (128, (2, 0, NO_END, 0)),
            (256, (2, 0, NO_END, 0)),
            (129, (3, 0, NO_END, 0)),
            (255, (3, 0, NO_END, 0)),
        ],
    );
    for (held, group, rule) in [
        (vec![1, 2, 128], 0, 0),
        (vec![1, 2, 256], 0, 0),
        (vec![1, 2, 128, 256], 2, 4),
        (vec![1, 128, 256], 2, 4),
        (vec![1, 2], 2, 3),
        (vec![1, 2, 129], 2, 3),
        (vec![1, 2, 255], 2, 3),
        (vec![1, 2, 127, 130, 254], 2, 3),
        (vec![1, 256], 256, 1),
        (vec![1, 128], 128, 1),
        (vec![1, 3, 256], 3, 3),
        (vec![1, 3, 129], 0, 0),
        (vec![1, 3, 255], 0, 0),
        (vec![1, 3, 129, 255], 3, 4),
        (vec![1, 2, 3, 128, 129], 0, 0),
        (vec![1, 2, 3, 128, 255], 0, 0),
        (vec![1, 2, 3, 129, 256], 0, 0),
        (vec![1, 2, 3, 255, 256], 0, 0),
        (vec![1, 2, 3, 128, 129, 256], 2, 4),
        (vec![1, 2, 3, 128, 129, 255], 3, 4),
        (vec![1, 4, 127, 130, 254], 0, 0),
        (vec![1, 129, 255, 128, 256], 2, 4),
        (vec![1, 255, 256], 255, 1),
    ] {
        t.register_with(&format!("sons far away, {held:?}"), &far, &e.row(1, &held), group, rule, &[0, 7, 8, 40]);
        let (a, b): (Vec<usize>, Vec<usize>) = held.iter().partition(|&g| g % 2 == 0);
        t.checked(&format!("sons far away, {held:?} on two rows"), &far, &e.one_member(&[a, b]), group, rule);
    }
}

// Groups whose bits could be taken for one another: one group has exactly one member, all others but the root none.
fn each_alone(t: &mut Table) {
    let e = SECOND;
    for g in 2..=256u16 {
        let mut list = vec![(0, 0, NO_END, 0)];
        list.extend((2..=256).map(|h| (1, (h == g) as u16, (h == g) as u16, 0)));
        let s = e.groups(&list);
        t.checked(&format!("group {g} alone"), &s, &e.row(1, &[1, g as usize]), 0, 0);
        t.checked(&format!("group {g} alone, on two rows"), &s, &e.one_member(&[vec![1], vec![g as usize]]), 0, 0);
        t.checked(&format!("group {g} alone, nobody"), &s, &e.row(1, &[1]), g, 5);
        for off in [1, 7, 8, 9, 16, 32, 63, 64, 65, 127, 128, 129, 192] {
            for h in [g as i32 - off, g as i32 + off].into_iter().filter(|h| (2..=256).contains(h)) {
                let h = h as u16;
                // g is below lo and h above hi.
                let (group, rule) = if g < h { (g, 5) } else { (h, 6) };
                t.checked(&format!("group {g} alone, a member of {h}"), &s, &e.row(1, &[1, h as usize]), group, rule);
                t.checked(&format!("group {g} alone, a member of it and {h}"), &s, &e.row(1, &[1, g as usize, h as usize]), h, 6);
            }
        }
    }
}

// Groups at, at + 1, .. at + 4 as in 'family', on both sides of an edge.
fn families(t: &mut Table) {
    let e = SECOND;
    for at in [124, 125, 126, 127, 128, 188, 189, 190, 191, 192, 252] {
        let g = at as usize;
        for groups in [at + 4, 256] {
            let s = e.groups_with(
                groups,
                &[
                    (at, (1, 0, NO_END, 3)),
                    (at + 1, (at, 0, NO_END, 0)),
                    (at + 2, (at, 0, NO_END, 0)),
                    (at + 3, (1, 0, NO_END, 4)),
                    (at + 4, (at + 3, 0, NO_END, 0)),
                ],
            );
            let more = [
                (vec![], 0, 0),
                (vec![1], 0, 0),
                (vec![1, g, g + 1], 0, 0),
                (vec![1, g, g + 2, g + 3, g + 4], 0, 0),
                (vec![1, g, g + 3, g + 4], at, 3),
                (vec![g + 3, g + 4], at + 3, 1),
            ];
            for (held, group, rule) in more.into_iter().chain(breaking(at)) {
                let what = format!("family at {at} of {groups}, {held:?}");
                for (n, r) in [(1, 1), (64, 64), (65, 65), (129, 1), (2048, 64), (2048, 2048)] {
                    let reg = e.rows(n, |k| if k == r { held.clone() } else { fitting(g, k) });
                    t.checked(&format!("{what} at row {r} of {n}"), &s, &reg, group, rule);
                }
                for n in [2, 3, 64, 2048] {
                    // On the first and the last of n rows of one member.
                    let (a, b): (Vec<usize>, Vec<usize>) = held.iter().partition(|&h| h % 2 == 1);
                    let parts = |first: &Vec<usize>, last: &Vec<usize>| {
                        let mut parts = vec![vec![]; n];
                        (parts[0], parts[n - 1]) = (first.clone(), last.clone());
                        e.one_member(&parts)
                    };
                    t.checked(&format!("{what} on {n} rows"), &s, &parts(&a, &b), group, rule);
                    t.checked(&format!("{what} on {n} rows, the other way"), &s, &parts(&b, &a), group, rule);
                }
            }
        }
    }
}

// Chains of all groups there may be: a group has at least what any group below it needs, at most what any above it may have.
fn chains(t: &mut Table) {
    for e in EDITIONS {
        let n = e.groups;
        let many = n as usize;
        let chain = |of: &dyn Fn(u16) -> (u16, u16, u16)| -> Bytes {
            e.groups(&(1..=n).map(|g| (g - 1, of(g).0, of(g).1, of(g).2)).collect::<Vec<_>>())
        };
        // Of this mode but for the last group; one group has a lo, and one a hi.
        let bounded = |mode: u16, (low, lo): (u16, u16), (high, hi): (u16, u16)| {
            chain(&|g| (if g == low { lo } else { 0 }, if g == high { hi } else { NO_END }, if g < n { mode } else { 0 }))
        };
        let what = |how: &str| format!("a chain of {n}, {how}");
        let all = |range: [u32; 4]| vec![range; many];
        for mode in 0..8 {
            // One son: 'disjoint' says nothing, 'cover' and 'same' make it equal. The last group is of mode 0.
            let mode_of = |g: u16| if g < n { mode } else { 0 };
            t.ranges(&what(&format!("mode {mode}, free")), &chain(&|g| (0, NO_END, mode_of(g))), &all([0, NONE, 1, 0]));
            t.ranges(&what(&format!("mode {mode}, lo 7 at the last, hi 40 at the root")), &bounded(mode, (n, 7), (1, 40)), &all([7, 40, 1, 7]));
            // Bounds that rise downward: the last lo and the root's hi decide.
            t.ranges(&what(&format!("mode {mode}, rising bounds")), &chain(&|g| (g, 60_000 + g, mode_of(g))), &all([n as u32, 60_001, 1, n as u32]));
            // Bounds that fall downward: with 'cover' or 'same' the first lo and the last hi.
            let falling = chain(&|g| (1000 - 2 * g, 2000 - 3 * g, mode_of(g)));
            if mode & 6 == 0 {
                let want: Vec<[u32; 4]> = (1..=n as u32).map(|g| [1000 - 2 * g, 2000 - 3 * g, 1, 1000 - 2 * g]).collect();
                t.ranges(&what(&format!("mode {mode}, falling bounds")), &falling, &want);
            } else {
                t.ranges(&what(&format!("mode {mode}, falling bounds")), &falling, &all([998, 2000 - 3 * n as u32, 1, 998]));
            }
            // lo 10 above hi 9, one way round or the other.
            t.impossible(&what(&format!("mode {mode}, hi 9 at 64, lo 10 at the last")), &bounded(mode, (n, 10), (64, 9)));
            let other_way = bounded(mode, (64, 10), (n, 9));
            if mode & 6 == 0 {
                let want: Vec<[u32; 4]> = (1..=n).map(|g| if g <= 64 { [10, NONE, 1, 10] } else if g < n { [0, NONE, 1, 0] } else { [0, 9, 1, 0] }).collect();
                t.ranges(&what(&format!("mode {mode}, lo 10 at 64, hi 9 at the last")), &other_way, &want);
            } else {
                t.impossible(&what(&format!("mode {mode}, lo 10 at 64, hi 9 at the last")), &other_way);
            }
            t.impossible(&what(&format!("mode {mode}, lo above hi at the last")), &bounded(mode, (n, 3), (n, 2)));
        }
        // The last group is a 'cover' group without sons, and so empty.
        t.ranges(&what("the last with cover"), &chain(&|g| (0, 50, if g == n { 2 } else { 0 })), &{
            let mut want = all([0, 50, 1, 0]);
            want[many - 1] = [0, 0, 1, 0];
            want
        });
        t.ranges(&what("all with cover"), &chain(&|_| (0, NO_END, 2)), &all([0, 0, 1, 0]));
        t.impossible(&what("all with cover, lo 1 at the root"), &chain(&|g| ((g == 1) as u16, NO_END, 2)));
        t.impossible(&what("all with cover, lo 1 at the last"), &chain(&|g| ((g == n) as u16, NO_END, 2)));
    }
}

// A root and all sons there may be. No finite end exceeds 127 or 255 times 65,534.
fn stars(t: &mut Table) {
    assert_eq!(EDITIONS.map(|e| e.greatest_end), [127 * 65_534, 255 * 65_534]);
    for e in EDITIONS {
        let n = e.groups - 1;
        let most = e.greatest_end;
        let star = |root: (u16, u16, u16), son: (u16, u16)| -> Bytes {
            let mut list = vec![(0, root.0, root.1, root.2)];
            list.extend(vec![(1, son.0, son.1, 0); n as usize]);
            e.groups(&list)
        };
        let want = |root: [u32; 4], son: &dyn Fn(u32) -> [u32; 4]| -> Vec<[u32; 4]> { std::iter::once(root).chain((0..n as u32).map(son)).collect() };
        let what = |how: &str| format!("{n} sons, {how}");
        let full = (65534, 65534);
        // Side by side.
        let beside = |k: u32| [65534, 65534, 1 + 65534 * k, 65534];
        t.ranges(&what("disjoint and cover, just 65,534"), &star((0, NO_END, 3), full), &want([most, most, 1, most], &beside));
        t.ranges(&what("disjoint, just 65,534"), &star((0, NO_END, 1), full), &want([most, NONE, 1, most], &beside));
        t.ranges(&what("cover, just 65,534"), &star((0, NO_END, 2), full), &want([65534, most, 1, 65534], &|_| [65534, 65534, 1, 65534]));
        t.ranges(&what("no mode, just 65,534"), &star((0, NO_END, 0), full), &want([65534, NONE, 1, 65534], &|_| [65534, 65534, 1, 65534]));
        t.ranges(&what("same, just 65,534"), &star((0, NO_END, 4), full), &want([65534, 65534, 1, 65534], &|_| [65534, 65534, 1, 65534]));
        t.impossible(&what("same with disjoint, just 65,534"), &star((0, NO_END, 5), full));
        t.impossible(&what("disjoint, just 65,534, the root at most 65,534"), &star((0, 65534, 1), full));
        t.ranges(&what("disjoint and cover, up to 65,534"), &star((0, NO_END, 3), (0, 65534)), &want([0, most, 1, 0], &|_| [0, 65534, 1, 0]));
        t.ranges(&what("cover, up to 65,534"), &star((0, NO_END, 2), (0, 65534)), &want([0, most, 1, 0], &|_| [0, 65534, 1, 0]));
        let fewer = most - n as u32;
        t.ranges(
            &what("disjoint and cover, 65,533 to 65,534"),
            &star((0, NO_END, 3), (65533, 65534)),
            &want([fewer, most, 1, fewer], &|k| [65533, 65534, 1 + 65533 * k, 65533]),
        );
        t.ranges(&what("disjoint and cover, one member each"), &star((0, NO_END, 3), (1, 1)), &want([n as u32, n as u32, 1, n as u32], &|k| [1, 1, 1 + k, 1]));
        t.ranges(&what("same with disjoint"), &star((0, NO_END, 5), ANY), &want([0, 0, 1, 0], &|_| [0, 0, 1, 0]));
        t.ranges(&what("free"), &star((0, NO_END, 0), ANY), &want([0, NONE, 1, 0], &|_| [0, NONE, 1, 0]));
        // The root has one less than its sons could have, or one more than they need.
        t.ranges(
            &what("disjoint and cover, 0 to 9 under 65,534 at most"),
            &star((9 * n - 1, 65534, 3), (0, 9)),
            &want([9 * n as u32 - 1, 9 * n as u32, 1, 9 * n as u32 - 1], &|k| [8, 9, 1 + 9 * k, if k + 1 < n as u32 { 9 } else { 8 }]),
        );
        t.ranges(
            &what("disjoint and cover, 1 to 9 in one more than needed"),
            &star((0, n + 1, 3), (1, 9)),
            &want([n as u32, n as u32 + 1, 1, n as u32], &|k| [1, 2, 1 + k, 1]),
        );
        t.ranges(
            &what("cover, at most 2 each, as many as they could have"),
            &star((2 * n, NO_END, 2), (0, 2)),
            &want([2 * n as u32, 2 * n as u32, 1, 2 * n as u32], &|k| [2, 2, 1 + 2 * k, 2]),
        );
        t.impossible(&what("cover, at most 2 each, one more than they could have"), &star((2 * n + 1, NO_END, 2), (0, 2)));
        t.impossible(&what("disjoint, at least 2 each, one less than they need"), &star((0, 2 * n - 1, 1), (2, NO_END)));
        t.ranges(
            &what("disjoint, at least 2 each, as many as they need"),
            &star((0, 2 * n, 1), (2, NO_END)),
            &want([2 * n as u32, 2 * n as u32, 1, 2 * n as u32], &|k| [2, 2, 1 + 2 * k, 2]),
        );
        // The last son alone has bounds.
        let last = |root: (u16, u16, u16), lo: u16, hi: u16| e.groups_with(e.groups, &[(1, (0, root.0, root.1, root.2)), (e.groups, (1, lo, hi, 0))]);
        let but_last = |root: [u32; 4], son: [u32; 4], last: [u32; 4]| want(root, &|k| if k + 1 < n as u32 { son } else { last });
        t.ranges(&what("lo 5 at the last"), &last((0, 9, 0), 5, NO_END), &but_last([5, 9, 1, 5], [0, 9, 1, 0], [5, 9, 1, 5]));
        t.ranges(&what("disjoint, lo 5 at the last"), &last((0, 9, 1), 5, NO_END), &but_last([5, 9, 1, 5], [0, 4, 1, 0], [5, 9, 1, 5]));
        t.ranges(&what("same, 5 to 8 at the last"), &last((0, 9, 4), 5, 8), &but_last([5, 8, 1, 5], [5, 8, 1, 5], [5, 8, 1, 5]));
        t.impossible(&what("lo 10 at the last under hi 9"), &last((0, 9, 0), 10, NO_END));
        t.impossible(&what("same, lo 10 at the root and hi 9 at the last"), &last((10, NO_END, 4), 0, 9));
    }
}

// Bushy trees of all groups there may be.
fn bushes(t: &mut Table) {
    for e in EDITIONS {
        // The parent of g is g div 2. Group G div 2 has one son, G; the groups between them have none.
        let n = e.groups as u32;
        let leaves = n / 2;
        let is_leaf = |g: u32| g > leaves;
        // Of each group: leaves below it, or itself, and how many of them are before it. G stands where G div 2 does.
        let place = |g: u32| {
            let g = if g == n { leaves } else { g };
            let level = 1 << g.ilog2();
            (leaves / level, (g - level) * (leaves / level))
        };
        assert_eq!((place(1), place(2), place(3), place(n), place(leaves + 1)), ((leaves, 0), (leaves / 2, 0), (leaves / 2, leaves / 2), (1, 0), (1, 1)));
        let bush = |root_lo: u16, mode: u16, lo: u16, hi: u16| -> Bytes {
            let list: Vec<(u16, u16, u16, u16)> = (1..=n)
                .map(|g| {
                    let (a, b) = if is_leaf(g) { (lo, hi) } else { (if g == 1 { root_lo } else { 0 }, NO_END) };
                    (g as u16 / 2, a, b, if is_leaf(g) { 0 } else { mode })
                })
                .collect();
            e.groups(&list)
        };
        let want = |of: &dyn Fn(u32, u32, u32) -> [u32; 4]| -> Vec<[u32; 4]> { (1..=n).map(|g| of(g, place(g).0, place(g).1)).collect() };
        let what = |how: &str| format!("a bush of {n}, {how}");
        t.ranges(&what("disjoint and cover, leaves 2 to 5"), &bush(0, 3, 2, 5), &want(&|_, k, before| [2 * k, 5 * k, 1 + 2 * before, 2 * k]));
        t.ranges(&what("disjoint, leaves 2 to 5"), &bush(0, 1, 2, 5), &want(&|g, k, before| [2 * k, if is_leaf(g) { 5 } else { NONE }, 1 + 2 * before, 2 * k]));
        let full = |_: u32, k: u32, before: u32| [65534 * k, 65534 * k, 1 + 65534 * before, 65534 * k];
        t.ranges(&what("disjoint and cover, leaves of just 65,534"), &bush(0, 3, 65534, 65534), &want(&full));
        t.ranges(&what("disjoint and cover, leaves up to 65,534"), &bush(0, 3, 0, 65534), &want(&|_, k, _| [0, 65534 * k, 1, 0]));
        t.ranges(&what("no mode, leaves of 3 and more"), &bush(0, 0, 3, NO_END), &want(&|_, _, _| [3, NONE, 1, 3]));
        t.ranges(&what("same, leaves 3 to 4"), &bush(0, 4, 3, 4), &want(&|_, _, _| [3, 4, 1, 3]));
        t.ranges(&what("cover, leaves of just 3"), &bush(0, 2, 3, 3), &want(&|_, k, _| [3, 3 * k, 1, 3]));
        // One less than the leaves could have: each may lack one, and the last one does.
        let last = |k: u32, before: u32| (before + k == leaves) as u32;
        t.ranges(
            &what("disjoint and cover, leaves 2 to 5, one less than all"),
            &bush(5 * leaves as u16 - 1, 3, 2, 5),
            &want(&|_, k, before| [5 * k - 1, 5 * k, 1 + 5 * before, 5 * k - last(k, before)]),
        );
        t.impossible(&what("disjoint and cover, one more than all"), &bush(5 * leaves as u16 + 1, 3, 2, 5));
        t.impossible(&what("cover, one more than all"), &bush(5 * leaves as u16 + 1, 2, 2, 5));

        // A caterpillar: 2k and 2k + 1 are sons of 2k - 1, the last group is the only son of the one before.
        let caterpillar = |mode: u16, lo: u16, hi: u16| -> Bytes {
            e.groups(&(1..=n as u16).map(|g| if g % 2 == 1 { (g.max(2) - 2, 0, NO_END, mode) } else { (g - 1, lo, hi, 0) }).collect::<Vec<_>>())
        };
        // Leaves below g, or itself, and how many of them are before it.
        let of = |g: u32| if g % 2 == 1 { (leaves - g / 2, g / 2) } else { (1, g / 2 - 1) };
        let want = |of_group: &dyn Fn(u32, u32, u32) -> [u32; 4]| -> Vec<[u32; 4]> { (1..=n).map(|g| of_group(g, of(g).0, of(g).1)).collect() };
        let what = |how: &str| format!("a caterpillar of {n}, {how}");
        t.ranges(&what("disjoint and cover, just 1"), &caterpillar(3, 1, 1), &want(&|_, k, before| [k, k, 1 + before, k]));
        t.ranges(&what("disjoint and cover, 2 to 7"), &caterpillar(3, 2, 7), &want(&|_, k, before| [2 * k, 7 * k, 1 + 2 * before, 2 * k]));
        t.ranges(&what("disjoint, 2 and more"), &caterpillar(1, 2, NO_END), &want(&|_, k, before| [2 * k, NONE, 1 + 2 * before, 2 * k]));
        t.ranges(&what("disjoint and cover, just 65,534"), &caterpillar(3, 65534, 65534), &want(&full));
        t.ranges(&what("no mode, 3 to 4"), &caterpillar(0, 3, 4), &want(&|g, _, _| [3, if g % 2 == 1 { NONE } else { 4 }, 1, 3]));
        t.ranges(&what("same, 3 to 4"), &caterpillar(4, 3, 4), &want(&|_, _, _| [3, 4, 1, 3]));
    }
}

// Claims of all kinds on groups above 128.
fn claims(t: &mut Table) {
    let e = SECOND;
    // 255 sons of just 65,534 that share nobody and cover the root. Names: 1, 2, 128, 129, 255, 256, the empty set.
    let mut list = vec![(0, 0, NO_END, 3)];
    list.extend(vec![(1, 65534, 65534, 0); 255]);
    let names = [1, 2, 128, 129, 255, 256, 0];
    t.verdicts(
        "255 sons of just 65,534",
        &e.sheet(
            &list,
            &names,
            &[
                count(1, 0, 65534),
                count(1, 65534, NO_END),
                count(6, 65534, 65534),
                count(6, 0, 65533),
                count(7, 0, 0),
                inside(&[6], &[1]),
                inside(&[1], &[2, 3, 4, 5, 6]),
                inside(&[6], &[3, 4, 5]),
                inside(&[3, 6], &[6, 3]),
                apart(&[3], &[6]),
                apart(&[2, 3, 4], &[5, 6]),
                apart(&[1], &[6]),
                apart(&[6], &[6]),
                place(&[6], &[3]),
                place(&[1, 6], &[2, 3, 4, 5]),
                place(&[3, 6], &[7]),
                place(&[6, 7], &[3]),
                place(&[1], &[2, 3, 4, 5, 6]),
                place(&[6], &[1]),
            ],
        ),
        &[Denied, Holds, Holds, Denied, Holds, Holds, Denied, Denied, Holds, Holds, Holds, Denied, Denied, Holds, Holds, Denied, Denied, Holds, Denied],
    );
    // Only 128 and 256 may have members: they cover the root, or are its disjoint parts.
    for mode in [2, 3] {
        let mut list = vec![(0, 4, 4, mode)];
        list.extend((2..=256).map(|g| if g == 128 || g == 256 { (1, 0, 3, 0) } else { (1, 0, 0, 0) }));
        let shared = if mode == 2 { Denied } else { Holds };
        t.verdicts(
            &format!("128 and 256 alone under mode {mode}"),
            &e.sheet(
                &list,
                &[1, 128, 256, 129, 0],
                &[
                    count(2, 1, 3),
                    count(2, 1, 2),
                    count(3, 1, 3),
                    count(3, 2, 3),
                    count(4, 0, 0),
                    inside(&[1], &[2, 3]),
                    inside(&[1], &[3]),
                    inside(&[3], &[2]),
                    apart(&[2], &[3]),
                    apart(&[4], &[1]),
                    place(&[2, 3], &[5]),
                    place(&[3], &[2]),
                    place(&[1], &[2, 3]),
                    place(&[4], &[5]),
                ],
            ),
            &[
                Holds, Denied, Holds, Denied, Holds, Holds, Denied, Denied, shared, Holds,
                if mode == 2 { Holds } else { Denied }, Holds, Denied, Denied,
            ],
        );
    }
    // A cover root of 5 or 4 over 255, of at most 3, and 256, of at most 2: document 01's worked sheets, all else empty.
    for (lo, apart_holds) in [(5, Holds), (4, Denied)] {
        let mut list = vec![(0, lo, NO_END, 2)];
        list.extend((2..=256).map(|g| (1, 0, if g == 255 { 3 } else if g == 256 { 2 } else { 0 }, 0)));
        let place_holds = if lo == 5 { Denied } else { Holds };
        t.verdicts(
            &format!("cover sons 255 and 256 with hi 3 and 2, root lo {lo}"),
            &e.sheet(
                &list,
                &[1, 255, 256, 0],
                &[
                    apart(&[2], &[3]),
                    place(&[2, 3], &[4]),
                    inside(&[1], &[2, 3]),
                    inside(&[1], &[2]),
                    count(2, lo - 2, 3),
                    count(3, lo - 3, 2),
                    count(2, lo - 1, 3),
                    count(3, lo - 2, 2),
                ],
            ),
            &[apart_holds, place_holds, Holds, Denied, Holds, Holds, Denied, Denied],
        );
    }
    // A chain of 256; with the last group as large as the root all are equal.
    let chain = |last: u16| {
        let mut list = vec![(0, 3, 3, 0)];
        list.extend((1..256).map(|g| (g, if g == 255 { last } else { 0 }, NO_END, 0)));
        e.sheet(
            &list,
            &[1, 128, 129, 256, 0],
            &[
                inside(&[1], &[4]),
                inside(&[4], &[3]),
                inside(&[3], &[4]),
                inside(&[2], &[3]),
                apart(&[2], &[4]),
                count(4, 3, 3),
                count(3, 2, 3),
                place(&[1, 2, 3, 4], &[5]),
                place(&[3], &[4]),
                place(&[2], &[3]),
                place(&[4], &[3]),
                place(&[4], &[1]),
            ],
        )
    };
    t.verdicts("a chain of 256", &chain(2), &[Denied, Holds, Denied, Denied, Denied, Denied, Holds, Holds, Holds, Holds, Denied, Denied]);
    t.verdicts("a chain of 256 equal groups", &chain(3), &[Holds, Holds, Holds, Holds, Denied, Holds, Holds, Holds, Denied, Denied, Denied, Denied]);
    // A root of 2 covered by 254, 255 and 256, of at most one each: any two can share a member, all three can't.
    let mut list = vec![(0, 2, 2, 2)];
    list.extend((2..=256).map(|g| (1, 0, (g >= 254) as u16, 0)));
    t.verdicts(
        "a cover root of 2 to 2 over 254, 255 and 256",
        &e.sheet(
            &list,
            &[1, 254, 255, 256, 0],
            &[
                place(&[2, 3], &[5]),
                place(&[2, 4], &[5]),
                place(&[3, 4], &[5]),
                place(&[2, 3, 4], &[5]),
                apart(&[2], &[4]),
                inside(&[1], &[2, 3, 4]),
                inside(&[1], &[3, 4]),
                count(4, 1, 1),
            ],
        ),
        &[Holds, Holds, Holds, Denied, Denied, Holds, Denied, Denied],
    );
    // Eight names a list, all above 128; the last left group is empty, or the last right group is the root's.
    let eight = |last_left: (u16, u16), last_right: (u16, u16)| {
        let list = listed_groups(256, &[(1, (0, 3, 3, 0)), (248, (1, last_left.0, last_left.1, 0)), (256, (1, last_right.0, last_right.1, 0))]);
        let names: Vec<u16> = (241..=256).collect();
        let (left, right) = ([1, 2, 3, 4, 5, 6, 7, 8], [9, 10, 11, 12, 13, 14, 15, 16]);
        let without_last = place(&[1, 2, 3, 4, 5, 6, 7, 7], &[9, 10, 11, 12, 13, 14, 15, 15]);
        e.sheet(&list, &names, &[place(&left, &right), place(&right, &left), inside(&left, &right), apart(&left, &right), without_last])
    };
    t.verdicts("8 names a list above 128", &eight(ANY, ANY), &[Holds, Holds, Denied, Denied, Holds]);
    t.verdicts("8 names a list above 128, 248 empty", &eight((0, 0), ANY), &[Denied, Holds, Denied, Denied, Holds]);
    t.verdicts("8 names a list above 128, 256 the root's", &eight(ANY, (3, 3)), &[Denied, Holds, Holds, Denied, Holds]);
    // Names of the same group, and groups 128 apart that are not the same.
    for g in [2, 64, 127, 128] {
        t.verdicts(
            &format!("groups {g} and {}", g + 128),
            &e.sheet(
                &listed_groups(256, &[(1, (0, 0, 9, 1)), (g, (1, 2, 3, 0)), (g + 128, (1, 4, 5, 0))]),
                &[g, g + 128, g, g + 128, 0],
                &[
                    count(1, 2, 3),
                    count(2, 4, 5),
                    count(1, 3, 3),
                    count(2, 4, 4),
                    inside(&[1], &[3]),
                    inside(&[2], &[4]),
                    inside(&[1], &[2]),
                    apart(&[1], &[4]),
                    apart(&[2], &[4]),
                    place(&[2, 4], &[1]),
                    place(&[1, 2], &[5]),
                    place(&[2], &[4]),
                ],
            ),
            &[Holds, Holds, Denied, Denied, Holds, Holds, Denied, Holds, Denied, Holds, Denied, Denied],
        );
    }
    // 8 and 9.
    let impossible = e.sheet(&listed_groups(256, &[(256, (255, 3, 2, 0))]), &[256], &[count(1, 0, NO_END)]);
    t.impossible("lo above hi at group 256", &impossible);
    let larger = listed_groups(256, &[(129, (1, 0, 4, 0)), (256, (129, 5, 9, 0))]);
    t.impossible("a son 256 of 129 that is larger than it", &e.sheet(&larger, &[256], &[place(&[1], &[1])]));
    let one = e.sheet(&listed_groups(256, &[]), &[256], &[count(1, 0, NO_END)]);
    t.no_claim("one claim on group 256", &one, &[0, 2, 3, 64, 65, 256, 257, 65537, NONE]);
}
