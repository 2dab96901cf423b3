// Registers: refusals 10 to 13 at the first, a middle and the last row, the rules, and which groups are a group's sons.
use crate::limits::*;
use crate::records::*;
use crate::rows::*;
use crate::table::*;

pub fn all(t: &mut Table) {
    registers(t);
    sons(t);
}

fn registers(t: &mut Table) {
    let s = base().concat();
    let rows = |n: u32| -> Bytes { (1..=n).flat_map(|m| row(m, &[])).collect() };
    let join = |parts: &[Bytes]| parts.concat();

    // 10.
    t.register("2,048 rows", &s, &rows(2048), 0, 0);
    t.register_refused("2,049 rows", &s, &rows(2049), 10, 2049);
    t.register_refused("2,050 rows", &s, &rows(2050), 10, 2049);
    t.register_refused("10+11: a byte after 2,048 rows", &s, &join(&[rows(2048), vec![1]]), 10, 2049);
    t.register_refused("10+11: a wrong row after 2,048", &s, &join(&[rows(2048), vec![0; ROW]]), 10, 2049);
    t.register_refused("11 before 10", &s, &join(&[rows(1000), vec![0; ROW], rows(1500)]), 11, 1001);
    t.register_refused("11 at row 2,048", &s, &join(&[rows(2047), vec![24, 0, 33]]), 11, 2048);
    t.register_refused("12 at row 2,048", &s, &join(&[rows(2047), row(2046, &[])]), 12, 2048);
    t.register_refused("13 at row 2,048", &s, &join(&[rows(2047), row(2048, &[4])]), 13, 2048);

    // 11: first, middle, last.
    for (length, kind) in WRONG_FRAMES {
        let b = reframed(&row(2, &[]), length, kind);
        let what = format!("length {length} and kind {kind}");
        t.register_refused(&format!("first row: {what}"), &s, &join(&[b.clone(), row(3, &[])]), 11, 1);
        t.register_refused(&format!("middle row: {what}"), &s, &join(&[row(1, &[]), b.clone(), row(3, &[])]), 11, 2);
        t.register_refused(&format!("last row: {what}"), &s, &join(&[row(1, &[]), b]), 11, 2);
    }
    t.every("length", &s, |length| reframed(&row(9, &[]), length, 33), &[24], 11);
    t.every("kind", &s, |kind| reframed(&row(9, &[]), 24, kind), &[33], 11);
    for keep in 1..ROW {
        let piece = row(9, &[])[..keep].to_vec();
        t.register_refused(&format!("only row: {keep} bytes"), &s, &piece, 11, 1);
        t.register_refused(&format!("last row: {keep} bytes"), &s, &join(&[rows(5), piece]), 11, 6);
    }

    // 12.
    t.register_refused("first member 0", &s, &row(0, &[]), 12, 1);
    t.register_refused("middle member falls", &s, &join(&[row(5, &[]), row(4, &[]), row(6, &[])]), 12, 2);
    t.register_refused("last member falls", &s, &join(&[row(5, &[]), row(6, &[]), row(3, &[])]), 12, 3);
    t.register_refused("last member 0", &s, &join(&[row(5, &[]), row(0, &[])]), 12, 2);
    let numbers = |list: &[u32]| -> Bytes { list.iter().flat_map(|&n| row_of((n, LEFT), &[])).collect() };
    t.register_refused("after the greatest", &s, &numbers(&[NONE, NONE - 1]), 12, 2);
    t.register_refused("1 after the greatest", &s, &numbers(&[NONE, 1]), 12, 2);
    t.register_refused("256 after 511", &s, &numbers(&[511, 256]), 12, 2);
    t.register("numbers 255, 256, 65536, greatest", &s, &numbers(&[255, 256, 65536, NONE]), 0, 0);

    // 13.
    t.register_refused("bit 4 in the first row", &s, &join(&[row(1, &[4]), row(2, &[])]), 13, 1);
    t.register_refused("bit 9 in the middle", &s, &join(&[row(1, &[]), row(2, &[1, 9]), row(3, &[])]), 13, 2);
    t.register_refused("bit 128 in the last", &s, &join(&[row(1, &[1, 3]), row(2, &[128])]), 13, 2);
    t.register_refused("bit 65 above 64 groups", &star(64, 0), &row(1, &[1, 65]), 13, 1);
    t.register("bit 64 of 64", &star(64, 0), &row(1, &[1, 64]), 0, 0);
    t.register("bit 65 of 65", &star(65, 0), &row(1, &[1, 65]), 0, 0);
    t.register("bit 128 of 128", &star(128, 0), &row(1, &[1, 128]), 0, 0);

    // Two at once.
    t.register_refused("11+12", &s, &reframed(&row(0, &[]), 24, 32), 11, 1);
    t.register_refused("11+12 last", &s, &join(&[row(7, &[]), reframed(&row(6, &[]), 23, 33)]), 11, 2);
    t.register_refused("12+13", &s, &row(0, &[4]), 12, 1);
    t.register_refused("12+13 last", &s, &join(&[row(7, &[]), row(6, &[100])]), 12, 2);
    t.register_refused("13+14", &s, &row(1, &[4]), 13, 1);
    t.register_refused("13 before 11", &s, &join(&[row(1, &[4]), vec![0; ROW]]), 13, 1);
    t.register_refused("12 before 11", &s, &join(&[row(0, &[]), vec![0; 3]]), 12, 1);
    t.register_refused("13 before 12", &s, &join(&[row(5, &[4]), row(4, &[])]), 13, 1);
    // A refusal in the sheet and one in the register.
    t.register_refused("1 and 11", &cut(10, 5), &[0], 1, 10);
    t.register_refused("2 and 12", &with(10, name(1, "Z")), &row(0, &[]), 2, 10);
    t.register_refused("5 and 13", &with(4, group(3, 0, 9, 0)), &row(1, &[128]), 5, 4);
    t.register_refused("7 and 10", &join(&[s.clone(), vec![0]]), &rows(2049), 7, 11);
    // All rows are read before a rule is named.
    t.register_refused("a broken rule, then a bad row", &s, &join(&[row(1, &[2]), vec![0; ROW]]), 11, 2);

    // Rules. Groups: 1 root 0 to 3; 2 (parent 1, 'same', 0 up); 3 and 4 (parent 2); 5 (parent 1,
    // 'disjoint' and 'cover', 0 to 2); 6 and 7 (parent 5, 6 with lo 1).
    let rules = |lo6: u16| {
        groups(&[
            (0, 0, 3, 0),
            (1, 0, NO_END, 4),
            (2, 0, NO_END, 0),
            (2, 0, NO_END, 0),
            (1, 0, 2, 3),
            (5, lo6, NO_END, 0),
            (5, 0, NO_END, 0),
        ])
    };
    let z = rules(0);
    t.register("no rows, lo 1 at group 6", &rules(1), &[], 6, 5);
    t.register("no rows", &z, &[], 0, 0);
    t.register("rows in no group", &z, &rows(9), 0, 0);
    t.register("fits", &z, &join(&[row(1, &[1, 2, 3, 4]), row(2, &[1, 5, 6]), row(4, &[1, 5, 7])]), 0, 0);
    t.register("rule 1 at group 2", &z, &row(1, &[2, 3, 4]), 2, 1);
    t.register("rule 1 at the last group", &z, &join(&[row(1, &[1]), row(2, &[1, 7])]), 7, 1);
    t.register("rule 2 at the first son", &z, &row(1, &[1, 2, 4]), 3, 2);
    t.register("rule 2 at the second son", &z, &row(1, &[1, 2, 3]), 4, 2);
    t.register("rule 1 before rule 2", &z, &join(&[row(1, &[1, 2, 4]), row(2, &[1, 3])]), 3, 1);
    t.register("rule 3", &z, &row(1, &[1, 5]), 5, 3);
    t.register("rule 4", &z, &row(1, &[1, 5, 6, 7]), 5, 4);
    t.register("rule 3 before rule 4", &z, &join(&[row(1, &[1, 5, 6, 7]), row(2, &[1, 5])]), 5, 3);
    t.register("rule 4 of a member outside the group", &z, &row(1, &[1, 6, 7]), 5, 4);
    t.register("rule 1 where only one son has it", &z, &row(1, &[1, 6]), 6, 1);
    t.register("rule 6 at the root", &z, &join(&[row(1, &[1]), row(2, &[1]), row(3, &[1]), row(4, &[1])]), 1, 6);
    t.register("the root's hi is met", &z, &join(&[row(1, &[1]), row(2, &[1]), row(3, &[1]), row(4, &[])]), 0, 0);
    let five = join(&[row(1, &[1, 5, 6]), row(2, &[1, 5, 6]), row(3, &[1, 5, 7])]);
    t.register("rule 6 at group 5", &z, &five, 5, 6);
    t.register("the lower group first", &z, &join(&[row(1, &[1, 5, 6, 7]), row(2, &[2])]), 2, 1);
    t.register("rule 5 before rule 6", &groups(&[(0, 3, 2, 0)]), &[], 1, 5);
    t.register("an impossible sheet is checked", &groups(&[(0, 3, 2, 0)]), &rows(2), 1, 5);
    let three = join(&[row(1, &[1]), row(2, &[1]), row(3, &[1])]);
    t.register("an impossible sheet, rule 6", &groups(&[(0, 3, 2, 0)]), &three, 1, 6);
    t.register("a leaf with cover", &groups(&[(0, 0, 9, 2)]), &row(1, &[1]), 1, 3);
    t.register("a leaf with 'same' and 'disjoint'", &groups(&[(0, 0, 9, 5)]), &row(1, &[1]), 0, 0);
    t.register("no upper end", &groups(&[(0, 0, NO_END, 0)]), &(1..=2048).flat_map(|m| row(m, &[1])).collect::<Bytes>(), 0, 0);
    t.register("hi 2,047 and 2,048 members", &groups(&[(0, 0, 2047, 0)]), &(1..=2048).flat_map(|m| row(m, &[1])).collect::<Bytes>(), 1, 6);
    t.register("lo 2,048 and as many members", &groups(&[(0, 2048, 2048, 0)]), &(1..=2048).flat_map(|m| row(m, &[1])).collect::<Bytes>(), 0, 0);
    t.register("lo 65,534", &groups(&[(0, 65534, 65534, 0)]), &three, 1, 5);
}

// Document 02, card 3, by hand: which groups rules 3 and 4 take for a group's sons.
fn sons(t: &mut Table) {
    // Three sons.
    let three = star(4, 1);
    for (held, group, rule) in [
        (vec![1, 2, 4], 1, 4),
        (vec![1, 2, 3], 1, 4),
        (vec![1, 3, 4], 1, 4),
        (vec![1, 2, 3, 4], 1, 4),
        (vec![1, 2], 0, 0),
        (vec![1, 3], 0, 0),
        (vec![1, 4], 0, 0),
    ] {
        t.register(&format!("three disjoint sons, {held:?}"), &three, &row(1, &held), group, rule);
    }
    t.register("three disjoint sons, a member in the first, one in the last", &three, &[row(1, &[1, 2]), row(2, &[1, 4])].concat(), 0, 0);

    // Two families with every other number: 4 and 6 are sons of 2, 5 and 7 of 3.
    let families = |mode: u16| free(&[(0, 0), (1, mode), (1, mode), (2, 0), (3, 0), (2, 0), (3, 0)]);
    for (mode, held, group, rule) in [
        (1, vec![1, 2, 4, 6], 2, 4),
        (1, vec![1, 3, 5, 7], 3, 4),
        (1, vec![1, 2, 3, 4, 5, 6], 2, 4),
        (1, vec![1, 2, 3, 4, 5, 7], 3, 4),
        (1, vec![1, 2, 3, 4, 5], 0, 0),
        (1, vec![1, 2, 3, 5, 6], 0, 0),
        (1, vec![1, 2, 3, 6, 7], 0, 0),
        (1, vec![1, 2, 3, 4, 7], 0, 0),
        (1, vec![1, 2, 3], 0, 0),
        (2, vec![1, 2, 3, 5], 2, 3),
        (2, vec![1, 2, 3, 5, 7], 2, 3),
        (2, vec![1, 2, 3, 4], 3, 3),
        (2, vec![1, 2, 3, 4, 6], 3, 3),
        (2, vec![1, 2, 3, 4, 5], 0, 0),
        (2, vec![1, 2, 3, 6, 7], 0, 0),
        (2, vec![1, 2, 3, 4, 5, 6, 7], 0, 0),
        (2, vec![1, 2, 4], 0, 0),
        (2, vec![1, 3, 7], 0, 0),
        (2, vec![1], 0, 0),
    ] {
        t.register(&format!("two families of mode {mode}, {held:?}"), &families(mode), &row(1, &held), group, rule);
    }
    let both = [row(1, &[1, 3, 5, 7]), row(2, &[1, 2, 4, 6])].concat();
    t.register("two families, the lower group in the later row", &families(1), &both, 2, 4);

    // 127 sons.
    let each: Bytes = (2..=128).flat_map(|g| row(g as u32, &[1, g])).collect();
    for (a, b) in [(2, 3), (2, 128), (63, 64), (64, 65), (64, 128), (65, 66), (2, 65), (127, 128)] {
        t.register(&format!("disjoint star, {a} and {b}"), &star(128, 1), &row(1, &[1, a, b]), 1, 4);
    }
    for g in [2, 63, 64, 65, 66, 127, 128] {
        t.register(&format!("disjoint star, {g}"), &star(128, 1), &row(1, &[1, g]), 0, 0);
        t.register(&format!("cover star, {g}"), &star(128, 2), &row(1, &[1, g]), 0, 0);
    }
    t.register("disjoint star, the root alone", &star(128, 1), &row(1, &[1]), 0, 0);
    t.register("cover star, the root alone", &star(128, 2), &row(1, &[1]), 1, 3);
    t.register("disjoint star, a member in each son", &star(128, 1), &each, 0, 0);
    t.register("cover star, a member in each son", &star(128, 2), &each, 0, 0);
    t.register("cover star, a member in each son and one in the root", &star(128, 2), &[row(1, &[1]), each].concat(), 1, 3);

    // A chain of 128, 'disjoint' with 'cover' but for the last group.
    let chain = |last: u16| free(&(1..=128).map(|g| (g - 1, if g < 128 { 3 } else { last })).collect::<Vec<_>>());
    let down = |to: usize| row(1, &(1..=to).collect::<Vec<_>>());
    for g in [1, 2, 63, 64, 65, 126, 127] {
        t.register(&format!("chain, down to {g}"), &chain(0), &down(g), g as u16, 3);
    }
    t.register("chain, all but 127", &chain(0), &row(1, &(1..=128).filter(|&g| g != 127).collect::<Vec<_>>()), 126, 3);
    t.register("chain, down to the last", &chain(0), &down(128), 0, 0);
    t.register("chain, the last with cover and no sons", &chain(3), &down(128), 128, 3);
    t.register("chain, the last with disjoint and no sons", &chain(1), &down(128), 0, 0);

    // Groups 2 and 3 are 'disjoint' with 'cover'. The sons of 2 are the last two groups, those of 3 all other even
    // numbers from 4; 5, 7 and so on to 125 are the root's.
    let last = free(
        &(1..=128)
            .map(|g| match g {
                1 => (0, 0),
                2 | 3 => (1, 3),
                127 | 128 => (2, 0),
                _ => (if g % 2 == 0 { 3 } else { 1 }, 0),
            })
            .collect::<Vec<_>>(),
    );
    for (held, group, rule) in [
        (vec![1, 2, 127], 0, 0),
        (vec![1, 2, 128], 0, 0),
        (vec![1, 2, 127, 128], 2, 4),
        (vec![1, 2], 2, 3),
        (vec![1, 2, 125], 2, 3),
        (vec![1, 2, 3, 126], 2, 3),
        (vec![1, 2, 3, 128], 3, 3),
        (vec![1, 2, 3, 125, 127], 3, 3),
        (vec![1, 2, 3, 4, 127], 0, 0),
        (vec![1, 2, 3, 126, 128], 0, 0),
        (vec![1, 2, 3, 4, 126, 128], 3, 4),
        (vec![1, 2, 3, 64, 66, 127], 3, 4),
        (vec![1, 2, 3, 4, 6, 127, 128], 2, 4),
        (vec![1, 3, 4, 5, 7], 0, 0),
        (vec![1, 3, 64, 65, 125], 0, 0),
        (vec![1, 5, 125], 0, 0),
    ] {
        t.register(&format!("the last two groups, {held:?}"), &last, &row(1, &held), group, rule);
    }
}
