// Ranges and the arrangement, sheets that are impossible, and ranges as bounds.
use crate::limits::*;
use crate::records::*;
use crate::table::*;

pub fn all(t: &mut Table) {
    ranges(t);
    planners(t);
}

fn ranges(t: &mut Table) {
    // The printed case.
    t.ranges(
        "printed case",
        &printed(),
        &[[10, 11, 1, 10], [4, 5, 1, 5], [5, 6, 6, 5], [3, 5, 1, 3]],
    );
    // Worked sheets.
    t.impossible("disjoint root hi 3, sons with lo 2 and 2", &groups(&[(0, 0, 3, 1), (1, 2, NO_END, 0), (1, 2, NO_END, 0)]));
    t.ranges(
        "disjoint root hi 4, sons with lo 2 and 2",
        &groups(&[(0, 0, 4, 1), (1, 2, NO_END, 0), (1, 2, NO_END, 0)]),
        &[[4, 4, 1, 4], [2, 2, 1, 2], [2, 2, 3, 2]],
    );
    t.ranges("cover leaf, lo 0", &groups(&[(0, 0, 7, 2)]), &[[0, 0, 1, 0]]);
    t.ranges("cover leaf, no upper end", &groups(&[(0, 0, NO_END, 2)]), &[[0, 0, 1, 0]]);
    t.impossible("cover leaf, lo 1", &groups(&[(0, 1, 7, 2)]));
    for mode in [5, 7] {
        t.ranges(
            "same with disjoint, two sons",
            &groups(&[(0, 0, 7, mode), (1, 0, 7, 0), (1, 0, NO_END, 0)]),
            &[[0, 0, 1, 0], [0, 0, 1, 0], [0, 0, 1, 0]],
        );
        t.impossible("same with disjoint, two sons, one with lo 1", &groups(&[(0, 0, 7, mode), (1, 0, 7, 0), (1, 1, 7, 0)]));
        t.ranges(
            "same with disjoint, one son: merely equal",
            &groups(&[(0, 2, 7, mode), (1, 3, 9, 0)]),
            &[[3, 7, 1, 3], [3, 7, 1, 3]],
        );
    }
    for mode in [4, 6] {
        t.ranges(
            "same, two sons",
            &groups(&[(0, 0, 7, mode), (1, 2, NO_END, 0), (1, 0, 6, 0)]),
            &[[2, 6, 1, 2], [2, 6, 1, 2], [2, 6, 1, 2]],
        );
    }
    for mode in [4, 5] {
        t.ranges("same without sons", &groups(&[(0, 2, 7, mode)]), &[[2, 7, 1, 2]]);
    }
    for mode in [6, 7] {
        t.ranges("same and cover without sons", &groups(&[(0, 0, 7, mode)]), &[[0, 0, 1, 0]]);
    }
    t.ranges(
        "root 5 to 5, A 0 to 5, B 5 to 5",
        &groups(&[(0, 5, 5, 0), (1, 0, 5, 0), (1, 5, 5, 0)]),
        &[[5, 5, 1, 5], [0, 5, 1, 0], [5, 5, 1, 5]],
    );
    t.ranges(
        "cover sons with hi 3 and 2, root lo 5",
        &groups(&[(0, 5, NO_END, 2), (1, 0, 3, 0), (1, 0, 2, 0)]),
        &[[5, 5, 1, 5], [3, 3, 1, 3], [2, 2, 4, 2]],
    );
    t.ranges(
        "cover sons with hi 3 and 2, root lo 4",
        &groups(&[(0, 4, NO_END, 2), (1, 0, 3, 0), (1, 0, 2, 0)]),
        &[[4, 5, 1, 4], [2, 3, 1, 3], [1, 2, 3, 2]],
    );
    t.impossible("cover sons with hi 3 and 2, root lo 6", &groups(&[(0, 6, NO_END, 2), (1, 0, 3, 0), (1, 0, 2, 0)]));
    t.ranges("no upper end", &groups(&[(0, 0, NO_END, 0)]), &[[0, NONE, 1, 0]]);
    t.ranges("65,534 upward", &groups(&[(0, 65534, NO_END, 0)]), &[[65534, NONE, 1, 65534]]);
    t.ranges("0 to 65,534", &groups(&[(0, 0, 65534, 0)]), &[[0, 65534, 1, 0]]);
    // Traps.
    t.ranges(
        "trap: sons of a cover-only root are not capped",
        &groups(&[(0, 5, 5, 2), (1, 3, 5, 0), (1, 3, 5, 0)]),
        &[[5, 5, 1, 5], [3, 5, 1, 5], [3, 5, 1, 5]],
    );
    t.ranges(
        "trap: disjoint without cover raises no least",
        &groups(&[(0, 5, 5, 1), (1, 0, 3, 0), (1, 0, 1, 0)]),
        &[[5, 5, 1, 5], [0, 3, 1, 0], [0, 1, 1, 0]],
    );
    t.ranges(
        "cover alone raises a least, disjoint alone lowers a greatest",
        &groups(&[(0, 6, 6, 0), (1, 6, 6, 2), (2, 0, 4, 0), (2, 0, 5, 0), (1, 6, 6, 1), (5, 1, 9, 0), (5, 2, 9, 0)]),
        &[[6, 6, 1, 6], [6, 6, 1, 6], [1, 4, 1, 4], [2, 5, 2, 5], [6, 6, 1, 6], [1, 4, 1, 1], [2, 5, 2, 2]],
    );
    t.ranges(
        "a parent narrows two levels down",
        &groups(&[(0, 0, 4, 0), (1, 0, NO_END, 0), (2, 0, NO_END, 0)]),
        &[[0, 4, 1, 0], [0, 4, 1, 0], [0, 4, 1, 0]],
    );
    t.ranges(
        "disjoint with cover: least, greatest and what is left",
        &groups(&[(0, 7, 7, 3), (1, 1, 4, 0), (1, 1, 4, 0), (1, 1, NO_END, 0)]),
        &[[7, 7, 1, 7], [1, 4, 1, 4], [1, 4, 5, 2], [1, 5, 7, 1]],
    );
    t.ranges(
        "disjoint: sons side by side, an empty one between",
        &groups(&[(0, 0, 9, 1), (1, 2, 9, 0), (1, 0, 9, 0), (1, 3, 9, 0)]),
        &[[5, 9, 1, 5], [2, 6, 1, 2], [0, 4, 3, 0], [3, 7, 3, 3]],
    );
    // lo above hi, anywhere.
    t.impossible("lo above hi at the root", &groups(&[(0, 5, 4, 0)]));
    t.impossible("lo above hi in the middle", &groups(&[(0, 0, 9, 0), (1, 5, 4, 0), (1, 0, 9, 0)]));
    t.impossible("lo above hi at the last of a chain", &groups(&[(0, 0, 9, 0), (1, 0, 9, 0), (2, 65534, 0, 0)]));
    t.impossible("a son's lo above the root's hi", &groups(&[(0, 0, 3, 0), (1, 0, 9, 0), (2, 4, 9, 0)]));

    // 127 sons of 65,534.
    let wide = |mode: u16, lo: u16, son_lo: u16| {
        let mut list = vec![(0, lo, NO_END, mode)];
        list.extend([(1, son_lo, 65534, 0); 127]);
        groups(&list)
    };
    let mut want = vec![[0, 8_322_818, 1, 0]];
    want.extend([[0, 65534, 1, 0]; 127]);
    t.ranges("127 sons of 65,534 under cover", &wide(2, 0, 0), &want);
    let mut want = vec![[65534, 8_322_818, 1, 65534]];
    want.extend([[65534, 65534, 1, 65534]; 127]);
    t.ranges("127 sons of just 65,534 under cover", &wide(2, 0, 65534), &want);
    let mut want = vec![[8_322_818, 8_322_818, 1, 8_322_818]];
    for k in 0..127 {
        want.push([65534, 65534, 1 + 65534 * k, 65534]);
    }
    t.ranges("127 sons of just 65,534 under disjoint and cover", &wide(3, 0, 65534), &want);
    let mut want = vec![[8_322_818, NONE, 1, 8_322_818]];
    for k in 0..127 {
        want.push([65534, 65534, 1 + 65534 * k, 65534]);
    }
    t.ranges("127 sons of just 65,534 under disjoint", &wide(1, 0, 65534), &want);
    // A chain of 128: the last group's lo goes up to the root, the root's hi down.
    let mut list = vec![(0, 0, 40, 0)];
    for g in 1..128u16 {
        list.push((g, if g == 127 { 7 } else { 0 }, NO_END, if g % 2 == 0 { 4 } else { 0 }));
    }
    t.ranges("a chain of 128", &groups(&list), &[[7, 40, 1, 7]; 128]);
}

// Document 02, card 13, by hand: sheets with their ranges as bounds, and the same with one bound off by one.
fn planners(t: &mut Table) {
    let printed = [[10, 11, 1, 10], [4, 5, 1, 5], [5, 6, 6, 5], [3, 5, 1, 3]];
    t.ranges("planners, the printed case", &groups(&[(0, 10, 11, 3), (1, 4, 5, 0), (1, 5, 6, 0), (2, 3, 5, 0)]), &printed);
    t.ranges(
        "planners, LEFT's lo one higher",
        &groups(&[(0, 10, 11, 3), (1, 5, 5, 0), (1, 5, 6, 0), (2, 3, 5, 0)]),
        &[[10, 11, 1, 10], [5, 5, 1, 5], [5, 6, 6, 5], [3, 5, 1, 3]],
    );
    t.ranges(
        "planners, RIGHT's hi one lower",
        &groups(&[(0, 10, 11, 3), (1, 4, 5, 0), (1, 5, 5, 0), (2, 3, 5, 0)]),
        &[[10, 10, 1, 10], [5, 5, 1, 5], [5, 5, 6, 5], [3, 5, 1, 3]],
    );
    t.ranges(
        "planners, the root's lo one lower",
        &groups(&[(0, 9, 11, 3), (1, 4, 5, 0), (1, 5, 6, 0), (2, 3, 5, 0)]),
        &[[9, 11, 1, 9], [4, 5, 1, 4], [5, 6, 5, 5], [3, 5, 1, 3]],
    );
    t.impossible("planners, the root's lo above what its sons can have", &groups(&[(0, 12, 12, 3), (1, 4, 5, 0), (1, 5, 6, 0), (2, 3, 5, 0)]));
    // The ranges of "cover sons with hi 3 and 2, root lo 4" as bounds.
    t.ranges(
        "planners, cover with hi 3 and 2 under lo 4",
        &groups(&[(0, 4, 5, 2), (1, 2, 3, 0), (1, 1, 2, 0)]),
        &[[4, 5, 1, 4], [2, 3, 1, 3], [1, 2, 3, 2]],
    );
    t.ranges("planners, no greatest", &groups(&[(0, 2, NO_END, 0), (1, 2, NO_END, 0)]), &[[2, NONE, 1, 2], [2, NONE, 1, 2]]);
    // An end of 65,535 has no field: the sheet with the nearest bound, 65,534, has other ranges.
    t.ranges(
        "planners, an end of 65,535",
        &groups(&[(0, 0, NO_END, 3), (1, 0, 65534, 0), (1, 1, 1, 0)]),
        &[[1, 65535, 1, 1], [0, 65534, 1, 0], [1, 1, 1, 1]],
    );
    t.ranges(
        "planners, 65,534 in its place",
        &groups(&[(0, 1, 65534, 3), (1, 0, 65534, 0), (1, 1, 1, 0)]),
        &[[1, 65534, 1, 1], [0, 65533, 1, 0], [1, 1, 1, 1]],
    );
}
