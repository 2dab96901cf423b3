// Claims of kind 7 (document 02, card 1): a member in every left set and in no right set.
use crate::limits::*;
use crate::records::*;
use crate::table::*;

pub fn all(t: &mut Table) {
    // Reading: kind 7 passes 2, and 3 to 5 treat it as kind 5.
    t.register("a place as first claim", &with(8, place(&[1], &[2])), &[], 0, 0);
    t.register("a place as last claim, 8 and 8 names", &with(10, place(&[1; 8], &[2; 8])), &[], 0, 0);
    t.sheet("kind 8 first of the claims", &with(8, lists(8, &[1], &[2])), 2, 8);
    t.sheet("kind 263", &with(9, lists(263, &[1], &[2])), 2, 9);
    t.sheet("2+3, kind 8", &with(10, record(8, &words(&[1, 1, 1]))), 2, 10);
    t.sheet("a place among the names", &with(5, place(&[1], &[2])), 2, 5);
    t.sheet("place of length 2", &with(8, record(7, &[])), 3, 8);
    t.sheet("place of length 8", &with(8, record(7, &words(&[1, 1, 1]))), 3, 8);
    t.sheet("place of odd length", &with(9, record(7, &[1, 0, 1, 0, 1, 0, 1, 0, 0])), 3, 9);
    t.sheet("place of length 40", &with(10, record(7, &words(&[8, 9, 1, 1, 1, 1, 1, 1, 1, 1, 1, 1, 1, 1, 1, 1, 1, 1, 1]))), 3, 10);
    t.sheet("place with m 0", &with(8, record(7, &words(&[0, 2, 1, 1]))), 4, 8);
    t.sheet("place with n 0", &with(9, record(7, &words(&[2, 0, 1, 1]))), 4, 9);
    t.sheet("place with m 9", &with(10, place(&[1; 9], &[1])), 4, 10);
    t.sheet("place with n 9", &with(10, place(&[1], &[1; 9])), 4, 10);
    t.sheet("place with one name too many", &with(8, record(7, &words(&[1, 1, 1, 1, 1]))), 4, 8);
    t.sheet("place with one name too few", &with(9, record(7, &words(&[2, 1, 1, 1]))), 4, 9);
    t.sheet("place with m that wraps", &with(10, record(7, &words(&[65535, 3, 1, 1]))), 4, 10);
    t.sheet("place, left name 0", &with(8, place(&[0], &[1])), 5, 8);
    t.sheet("place, second left name 4", &with(9, place(&[1, 4], &[1])), 5, 9);
    t.sheet("place, right name 0", &with(10, place(&[1], &[0])), 5, 10);
    t.sheet("place, last of 16 names 4", &with(10, place(&[1; 8], &[1, 1, 1, 1, 1, 1, 1, 4])), 5, 10);
    t.sheet("3+4 place", &with(10, record(7, &[0, 0, 9, 0, 1, 0, 1, 0, 1])), 3, 10);
    t.sheet("4+5 place", &with(10, record(7, &words(&[1, 3, 0, 9]))), 4, 10);
    t.sheet("7 after a place", &[with(10, place(&[1], &[2])), vec![0]].concat(), 7, 11);

    // 8, 9 and 14, in this order.
    t.impossible("an impossible sheet with a place", &sheet(&[(0, 5, 4, 0)], &[1, 0], &[place(&[1], &[2])]));
    let one = sheet(&[(0, 0, 1, 0)], &[1, 0], &[place(&[1], &[2])]);
    t.no_claim("one place", &one, &[0, 2, 7, 65537, NONE]);
    t.verdicts("one place", &one, &[Holds]);
    t.verdicts("nobody fits", &sheet(&[(0, 0, 0, 0)], &[1, 0], &[place(&[1], &[2])]), &[Denied]);

    // Any two of the three sons can share a member; a member of all three would be the root's only one.
    t.verdicts(
        "places under a cover root of 2 to 2 over three sons of 0 to 1",
        &sheet(
            &[(0, 2, 2, 2), (1, 0, 1, 0), (1, 0, 1, 0), (1, 0, 1, 0)],
            &[1, 2, 3, 4, 0],
            &[
                place(&[2, 3], &[5]),
                place(&[2, 4], &[5]),
                place(&[3, 4], &[5]),
                place(&[2, 3, 4], &[5]),
                place(&[2, 3], &[4]),
                place(&[2], &[3, 4]),
                place(&[1], &[2, 3]),
                place(&[1], &[2, 3, 4]),
                place(&[4, 1], &[3, 2]),
                place(&[2, 3], &[1]),
            ],
        ),
        &[Holds, Holds, Holds, Denied, Holds, Holds, Holds, Denied, Holds, Denied],
    );
    // An empty-set name: on the left a no, on the right passed over. Group 2 is a 'cover' group without sons.
    t.verdicts(
        "places and the empty-set name",
        &sheet(
            &[(0, 0, 4, 0), (1, 0, 4, 2)],
            &[1, 0, 2],
            &[
                place(&[2], &[1]),
                place(&[2], &[2]),
                place(&[1, 2], &[2]),
                place(&[2, 1], &[3]),
                place(&[1], &[2]),
                place(&[1], &[2, 2, 2, 2, 2, 2, 2, 2]),
                place(&[1], &[2, 3]),
                place(&[1], &[2, 1]),
                place(&[3], &[2]),
                place(&[1, 1, 1, 1, 1, 1, 1, 2], &[2]),
            ],
        ),
        &[Denied, Denied, Denied, Denied, Holds, Holds, Holds, Denied, Denied, Denied],
    );
    // Names 2 and 5 both mean group 2.
    t.verdicts(
        "places with repeated names, and a group in both lists",
        &sheet(
            &[(0, 0, 4, 2), (1, 0, 4, 0), (1, 0, 4, 0)],
            &[1, 2, 3, 0, 2],
            &[
                place(&[2; 8], &[3; 8]),
                place(&[2, 3, 2, 3, 2, 3, 2, 3], &[4; 8]),
                place(&[5, 2, 1], &[3, 4, 3]),
                place(&[2], &[2]),
                place(&[2], &[5]),
                place(&[1, 5, 3], &[4, 2]),
                place(&[1, 1], &[2, 3, 2]),
                place(&[1], &[1]),
            ],
        ),
        &[Holds, Holds, Holds, Denied, Denied, Denied, Denied, Denied],
    );
    // A root and 16 sons, of which the 8th and the last have their own bounds.
    let eight = |root: (u16, u16, u16, u16), eighth: (u16, u16), last: (u16, u16), claims: &[Bytes]| {
        let mut list = vec![root];
        list.extend([(1, 0, NO_END, 0); 16]);
        list[8] = (1, eighth.0, eighth.1, 0);
        list[16] = (1, last.0, last.1, 0);
        sheet(&list, &(1..=17).collect::<Vec<u16>>(), claims)
    };
    let (low, high): (Vec<u16>, Vec<u16>) = ((2..=9).collect(), (10..=17).collect());
    let any = (0, NO_END);
    t.verdicts(
        "8 names a list",
        &eight((0, 0, NO_END, 0), any, any, &[place(&low, &high), place(&high, &low), place(&low, &[10, 11, 12, 13, 14, 15, 16, 9])]),
        &[Holds, Holds, Denied],
    );
    t.verdicts(
        "8 names a list, disjoint sons",
        &eight((0, 0, NO_END, 1), any, any, &[place(&[2; 8], &high), place(&low, &high), place(&[1, 1, 1, 1, 1, 1, 1, 9], &high)]),
        &[Holds, Denied, Holds],
    );
    t.verdicts(
        "8 names a list, the last left set empty",
        &eight((0, 0, NO_END, 0), (0, 0), any, &[place(&low, &high), place(&[2, 3, 4, 5, 6, 7, 8, 8], &high)]),
        &[Denied, Holds],
    );
    t.verdicts(
        "8 names a list, the last right set the root's",
        &eight((0, 3, 3, 0), any, (3, 3), &[place(&low, &high), place(&low, &[10, 11, 12, 13, 14, 15, 16, 16])]),
        &[Denied, Holds],
    );
    t.verdicts(
        "8 names a list, the last right set one short of the root's",
        &eight((0, 3, 3, 0), any, (2, 2), &[place(&low, &high), place(&[17; 8], &low)]),
        &[Holds, Holds],
    );
    // Counts decide.
    t.verdicts(
        "places, root 5 to 5, A 0 to 5, B 5 to 5",
        &sheet(
            &[(0, 5, 5, 0), (1, 0, 5, 0), (1, 5, 5, 0)],
            &[1, 2, 3, 0],
            &[place(&[2], &[3]), place(&[3], &[2]), place(&[1], &[3]), place(&[1, 2, 3], &[4])],
        ),
        &[Denied, Holds, Denied, Holds],
    );
    let cover = |lo: u16| {
        sheet(
            &[(0, lo, NO_END, 2), (1, 0, 3, 0), (1, 0, 2, 0)],
            &[1, 2, 3, 0],
            &[place(&[2, 3], &[4]), place(&[2], &[3]), place(&[3], &[2]), place(&[1], &[2, 3])],
        )
    };
    t.verdicts("places, cover sons with hi 3 and 2, root lo 5", &cover(5), &[Denied, Holds, Holds, Denied]);
    t.verdicts("places, cover sons with hi 3 and 2, root lo 4", &cover(4), &[Holds, Holds, Holds, Denied]);
    t.verdicts(
        "places under 'same'",
        &sheet(
            &[(0, 0, 9, 4), (1, 0, 9, 0), (1, 0, 9, 0), (2, 0, 0, 0)],
            &[1, 2, 3, 4],
            &[place(&[1], &[2]), place(&[1, 2, 3], &[4]), place(&[4], &[4]), place(&[4, 2], &[3])],
        ),
        &[Denied, Holds, Denied, Denied],
    );
    for (sons, verdict) in [(1, Holds), (2, Denied)] {
        let mut list = vec![(0, 0, 7, 5)];
        list.extend(vec![(1, 0, 7, 0); sons]);
        t.verdicts("places under 'same' with 'disjoint'", &sheet(&list, &[1, 2, 0], &[place(&[1, 2], &[3]), place(&[1], &[2])]), &[verdict, Denied]);
    }
    // 65,534 and no upper end.
    let two = |hi: u16| {
        sheet(
            &[(0, 0, hi, 0), (1, 65534, 65534, 0), (1, 65534, 65534, 0)],
            &[1, 2, 3],
            &[place(&[2], &[3]), place(&[1], &[2, 3]), place(&[3, 2], &[1])],
        )
    };
    t.verdicts("places, two sons of 65,534 in as many", &two(65534), &[Denied, Denied, Denied]);
    t.verdicts("places, two sons of 65,534 in any number", &two(NO_END), &[Holds, Holds, Denied]);
    let mut wide = vec![(0, 0, NO_END, 3)];
    wide.extend([(1, 65534, 65534, 0); 127]);
    t.verdicts(
        "places, 127 sons of 65,534",
        &sheet(&wide, &[1, 2, 128, 0], &[place(&[1, 2], &[3]), place(&[2, 3], &[4]), place(&[1], &[2, 3]), place(&[3], &[1])]),
        &[Holds, Denied, Holds, Denied],
    );
    // A chain of 128; with the last group as large as the root all are equal.
    let chain = |last: u16| {
        let mut list = vec![(0, 3, 3, 0)];
        list.extend((1..128).map(|g| (g, if g == 127 { last } else { 0 }, NO_END, 0)));
        sheet(&list, &[1, 64, 128, 0], &[place(&[1, 2, 3], &[4]), place(&[1, 2], &[3]), place(&[3], &[2]), place(&[2], &[1])])
    };
    t.verdicts("places in a chain of 128", &chain(2), &[Holds, Holds, Denied, Denied]);
    t.verdicts("places in a chain of 128 equal groups", &chain(3), &[Holds, Denied, Denied, Denied]);
    // Beside other kinds: the printed case with places between its claims.
    let mixed = printed_with(&[
        place(&[2], &[4]),
        count(2, 4, 5),
        place(&[2, 3], &[4]),
        apart(&[4], &[3]),
        inside(&[2], &[4]),
        place(&[1], &[2, 3]),
        place(&[1, 4], &[3]),
    ]);
    t.verdicts("places beside other kinds", &mixed, &[Holds, Holds, Denied, Holds, Denied, Denied, Holds]);
    t.no_claim("places beside other kinds", &mixed, &[0, 8]);
}
