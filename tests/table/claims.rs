// Claims of kinds 4 to 6, and numbers that no claim has.
use crate::limits::*;
use crate::records::*;
use crate::table::*;

pub fn all(t: &mut Table) {
    t.verdicts("printed case", &printed(), &[Holds, Holds, Denied]);
    t.no_claim("printed case", &printed(), &[0, 4, 5, 64, 65, 65536, 65537, 65538, NONE]);
    t.no_claim("no claims", &groups(&[(0, 0, 9, 0)]), &[0, 1, 65536, 65537, NONE]);
    // 8 and 9 at once: 'impossible' asks all claim numbers. 9 and 14 at once: 'no_claim' has
    // buffers of 0 and 5 bytes.
    let impossible = sheet(&[(0, 5, 4, 0)], &[1], &[count(1, 0, NO_END)]);
    t.impossible("8+9", &impossible);

    let all = [1, 2, 3];
    t.verdicts(
        "root 5 to 5, A 0 to 5, B 5 to 5",
        &sheet(
            &[(0, 5, 5, 0), (1, 0, 5, 0), (1, 5, 5, 0)],
            &all,
            &[inside(&[2], &[3]), inside(&[3], &[2]), inside(&[1], &[3]), apart(&[2], &[3]), apart(&[1], &[3])],
        ),
        &[Holds, Denied, Holds, Denied, Denied],
    );
    let cover = |lo: u16| {
        sheet(
            &[(0, lo, NO_END, 2), (1, 0, 3, 0), (1, 0, 2, 0)],
            &all,
            &[apart(&[2], &[3]), inside(&[1], &[2, 3]), inside(&[1], &[2]), inside(&[2], &[3]), count(2, 3, 3)],
        )
    };
    t.verdicts("cover sons with hi 3 and 2, root lo 5", &cover(5), &[Holds, Holds, Denied, Denied, Holds]);
    t.verdicts("cover sons with hi 3 and 2, root lo 4", &cover(4), &[Denied, Holds, Denied, Denied, Denied]);
    t.verdicts(
        "root without upper end",
        &sheet(&[(0, 0, NO_END, 0)], &[1], &[count(1, 0, 65534), count(1, 0, NO_END), count(1, 1, NO_END), count(1, 65534, 65534)]),
        &[Denied, Holds, Denied, Denied],
    );
    t.verdicts(
        "root 65,534 upward",
        &sheet(&[(0, 65534, NO_END, 0)], &[1], &[count(1, 65534, NO_END), count(1, 65534, 65534), count(1, 0, 65533)]),
        &[Holds, Denied, Denied],
    );
    t.verdicts(
        "root 0 to 65,534",
        &sheet(&[(0, 0, 65534, 0)], &[1], &[count(1, 0, 65534), count(1, 0, 65533), count(1, 0, NO_END)]),
        &[Holds, Denied, Holds],
    );
    t.verdicts(
        "cover root over two sons of hi 65,534",
        &sheet(&[(0, 0, NO_END, 2), (1, 0, 65534, 0), (1, 0, 65534, 0)], &all, &[count(1, 0, 65534), count(1, 0, NO_END), count(2, 0, 65534)]),
        &[Denied, Holds, Holds],
    );
    let mut wide = vec![(0, 0, NO_END, 3)];
    wide.extend([(1, 65534, 65534, 0); 127]);
    t.verdicts(
        "127 sons of 65,534",
        &sheet(&wide, &[1, 2, 128], &[count(1, 0, 65534), count(1, 65534, NO_END), apart(&[2], &[3]), inside(&[1], &[2, 3])]),
        &[Denied, Holds, Holds, Denied],
    );
    t.verdicts(
        "lo above hi in a claim",
        &sheet(&[(0, 2, 2, 0)], &[1, 0], &[count(1, 3, 2), count(1, 2, 1), count(1, 1, 0), count(2, 1, 0), count(1, 65534, 0)]),
        &[Denied; 5],
    );
    // The empty-set name: inside all, apart even from itself.
    t.verdicts(
        "the empty-set name",
        &sheet(
            &[(0, 0, 4, 0), (1, 0, 4, 2)],
            &[1, 0, 2],
            &[
                inside(&[2], &[1]),
                inside(&[2], &[2]),
                apart(&[2], &[2]),
                apart(&[2], &[1]),
                apart(&[1], &[2]),
                inside(&[1], &[2]),
                inside(&[1, 2], &[1]),
                inside(&[1], &[2, 1]),
                inside(&[3], &[2]),
                apart(&[1, 2], &[2, 1]),
                count(2, 0, 0),
                count(2, 1, 5),
                count(2, 0, NO_END),
                count(2, 1, NO_END),
                inside(&[2], &[3]),
            ],
        ),
        &[Holds, Holds, Holds, Holds, Holds, Denied, Holds, Holds, Holds, Denied, Holds, Denied, Holds, Denied, Holds],
    );
    t.verdicts(
        "a set with itself",
        &sheet(
            &[(0, 0, 4, 0), (1, 0, 0, 0)],
            &[1, 1, 2],
            &[inside(&[1], &[1]), inside(&[1], &[2]), apart(&[1], &[1]), apart(&[1], &[2]), apart(&[3], &[3]), inside(&[3], &[3])],
        ),
        &[Holds, Holds, Denied, Denied, Holds, Holds],
    );
    t.verdicts(
        "repeated names",
        &sheet(
            &[(0, 0, 4, 2), (1, 0, 4, 0), (1, 0, 4, 0)],
            &all,
            &[inside(&[2, 2, 2, 2, 2, 2, 2, 2], &[1, 1, 1, 1, 1, 1, 1, 1]), inside(&[1, 1], &[2, 2]), inside(&[1, 1], &[2, 3, 2]), apart(&[2, 2], &[3, 3, 3])],
        ),
        &[Holds, Denied, Holds, Denied],
    );
    t.verdicts(
        "a cover root of 2 to 2 over three sons of 0 to 1",
        &sheet(
            &[(0, 2, 2, 2), (1, 0, 1, 0), (1, 0, 1, 0), (1, 0, 1, 0)],
            &[1, 2, 3, 4],
            &[apart(&[2], &[3]), apart(&[2], &[4]), apart(&[3], &[4]), inside(&[2], &[3, 4]), inside(&[1], &[2, 3]), inside(&[1], &[2, 3, 4]), count(2, 1, 1)],
        ),
        &[Denied, Denied, Denied, Denied, Denied, Holds, Denied],
    );
    t.verdicts(
        "sons equal to their parent deep in the tree",
        &sheet(
            &[(0, 4, 4, 0), (1, 4, 4, 0), (2, 4, 4, 0), (3, 4, NO_END, 0), (1, 0, 4, 0), (1, 0, NO_END, 0), (6, 3, 3, 0)],
            &[1, 2, 3, 4, 5, 6, 7],
            &[
                inside(&[1], &[4]),
                inside(&[5], &[4]),
                inside(&[7], &[4]),
                inside(&[4], &[7]),
                apart(&[4], &[5]),
                count(4, 4, 4),
                inside(&[5], &[7]),
                count(6, 3, 4),
            ],
        ),
        &[Holds, Holds, Holds, Denied, Denied, Holds, Denied, Holds],
    );
    t.verdicts(
        "trap: ancestry alone",
        &sheet(
            &[(0, 0, 9, 4), (1, 0, 9, 0), (1, 0, 9, 0), (2, 0, 0, 0)],
            &[1, 2, 3, 4],
            &[inside(&[1], &[2]), inside(&[2], &[3]), inside(&[3], &[2]), inside(&[4], &[3]), inside(&[2], &[4]), apart(&[4], &[1])],
        ),
        &[Holds, Holds, Holds, Holds, Denied, Holds],
    );
    t.verdicts(
        "disjoint sons, and what lies below them",
        &sheet(
            &[(0, 0, NO_END, 1), (1, 0, NO_END, 0), (1, 0, NO_END, 0), (2, 0, NO_END, 0), (3, 0, NO_END, 0)],
            &[1, 2, 3, 4, 5],
            &[apart(&[4], &[5]), apart(&[2, 4], &[3, 5]), apart(&[2], &[4]), inside(&[4], &[3]), inside(&[4], &[2]), inside(&[1], &[2, 3])],
        ),
        &[Holds, Holds, Denied, Denied, Holds, Denied],
    );
    t.verdicts(
        "one son: merely equal",
        &sheet(&[(0, 2, 7, 5), (1, 3, 9, 0)], &[1, 2], &[inside(&[1], &[2]), apart(&[1], &[2]), count(1, 3, 7), count(2, 4, 7)]),
        &[Holds, Denied, Holds, Denied],
    );
    t.verdicts(
        "same with disjoint, two sons",
        &sheet(&[(0, 0, 7, 5), (1, 0, 7, 0), (1, 0, 7, 0)], &all, &[apart(&[1], &[1]), count(1, 0, 0), inside(&[1], &[2]), count(2, 1, 7)]),
        &[Holds, Holds, Holds, Denied],
    );
}
