// Document 02, card 6, by hand: sheets and registers towards each edition.
use crate::format::word;
use crate::forms::{second, second_rows};
use crate::library::Ask;
use crate::limits::*;
use crate::records::*;
use crate::rows::*;
use crate::table::*;

pub fn all(t: &mut Table) {
    written_out(t);
    sheets(t);
    many_groups(t);
    long_labels(t);
    sheet_order(t);
    rows_kept(t);
    rows_turned(t);
    register_order(t);
    room(t);
    through_the_others(t);
}

const FROM_TO: [(Edition, Edition); 4] = [(FIRST, FIRST), (FIRST, SECOND), (SECOND, FIRST), (SECOND, SECOND)];

impl Table {
    // The reply is these bytes, or 14 where they find no room.
    fn gives(&mut self, what: &str, ask: Ask, sheet: &[u8], want: &[u8]) {
        let need = want.len();
        for len in [0, 1, need / 2, need.saturating_sub(1)].into_iter().filter(|&len| len < need) {
            self.turned(&format!("{what}, {len} bytes"), ask, sheet, len, 14, 0);
        }
        for len in [need, need + 1, need + 1000] {
            self.written(&format!("{what}, {len} bytes"), ask, sheet, len, want);
        }
    }

    // Refused, whatever room there is.
    fn refuses(&mut self, what: &str, ask: Ask, sheet: &[u8], n: u64, r: u64) {
        let enough = if let Ask::RegisterTo(_, reg) = ask { 2 * reg.len() } else { sheet.len() };
        for len in [0, 26, enough] {
            self.turned(&format!("{what}, {len} bytes"), ask, sheet, len, n, r);
        }
    }

    // What is written the same way in both editions goes from each to each.
    fn goes(&mut self, what: &str, sheet: impl Fn(Edition) -> Bytes) {
        for (from, to) in FROM_TO {
            let what = format!("{what}, {} to {}", from.number, to.number);
            self.gives(&what, Ask::SheetTo(to.number), &sheet(from), &sheet(to));
        }
    }

    fn rows_go(&mut self, what: &str, sheet: impl Fn(Edition) -> Bytes, rows: impl Fn(Edition) -> Bytes) {
        for (from, to) in FROM_TO {
            let what = format!("{what}, {} to {}", from.number, to.number);
            self.gives(&what, Ask::RegisterTo(to.number, &rows(from)), &sheet(from), &rows(to));
        }
    }

    // A sheet of edition 2 that does not go to edition 1, nor any register under it, and is copied towards edition 2.
    fn stays(&mut self, what: &str, sheet: &[u8], n: u64, r: u64) {
        self.refuses(&format!("{what}, to 1"), Ask::SheetTo(1), sheet, n, r);
        self.gives(&format!("{what}, to 2"), Ask::SheetTo(2), sheet, sheet);
        let rows = SECOND.rows(3, |r| vec![1; r % 2]);
        for (which, reg) in [("no rows", vec![]), ("three rows", rows.clone())] {
            self.refuses(&format!("{what}, {which}, to 1"), Ask::RegisterTo(1, &reg), sheet, n, r);
            self.gives(&format!("{what}, {which}, to 2"), Ask::RegisterTo(2, &reg), sheet, &reg);
        }
        // Whatever the rows meet: towards edition 2 they do.
        for (which, (row, at), reg) in [
            ("2,049 rows", (10, 2049), SECOND.rows(2049, |_| vec![1])),
            ("a cut row", (11, 3), rows[..125].to_vec()),
            ("rows of edition 1", (11, 1), FIRST.rows(2, |_| vec![1])),
            ("side 3", (15, 1), SECOND.row_of((0, 3), &[1])),
            ("number 0", (12, 4), [rows.clone(), SECOND.row(0, &[1])].concat()),
        ] {
            self.refuses(&format!("{what}, {which}, to 1"), Ask::RegisterTo(1, &reg), sheet, n, r);
            self.refuses(&format!("{what}, {which}, to 2"), Ask::RegisterTo(2, &reg), sheet, row, at);
        }
    }

    // A sheet of edition 1 and rows for it, as they are in edition 2 and back.
    pub fn both_editions(&mut self, what: &str, sheet: &[u8], reg: &[u8]) {
        let Some((there, rows)) = second(sheet).zip(second_rows(0, reg)) else { return };
        let (sheets, registers) = ([sheet, &there], [reg, &rows]);
        for (from, to) in [(0, 0), (0, 1), (1, 0), (1, 1)] {
            let (what, n) = (format!("{what}, {} to {}", from + 1, to + 1), to as u16 + 1);
            for len in [sheet.len(), sheet.len() + 3] {
                self.written(&what, Ask::SheetTo(n), sheets[from], len, sheets[to]);
            }
            let need = registers[to].len();
            self.written(&format!("{what}, the register"), Ask::RegisterTo(n, registers[from]), sheets[from], need + 5, registers[to]);
            if need > 0 {
                self.turned(&format!("{what}, the register, a byte short"), Ask::RegisterTo(n, registers[from]), sheets[from], need - 1, 14, 0);
            }
        }
    }
}

// Byte by byte.
fn written_out(t: &mut Table) {
    let first = [
        10, 0, 1, 0, 1, 0, 2, 0, 1, 0, 1, 0, // head: edition 1, two groups, a name, a claim
        10, 0, 2, 0, 0, 0, 2, 0, 5, 0, 3, 0, //
        10, 0, 2, 0, 1, 0, 0, 0, 255, 255, 0, 0, //
        6, 0, 3, 0, 2, 0, b'A', b'-', //
        8, 0, 4, 0, 1, 0, 2, 0, 3, 0,
    ];
    let mut there = first;
    there[4] = 2;
    t.gives("two groups, to 2", Ask::SheetTo(2), &first, &there);
    t.gives("two groups, to 1", Ask::SheetTo(1), &there, &first);
    let row = [24, 0, 33, 0, 7, 1, 2, 3, 2, 0, 3, 0, 0, 0, 0, 0, 0, 0, 0, 0, 0, 0, 0, 0, 0, 0];
    let wide = [
        40, 0, 34, 0, 7, 1, 2, 3, 2, 0, 3, 0, 0, 0, 0, 0, 0, 0, 0, 0, 0, 0, 0, 0, 0, 0, //
        0, 0, 0, 0, 0, 0, 0, 0, 0, 0, 0, 0, 0, 0, 0, 0,
    ];
    t.gives("a row, to 2", Ask::RegisterTo(2, &row), &first, &wide);
    t.gives("a row, to 1", Ask::RegisterTo(1, &wide), &there, &row);
    // All of 128 groups: 16 bytes of ones.
    let all = [&[24, 0, 33, 0, 255, 255, 255, 255, 1, 0][..], &[255; 16]].concat();
    let all_wide = [&[40, 0, 34, 0, 255, 255, 255, 255, 1, 0][..], &[255; 16], &[0; 16]].concat();
    t.gives("a row of 128 groups, to 2", Ask::RegisterTo(2, &all), &FIRST.star(128, 0), &all_wide);
    t.gives("a row of 128 groups, to 1", Ask::RegisterTo(1, &all_wide), &SECOND.star(128, 0), &all);
    // Of 256 groups: copied.
    let full = [&[40, 0, 34, 0, 1, 0, 0, 0, 1, 0][..], &[255; 32]].concat();
    t.gives("a row of 256 groups, to 2", Ask::RegisterTo(2, &full), &SECOND.star(256, 0), &full);
}

// Sheets that go from each edition to each. No sets need fit them.
fn sheets(t: &mut Table) {
    t.goes("the table's own sheet", |e| e.base().concat());
    t.goes("one group", |e| e.groups(&[(0, 0, 0, 0)]));
    for (what, list) in [
        ("lo above hi", vec![(0, 3, 2, 0)]),
        ("a cover leaf with lo 1", vec![(0, 1, 9, 2)]),
        ("disjoint sons that find no room", vec![(0, 0, 3, 1), (1, 2, NO_END, 0), (1, 2, NO_END, 0)]),
        ("same and disjoint, two sons, lo 1", vec![(0, 1, 9, 5), (1, 0, 9, 0), (1, 0, 9, 0)]),
    ] {
        t.impossible(what, &FIRST.groups(&list));
        t.goes(what, |e| e.groups(&list));
        t.rows_go(what, |e| e.groups(&list), |e| [e.row(1, &[1]), e.row(2, &[])].concat());
    }
    // Every mode, bounds at their limits, every kind of claim with 16 names.
    let list: Vec<_> = (0..8).map(|mode| (mode, 0, NO_END, mode)).chain([(8, 65534, 65534, 7), (9, 65534, 0, 0)]).collect();
    let claims = [count(1, 65534, 0), count(1, 0, NO_END), inside(&[1; 8], &[2; 8]), apart(&[3], &[1; 8]), place(&[2; 8], &[4])];
    t.goes("every mode and claim", |e| e.sheet(&list, &[0, 1, 10, 10], &claims));
    // The longest that edition 1 has.
    let longest = |e: Edition| {
        let mut b = e.head(128, 128, 64);
        b.extend((1..=128).flat_map(|g| group(g - 1, 0, NO_END, 0)));
        b.extend((1..=128).flat_map(|k| name(129 - k, &format!("LABEL-NUMBER-{k:03}"))));
        b.extend(place(&[1, 2, 3, 4, 5, 6, 7, 8], &[9; 8]).repeat(64));
        b
    };
    assert_eq!(longest(FIRST).len(), 6924);
    t.goes("the longest sheet of edition 1", longest);
    t.rows_go("the longest sheet of edition 1, two rows", longest, |e| [e.row(3, &[1, 128]), e.row(4, &[127])].concat());
    // Turned back before its edition is looked at any further.
    t.sheet("no bytes, to be converted", &[], 1, 1);
    t.sheet("an edition that there isn't, to be converted", &record(1, &words(&[3, 1, 0, 0])), 4, 1);
}

// 16: 128 groups go, 129 don't.
fn many_groups(t: &mut Table) {
    for g in [1, 2, 64, 65, 127, 128] {
        t.goes(&format!("{g} groups"), |e| e.star(g, 0));
        t.rows_go(&format!("{g} groups, a row in the last"), |e| e.star(g, 0), |e| e.row(1, &[1, g as usize]));
    }
    for g in [129, 130, 191, 192, 193, 254, 255, 256] {
        t.stays(&format!("{g} groups"), &SECOND.star(g, 0), 16, 0);
        // Others than sons of the root, and sheets that no sets fit.
        let chain: Vec<_> = (0..g).map(|p| (p, 0, 9, 4)).collect();
        t.stays(&format!("a chain of {g} groups"), &SECOND.groups(&chain), 16, 0);
        t.stays(&format!("{g} groups, impossible"), &SECOND.groups_with(g, &[(1, (0, 3, 2, 0))]), 16, 0);
        t.stays(&format!("{g} groups, names and claims"), &SECOND.sheet(&listed_groups(g, &[]), &[1, g, 0], &[count(2, 0, 9)]), 16, 0);
    }
}

const LONG: &str = "KLINIK-42-HAMBURG-NORD-STATION-7";

// 17: labels of 16 bytes go, longer ones don't; the record is the first such name's.
fn long_labels(t: &mut Table) {
    assert_eq!(LONG.len(), 32);
    // Three names, one of them with a label of n bytes, under g groups.
    let three = |e: Edition, g: u16, at: usize, n: usize| {
        let mut b = [&e.head(g, 3, 1)[..], &e.star(g, 0)[12..]].concat();
        for k in 0..3 {
            let label = if k == at { &LONG[..n] } else { ["A", "B-16-BYTES-LONG-", "C"][k] };
            b.extend(name([0, 1, g][k], label));
        }
        [b, count(1, 0, 9)].concat()
    };
    for g in [1, 2, 64, 127, 128] {
        for at in 0..3 {
            for n in [1, 2, 8, 15, 16] {
                t.goes(&format!("name {} of {g} groups has {n} bytes", at + 1), |e| three(e, g, at, n));
            }
            for n in [17, 18, 24, 31, 32] {
                let what = format!("name {} of {g} groups has {n} bytes", at + 1);
                t.stays(&what, &three(SECOND, g, at, n), 17, g as u64 + at as u64 + 2);
            }
        }
    }
    // Names of 16 bytes around longer ones; the first of these counts.
    let named = |e: Edition, lengths: &[usize]| {
        let mut b = [e.head(2, lengths.len() as u16, 0), group(0, 0, 9, 0), group(1, 0, 9, 0)].concat();
        for (k, &n) in lengths.iter().enumerate() {
            let label = format!("{k:03}{}", &LONG[..n - 3]);
            b.extend(name(k as u16 % 3, &label));
        }
        b
    };
    for (lengths, first) in [
        (vec![17], 1),
        (vec![17, 17], 1),
        (vec![16, 17], 2),
        (vec![32, 16], 1),
        (vec![16, 16, 17, 16, 32], 3),
        (vec![16, 32, 17], 2),
        (vec![3, 3, 3, 3, 20, 3], 5),
    ] {
        t.stays(&format!("labels of {lengths:?} bytes"), &named(SECOND, &lengths), 17, 3 + first);
    }
    // 128 names: the first, one in the middle, the last.
    t.goes("128 names of 16 bytes", |e| named(e, &[16; 128]));
    for at in [1, 2, 64, 65, 127, 128] {
        for n in [17, 32] {
            let mut lengths = [16; 128];
            lengths[at - 1] = n;
            t.stays(&format!("128 names, number {at} of {n} bytes"), &named(SECOND, &lengths), 17, 3 + at as u64);
        }
        let mut lengths = [16; 128];
        lengths[at - 1..].fill(17);
        t.stays(&format!("128 names, from number {at} on of 17 bytes"), &named(SECOND, &lengths), 17, 3 + at as u64);
    }
    t.stays("128 names of 32 bytes", &named(SECOND, &[32; 128]), 17, 4);
    // The longest sheet of edition 2 with 128 groups, and with 129.
    let longest = |g: u16| {
        let mut b = SECOND.head(g, 128, 64);
        b.extend((1..=g).flat_map(|k| group(k - 1, 0, NO_END, 0)));
        b.extend((1..=128).flat_map(|k| name(k, &format!("THE-LONGEST-LABEL-OF-NUMBER-{k:04}"))));
        [b, inside(&[1; 8], &[128; 8]).repeat(64)].concat()
    };
    t.stays("128 groups, 128 labels of 32 bytes", &longest(128), 17, 130);
    t.stays("129 groups, 128 labels of 32 bytes", &longest(129), 16, 0);
    t.stays("256 groups, 128 labels of 32 bytes", &longest(256), 16, 0);
}

// 1 to 7, then 16, then 17, then 14.
fn sheet_order(t: &mut Table) {
    // 129 or 128 groups, three names of which the second is long, a claim.
    let records = |g: u16| -> Vec<Bytes> {
        let mut b = vec![SECOND.head(g, 3, 1)];
        b.extend(listed_groups(g, &[]).iter().map(|&(p, lo, hi, mode)| group(p, lo, hi, mode)));
        b.extend([name(1, "A"), name(g, &LONG[..17]), name(0, "C"), count(1, 0, 9)]);
        b
    };
    let with = |g: u16, no: usize, new: Bytes| {
        let mut b = records(g);
        b[no - 1] = new;
        b.concat()
    };
    t.stays("16+17", &records(129).concat(), 16, 0);
    t.stays("128 groups, 17", &records(128).concat(), 17, 131);
    for g in [128, 129] {
        let n = g as usize;
        let what = |what: &str| format!("{what} before {}", if g == 128 { "17" } else { "16 and 17" });
        let whole = records(g).concat();
        t.sheet(&what("1, a cut last record"), &whole[..whole.len() - 1], 1, g as u64 + 5);
        t.sheet(&what("1, no last record"), &whole[..whole.len() - 10], 1, g as u64 + 5);
        t.sheet(&what("2, a group as claim"), &with(g, n + 5, group(1, 0, 9, 0)), 2, g as u64 + 5);
        t.sheet(&what("3, a claim of length 6"), &with(g, n + 5, record(4, &words(&[1, 0]))), 3, g as u64 + 5);
        t.sheet(&what("3, the first label of 33 bytes"), &with(g, n + 2, name(1, &[LONG, "8"].concat())), 3, g as u64 + 2);
        t.sheet(&what("4, the last label small"), &with(g, n + 4, name(1, "c")), 4, g as u64 + 4);
        t.sheet(&what("4, mode 8 in the last group"), &with(g, n + 1, group(1, 0, 9, 8)), 4, g as u64 + 1);
        t.sheet(&what("5, a claim about name 4"), &with(g, n + 5, count(4, 0, 9)), 5, g as u64 + 5);
        t.sheet(&what("6, the long label again"), &with(g, n + 4, name(1, &LONG[..17])), 6, g as u64 + 4);
        t.sheet(&what("7, a byte more"), &[whole, vec![0]].concat(), 7, g as u64 + 6);
    }
    // Read as edition 1 both are met in reading.
    let mut first = records(129).concat();
    first[4] = 1;
    t.sheet_once("129 groups in edition 1", &first, 4, 1);
    let mut first = records(128).concat();
    first[4] = 1;
    t.sheet_once("a label of 17 bytes in edition 1", &first, 3, 131);
}

// Row for row: numbers, sides and groups as they stand, in their order.
fn rows_kept(t: &mut Table) {
    let any = |e: Edition| e.star(128, 0);
    t.rows_go("no rows", any, |_| vec![]);
    for n in [1, 255, 256, 65535, 65536, 16777216, 4294967294, NONE] {
        for side in [LEFT, RIGHT] {
            t.rows_go(&format!("number {n}, side {side}"), any, |e| e.row_of((n, side), &[1, 2]));
        }
    }
    for g in 1..=128 {
        t.rows_go(&format!("group {g}"), any, |e| e.row(1, &[g]));
        t.rows_go(&format!("all groups but {g}"), any, |e| e.row(1, &(1..=128).filter(|&k| k != g).collect::<Vec<_>>()));
    }
    t.rows_go("a row in no group", any, |e| e.row(1, &[]));
    t.rows_go("rows in no group among others", any, |e| e.rows(5, |r| if r % 2 == 1 { vec![] } else { vec![1, r] }));
    t.rows_go("rows in no group alone", any, |e| e.rows(4, |_| vec![]));
    // Rows of one member are not joined.
    t.rows_go("a member twice, the same groups", any, |e| e.one_member(&[vec![1, 128], vec![1, 128]]));
    t.rows_go("a member twice, other groups", any, |e| e.one_member(&[vec![1], vec![1, 65]]));
    t.rows_go("a member on five rows, some in no group", any, |e| e.one_member(&[vec![], vec![1], vec![], vec![128], vec![]]));
    let ears = [(5, LEFT), (5, LEFT), (5, RIGHT), (5, RIGHT), (6, RIGHT), (7, LEFT)];
    t.rows_go("both ears, each on two rows", any, |e| ears.iter().enumerate().flat_map(|(k, &ear)| e.row_of(ear, &[1, k + 1])).collect());
    t.rows_go("one member on 2,048 rows", any, |e| e.row(9, &[1, 64]).repeat(2048));
    // No rule is asked.
    t.rows_go("a row that breaks rule 1", |e| e.base().concat(), |e| e.row(1, &[2]));
    t.rows_go("too many members", |e| e.groups(&[(0, 0, 0, 0)]), |e| e.rows(2, |_| vec![1]));
    for n in [2, 63, 64, 65, 127, 128, 129, 2047, 2048] {
        t.rows_go(&format!("{n} rows"), any, |e| e.rows(n, |r| vec![1, 1 + r % 128]));
        t.rows_go(&format!("{n} rows under few groups"), |e| e.base().concat(), |e| e.rows(n, |r| vec![1 + r % 3]));
    }
    // Rows of edition 2 with groups above 128 are copied.
    for g in [129, 192, 193, 255, 256] {
        let reg = SECOND.rows(3, |r| vec![1, g - r + 1]);
        t.gives(&format!("rows in group {g}, to 2"), Ask::RegisterTo(2, &reg), &SECOND.star(g as u16, 0), &reg);
    }
}

// 10, 11, 15, 12 and 13 at the first, a middle and the last row, towards both editions; also by `register_refused_once`, from
// every other subject.
fn rows_turned(t: &mut Table) {
    for (from, to) in FROM_TO {
        let other = EDITIONS[2 - from.number as usize];
        let sheet = from.base().concat();
        let rows = |n: usize| from.rows(n, |_| vec![1]);
        let ed = format!("{} to {}", from.number, to.number);
        let mut refuses = |what: &str, reg: &[u8], n: u64, r: u64| t.refuses(&format!("{what}, {ed}"), Ask::RegisterTo(to.number, reg), &sheet, n, r);
        let high = 8 * from.membership;
        let bad: [(&str, u64, Bytes); 14] = [
            ("kind 32", 11, reframed(&from.row(2, &[1]), from.row_length, 32)),
            ("the other kind", 11, reframed(&from.row(2, &[1]), from.row_length, other.row_kind)),
            ("the other length", 11, reframed(&from.row(2, &[1]), other.row_length, from.row_kind)),
            ("a row of the other edition", 11, other.row(2, &[1])),
            ("kind 32 and side 3", 11, reframed(&from.row_of((2, 3), &[1]), from.row_length, 32)),
            ("side 0", 15, from.row_of((2, 0), &[1])),
            ("side 3", 15, from.row_of((2, 3), &[1])),
            ("side 258", 15, from.row_of((2, 258), &[1])),
            ("side 3 and number 0", 15, from.row_of((0, 3), &[1])),
            ("number 0", 12, from.row_of((0, LEFT), &[1])),
            ("number 0 and a bit above G", 12, from.row_of((0, LEFT), &[4])),
            ("a bit above G", 13, from.row(2, &[1, 4])),
            ("the last bit", 13, from.row(2, &[1, high])),
            ("group 128", 13, from.row(2, &[128])),
        ];
        for (what, n, b) in &bad {
            refuses(&format!("{what}, the only row"), b, *n, 1);
            refuses(&format!("{what}, the first of two"), &[b.clone(), from.row(3, &[1])].concat(), *n, 1);
            refuses(&format!("{what}, the middle of three"), &[from.row(1, &[1]), b.clone(), from.row(3, &[1])].concat(), *n, 2);
            refuses(&format!("{what}, the last of three"), &[from.row(1, &[1]), from.row(1, &[1]), b.clone()].concat(), *n, 3);
        }
        for n in [3, 64, 2048] {
            let falls = [rows(n - 1), from.row_of((1, LEFT), &[1])].concat();
            refuses(&format!("row {n} below the one before"), &falls, 12, n as u64);
        }
        for keep in [1, 3, 4, 9, 10, from.row - 1] {
            let cut = rows(1)[..keep].to_vec();
            refuses(&format!("{keep} bytes of a row"), &cut, 11, 1);
            refuses(&format!("{keep} bytes of a row after two"), &[rows(2), cut.clone()].concat(), 11, 3);
            refuses(&format!("{keep} bytes of a row after 2,048"), &[rows(2048), cut].concat(), 10, 2049);
        }
        refuses("2,049 rows", &rows(2049), 10, 2049);
        refuses("2,048 rows and one of the other edition", &[rows(2048), other.row(5000, &[1])].concat(), 10, 2049);
        // The rows are those of the sheet's own edition, not of the wanted one.
        for n in [1, 2, 13, 21, 2048] {
            refuses(&format!("{n} rows of the other edition"), &other.rows(n, |_| vec![1]), 11, 1);
        }
    }
}

// 1 to 7, 16, 17, then the rows, then 14.
fn register_order(t: &mut Table) {
    // A name of two bytes, and one of 17.
    let short = |g: u16| SECOND.sheet(&listed_groups(g, &[]), &[1], &[]);
    let long = |g: u16| [&SECOND.head(g, 1, 0)[..], &SECOND.star(g, 0)[12..], &name(1, &LONG[..17])].concat();
    let bad = |n: u64| match n {
        10 => SECOND.rows(2049, |_| vec![1]),
        11 => FIRST.row(1, &[1]),
        15 => SECOND.row_of((1, 3), &[1]),
        12 => SECOND.row_of((0, LEFT), &[1]),
        _ => SECOND.row(1, &[200]),
    };
    for n in [10, 11, 15, 12, 13] {
        let reg = bad(n);
        let r = if n == 10 { 2049 } else { 1 };
        t.refuses(&format!("16 before {n}"), Ask::RegisterTo(1, &reg), &short(129), 16, 0);
        t.refuses(&format!("16 and 17 before {n}"), Ask::RegisterTo(1, &reg), &long(129), 16, 0);
        t.refuses(&format!("17 before {n}"), Ask::RegisterTo(1, &reg), &long(128), 17, 130);
        t.refuses(&format!("{n} towards edition 1"), Ask::RegisterTo(1, &reg), &short(128), n, r);
        for sheet in [short(129), long(129), long(128), short(128)] {
            t.refuses(&format!("{n} towards edition 2"), Ask::RegisterTo(2, &reg), &sheet, n, r);
            for to in [1, 2] {
                // G + S + Q + 2, with a name and no claim.
                let (longer, record) = ([sheet.clone(), vec![0]].concat(), word(&sheet, 6) as u64 + 3);
                t.refuses(&format!("7 before {n}"), Ask::RegisterTo(to, &reg), &longer, 7, record);
            }
        }
    }
    // A later row is not looked at before an earlier one.
    for (first, then) in [(15, 12), (12, 15), (13, 11), (12, 11), (11, 13)] {
        for to in [1, 2] {
            let reg = [SECOND.row(1, &[1]), bad(first), bad(then)].concat();
            t.refuses(&format!("{first} in row 2, {then} in row 3"), Ask::RegisterTo(to, &reg), &short(128), first, 2);
        }
    }
}

// 14 goes by the reply's own length.
fn room(t: &mut Table) {
    for (from, to) in FROM_TO {
        let (ed, sheet) = (format!("{} to {}", from.number, to.number), from.base().concat());
        for n in [0, 1, 2, 3, 8, 64, 2048] {
            let (reg, want) = (from.rows(n, |r| vec![1 + r % 3]), to.rows(n, |r| vec![1 + r % 3]));
            let around = [26 * n, 42 * n, 26 * n + 1, 42 * n + 1, 86_016, 86_017, 100_000];
            for len in around.into_iter().chain([26 * n, 42 * n].into_iter().filter(|&l| l > 0).map(|l| l - 1)) {
                let (what, ask) = (format!("{n} rows, {ed}, {len} bytes"), Ask::RegisterTo(to.number, &reg));
                if len < to.row * n {
                    t.turned(&what, ask, &sheet, len, 14, 0);
                } else {
                    t.written(&what, ask, &sheet, len, &want);
                }
            }
        }
        let want = to.base().concat();
        for len in 0..sheet.len() + 9 {
            let what = format!("the table's own sheet, {ed}, {len} bytes");
            if len < sheet.len() {
                t.turned(&what, Ask::SheetTo(to.number), &sheet, len, 14, 0);
            } else {
                t.written(&what, Ask::SheetTo(to.number), &sheet, len, &want);
            }
        }
    }
}

// What comes back is handed to the other operations, and converted back.
fn through_the_others(t: &mut Table) {
    let ask = |ask: Ask, sheet: &[u8], room: usize| {
        let mut buffer = vec![0xa5; room];
        let said = call(ask, sheet, &mut buffer);
        buffer.truncate(if said >> 32 == 0 { said as usize } else { 0 });
        (said, buffer)
    };
    let three = FIRST.sheet(&[(0, 2, 2, 2), (1, 0, 1, 0), (1, 0, 1, 0), (1, 0, 1, 0)], &[1, 2, 3, 4, 0], &[
        place(&[2, 3], &[5]),
        place(&[2, 3, 4], &[5]),
        apart(&[2], &[3]),
        count(1, 2, 2),
        inside(&[1], &[2, 3]),
    ]);
    let impossible = FIRST.groups(&[(0, 3, 2, 0)]);
    let chain: Vec<_> = (0..128).map(|p| (p, 0, 9, 3)).collect();
    for (what, first) in [("the printed case", printed()), ("three sons", three), ("impossible", impossible), ("128 groups", FIRST.groups(&chain))] {
        let there = ask(Ask::SheetTo(2), &first, 8000).1;
        let back = ask(Ask::SheetTo(1), &there, 8000).1;
        t.note(what, back == first && there.len() == first.len(), "there and back is another sheet".to_string());
        let (a, b) = (ask(Ask::Ranges, &first, 6000), ask(Ask::Ranges, &there, 6000));
        t.note(what, a == b, format!("ranges {:?} and {:?}", a.0, b.0));
        for c in 0..7 {
            for room in [0, 5, 6, 6000] {
                let (a, b) = (ask(Ask::Claim(c), &first, room), ask(Ask::Claim(c), &there, room));
                let verdict = |reply: &[u8]| reply.get(..6).map(<[u8]>::to_vec);
                t.note(what, a.0 == b.0 && verdict(&a.1) == verdict(&b.1), format!("claim {c}: {:?} and {:?}", a.0, b.0));
            }
        }
        for n in [0, 1, 10, 2048] {
            let reg = rows(n, |r| if r % 3 == 0 { vec![] } else { vec![1] });
            let wide = ask(Ask::RegisterTo(2, &reg), &first, 100_000).1;
            let again = ask(Ask::RegisterTo(1, &wide), &there, 100_000).1;
            t.note(what, again == reg && wide.len() == 42 * n, format!("{n} rows, there and back"));
            let (a, b) = (ask(Ask::Register(&reg), &first, 8), ask(Ask::Register(&wide), &there, 8));
            t.note(what, a == b && a.0 == 8, format!("{n} rows: {a:?} and {b:?}"));
        }
    }
}
