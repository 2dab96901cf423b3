// Our operations beside ordinary Rust, on the same bytes, in turns; and ours at 128 groups beside 256.
//   ops FOLDER [WHAT..]   FOLDER has the sheets NAME.sheet and the registers NAME.rows; prints a line 'what times.. ratio' for
//                         each, or for those that begin with a WHAT: ours and Rust's in ns, of a register Rust's by columns
//                         and by walk, of 'growth ..' ours at 128 and at 256 groups; and the middle ratio of second to first

#[path = "../reference/conversion.rs"]
mod conversion;
#[path = "../reference/engine.rs"]
mod engine;
#[path = "../tests/rust/library.rs"]
mod library;
#[path = "../tests/rust/limits.rs"]
mod limits;
#[path = "../reference/register.rs"]
mod register;
#[path = "../reference/sheet.rs"]
mod sheet;

use library::{claim, ranges, register as check, register_to, sheet_to};
use limits::{FIRST, ROWS, SECOND};
use std::fs;
use std::hint::black_box;
use std::time::Instant;

const RUNS: usize = 101;
const LARGE: [usize; 2] = [FIRST.groups as usize, SECOND.groups as usize]; // most of each edition
const REPLY: usize = ROWS * SECOND.row; // bytes of the longest reply

type Call<'a> = &'a mut dyn FnMut() -> u64;

fn middle(mut of: [f64; RUNS]) -> f64 {
    of.sort_by(f64::total_cmp);
    of[RUNS / 2]
}

// Prints the middle of 101 runs of each, in nanoseconds per call, and of the ratios of the second to the first; a run is long
// enough to be measured.
fn measure<const N: usize>(what: &str, mut calls: [Call; N]) {
    if std::env::args().len() > 2 && !std::env::args().skip(2).any(|only| what.starts_with(&only)) {
        return;
    }
    let time = |call: &mut Call, n: u32| {
        let start = Instant::now();
        for _ in 0..n {
            black_box(call());
        }
        start.elapsed().as_nanos() as f64 / n as f64
    };
    let warm = calls.iter_mut().map(|call| time(call, 20)).fold(1.0, f64::max);
    let turns = ((100_000.0 / warm) as u32).clamp(1, 2000);
    let mut runs = [[0.0; RUNS]; N];
    let mut ratios = [0.0; RUNS];
    for i in 0..RUNS {
        for (run, call) in runs.iter_mut().zip(&mut calls) {
            run[i] = time(call, turns);
        }
        ratios[i] = runs[1][i] / runs[0][i];
    }
    let times = runs.map(|run| format!("{:.0}", middle(run))).join("\t");
    println!("{what}\t{times}\t{:.4}", middle(ratios));
}

// The same number returned, and the same bytes in two buffers that began alike, behind the reply too; what the first gave.
fn same(what: &str, a: impl Fn(&mut [u8]) -> u64, b: impl Fn(&mut [u8]) -> u64) -> (u64, Vec<u8>) {
    let given = |f: &dyn Fn(&mut [u8]) -> u64| {
        let mut reply = vec![0xa5; REPLY];
        (f(&mut reply), reply)
    };
    let (a, b) = (given(&a), given(&b));
    assert!(a == b, "{what}: the two differ, {:?} and {:?}", a.0, b.0);
    a
}

const PROGRAMS: [(&str, fn(&[u8], &[u8], &mut [u8]) -> u64); 3] =
    [("ours", check), ("columns", register::check), ("walk", register::check_by_walk)];

// Ours and both forms of Rust agree on a register, and name this group and this rule or refuse it.
fn agreed(what: &str, s: &[u8], rows: &[u8], wanted: &[u16]) {
    for (_, rust) in &PROGRAMS[1..] {
        let (said, reply) = same(what, |r| check(s, rows, r), |r| rust(s, rows, r));
        let found = if said >> 32 == 0 { vec![word(&reply, 4), word(&reply, 6)] } else { vec![(said >> 32) as u16] };
        assert!(found == wanted, "{what}: {found:?} in place of {wanted:?}");
    }
}

fn measure_register(what: &str, s: &[u8], rows: &[u8], wanted: &[u16]) {
    agreed(what, s, rows, wanted);
    let replies = &mut [[0; 8]; 3];
    let [x, y, z] = replies.each_mut();
    let call = |i: usize, reply: &mut [u8]| PROGRAMS[i].1(black_box(s), black_box(rows), reply);
    measure(what, [&mut || call(0, x), &mut || call(1, y), &mut || call(2, z)]);
}

// What Rust's conversion gives.
fn converted(by: impl Fn(&mut [u8]) -> u64) -> Vec<u8> {
    let mut reply = vec![0; REPLY];
    let said = by(&mut reply);
    assert!(said >> 32 == 0, "refused by {}", said >> 32);
    reply.truncate(said as usize);
    reply
}

// A sheet and a register towards an edition; both go there, and ours and Rust agree.
fn measure_conversion(what: &str, to: u16, s: &[u8], under: &[u8], rows: &[u8]) {
    let (x, y) = (&mut vec![0; REPLY][..], &mut vec![0; REPLY][..]);
    let (said, _) = same(what, |r| sheet_to(to, s, r), |r| conversion::sheet_to(to, s, r));
    assert!(said == s.len() as u64, "{what}: the sheet is refused");
    measure(
        &format!("convert sheet {what}"),
        [&mut || sheet_to(to, black_box(s), x), &mut || conversion::sheet_to(to, black_box(s), y)],
    );
    let (said, _) = same(what, |r| register_to(to, under, rows, r), |r| conversion::register_to(to, under, rows, r));
    assert!(said == (ROWS * [FIRST, SECOND][to as usize - 1].row) as u64, "{what}: the register is refused");
    measure(
        &format!("convert register {what}"),
        [
            &mut || register_to(to, black_box(under), black_box(rows), x),
            &mut || conversion::register_to(to, black_box(under), black_box(rows), y),
        ],
    );
}

fn word(b: &[u8], at: usize) -> u16 {
    u16::from_le_bytes([b[at], b[at + 1]])
}

// All claims of a sheet.
fn each_claim(s: &[u8], one: impl Fn(&[u8], u32, &mut [u8]) -> u64, r: &mut [u8]) -> u64 {
    (1..=word(s, 10) as u32).fold(0, |all, c| all ^ black_box(one(s, c, r)))
}

fn main() {
    let folder = std::env::args().nth(1).expect("a folder of sheets");
    let (x, y) = (&mut vec![0u8; REPLY][..], &mut vec![0u8; REPLY][..]);
    let sheet = |name: &str| fs::read(format!("{folder}/{name}.sheet")).expect(name);
    let rows = |name: &str| fs::read(format!("{folder}/{name}.rows")).expect(name);

    // Reading: a largest sheet, an empty register.
    for (place, n) in ["first", "last"].iter().flat_map(|place| LARGE.map(|n| (place, n))) {
        let s = &sheet(&format!("largest-{place}-{n}"))[..];
        same("reading", |r| check(s, &[], r), |r| register::check_by_walk(s, &[], r));
        measure(
            &format!("reading {place} {n}"),
            [&mut || check(black_box(s), &[], x), &mut || register::check_by_walk(black_box(s), &[], y)],
        );
    }

    // Conversion: a largest sheet, and 2,048 rows under another, from each edition to the other; in edition 2 of 256 groups copied.
    let of = |n: usize| (sheet(&format!("largest-last-{n}")), sheet(&format!("register-bushy-{n}-fits")), rows(&format!("register-bushy-{n}")));
    let (s, under, full) = of(LARGE[0]);
    let [there, under_there] = [&s, &under].map(|s| converted(|r| conversion::sheet_to(2, s, r)));
    let full_there = converted(|r| conversion::register_to(2, &under, &full, r));
    measure_conversion("2 to 1", 1, &there, &under_there, &full_there);
    measure_conversion("1 to 2", 2, &s, &under, &full);
    let (s, under, full) = of(LARGE[1]);
    measure_conversion("copied", 2, &s, &under, &full);

    for shape in ["chain", "star", "bushy"] {
        let of = |what: &str, n| sheet(&format!("{shape}-{what}-{n}"));
        for (what, from) in [("ranges", "claims"), ("bare", "bare")] {
            for n in [16, 32, 64, 128, 256] {
                let s = &of(from, n)[..];
                same(shape, |r| ranges(s, r), |r| engine::ranges(s, r));
                measure(
                    &format!("{what} {shape} {n}"),
                    [&mut || ranges(black_box(s), x), &mut || engine::ranges(black_box(s), y)],
                );
            }
            let [a, b] = LARGE.map(|n| of(from, n));
            measure(&format!("growth {what} {shape}"), [&mut || ranges(&a, x), &mut || ranges(&b, y)]);
        }
        for what in ["claims", "places", "count", "inside", "apart", "place"] {
            for n in [16, 32, 64, 128, 256] {
                let s = &of(what, n)[..];
                for c in 1..=word(s, 10) as u32 {
                    let (a, b) = (claim(s, c, x), engine::claim(s, c, y));
                    assert!(a == b && x[..6] == y[..6], "{what} {shape} {n}, claim {c}");
                    assert!(c > 1 || a == 6 + 14 * n as u64, "{what} {shape} {n}: the first claim shows no sets");
                }
                measure(
                    &format!("{what} {shape} {n}"),
                    [&mut || each_claim(black_box(s), claim, x), &mut || each_claim(black_box(s), engine::claim, y)],
                );
            }
            let [a, b] = LARGE.map(|n| of(what, n));
            measure(
                &format!("growth {what} {shape}"),
                [&mut || each_claim(&a, claim, x), &mut || each_claim(&b, claim, y)],
            );
        }
    }

    measure_register("register mixed", &sheet("mixed"), &rows("mixed"), &[0, 0]);
    for tree in ["star", "bushy", "caterpillar", "chain"] {
        // A sheet that the rows fit, and one that they break at its last group alone.
        for of in ["", "-two-rows"].map(|after| format!("{tree}{after}")) {
            let rows = LARGE.map(|n| rows(&format!("register-{of}-{n}")));
            let sheets = LARGE.map(|n| ["fits", "broken"].map(|which| sheet(&format!("register-{of}-{n}-{which}"))));
            for (i, n) in LARGE.into_iter().enumerate() {
                measure_register(&format!("register {of} {n} fits"), &sheets[i][0], &rows[i], &[0, 0]);
                measure_register(&format!("register {of} {n} broken"), &sheets[i][1], &rows[i], &[n as u16, 5]);
            }
            measure(
                &format!("growth register {of}"),
                [&mut || check(&sheets[0][0], &rows[0], x), &mut || check(&sheets[1][0], &rows[1], y)],
            );
        }
        // Parts of a check, each call going further than the one before; in turns, for the differences.
        let [bare, fits, first] = ["bare", "fits", "first"].map(|which| sheet(&format!("register-{tree}-256-{which}")));
        let [all, refused] = ["", "-refused"].map(|which| rows(&format!("register-{tree}-256{which}")));
        let one = &refused[refused.len() - SECOND.row..];
        let parts: [(&[u8], &[u8], &[u16]); 5] = [
            (&bare, one, &[12]),
            (&fits, one, &[12]),
            (&fits, &refused, &[12]),
            (&first, &all, &[1, 5]),
            (&fits, &all, &[0, 0]),
        ];
        for (s, rows, wanted) in parts {
            agreed(tree, s, rows, wanted);
        }
        for (program, f) in PROGRAMS {
            let replies = &mut [[0; 8]; 5];
            let [a, b, c, d, e] = replies.each_mut();
            let call = |i: usize, reply: &mut [u8]| f(black_box(parts[i].0), black_box(parts[i].1), reply);
            measure(
                &format!("part {tree} {program}"),
                [&mut || call(0, a), &mut || call(1, b), &mut || call(2, c), &mut || call(3, d), &mut || call(4, e)],
            );
        }
        for (many, n) in [(128, 256), (512, 256), (2048, 32), (2048, 128), (2048, 256)] {
            let name = format!("size-{tree}-{many}-{n}");
            measure_register(&format!("size {tree} {many} {n}"), &sheet(&name), &rows(&name), &[0, 0]);
        }
    }
}
