// Holds the library to ordinary Rust on sheets and registers by chance: the register check (reference/register.rs, both of its
// forms) and the conversions (reference/conversion.rs). The same number is returned, and two buffers that began alike have the
// same bytes, behind the reply and the buffer too.
//
//   agree [--seed N] [--pairs N] [--only I]     I is one pair's number from a report
//   agree --self-test                           each of some forms that are wrong on purpose must be noticed

#[path = "../../reference/conversion.rs"]
mod conversion;
#[path = "../rust/library.rs"]
mod library;
#[path = "../rust/limits.rs"]
mod limits;
#[path = "../../reference/register.rs"]
mod register;
#[allow(dead_code)] // what ranges and claims alone want
#[path = "../../reference/sheet.rs"]
mod sheet;

mod draw;

use draw::{Pair, Rng};
use limits::{EDITIONS, FIRST, ROWS, SECOND};
use std::collections::BTreeMap;
use std::process::exit;

// An operation: from a sheet and a register into a reply.
type Operation = fn(&[u8], &[u8], &mut [u8]) -> u64;

struct Compared {
    what: &'static str,
    ours: Operation,
    rust: &'static [(&'static str, Operation)], // in each of its forms
}

const CHECK: usize = 0;
const SHEET_TO_1: usize = 1;
const SHEET_TO_2: usize = 2;
const REGISTER_TO_1: usize = 3;
const REGISTER_TO_2: usize = 4;

const COMPARED: [Compared; 5] = [
    Compared { what: "refusal", ours: library::register, rust: &[("columns", register::check), ("walk", register::check_by_walk)] },
    Compared {
        what: "sheet to edition 1: refusal",
        ours: |s, _, r| library::sheet_to(1, s, r),
        rust: &[("conversion", |s, _, r| conversion::sheet_to(1, s, r))],
    },
    Compared {
        what: "sheet to edition 2: refusal",
        ours: |s, _, r| library::sheet_to(2, s, r),
        rust: &[("conversion", |s, _, r| conversion::sheet_to(2, s, r))],
    },
    Compared {
        what: "register to edition 1: refusal",
        ours: |s, g, r| library::register_to(1, s, g, r),
        rust: &[("conversion", |s, g, r| conversion::register_to(1, s, g, r))],
    },
    Compared {
        what: "register to edition 2: refusal",
        ours: |s, g, r| library::register_to(2, s, g, r),
        rust: &[("conversion", |s, g, r| conversion::register_to(2, s, g, r))],
    },
];

const BEHIND: usize = 8; // bytes behind the buffer

// What is returned, and all bytes.
fn given(operation: Operation, pair: &Pair, room: usize) -> (u64, Vec<u8>) {
    let mut bytes: Vec<u8> = (0..room + BEHIND).map(|i| 0xa5 ^ i as u8).collect();
    let said = operation(&pair.sheet, &pair.register, &mut bytes[..room]);
    (said, bytes)
}

// The bytes of the buffer: of a conversion mostly as many as it wants, or more, at times fewer; it changes from pair to pair.
fn room(number: u64, operation: usize, pair: &Pair) -> usize {
    if operation == CHECK {
        return pair.room;
    }
    let want = if operation < REGISTER_TO_1 {
        pair.sheet.len()
    } else {
        let (own, to) = (row_of(&pair.sheet), if operation == REGISTER_TO_1 { FIRST.row } else { SECOND.row });
        pair.register.len() / own * to
    };
    match (number + operation as u64) % 8 {
        0 => want.saturating_sub(1),
        1 => want / 2,
        2 => want + 1,
        3 => want + 30,
        _ => want,
    }
}

fn hex(bytes: &[u8]) -> String {
    bytes.iter().map(|b| format!("{b:02x}")).collect()
}

fn halves(said: u64) -> (u32, u32) {
    ((said >> 32) as u32, said as u32)
}

// What a run met, by edition: how often.
#[derive(Default)]
struct Met(BTreeMap<(u16, &'static str, usize), u64>);

impl Met {
    fn one(&mut self, pair: &Pair, what: &'static str, n: usize) {
        *self.0.entry((pair.edition.number, what, n)).or_default() += 1;
    }

    fn pair(&mut self, pair: &Pair, operation: usize, said: u64, reply: &[u8]) {
        let (refusal, _) = halves(said);
        self.one(pair, COMPARED[operation].what, refusal as usize);
        if operation == CHECK && refusal == 0 {
            let (group, rule) = (sheet::get16(reply, 4) as usize, sheet::get16(reply, 6) as usize);
            self.one(pair, "rule", rule);
            if group == pair.groups {
                self.one(pair, "rule at the last group", rule);
            }
            if group > 64 {
                self.one(pair, "rule at a group above 64", rule);
            }
            if let Some(members) = pair.members {
                self.one(pair, "members", members);
                if pair.rows > members {
                    self.one(pair, "rule of joined rows", rule);
                }
            }
        }
    }

    // What every run has to meet in each edition; a last group has no sons to share a member. 16 and 17 are edition 2's.
    fn missing(&self) -> Vec<String> {
        let wanted: [(&str, &[usize]); 10] = [
            ("refusal", &[0, 1, 2, 3, 4, 5, 6, 7, 10, 11, 12, 13, 14, 15]),
            ("rule", &[0, 1, 2, 3, 4, 5, 6]),
            ("rule at the last group", &[1, 2, 3, 5, 6]),
            ("rule at a group above 64", &[1, 2, 3, 4, 5, 6]),
            ("rule of joined rows", &[0, 1, 2, 3, 4, 5, 6]),
            ("members", &[0, 1, 63, 64, 65, 127, 128, 129, 2047, 2048]),
            (COMPARED[SHEET_TO_1].what, &[0, 1, 2, 3, 4, 5, 6, 7, 14, 16, 17]),
            (COMPARED[SHEET_TO_2].what, &[0, 1, 2, 3, 4, 5, 6, 7, 14]),
            (COMPARED[REGISTER_TO_1].what, &[0, 1, 2, 3, 4, 5, 6, 7, 10, 11, 12, 13, 14, 15, 16, 17]),
            (COMPARED[REGISTER_TO_2].what, &[0, 1, 2, 3, 4, 5, 6, 7, 10, 11, 12, 13, 14, 15]),
        ];
        let all = EDITIONS.iter().flat_map(|e| wanted.map(|(what, of)| of.iter().map(move |&n| (e.number, what, n))));
        let mut all: Vec<_> = all.flatten().filter(|key| !self.0.contains_key(key)).collect();
        all.retain(|&(e, what, n)| e == 2 || !(16..=17).contains(&n) || !what.ends_with("edition 1: refusal"));
        all.into_iter().map(|(e, what, n)| format!("edition {e}: {what} {n}")).collect()
    }
}

// Bytes of a row under a sheet.
fn row_of(s: &[u8]) -> usize {
    if sheet::wide(s) { SECOND.row } else { FIRST.row }
}

// Wrong on purpose, each over the right one.
const SPOILT: [(&str, usize, Operation); 17] = [
    ("every register fits", CHECK, |s, g, r| {
        let said = register::check(s, g, r);
        if said == 8 {
            r[4..8].fill(0);
        }
        said
    }),
    ("the group's high byte is lost", CHECK, |s, g, r| {
        let said = register::check(s, g, r);
        if said == 8 {
            r[5] = 0;
        }
        said
    }),
    ("a byte behind the reply is written", CHECK, |s, g, r| {
        let said = register::check(s, g, r);
        if said == 8 && r.len() > 8 {
            r[8] = 0;
        }
        said
    }),
    ("a refusal writes", CHECK, |s, g, r| {
        let said = register::check(s, g, r);
        if said >> 32 != 0 && !r.is_empty() {
            r[0] = 0;
        }
        said
    }),
    ("7 bytes are enough", CHECK, |s, g, r| {
        let said = register::check(s, g, &mut [0; 8]);
        if said == 8 && r.len() == 7 { said } else { register::check(s, g, r) }
    }),
    ("the last row is passed over", CHECK, |s, g, r| {
        let row = row_of(s);
        register::check(s, if g.len() % row == 0 { &g[..g.len().saturating_sub(row)] } else { g }, r)
    }),
    ("the row of a refusal counts from 0", CHECK, |s, g, r| {
        let said = register::check(s, g, r);
        if (10..=13).contains(&(said >> 32)) { said - 1 } else { said }
    }),
    ("rows of 2,048 members are not read", CHECK, |s, g, r| {
        if g.len() == ROWS * row_of(s) { register::check(s, &[], r) } else { register::check(s, g, r) }
    }),
    ("12 is given for 15", CHECK, |s, g, r| {
        let said = register::check(s, g, r);
        if said >> 32 == 15 { said - (3 << 32) } else { said }
    }),
    ("a cut row is passed over", CHECK, |s, g, r| {
        register::check(s, &g[..g.len() - g.len() % row_of(s)], r)
    }),
    ("the edition stays", SHEET_TO_2, |s, _, r| {
        let said = conversion::sheet_to(2, s, r);
        if said >> 32 == 0 {
            r[4] = s[4];
        }
        said
    }),
    ("17 has the name's number", SHEET_TO_1, |s, _, r| {
        let said = conversion::sheet_to(1, s, r);
        if said >> 32 == 17 { said - 1 - sheet::get16(s, 6) as u64 } else { said }
    }),
    ("16 has record 1", REGISTER_TO_1, |s, g, r| {
        let said = conversion::register_to(1, s, g, r);
        if said >> 32 == 16 { said + 1 } else { said }
    }),
    ("17 is passed over for a register", REGISTER_TO_1, |s, g, r| {
        let said = conversion::register_to(1, s, g, r);
        if said >> 32 == 17 { conversion::register_to(2, s, g, r) } else { said }
    }),
    ("a row's kind stays", REGISTER_TO_2, |s, g, r| {
        let said = conversion::register_to(2, s, g, r);
        if said >> 32 == 0 && said > 0 {
            r[2] = g[2];
        }
        said
    }),
    ("bytes that are added are not cleared", REGISTER_TO_2, |s, g, r| {
        let said = conversion::register_to(2, s, g, r);
        if said >> 32 == 0 && said > 0 {
            r[SECOND.row - 1] = 0xa5;
        }
        said
    }),
    ("a refused conversion writes", REGISTER_TO_1, |s, g, r| {
        let said = conversion::register_to(1, s, g, r);
        if said >> 32 != 0 && !r.is_empty() {
            r[0] = 0;
        }
        said
    }),
];

fn option(name: &str) -> Option<u64> {
    let at = std::env::args().position(|a| a == name)?;
    std::env::args().nth(at + 1)?.parse().ok()
}

fn main() {
    let (seed, pairs) = (option("--seed").unwrap_or(14), option("--pairs").unwrap_or(400_000));
    let drawn = |i| draw::pair(&mut Rng::new(seed, i));
    if std::env::args().any(|a| a == "--self-test") {
        let differ = |i, operation: usize, spoilt: Operation| {
            let pair = drawn(i);
            let room = room(i, operation, &pair);
            given(COMPARED[operation].ours, &pair, room) != given(spoilt, &pair, room)
        };
        let noticed = |operation, spoilt| (1..=pairs).any(|i| differ(i, operation, spoilt));
        let missed: Vec<_> = SPOILT.iter().filter(|(_, operation, spoilt)| !noticed(*operation, *spoilt)).collect();
        for (what, ..) in &missed {
            println!("FAILED: '{what}' was not noticed");
        }
        println!("self-test: {} passed, {} failed", SPOILT.len() - missed.len(), missed.len());
        exit(!missed.is_empty() as i32);
    }
    let only = option("--only");
    let mut met = Met::default();
    for i in only.map_or(1..=pairs, |i| i..=i) {
        let pair = drawn(i);
        for (operation, compared) in COMPARED.iter().enumerate() {
            let room = room(i, operation, &pair);
            let (said, bytes) = given(compared.ours, &pair, room);
            for (form, rust) in compared.rust {
                let (rust, other) = given(*rust, &pair, room);
                if (said, &bytes) != (rust, &other) {
                    let of = compared.what.strip_suffix(": refusal").unwrap_or("register check");
                    println!("DISAGREEMENT with Rust by {form}, {of}: --seed {seed} --only {i}, buffer of {room} bytes");
                    println!("ours {:?} {}\nRust {:?} {}", halves(said), hex(&bytes), halves(rust), hex(&other));
                    println!("sheet {}\nregister {}", hex(&pair.sheet), hex(&pair.register));
                    exit(1);
                }
            }
            met.pair(&pair, operation, said, &bytes);
        }
    }
    if only.is_none() && pairs >= 100_000 {
        let missing = met.missing();
        if !missing.is_empty() {
            println!("never met: {}", missing.join("; "));
            exit(1);
        }
    }
    println!("compared: {} passed, 0 failed", only.map_or(pairs, |_| 1));
}
