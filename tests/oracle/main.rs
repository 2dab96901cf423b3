// Holds the library to an independent implementation, through its C symbols.
//
//   oracle [--seed N] [--cases N] [--only I]   compare; I is one sheet's number from a report
//          [--lo-above] [--lo-below] [--hi-above] [--hi-below]   with the bounds of replaced sheets off by one
//          [--verdicts]                       of replaced sheets compare the verdicts alone
//   oracle --self-test [--seed N]              hold the implementation's own methods together
//
// A case is one operation on one input (sheet, and claim number or register); it is called with
// one or more reply buffers.

mod conversion;
mod format;
mod gen;
mod large;
#[path = "../rust/library.rs"]
mod library;
mod selftest;
mod small;

use conversion::{register_towards, sheet_towards};
use format::*;
use gen::Rng;
use large::{arrangement, Large};
use library::Ask;
use small::Small;
use std::collections::BTreeMap;
use std::process::exit;

// What must come back: a refusal, these bytes, or a verdict on this claim with sets.
enum Want<'a> {
    Refused(u32, u32),
    Bytes(Vec<u8>),
    Shown(&'a Sheet, &'a Claim),
}

impl Want<'_> {
    // The bytes of the reply; a refusal has none.
    fn length(&self) -> usize {
        match self {
            Want::Refused(..) => 0,
            Want::Bytes(b) => b.len(),
            Want::Shown(s, _) => verdict_with_sets(s.groups.len()),
        }
    }
}

const VERDICT: usize = 6;

fn verdict_with_sets(groups: usize) -> usize {
    VERDICT + 14 * groups
}

const GUARD: usize = 24;

struct Run {
    seed: u64,
    off: Off,
    verdicts: bool, // of replaced sheets compare the verdicts alone
    number: u64,
    replaced: bool, // a replaced sheet is being compared
    converted: bool, // one in the other edition is
    cases: u64,
    calls: u64,
    met: BTreeMap<String, u64>,
}

impl Run {
    fn met(&mut self, what: &str) {
        match self.met.get_mut(what) {
            Some(n) => *n += 1,
            None => {
                self.met.insert(what.to_string(), 1);
            }
        }
    }

    fn fail(&self, sheet: &[u8], ask: &Ask, len: usize, why: &str) -> ! {
        let mut text = format!(
            "DISAGREEMENT: {why}\nseed {}, sheet {} (see it again: --seed {} --only {})\n",
            self.seed, self.number, self.seed, self.number
        );
        text += &match ask {
            Ask::Ranges => "operation: ranges\n".to_string(),
            Ask::Claim(n) => format!("operation: claim {n}\n"),
            Ask::Register(reg) => {
                format!("operation: register\nregister in hex: {}\n", hex(reg))
            }
            Ask::SheetTo(n) => format!("operation: sheet to edition {n}\n"),
            Ask::RegisterTo(n, reg) => {
                format!("operation: register to edition {n}\nregister in hex: {}\n", hex(reg))
            }
        };
        if self.converted {
            text += &format!("the sheet below is sheet {} in the other edition\n", self.number);
        }
        if self.replaced {
            text += &format!("the sheet below is sheet {} with its ranges as bounds\n", self.number);
        }
        text += &format!("reply buffer: {len} bytes\nsheet in hex: {}\n", hex(sheet));
        text += &match read_sheet(sheet) {
            Ok(s) => show(&s),
            Err((n, r)) => format!("(not readable: refusal {n}, record {r})\n"),
        };
        eprint!("{text}");
        exit(1)
    }

    fn try_one(&mut self, sheet: &[u8], ask: &Ask, len: usize, want: &Want) {
        self.calls += 1;
        let salt = (self.calls % 251) as usize;
        let pattern = |i: usize| (i * 37 + salt) as u8;
        let mut buffer: Vec<u8> = (0..len + 2 * GUARD).map(pattern).collect();
        let reply = if len == 0 && salt % 2 == 0 { None } else { Some(&mut buffer[GUARD..GUARD + len]) };
        let lent: Box<[u8]> = sheet.into();
        let got = ask.call(&lent, reply);
        if *lent != *sheet {
            self.fail(sheet, ask, len, "the sheet's own bytes were changed");
        }
        let (number, second) = (got >> 32, got & 0xffff_ffff);
        let said = format!("returned {number} and {second}");
        let written = match want {
            Want::Refused(n, r) => {
                if (number, second) != (*n as u64, *r as u64) {
                    self.fail(sheet, ask, len, &format!("{said}, wanted refusal {n} with {r}"));
                }
                0
            }
            Want::Bytes(bytes) => {
                if (number, second) != (0, bytes.len() as u64) {
                    let n = bytes.len();
                    self.fail(sheet, ask, len, &format!("{said}, wanted 0 and {n}"));
                }
                if buffer[GUARD..GUARD + bytes.len()] != bytes[..] {
                    let why = format!(
                        "reply {}\n  wanted {}",
                        hex(&buffer[GUARD..GUARD + bytes.len()]),
                        hex(bytes)
                    );
                    self.fail(sheet, ask, len, &why);
                }
                bytes.len()
            }
            Want::Shown(s, claim) => {
                let need = want.length();
                if (number, second) != (0, need as u64) {
                    let why = format!("{said}, wanted 0 and {need} (a verdict with sets)");
                    self.fail(sheet, ask, len, &why);
                }
                if let Err(why) = check_shown(s, claim, &buffer[GUARD..GUARD + need]) {
                    self.fail(sheet, ask, len, &why);
                }
                need
            }
        };
        let touched = (0..buffer.len())
            .find(|&i| !(GUARD..GUARD + written).contains(&i) && buffer[i] != pattern(i));
        if let Some(i) = touched {
            let at = i as i64 - GUARD as i64;
            self.fail(sheet, ask, len, &format!("byte {at} of the reply buffer was changed"));
        }
    }

    // One case: with a buffer of the right length, and with some others.
    fn case(&mut self, rng: &mut Rng, sheet: &[u8], ask: &Ask, want: Want) {
        self.cases += 1;
        let op = match *ask {
            Ask::Ranges => "ranges".to_string(),
            Ask::Claim(_) => "claim".to_string(),
            Ask::Register(_) => "register".to_string(),
            Ask::SheetTo(n) => sheet_to(n),
            Ask::RegisterTo(n, _) => register_to(n),
        };
        if let Want::Refused(n, _) = want {
            self.met(&format!("{op}: refusal {n:2}"));
            // No refusal but 14 asks how long the buffer is.
            let len = rng.pick(&[0, 1, 5, 6, 7, 8, 9, 20, 26, 2560, 5120, 6000]);
            self.try_one(sheet, ask, len, &want);
            return;
        }
        self.met(&format!("{op}: answered"));
        let need = want.length();
        let (less, more) = (rng.index(need), need + rng.pick(&[1, 2, 7, 14, 20, 300]));
        let mut lengths = vec![need.saturating_sub(1), need, less, more];
        if need == 0 {
            lengths = vec![0, more]; // no rows, converted
        } else if let Ask::Claim(_) = ask {
            // Around the length of either reply.
            let full = verdict_with_sets(word(sheet, 6) as usize);
            lengths.extend([VERDICT - 1, VERDICT, full - 1, full]);
            lengths.sort_unstable();
            lengths.dedup();
        } else {
            lengths.push(rng.pick(&[0, 5, 6, 7]).min(need - 1));
        }
        for len in lengths {
            if len < need {
                self.met(&format!("{op}: refusal 14"));
                self.try_one(sheet, ask, len, &Want::Refused(14, 0));
            } else {
                self.try_one(sheet, ask, len, &want);
            }
        }
    }

    // One case of a sheet whose bounds are another's ranges.
    fn of_replaced(&mut self, rng: &mut Rng, sheet: &[u8], ask: &Ask, want: Want) {
        self.replaced = true;
        self.case(rng, sheet, ask, want);
        self.replaced = false;
    }

    fn sheet(&mut self, number: u64) {
        self.number = number;
        let mut rng = Rng::new(self.seed.wrapping_mul(1_000_003).wrapping_add(number));
        let rng = &mut rng;
        // Of its own, so that the other cases are the same with it and without it.
        let mut for_conversion = Rng::new(self.seed.wrapping_mul(1_000_033).wrapping_add(number));
        let converts = for_conversion.chance(CONVERTED);
        if number % FULL == 7 || number % JOINED == 5 || number % LATE == 11 {
            let (bytes, registers) = if number % FULL == 7 {
                gen::full(rng, number / FULL)
            } else if number % LATE == 11 {
                gen::late(rng)
            } else {
                gen::joined(rng)
            };
            let sheet = read_sheet(&bytes).expect("a readable sheet");
            for reg in &registers {
                self.register(rng, &bytes, &sheet, reg);
            }
            if converts {
                let start = for_conversion.index(registers.len() - 1);
                self.conversions(&mut for_conversion, &bytes, Ok(&sheet), &registers[start..start + 2]);
            }
            return;
        }
        if number % NEAR == 2 {
            let draft = gen::near_first(&mut for_conversion);
            let bytes = draft.records.concat();
            let sheet = read_sheet(&bytes).expect("a readable sheet");
            let registers = [0; 2].map(|_| gen::near_most(&mut for_conversion, &draft));
            self.conversions(&mut for_conversion, &bytes, Ok(&sheet), &registers);
            return;
        }
        let mut draft = if number % WIDEST == 3 { gen::widest(rng) } else { gen::draft(rng) };
        let bytes = if rng.chance(35) { gen::damage(rng, &draft) } else { draft.records.concat() };
        let sheet = match read_sheet(&bytes) {
            Ok(s) => s,
            Err((n, r)) => {
                self.met("sheets: not readable");
                self.unreadable(&bytes, n, r);
                self.case(rng, &bytes, &Ask::Ranges, Want::Refused(n, r));
                let c = rng.pick(&[0, 1, 2, 64, 65537, u32::MAX]);
                self.case(rng, &bytes, &Ask::Claim(c), Want::Refused(n, r));
                let reg = gen::register(rng, &draft);
                self.case(rng, &bytes, &Ask::Register(&reg), Want::Refused(n, r));
                if converts {
                    self.conversions(&mut for_conversion, &bytes, Err((n, r)), &[reg]);
                }
                return;
            }
        };
        self.readable(&bytes, &sheet);
        self.ranges_and_claims(rng, &bytes, &sheet);
        // Where the head has another edition now, registers of either.
        if rng.chance(50) {
            draft.edition = sheet.edition;
        }
        let mut registers = Vec::new();
        for _ in 0..1 + rng.below(3) {
            let reg = gen::register(rng, &draft);
            self.register(rng, &bytes, &sheet, &reg);
            registers.push(reg);
        }
        if converts {
            self.conversions(&mut for_conversion, &bytes, Ok(&sheet), &registers);
        }
    }

    // Document 02, card 6: the sheet and the registers towards each edition. What goes to the other one has the same answers
    // there, and comes back as it was.
    fn conversions(&mut self, rng: &mut Rng, bytes: &[u8], read: Result<&Sheet, Refusal>, registers: &[Vec<u8>]) {
        let wanted = |answer: &Result<Vec<u8>, Refusal>| match answer {
            Ok(reply) => Want::Bytes(reply.clone()),
            Err((n, r)) => Want::Refused(*n, *r),
        };
        for to in EDITIONS {
            let answer = sheet_towards(bytes, to);
            if let Ok(sheet) = read {
                self.towards(bytes, sheet, to, &answer);
            }
            self.case(rng, bytes, &Ask::SheetTo(to.number()), wanted(&answer));
            for reg in registers {
                let answer = register_towards(bytes, reg, to);
                if let Ok(sheet) = read {
                    self.rows_towards(sheet, reg, to, &answer);
                }
                self.case(rng, bytes, &Ask::RegisterTo(to.number(), reg), wanted(&answer));
            }
        }
        let Ok(sheet) = read else { return };
        let (own, other) = (sheet.edition, sheet.edition.other());
        let Ok(there) = sheet_towards(bytes, other) else { return };
        self.converted = true;
        if there.len() != bytes.len() || (0..there.len()).any(|at| (there[at] != bytes[at]) != (at == 4)) {
            self.fail(&there, &Ask::SheetTo(other.number()), 0, "the oracle changes another byte than the edition's");
        }
        self.case(rng, &there, &Ask::SheetTo(own.number()), Want::Bytes(bytes.to_vec()));
        self.ranges_and_claims(rng, &there, sheet);
        for reg in registers {
            let (Ok(rows), Ok(before)) = (register_towards(bytes, reg, other), read_register(reg, own, sheet.groups.len())) else {
                continue;
            };
            if read_register(&rows, other, sheet.groups.len()) != Ok(before) {
                self.fail(&there, &Ask::RegisterTo(other.number(), reg), 0, "the oracle's rows carry something else");
            }
            self.case(rng, &there, &Ask::RegisterTo(own.number(), &rows), Want::Bytes(reg.clone()));
            self.register(rng, &there, &Sheet { edition: other, ..sheet.clone() }, &rows);
        }
        self.converted = false;
    }

    // What is met where a readable sheet goes towards an edition, or is turned back on the way.
    fn towards(&mut self, bytes: &[u8], sheet: &Sheet, to: Edition, answer: &Result<Vec<u8>, Refusal>) {
        let op = sheet_to(to.number());
        let labels: Vec<usize> = records(bytes).filter(|r| r.0 == 3).map(|r| r.1.len() - 2).collect();
        let (groups, long) = (sheet.groups.len(), labels.iter().filter(|&&n| n > 16).count());
        let copied = sheet.edition == to;
        let possible = Large::new(sheet).possible();
        for (what, met) in match answer {
            Ok(_) => vec![
                (COPIED, copied),
                (CONVERTED_TO, !copied),
                (CONVERTS_IMPOSSIBLE, !copied && !possible),
                (CONVERTS_MOST, !copied && groups == 128),
                (CONVERTS_16, !copied && labels.contains(&16)),
                (COPIES_WIDE, copied && groups > 128),
                (COPIES_LONG, copied && long > 0),
            ],
            Err((16, _)) => vec![(MANY_129, groups == 129), (MANY_256, groups == 256), (MANY_LONG, long > 0), (MANY_IMPOSSIBLE, !possible)],
            Err((_, r)) => {
                let at = *r as usize - groups - 2;
                vec![
                    (LONG_FIRST, at == 0 && labels.len() > 1),
                    (LONG_LAST, at > 0 && at + 1 == labels.len()),
                    (LONG_17, labels[at] == 17),
                    (LONG_32, labels[at] == 32),
                    (LONG_ALONE, long == 1 && labels.len() > 1),
                    (LONG_AFTER_16, at > 0 && labels[at - 1] == 16),
                    (LONG_MOST, groups == 128),
                    (LONG_IMPOSSIBLE, !possible),
                ]
            }
        } {
            if met {
                self.met(&format!("{op}: {what}"));
            }
        }
    }

    // And where a register under it does.
    fn rows_towards(&mut self, sheet: &Sheet, reg: &[u8], to: Edition, answer: &Result<Vec<u8>, Refusal>) {
        let op = register_to(to.number());
        let (groups, copied) = (sheet.groups.len(), sheet.edition == to);
        let rows = read_register(reg, sheet.edition, groups);
        match (answer, rows) {
            (Ok(_), Ok(rows)) => {
                let how = if copied { COPIED } else { CONVERTED_TO };
                let joined = rows.windows(2).any(|r| r[0].0 == r[1].0);
                let in_none = rows.iter().any(|r| r.1.none());
                self.met(&format!("{op}: {how}"));
                for (what, met) in [
                    (NO_ROWS, rows.is_empty()),
                    (MOST_ROWS, rows.len() == 2048),
                    (EQUAL_PAIRS, joined),
                    (IN_NO_GROUP, in_none),
                    (BROKEN, broken_rule(sheet, &members(&rows)) != (0, 0)),
                ] {
                    if met {
                        self.met(&format!("{op}: {how}, {what}"));
                    }
                }
                for group in AT_EDGES {
                    if rows.iter().any(|r| r.1.has(group - 1)) {
                        self.met(&format!("{op}: {how}, {}", a_row_in(group)));
                    }
                }
            }
            (Err((n @ 16..=17, _)), Err((row, _))) => self.met(&both_refused(*n, row)),
            (Err((11, 1)), _) if read_register(reg, sheet.edition.other(), groups).is_ok_and(|rows| rows.len() > 1) => {
                self.met(&format!("{op}: {}", if copied { OTHER_REGISTER } else { WANTED_ALREADY }));
            }
            _ => {}
        }
    }

    // What is met where record r of a sheet is turned back by n.
    fn unreadable(&mut self, bytes: &[u8], n: u32, r: u32) {
        let Some((kind, body)) = records(bytes).nth(r as usize - 1) else { return };
        if let 4..=9 = kind {
            self.met(&format!("sheets: refusal {n} at kind {kind}"));
        }
        if (n, r) == (4, 1) {
            let (number, groups) = (word(body, 0), word(body, 2));
            if BAD_EDITIONS.contains(&number) {
                self.met(&of_edition(number));
            } else if BAD_GROUPS.contains(&(number, groups)) {
                self.met(&of_groups((number, groups)));
            }
        }
        if kind == 3 && r > 1 {
            let edition = Edition::of(word(bytes, 4)).expect("a head that was read");
            if n == 3 && body.len() == 2 + edition.label_limit() + 1 {
                self.met(&too_long(edition));
            }
            if n == 6 && body.len() > 2 + 16 {
                self.met(LONG_TWICE);
            }
        }
    }

    // What is met where a sheet is readable.
    fn readable(&mut self, bytes: &[u8], sheet: &Sheet) {
        let (edition, groups) = (sheet.edition, sheet.groups.len());
        self.met(&format!("sheets: edition {}", edition.number()));
        if groups == edition.group_limit() {
            self.met(&most_groups(edition));
        }
        if edition == Edition::Two {
            match groups {
                129 => self.met(GROUPS_129),
                ..=8 => self.met(FEW_GROUPS),
                _ => {}
            }
        }
        let mut labels: Vec<&[u8]> = records(bytes).filter(|r| r.0 == 3).map(|r| &r.1[2..]).collect();
        labels.sort_unstable();
        if labels.iter().any(|l| l.len() == edition.label_limit()) {
            self.met(&longest_label(edition));
        }
        // Those that begin alike are neighbours now: lengths of two, and how many bytes they begin with are alike.
        let alike = |a: &[u8], b: &[u8]| a.iter().zip(b).take_while(|(a, b)| a == b).count();
        let pairs = || labels.windows(2).map(|l| (l[0].len(), l[1].len(), alike(l[0], l[1])));
        let ends: Vec<(usize, &[u8])> = labels.iter().filter(|l| l.len() > 16).map(|l| (l.len(), &l[l.len() - 16..])).collect();
        for (what, met) in [
            (ALIKE_16, pairs().any(|(a, b, n)| a == b && a > 16 && n >= 16)),
            (ALIKE_BUT_LAST, pairs().any(|(a, b, n)| a == b && a > 16 && n == a - 1)),
            (END_ALIKE_16, (1..ends.len()).any(|k| ends[..k].contains(&ends[k]))),
            (BEGINS_WITH, pairs().any(|(a, b, n)| a == 16 && b > 16 && n == 16)),
        ] {
            if met {
                self.met(what);
            }
        }
    }

    fn register(&mut self, rng: &mut Rng, bytes: &[u8], sheet: &Sheet, reg: &[u8]) {
        let want = match read_register(reg, sheet.edition, sheet.groups.len()) {
            Err((n, r)) => {
                self.refused(sheet, reg, n, r);
                Want::Refused(n, r)
            }
            Ok(rows) => {
                let members = members(&rows);
                let (g, rule) = broken_rule(sheet, &members);
                self.met(&format!("register: rule {rule}"));
                if !rows.is_empty() {
                    self.met(&in_edition(sheet.edition, "rule", rule as u32));
                }
                if g > 128 {
                    self.met(&above_128(rule));
                }
                for group in AT_EDGES {
                    if rule == 0 && members.iter().any(|m| m.0.has(group - 1)) {
                        self.met(&held_at(group));
                    }
                }
                if rows.len() >= 2040 {
                    self.met(&format!("register: rule {rule}, 2,040 rows or more"));
                }
                // Rows r and r + 1 are so; any two neighbours are.
                let two = |r: usize, so: fn(Ear, Ear) -> bool| rows.len() > r && so(rows[r - 1].0, rows[r].0);
                let any = |so: fn(Ear, Ear) -> bool| rows.windows(2).any(|r| so(r[0].0, r[1].0));
                if members.len() < rows.len() {
                    self.met(&format!("register: joined rows, rule {rule}"));
                    let apart: Vec<(Groups, u64)> = rows.iter().map(|r| (r.1, 1)).collect();
                    self.other(rule, broken_rule(sheet, &apart).1, ROW_BY_ROW);
                    for (what, met) in [
                        (THREE_ROWS, rows.windows(3).any(|r| r[0].0 == r[2].0)),
                        (AT_WORD, two(64, |a, b| a == b)),
                        (AT_END, rows.len() == 2048 && two(2047, |a, b| a == b)),
                        (ALL_ROWS, rows.len() == 2048 && members.len() == 1),
                        (BOTH_JOINED, rows.windows(4).any(|r| r[0].0 == r[1].0 && both(r[1].0, r[2].0) && r[2].0 == r[3].0)),
                    ] {
                        if met {
                            self.met(what);
                        }
                    }
                }
                if any(both) {
                    self.met(&format!("register: both ears, rule {rule}"));
                    self.other(rule, broken_rule(sheet, &joined(&rows, |ear| ear.0)).1, BY_NUMBERS);
                    for (what, met) in [(BOTH_AT_WORD, two(64, both)), (BOTH_AT_END, rows.len() == 2048 && two(2047, both))] {
                        if met {
                            self.met(what);
                        }
                    }
                }
                if any(|a, b| a.0 < b.0 && a.1 > b.1) {
                    self.met(SIDE_FALLS);
                }
                let mut b = vec![6, 0, 20, 0];
                b.extend(g.to_le_bytes());
                b.extend(rule.to_le_bytes());
                Want::Bytes(b)
            }
        };
        self.case(rng, bytes, &Ask::Register(reg), want);
    }

    // Another way of taking members would pass what is broken, or break what passes.
    fn other(&mut self, rule: u16, there: u16, way: &str) {
        if (rule == 0) != (there == 0) {
            self.met(&otherwise(rule, there, way));
        }
    }

    // What is met where row r is turned back by n.
    fn refused(&mut self, sheet: &Sheet, reg: &[u8], n: u32, r: u32) {
        let (edition, groups) = (sheet.edition, sheet.groups.len());
        self.met(&in_edition(edition, "refusal", n));
        if r >= 2040 {
            self.met(&format!("register: refusal {n} at row 2,040 or later"));
        }
        // The row, as much of it as there is, and the ears of the rows before.
        let (before, row) = reg.split_at(edition.row() * (r as usize - 1));
        let before: Vec<Ear> = before.chunks(edition.row()).map(ear).collect();
        if before.windows(2).any(|m| m[0] == m[1]) {
            self.met(&format!("register: refusal {n} after joined rows"));
        }
        if n == 11 && row.len() >= 4 {
            let (length, kind, other) = (word(row, 0), word(row, 2), edition.other());
            if kind == 32 {
                self.met(if length == 22 { OLD_ROW } else { OLD_KIND });
            }
            // All rows would be read in the other edition.
            let all = || read_register(reg, other, other.group_limit()).is_ok_and(|rows| rows.len() > 1);
            for (what, met) in [
                (OTHER_REGISTER, r == 1 && all()),
                (OTHER_ROW, row.len() >= other.row() && (length, kind) == (other.row_length(), other.row_kind())),
                (OTHER_KIND, row.len() >= edition.row() && (length, kind) == (edition.row_length(), other.row_kind())),
                (OTHER_LENGTH, row.len() >= other.row() && (length, kind) == (other.row_length(), edition.row_kind())),
            ] {
                if met {
                    self.met(&under(edition, what));
                }
            }
        }
        if row.len() < edition.row() {
            return;
        }
        let above: Vec<usize> = (groups..edition.group_limit()).filter(|&g| bit(row, g)).collect();
        for (what, met) in [
            (BIT_JUST_ABOVE, above == [groups]),
            (BIT_LAST, above == [edition.group_limit() - 1] && groups + 1 < edition.group_limit()),
        ] {
            if n == 13 && met {
                self.met(&under(edition, what));
            }
        }
        if n == 13 && edition == Edition::Two && groups <= 128 {
            self.met(if above[0] >= 128 { BIT_FROM_129 } else { BIT_TO_128 });
        }
        let (number, side) = ear(row);
        let last = before.last().copied().unwrap_or((0, 0));
        for (what, met) in [
            (ZERO, n == 12 && number == 0),
            (FALLS, n == 12 && number > 0 && number < last.0 && side == last.1),
            (FALLS_AS_SIDE_RISES, n == 12 && number > 0 && number < last.0 && side > last.1),
            (RIGHT_THEN_LEFT, n == 12 && number == last.0),
            (BIT_IN_JOINED, n == 13 && (number, side) == last),
            (SIDE_IN_BAD_ROW, n == 11 && side != 1 && side != 2),
            (SIDE_OF_ZERO, n == 15 && number == 0),
            (SIDE_FALLING, n == 15 && number > 0 && (number, side) < last),
            (SIDE_WITH_BIT, n == 15 && !above.is_empty()),
            (SIDE_0, n == 15 && side == 0),
            (SIDE_3, n == 15 && side == 3),
            (SIDE_BY_HIGH_BYTE, n == 15 && (row[8] == 1 || row[8] == 2)),
            (SIDE_AT_END, n == 15 && r == 2048),
        ] {
            if met {
                self.met(what);
            }
        }
        // What the rows after it would meet.
        match read_register(&row[edition.row()..], edition, groups) {
            Err((later, _)) if n == 15 || later == 15 => self.met(&then(n, later)),
            _ => {}
        }
    }

    fn ranges_and_claims(&mut self, rng: &mut Rng, bytes: &[u8], sheet: &Sheet) {
        let large = Large::new(sheet);
        let small = Small::new(sheet, 120_000);
        self.met(if small.is_some() { "sheets: enumerated" } else { "sheets: by closed forms alone" });
        let possible = large.possible();
        if small.as_ref().is_some_and(|s| s.possible != possible) {
            self.fail(bytes, &Ask::Ranges, 0, "the oracle's two methods differ: possible");
        }
        let q = sheet.claims.len() as u32;
        let wide = sheet.groups.len() > 128;
        if wide {
            self.met(if possible { WIDE_POSSIBLE } else { WIDE_IMPOSSIBLE });
        }
        if !possible {
            self.met("sheets: impossible");
            self.case(rng, bytes, &Ask::Ranges, Want::Refused(8, 0));
            for c in [1 + rng.below(1 + q as u64) as u32, rng.pick(&[0, q + 1, 65537, u32::MAX])] {
                self.case(rng, bytes, &Ask::Claim(c), Want::Refused(8, 0));
            }
            return;
        }
        self.met("sheets: possible");
        let mut reply = Vec::new();
        let runs = arrangement(sheet, &large.up);
        for g in 0..sheet.groups.len() {
            let (least, greatest) = large.range(g);
            if small.as_ref().is_some_and(|s| s.ranges[g] != (least, greatest)) {
                self.fail(bytes, &Ask::Ranges, 0, "the oracle's two methods differ: range");
            }
            match greatest {
                Some(end) if end == sheet.edition.greatest_end() => self.met(&greatest_end(sheet.edition)),
                Some(8_322_819..) => self.met(ABOVE_EDITION_1),
                _ => {}
            }
            reply.extend([18, 0, 17, 0]);
            for x in [least, greatest.unwrap_or(u32::MAX as u64), runs[g].0, runs[g].1] {
                reply.extend((x as u32).to_le_bytes());
            }
        }
        let shown: Vec<(u32, u32, u16)> =
            runs.iter().map(|r| (r.0 as u32, r.1 as u32, 0)).collect();
        if broken_rule(sheet, &expand(&shown)) != (0, 0) {
            self.fail(bytes, &Ask::Ranges, 0, "the oracle's arrangement doesn't fit");
        }
        // Document 02, card 13: no sets that fit have fewer members in the root, and no run leaves it.
        let end = |r: (u64, u64)| r.0 + r.1;
        if runs[0].1 != large.range(0).0
            || runs.iter().any(|&r| r.1 > 0 && (r.0 < runs[0].0 || end(r) > end(runs[0])))
        {
            self.fail(bytes, &Ask::Ranges, 0, "the oracle's arrangement isn't the smallest");
        }
        self.case(rng, bytes, &Ask::Ranges, Want::Bytes(reply.clone()));
        // And with its ranges as bounds a sheet keeps its reply.
        let again = replaced(bytes, reply.chunks(20).map(|record| self.off.range(record)));
        match &again {
            None => self.met("replaced: an end above 65,534"),
            Some(b) => {
                self.met(if b == bytes { "replaced: as it was" } else { "replaced: other bounds" });
                if !self.verdicts {
                    self.of_replaced(rng, b, &Ask::Ranges, Want::Bytes(reply));
                }
            }
        }
        let bad = rng.pick(&[0, q + 1, q + 1, q + 2, 65537, u32::MAX]);
        self.case(rng, bytes, &Ask::Claim(bad), Want::Refused(9, 0));
        let few = if small.is_some() { q } else { q.min(12) };
        let start = rng.below(q.max(1) as u64) as u32;
        for k in 0..few {
            let c = (start + k) % q;
            let claim = &sheet.claims[c as usize];
            let shown = large.shown(claim);
            if small.as_ref().is_some_and(|s| s.shown(claim) != shown) {
                self.fail(bytes, &Ask::Claim(c + 1), 0, "the oracle's two methods differ");
            }
            let holds = claim.holds_by_sets() == shown;
            let kind = claim.word();
            let size = if small.is_some() { "small" } else if wide { OVER_128 } else { "large" };
            let verdict = if holds { "holds" } else { "denied" };
            self.met(&format!("claim: {kind} {verdict}, {size}"));
            if let (false, Claim::Lists { kind: ListKind::Place, left, right }) = (shown, claim) {
                let pair = |a: &Named, b: &Named| Claim::Lists { kind: ListKind::Place, left: vec![*a, *b], right: right.clone() };
                if left.iter().all(|a| left.iter().all(|b| large.shown(&pair(a, b)))) {
                    self.met(PAIRS_ONLY);
                }
            }
            let want = || if shown {
                Want::Shown(sheet, claim)
            } else {
                Want::Bytes(vec![4, 0, 18, 0, holds as u8, 0])
            };
            self.case(rng, bytes, &Ask::Claim(c + 1), want());
            // The same sets fit the replaced sheet: those that its reply shows fit this one.
            if let (0, Some(b)) = (k, &again) {
                self.met(&format!("replaced: {kind} {verdict}"));
                self.of_replaced(rng, b, &Ask::Claim(c + 1), want());
            }
        }
    }
}

// What a replaced sheet's bounds are off by: nothing, but where `can-fail` asks for it.
#[derive(Clone, Copy, Default)]
struct Off {
    lo: i64,
    hi: i64,
}

impl Off {
    // The range in a record of a reply, each end that has a field moved.
    fn range(&self, record: &[u8]) -> (u32, u32) {
        let moved = |end: u32, by: i64| if end > 65534 { end } else { (end as i64 + by).clamp(0, 65534) as u32 };
        (moved(dword(record, 4), self.lo), moved(dword(record, 8), self.hi))
    }
}

fn hex(b: &[u8]) -> String {
    b.iter().map(|x| format!("{x:02x}")).collect()
}

// What a full run must have met, so that nothing was compared in name only.
fn wanted() -> Vec<String> {
    let mut all = Vec::new();
    let mut refusals = |op: &str, list: &[u32]| {
        for n in list {
            all.push(format!("{op}: refusal {n:2}"));
        }
        all.push(format!("{op}: answered"));
    };
    refusals("ranges", &[1, 2, 3, 4, 5, 6, 7, 8, 14]);
    refusals("claim", &[1, 2, 3, 4, 5, 6, 7, 8, 9, 14]);
    refusals("register", &[1, 2, 3, 4, 5, 6, 7, 10, 11, 12, 13, 14, 15]);
    refusals(&sheet_to(1), &[1, 2, 3, 4, 5, 6, 7, 14, 16, 17]);
    refusals(&sheet_to(2), &[1, 2, 3, 4, 5, 6, 7, 14]);
    refusals(&register_to(1), &[1, 2, 3, 4, 5, 6, 7, 10, 11, 12, 13, 14, 15, 16, 17]);
    refusals(&register_to(2), &[1, 2, 3, 4, 5, 6, 7, 10, 11, 12, 13, 14, 15]);
    for n in [1, 2] {
        let both = [COPIED, CONVERTED_TO, CONVERTS_IMPOSSIBLE, CONVERTS_MOST, CONVERTS_16];
        all.extend(both.map(|what| format!("{}: {what}", sheet_to(n))));
        for how in [COPIED, CONVERTED_TO] {
            let rows = [NO_ROWS, MOST_ROWS, EQUAL_PAIRS, IN_NO_GROUP, BROKEN];
            all.extend(rows.map(|what| format!("{}: {how}, {what}", register_to(n))));
            // 128 is the last group that a converted row has.
            let last = if n == 2 && how == COPIED { 256 } else { 128 };
            let edges = AT_EDGES.into_iter().filter(|&group| group <= last);
            all.extend(edges.map(|group| format!("{}: {how}, {}", register_to(n), a_row_in(group))));
        }
        all.extend([OTHER_REGISTER, WANTED_ALREADY].map(|what| format!("{}: {what}", register_to(n))));
    }
    all.extend([COPIES_WIDE, COPIES_LONG].map(|what| format!("{}: {what}", sheet_to(2))));
    let turned = [
        [MANY_129, MANY_256, MANY_LONG, MANY_IMPOSSIBLE].as_slice(),
        &[LONG_FIRST, LONG_LAST, LONG_17, LONG_32, LONG_ALONE, LONG_AFTER_16, LONG_MOST, LONG_IMPOSSIBLE],
    ];
    all.extend(turned.concat().into_iter().map(|what| format!("{}: {what}", sheet_to(1))));
    for n in [10, 11, 12, 13, 15] {
        all.extend([both_refused(16, n), both_refused(17, n)]);
    }
    for rule in 0..7 {
        all.push(format!("register: rule {rule}"));
        all.push(format!("register: rule {rule}, 2,040 rows or more"));
    }
    for rule in 0..7 {
        all.push(format!("register: joined rows, rule {rule}"));
        all.push(format!("register: both ears, rule {rule}"));
    }
    for n in [10, 11, 12, 13, 15] {
        all.push(format!("register: refusal {n} at row 2,040 or later"));
        all.push(format!("register: refusal {n} after joined rows"));
    }
    // Two rows as one member can break 4 and 5 where as two they don't; as two 1, 2, 3 and 6 where as one they don't.
    for rule in [4, 5] {
        all.push(otherwise(rule, 0, ROW_BY_ROW));
        all.push(otherwise(0, rule, BY_NUMBERS));
    }
    for rule in [1, 2, 3, 6] {
        all.push(otherwise(0, rule, ROW_BY_ROW));
        all.push(otherwise(rule, 0, BY_NUMBERS));
    }
    for n in 11..14 {
        all.extend([then(n, 15), then(15, n)]);
    }
    for edition in EDITIONS {
        all.extend((0..7).map(|rule| in_edition(edition, "rule", rule)));
        all.extend([10, 11, 12, 13, 15].map(|n| in_edition(edition, "refusal", n)));
        let rows = [OTHER_REGISTER, OTHER_ROW, OTHER_KIND, OTHER_LENGTH, BIT_JUST_ABOVE, BIT_LAST];
        all.extend(rows.map(|what| under(edition, what)));
    }
    all.extend((1..7).map(above_128));
    all.extend(AT_EDGES.map(held_at));
    let rest = [
        [THREE_ROWS, AT_WORD, AT_END, ALL_ROWS, ZERO, FALLS, BIT_IN_JOINED].as_slice(),
        &[BOTH_JOINED, BOTH_AT_WORD, BOTH_AT_END, SIDE_FALLS, FALLS_AS_SIDE_RISES, RIGHT_THEN_LEFT, OLD_ROW, OLD_KIND],
        &[BIT_TO_128, BIT_FROM_129],
        &[SIDE_IN_BAD_ROW, SIDE_OF_ZERO, SIDE_FALLING, SIDE_WITH_BIT, SIDE_0, SIDE_3, SIDE_BY_HIGH_BYTE, SIDE_AT_END],
    ];
    all.extend(rest.concat().into_iter().map(str::to_string));
    for kind in ["count"].into_iter().chain(LIST_KINDS.map(ListKind::word)) {
        for verdict in ["holds", "denied"] {
            for size in ["small", "large"] {
                all.push(format!("claim: {kind} {verdict}, {size}"));
            }
            all.push(format!("claim: {kind} {verdict}, {OVER_128}"));
            all.push(format!("replaced: {kind} {verdict}"));
        }
    }
    all.push(PAIRS_ONLY.to_string());
    for kind in 5..8 {
        for n in 3..6 {
            all.push(format!("sheets: refusal {n} at kind {kind}"));
        }
    }
    all.push("sheets: refusal 2 at kind 8".to_string());
    all.extend(BAD_EDITIONS.map(of_edition));
    all.extend(BAD_GROUPS.map(of_groups));
    for edition in EDITIONS {
        all.extend([most_groups(edition), longest_label(edition), too_long(edition)]);
        all.push(greatest_end(edition));
    }
    let sheets = [FEW_GROUPS, GROUPS_129, ALIKE_16, ALIKE_BUT_LAST, END_ALIKE_16, BEGINS_WITH, LONG_TWICE];
    all.extend(sheets.map(str::to_string));
    all.extend([WIDE_POSSIBLE, WIDE_IMPOSSIBLE].map(str::to_string));
    for what in ["other bounds", "as it was", "an end above 65,534"] {
        all.push(format!("replaced: {what}"));
    }
    all.push(ABOVE_EDITION_1.to_string());
    all
}

// Where it decides which rows are one member (document 02, cards 2 and 4).
fn otherwise(rule: u16, there: u16, way: &str) -> String {
    format!("register: rule {rule}, but {there} {way}")
}
const ROW_BY_ROW: &str = "row by row";
const BY_NUMBERS: &str = "by numbers alone";
const THREE_ROWS: &str = "register: a member on three rows";
const AT_WORD: &str = "register: a member on rows 64 and 65";
const AT_END: &str = "register: a member on rows 2,047 and 2,048, the last";
const ALL_ROWS: &str = "register: one member on 2,048 rows";

fn both(a: Ear, b: Ear) -> bool {
    a.0 == b.0 && a.1 < b.1
}
const BOTH_JOINED: &str = "register: both ears on two rows or more";
const BOTH_AT_WORD: &str = "register: both ears on rows 64 and 65";
const BOTH_AT_END: &str = "register: both ears on rows 2,047 and 2,048, the last";
const SIDE_FALLS: &str = "register: the number rises and the side falls";

const ZERO: &str = "register: refusal 12, number 0";
const FALLS: &str = "register: refusal 12, the number falls";
const FALLS_AS_SIDE_RISES: &str = "register: refusal 12, the number falls and the side rises";
const RIGHT_THEN_LEFT: &str = "register: refusal 12, right and then left of one number";
const BIT_IN_JOINED: &str = "register: refusal 13 in a row that goes on with its member";
const OLD_ROW: &str = "register: refusal 11, kind 32 and its length";
const OLD_KIND: &str = "register: refusal 11, kind 32 and another length";
const SIDE_IN_BAD_ROW: &str = "register: refusal 11, a bad side too";
const SIDE_OF_ZERO: &str = "register: refusal 15, number 0 too";
const SIDE_FALLING: &str = "register: refusal 15, below the row before too";
const SIDE_WITH_BIT: &str = "register: refusal 15, a bit above G too";
const SIDE_0: &str = "register: refusal 15, side 0";
const SIDE_3: &str = "register: refusal 15, side 3";
const SIDE_BY_HIGH_BYTE: &str = "register: refusal 15, by the high byte alone";
const SIDE_AT_END: &str = "register: refusal 15 at row 2,048";

fn then(n: u32, later: u32) -> String {
    format!("register: refusal {n}, and {later} in a later row")
}

// What the editions tell apart (document 02, card 5).
fn in_edition(edition: Edition, what: &str, n: u32) -> String {
    format!("register: edition {}, {what} {n}", edition.number())
}
fn under(edition: Edition, what: &str) -> String {
    format!("register: edition {}, {what}", edition.number())
}
const OTHER_REGISTER: &str = "refusal 11, a register of the other edition";
const OTHER_ROW: &str = "refusal 11, kind and length of the other edition";
const OTHER_KIND: &str = "refusal 11, kind of the other edition";
const OTHER_LENGTH: &str = "refusal 11, length of the other edition";
const BIT_JUST_ABOVE: &str = "refusal 13, the bit just above G alone";
const BIT_LAST: &str = "refusal 13, the last bit alone";
const BIT_TO_128: &str = "register: edition 2, refusal 13, a bit up to 128";
const BIT_FROM_129: &str = "register: edition 2, refusal 13, bits from 129 alone";
const AT_EDGES: [usize; 7] = [64, 65, 128, 129, 192, 193, 256];
fn held_at(group: usize) -> String {
    format!("register: rule 0, a member in group {group}")
}
fn above_128(rule: u16) -> String {
    format!("register: rule {rule} at a group above 128")
}

// What the conversions tell apart (document 02, card 6).
fn sheet_to(n: u16) -> String {
    format!("sheet to edition {n}")
}
fn register_to(n: u16) -> String {
    format!("register to edition {n}")
}
const COPIED: &str = "copied";
const CONVERTED_TO: &str = "converted";
const CONVERTS_IMPOSSIBLE: &str = "converted, impossible";
const CONVERTS_MOST: &str = "converted, 128 groups";
const CONVERTS_16: &str = "converted, a label of 16 bytes";
const COPIES_WIDE: &str = "copied, over 128 groups";
const COPIES_LONG: &str = "copied, a label above 16 bytes";
const MANY_129: &str = "refusal 16, 129 groups";
const MANY_256: &str = "refusal 16, 256 groups";
const MANY_LONG: &str = "refusal 16, a label above 16 bytes too";
const MANY_IMPOSSIBLE: &str = "refusal 16, impossible too";
const LONG_FIRST: &str = "refusal 17 at the first name";
const LONG_LAST: &str = "refusal 17 at the last name";
const LONG_17: &str = "refusal 17, a label of 17 bytes";
const LONG_32: &str = "refusal 17, a label of 32 bytes";
const LONG_ALONE: &str = "refusal 17, one of several labels alone";
const LONG_AFTER_16: &str = "refusal 17 after a label of 16 bytes";
const LONG_MOST: &str = "refusal 17, 128 groups";
const LONG_IMPOSSIBLE: &str = "refusal 17, impossible too";
const NO_ROWS: &str = "no rows";
const MOST_ROWS: &str = "2,048 rows";
const EQUAL_PAIRS: &str = "rows of one member";
const IN_NO_GROUP: &str = "a row in no group";
const BROKEN: &str = "a broken rule";
const WANTED_ALREADY: &str = "refusal 11, rows of the wanted edition";
fn a_row_in(group: usize) -> String {
    format!("a row in group {group}")
}
fn both_refused(n: u32, row: u32) -> String {
    format!("{}: refusal {n}, and {row} in a row", register_to(1))
}

const BAD_EDITIONS: [u16; 5] = [0, 3, 257, 258, 65535];
fn of_edition(number: u16) -> String {
    format!("sheets: refusal 4, edition {number}")
}
const BAD_GROUPS: [(u16, u16); 6] = [(1, 0), (1, 129), (1, 256), (1, 257), (2, 0), (2, 257)];
fn of_groups((number, groups): (u16, u16)) -> String {
    format!("sheets: refusal 4, edition {number} with {groups} groups")
}
fn most_groups(edition: Edition) -> String {
    format!("sheets: edition {} with {} groups", edition.number(), edition.group_limit())
}
fn longest_label(edition: Edition) -> String {
    format!("sheets: edition {}, a label of {} bytes", edition.number(), edition.label_limit())
}
fn too_long(edition: Edition) -> String {
    format!("sheets: refusal 3, edition {}, a label of {} bytes", edition.number(), edition.label_limit() + 1)
}
fn greatest_end(edition: Edition) -> String {
    format!("ranges: the greatest end, {}", edition.greatest_end())
}
const ABOVE_EDITION_1: &str = "ranges: an end above 8,322,818";
const FEW_GROUPS: &str = "sheets: edition 2 with 8 groups or fewer";
const GROUPS_129: &str = "sheets: edition 2 with 129 groups";
const OVER_128: &str = "over 128 groups";
const WIDE_POSSIBLE: &str = "sheets: over 128 groups, possible";
const WIDE_IMPOSSIBLE: &str = "sheets: over 128 groups, impossible";
const ALIKE_16: &str = "sheets: two labels of one length, alike in the first 16 bytes";
const ALIKE_BUT_LAST: &str = "sheets: two labels of 17 bytes or more, alike in all bytes but the last";
const END_ALIKE_16: &str = "sheets: two labels of one length, alike in the last 16 bytes";
const BEGINS_WITH: &str = "sheets: a label that begins with another of 16 bytes";
const LONG_TWICE: &str = "sheets: refusal 6, a label of 17 bytes or more";

// A place is one member's, not a pair of sets at a time.
const PAIRS_ONLY: &str = "claim: place denied, where any two left sets have it";

const WORKERS: u64 = 2;
const FULL: u64 = 113; // one sheet in so many is drawn around a register of many rows
const JOINED: u64 = 13; // and one around a small register of members on several rows
const LATE: u64 = 29; // and one around a small register that breaks rules at groups above 128
const WIDEST: u64 = 97; // and one for the greatest end
const NEAR: u64 = 12; // and one near the limits of edition 1, to be converted
const CONVERTED: u64 = 25; // so many of 100 others are converted too

fn main() {
    let (mut seed, mut cases, mut only, mut own) = (20_240_229u64, 1_400_000u64, None, false);
    let (mut off, mut verdicts) = (Off::default(), false);
    let mut args = std::env::args().skip(1);
    while let Some(a) = args.next() {
        let mut number = || -> u64 {
            args.next().and_then(|v| v.parse().ok()).unwrap_or_else(|| {
                eprintln!("{a} wants a number");
                exit(2)
            })
        };
        match a.as_str() {
            "--seed" => seed = number(),
            "--cases" => cases = number(),
            "--only" => only = Some(number()),
            "--self-test" => own = true,
            "--lo-above" => off.lo = 1,
            "--lo-below" => off.lo = -1,
            "--hi-above" => off.hi = 1,
            "--hi-below" => off.hi = -1,
            "--verdicts" => verdicts = true,
            _ => {
                eprintln!("oracle [--seed N] [--cases N] [--only I] [--lo-above] [--lo-below] [--hi-above] [--hi-below]");
                eprintln!("       [--verdicts] | --self-test [--seed N]");
                exit(2)
            }
        }
    }
    if own {
        selftest::run(seed);
        return;
    }
    let new = || Run { seed, off, verdicts, number: 0, replaced: false, converted: false, cases: 0, calls: 0, met: BTreeMap::new() };
    if let Some(i) = only {
        let mut run = new();
        run.sheet(i);
        println!("sheet {i}: {} cases agree", run.cases);
        return;
    }
    let workers: Vec<_> = (0..WORKERS)
        .map(|w| {
            let mut run = new();
            std::thread::spawn(move || {
                let mut number = w;
                while run.cases < cases / WORKERS {
                    run.sheet(number);
                    number += WORKERS;
                }
                run
            })
        })
        .collect();
    let mut all = new();
    for w in workers {
        let Ok(run) = w.join() else {
            eprintln!("a worker broke off");
            exit(1)
        };
        all.cases += run.cases;
        all.calls += run.calls;
        for (k, n) in run.met {
            *all.met.entry(k).or_insert(0) += n;
        }
    }
    for (k, n) in &all.met {
        println!("  {k}: {n}");
    }
    if cases >= 100_000 {
        for k in wanted() {
            if !all.met.contains_key(&k) {
                eprintln!("this run never met '{k}'");
                exit(1);
            }
        }
    }
    println!("oracle: {} cases agree in {} calls, seed {seed}", all.cases, all.calls);
}
