// What is asked, and whether the answer is the one written down.
use crate::format;
use crate::forms::*;
use crate::library::Ask;
use crate::limits::NONE;
use crate::records::*;

pub fn call(ask: Ask, sheet: &[u8], reply: &mut [u8]) -> u64 {
    ask.call(sheet, (!reply.is_empty()).then_some(reply))
}

#[derive(Default)]
pub struct Table {
    pub passed: u32,
    pub failed: u32,
}

#[derive(Clone, Copy, PartialEq)]
pub enum Verdict {
    Holds,
    Denied,
}

pub use Verdict::*;

impl Table {
    pub fn note(&mut self, what: &str, ok: bool, why: String) {
        if ok {
            self.passed += 1;
        } else {
            self.failed += 1;
            println!("FAILED: {what}: {why}");
        }
    }

    // The answer is this refusal and no byte of the buffer changes.
    pub fn turned(&mut self, what: &str, ask: Ask, sheet: &[u8], len: usize, n: u64, r: u64) {
        let mut buffer: Bytes = (0..len).map(|i| (i * 7 + 3) as u8).collect();
        let before = buffer.clone();
        let got = call(ask, sheet, &mut buffer);
        let ok = got == n * 4_294_967_296 + r && buffer == before;
        let same = if buffer == before { "unchanged" } else { "CHANGED" };
        self.note(what, ok, format!("wanted {n} {r}, got {} {}, buffer {same}", got >> 32, got as u32));
    }

    // The answer is success with these bytes; the ones after them stay.
    pub fn written(&mut self, what: &str, ask: Ask, sheet: &[u8], len: usize, want: &[u8]) {
        let mut buffer: Bytes = (0..len).map(|i| (i * 5 + 1) as u8).collect();
        let mut expect = buffer.clone();
        expect[..want.len()].copy_from_slice(want);
        let got = call(ask, sheet, &mut buffer);
        let ok = got == want.len() as u64 && buffer == expect;
        let why = || format!("wanted {} bytes {want:?}, got {} {} {buffer:?}", want.len(), got >> 32, got as u32);
        self.note(what, ok, if ok { String::new() } else { why() });
    }

    // A sheet that every operation turns back, in edition 2 too.
    pub fn sheet(&mut self, what: &str, sheet: &[u8], n: u64, r: u64) {
        self.sheet_once(what, sheet, n, r);
        if let Some(sheet) = second(sheet) {
            self.sheet_once(&format!("{what}, edition 2"), &sheet, n, r);
        }
    }

    // The same in its own edition alone.
    pub fn sheet_once(&mut self, what: &str, sheet: &[u8], n: u64, r: u64) {
        for len in [0, 8, 6000] {
            self.turned(&format!("{what} (ranges)"), Ask::Ranges, sheet, len, n, r);
            self.turned(&format!("{what} (claim)"), Ask::Claim(1), sheet, len, n, r);
            self.turned(&format!("{what} (register)"), Ask::Register(&[]), sheet, len, n, r);
        }
        for (to, len) in [(1, 0), (1, 6000), (2, 0), (2, 6000)] {
            self.turned(&format!("{what} (to edition {to})"), Ask::SheetTo(to), sheet, len, n, r);
            self.turned(&format!("{what} (register to edition {to})"), Ask::RegisterTo(to, &[]), sheet, len, n, r);
        }
    }

    // A register that is turned back; in edition 2 too, where these are whole rows of edition 1.
    pub fn register_refused(&mut self, what: &str, sheet: &[u8], reg: &[u8], n: u64, r: u64) {
        self.register_refused_once(what, sheet, reg, n, r);
        if let Some((same, rows)) = second(sheet).zip(second_rows(0, reg)) {
            self.register_refused_once(&format!("{what}, edition 2"), &same, &rows, n, r);
            // The sheet is readable.
            if n >= 10 {
                let rows = second_rows(128, reg).unwrap();
                self.register_refused_once(&format!("{what}, edition 2, after 128 groups"), &after(128, sheet), &rows, n, r);
            }
        }
    }

    pub fn register_refused_once(&mut self, what: &str, sheet: &[u8], reg: &[u8], n: u64, r: u64) {
        for len in [0, 7, 8, 50] {
            self.turned(what, Ask::Register(reg), sheet, len, n, r);
        }
        // Converted it meets the same; towards edition 1 more than 128 groups come before any row.
        let first = if n >= 10 && format::word(sheet, 6) > 128 { (16, 0) } else { (n, r) };
        for (to, (n, r)) in [(1, first), (2, (n, r))] {
            for len in [0, 2 * reg.len()] {
                self.turned(&format!("{what} (to edition {to})"), Ask::RegisterTo(to, reg), sheet, len, n, r);
            }
        }
    }

    pub fn register(&mut self, what: &str, sheet: &[u8], reg: &[u8], group: u16, rule: u16) {
        self.register_with(what, sheet, reg, group, rule, &[0, 1, 2, 3, 4, 5, 6, 7, 8, 9, 40]);
    }

    // The same with fewer buffers, for the many registers by size.
    pub fn checked(&mut self, what: &str, sheet: &[u8], reg: &[u8], group: u16, rule: u16) {
        self.register_with(what, sheet, reg, group, rule, &[7, 8, 40]);
    }

    // With buffers of these lengths; a register of edition 1 in all its forms, and converted.
    pub fn register_with(&mut self, what: &str, sheet: &[u8], reg: &[u8], group: u16, rule: u16, lengths: &[usize]) {
        self.both_editions(what, sheet, reg);
        for form in forms(sheet) {
            let reg = form.rows(reg);
            let want = framed(6, 20, &words(&[form.group(group), rule]));
            for &len in lengths {
                let what = format!("{what}{}, {len} bytes", form.what);
                if len < 8 {
                    self.turned(&what, Ask::Register(&reg), &form.sheet, len, 14, 0);
                } else {
                    self.written(&what, Ask::Register(&reg), &form.sheet, len, &want);
                }
            }
        }
    }

    // Of all values of a two-byte field of the only row, these pass and the others are turned back by n.
    pub fn every(&mut self, what: &str, sheet: &[u8], row: impl Fn(u16) -> Bytes, allowed: &[u16], n: u64) {
        let wanted = |x: u16| if allowed.contains(&x) { 8 } else { n * 4_294_967_296 + 1 };
        let wrong: Vec<u16> = (0..=65535).filter(|&x| call(Ask::Register(&row(x)), sheet, &mut [0; 8]) != wanted(x)).collect();
        self.note(&format!("every {what}"), wrong.is_empty(), format!("another answer for {wrong:?}"));
    }

    // For each group least, greatest, first, count; a sheet of edition 1 in all its forms. The root before other groups is
    // as small as the greatest least among its sons, and may have any number.
    pub fn ranges(&mut self, what: &str, sheet: &[u8], want: &[[u32; 4]]) {
        for form in forms(sheet) {
            let mut all = Vec::new();
            if let Some(others @ 1..) = form.others {
                let least = want[0][0];
                all.push([least, NONE, 1, least]);
                all.extend(vec![[0, NONE, 1, 0]; others as usize - 1]);
            }
            all.extend(want);
            self.ranges_once(&format!("{what}{}", form.what), &form.sheet, &all);
        }
    }

    pub fn ranges_once(&mut self, what: &str, sheet: &[u8], want: &[[u32; 4]]) {
        let mut bytes = Vec::new();
        for w in want {
            bytes.extend(framed(18, 17, &[]));
            for x in w {
                bytes.extend(x.to_le_bytes());
            }
        }
        let need = bytes.len();
        for len in [0, 6, need - 1] {
            self.turned(&format!("{what}, {len} bytes"), Ask::Ranges, sheet, len, 14, 0);
        }
        for len in [need, need + 1, need + 100] {
            self.written(&format!("{what}, {len} bytes"), Ask::Ranges, sheet, len, &bytes);
        }
        // Document 02, card 13: with its ranges as bounds the sheet has the same reply.
        if let Some(again) = format::replaced(sheet, want.iter().map(|r| (r[0], r[1]))) {
            self.written(&format!("{what}, ranges as bounds"), Ask::Ranges, &again, need, &bytes);
        }
    }

    pub fn impossible(&mut self, what: &str, sheet: &[u8]) {
        for Form { what: form, sheet, .. } in forms(sheet) {
            for len in [0, 6000] {
                self.turned(&format!("{what}{form}"), Ask::Ranges, &sheet, len, 8, 0);
                for c in [0, 1, 2, 65, 65537, NONE] {
                    self.turned(&format!("{what}{form}, claim {c}"), Ask::Claim(c), &sheet, len, 8, 0);
                }
            }
        }
    }

    pub fn no_claim(&mut self, what: &str, sheet: &[u8], numbers: &[u32]) {
        for Form { what: form, sheet, .. } in forms(sheet) {
            for &c in numbers {
                for len in [0, 5, 6, 6000] {
                    self.turned(&format!("{what}{form}, claim {c}"), Ask::Claim(c), &sheet, len, 9, 0);
                }
            }
        }
    }

    // The verdicts on all claims of a sheet, of edition 1 in all its forms, with buffers around both lengths.
    pub fn verdicts(&mut self, what: &str, sheet: &[u8], want: &[Verdict]) {
        for form in forms(sheet) {
            self.verdicts_once(&format!("{what}{}", form.what), &form.sheet, want);
        }
    }

    pub fn verdicts_once(&mut self, what: &str, sheet: &[u8], want: &[Verdict]) {
        let read = format::read_sheet(sheet).expect("a readable sheet");
        assert_eq!(read.claims.len(), want.len(), "{what}");
        let g = read.groups.len();
        let full = 6 + 14 * g;
        for (i, v) in want.iter().enumerate() {
            let ask = Ask::Claim(i as u32 + 1);
            let what = format!("{what}, claim {}", i + 1);
            // Shown with sets: a denial, and the yes of a place.
            let claim = &read.claims[i];
            let shown = (*v == Holds) == claim.holds_by_sets();
            let need = if shown { full } else { 6 };
            for len in [0, 5, 6, 7, full - 1, full, full + 3] {
                if len < need {
                    self.turned(&what, ask, sheet, len, 14, 0);
                    continue;
                }
                if !shown {
                    self.written(&what, ask, sheet, len, &[4, 0, 18, 0, (*v == Holds) as u8, 0]);
                    continue;
                }
                let mut buffer = vec![0xa5u8; len];
                let got = call(ask, sheet, &mut buffer);
                let fault = if got != full as u64 {
                    Some(format!("wanted a verdict with sets, got {} {}", got >> 32, got as u32))
                } else if buffer[full..].iter().any(|&b| b != 0xa5) {
                    Some("bytes after the reply changed".to_string())
                } else {
                    format::check_shown(&read, claim, &buffer[..full]).err()
                };
                self.note(&what, fault.is_none(), fault.unwrap_or_default());
            }
        }
    }
}
