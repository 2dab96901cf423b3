// The exported operations as include/group_sheet.h declares them, for every Rust test and benchmark.
#![allow(dead_code)] // no program asks in both ways

use std::ptr::{null, null_mut};

extern "C" {
    fn sheet_ranges(sheet: *const u8, sheet_len: usize, reply: *mut u8, reply_len: usize) -> u64;
    fn sheet_claim(sheet: *const u8, sheet_len: usize, claim: u32, reply: *mut u8, reply_len: usize) -> u64;
    fn sheet_register(
        sheet: *const u8,
        sheet_len: usize,
        register: *const u8,
        register_len: usize,
        reply: *mut u8,
        reply_len: usize,
    ) -> u64;
    fn sheet_to_edition1(sheet: *const u8, sheet_len: usize, reply: *mut u8, reply_len: usize) -> u64;
    fn sheet_to_edition2(sheet: *const u8, sheet_len: usize, reply: *mut u8, reply_len: usize) -> u64;
    fn sheet_register_to_edition1(
        sheet: *const u8,
        sheet_len: usize,
        register: *const u8,
        register_len: usize,
        reply: *mut u8,
        reply_len: usize,
    ) -> u64;
    fn sheet_register_to_edition2(
        sheet: *const u8,
        sheet_len: usize,
        register: *const u8,
        register_len: usize,
        reply: *mut u8,
        reply_len: usize,
    ) -> u64;
}

pub fn ranges(sheet: &[u8], reply: &mut [u8]) -> u64 {
    unsafe { sheet_ranges(sheet.as_ptr(), sheet.len(), reply.as_mut_ptr(), reply.len()) }
}

pub fn claim(sheet: &[u8], claim: u32, reply: &mut [u8]) -> u64 {
    unsafe { sheet_claim(sheet.as_ptr(), sheet.len(), claim, reply.as_mut_ptr(), reply.len()) }
}

pub fn register(sheet: &[u8], register: &[u8], reply: &mut [u8]) -> u64 {
    unsafe { sheet_register(sheet.as_ptr(), sheet.len(), register.as_ptr(), register.len(), reply.as_mut_ptr(), reply.len()) }
}

// Towards edition 1 or 2.
pub fn sheet_to(edition: u16, sheet: &[u8], reply: &mut [u8]) -> u64 {
    let convert = [sheet_to_edition1, sheet_to_edition2][edition as usize - 1];
    unsafe { convert(sheet.as_ptr(), sheet.len(), reply.as_mut_ptr(), reply.len()) }
}

pub fn register_to(edition: u16, sheet: &[u8], register: &[u8], reply: &mut [u8]) -> u64 {
    let convert = [sheet_register_to_edition1, sheet_register_to_edition2][edition as usize - 1];
    unsafe { convert(sheet.as_ptr(), sheet.len(), register.as_ptr(), register.len(), reply.as_mut_ptr(), reply.len()) }
}

// An operation with what it is asked beside the sheet.
#[derive(Clone, Copy)]
pub enum Ask<'a> {
    Ranges,
    Claim(u32),
    Register(&'a [u8]),
    SheetTo(u16),
    RegisterTo(u16, &'a [u8]),
}

impl Ask<'_> {
    // Nothing is lent as null: a sheet or a register of no bytes, and a reply without a buffer.
    pub fn call(self, sheet: &[u8], reply: Option<&mut [u8]>) -> u64 {
        let lent = |bytes: &[u8]| if bytes.is_empty() { null() } else { bytes.as_ptr() };
        let (to, room) = reply.map_or((null_mut(), 0), |buffer| (buffer.as_mut_ptr(), buffer.len()));
        let (from, len) = (lent(sheet), sheet.len());
        unsafe {
            match self {
                Ask::Ranges => sheet_ranges(from, len, to, room),
                Ask::Claim(claim) => sheet_claim(from, len, claim, to, room),
                Ask::Register(rows) => sheet_register(from, len, lent(rows), rows.len(), to, room),
                Ask::SheetTo(1) => sheet_to_edition1(from, len, to, room),
                Ask::SheetTo(2) => sheet_to_edition2(from, len, to, room),
                Ask::RegisterTo(1, rows) => sheet_register_to_edition1(from, len, lent(rows), rows.len(), to, room),
                Ask::RegisterTo(2, rows) => sheet_register_to_edition2(from, len, lent(rows), rows.len(), to, room),
                Ask::SheetTo(n) | Ask::RegisterTo(n, _) => panic!("no operation towards edition {n}"),
            }
        }
    }
}
