// All symbols of the library over the programs of reference/: a library in ordinary Rust, to be spoilt on purpose. A register is
// checked in both of its ways; where they differ the answer is a number that no register has.
mod conversion;
mod engine;
mod register;
mod sheet;

use std::slice::{from_raw_parts, from_raw_parts_mut};

unsafe fn lent<'a>(p: *const u8, n: usize) -> &'a [u8] {
    if n == 0 { &[] } else { from_raw_parts(p, n) }
}

unsafe fn buffer<'a>(p: *mut u8, n: usize) -> &'a mut [u8] {
    if n == 0 { &mut [] } else { from_raw_parts_mut(p, n) }
}

#[no_mangle]
pub unsafe extern "C" fn sheet_ranges(s: *const u8, sl: usize, r: *mut u8, rl: usize) -> u64 {
    engine::ranges(lent(s, sl), buffer(r, rl))
}

#[no_mangle]
pub unsafe extern "C" fn sheet_claim(s: *const u8, sl: usize, c: u32, r: *mut u8, rl: usize) -> u64 {
    engine::claim(lent(s, sl), c, buffer(r, rl))
}

#[no_mangle]
pub unsafe extern "C" fn sheet_register(
    s: *const u8,
    sl: usize,
    g: *const u8,
    gl: usize,
    r: *mut u8,
    rl: usize,
) -> u64 {
    let (sheet, rows, reply) = (lent(s, sl), lent(g, gl), buffer(r, rl));
    let before = reply[..rl.min(8)].to_vec();
    let by_walk = register::check_by_walk(sheet, rows, reply);
    let said = reply[..rl.min(8)].to_vec();
    reply[..rl.min(8)].copy_from_slice(&before);
    let by_columns = register::check(sheet, rows, reply);
    if by_walk == by_columns && said == reply[..rl.min(8)] { by_walk } else { u64::MAX }
}

#[no_mangle]
pub unsafe extern "C" fn sheet_to_edition1(s: *const u8, sl: usize, r: *mut u8, rl: usize) -> u64 {
    conversion::sheet_to(1, lent(s, sl), buffer(r, rl))
}

#[no_mangle]
pub unsafe extern "C" fn sheet_to_edition2(s: *const u8, sl: usize, r: *mut u8, rl: usize) -> u64 {
    conversion::sheet_to(2, lent(s, sl), buffer(r, rl))
}

#[no_mangle]
pub unsafe extern "C" fn sheet_register_to_edition1(
    s: *const u8,
    sl: usize,
    g: *const u8,
    gl: usize,
    r: *mut u8,
    rl: usize,
) -> u64 {
    conversion::register_to(1, lent(s, sl), lent(g, gl), buffer(r, rl))
}

#[no_mangle]
pub unsafe extern "C" fn sheet_register_to_edition2(
    s: *const u8,
    sl: usize,
    g: *const u8,
    gl: usize,
    r: *mut u8,
    rl: usize,
) -> u64 {
    conversion::register_to(2, lent(s, sl), lent(g, gl), buffer(r, rl))
}
