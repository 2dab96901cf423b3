// What each edition sets and what holds in both, for every Rust test and benchmark. The independent implementation and the
// ordinary Rust programs have numbers of their own: a wrong one here is not theirs too.
#![allow(dead_code)] // no program wants all

#[derive(Clone, Copy)]
pub struct Edition {
    pub number: u16,
    pub groups: u16,       // most of a sheet
    pub label: usize,      // most bytes
    pub greatest_end: u32, // no finite end of a range is above it
    pub row_kind: u16,
    pub row_length: u16,   // as the frame has it
    pub row: usize,        // all its bytes
    pub membership: usize, // and those of membership
}

pub const FIRST: Edition =
    Edition { number: 1, groups: 128, label: 16, greatest_end: 8_322_818, row_kind: 33, row_length: 24, row: 26, membership: 16 };
pub const SECOND: Edition =
    Edition { number: 2, groups: 256, label: 32, greatest_end: 16_711_170, row_kind: 34, row_length: 40, row: 42, membership: 32 };
pub const EDITIONS: [Edition; 2] = [FIRST, SECOND];

// Most of a sheet, and most rows of a register.
pub const NAMES: usize = 128;
pub const CLAIMS: usize = 64;
pub const ROWS: usize = 2048;

// No upper end: in a sheet, and in a reply.
pub const NO_END: u16 = 65535;
pub const NONE: u32 = 4_294_967_295;

// Bits of a mode.
pub const DISJOINT: u16 = 1;
pub const COVER: u16 = 2;
pub const SAME: u16 = 4;

// Sides of a row.
pub const LEFT: u16 = 1;
pub const RIGHT: u16 = 2;
