// Inputs and answers written by hand from documents 01 and 02, through the exported operations.

// What sheets and registers are made of, and what is asked of them.
mod forms;
mod records;
mod rows;
mod table;

// What other tests have too.
#[allow(dead_code)] // what the comparison alone wants
#[path = "../oracle/format.rs"]
mod format;
#[path = "../rust/library.rs"]
mod library;
#[path = "../rust/limits.rs"]
mod limits;

// The answers, by subject.
mod buffers;
mod claims;
mod conversion;
mod ears;
mod editions;
mod joined;
mod places;
mod ranges;
mod refusals;
mod registers;
mod sizes;
mod wide;

use std::process::exit;
use table::Table;

const SUBJECTS: [fn(&mut Table); 12] = [
    refusals::all,
    registers::all,
    sizes::all,
    joined::all,
    ears::all,
    ranges::all,
    claims::all,
    places::all,
    editions::all,
    wide::all,
    conversion::all,
    buffers::all,
];

fn main() {
    let mut t = Table::default();
    for subject in SUBJECTS {
        subject(&mut t);
    }
    println!("table: {} passed, {} failed", t.passed, t.failed);
    if t.failed > 0 || t.passed == 0 {
        exit(1);
    }
}
