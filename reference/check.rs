// The register check of register.rs as a program:  check [--walk] SHEET REGISTER
// Prints both halves of the number that is returned and, where there is a reply, its group and rule. Status 2 where it is
// called in another way or a file can't be read.

mod register;
#[allow(dead_code)] // what ranges and claims alone want
mod sheet;

use std::env::args_os;
use std::ffi::OsString;
use std::fs;
use std::process::exit;

fn read(path: &OsString) -> Vec<u8> {
    fs::read(path).unwrap_or_else(|error| {
        eprintln!("{}: {error}", path.display());
        exit(2)
    })
}

fn main() {
    let given: Vec<_> = args_os().skip(1).collect();
    let (sheet, rows, check): (_, _, fn(&[u8], &[u8], &mut [u8]) -> u64) = match &given[..] {
        [sheet, rows] => (sheet, rows, register::check),
        [option, sheet, rows] if option == "--walk" => (sheet, rows, register::check_by_walk),
        _ => {
            eprintln!("usage: check [--walk] SHEET REGISTER");
            exit(2)
        }
    };
    let mut reply = [0; 8];
    let said = check(&read(sheet), &read(rows), &mut reply);
    print!("{} {}", said >> 32, said as u32);
    if said >> 32 == 0 {
        print!(" {} {}", sheet::get16(&reply, 4), sheet::get16(&reply, 6));
    }
    println!();
}
