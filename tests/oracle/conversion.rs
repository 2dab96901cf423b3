// Document 02, card 6: a sheet, and a register under its own sheet, towards an edition. Each is read, and what it carries is
// written anew.

use crate::format::*;

fn record(kind: u16, body: &[u8]) -> Vec<u8> {
    [&(body.len() as u16 + 2).to_le_bytes()[..], &kind.to_le_bytes(), body].concat()
}

// 16 and 17, both towards edition 1 only. A name's body is its group and its label; records count from 1.
fn allowed(sheet: &[u8], to: Edition) -> Result<(), Refusal> {
    if to == Edition::Two {
        return Ok(());
    }
    if records(sheet).filter(|(kind, _)| *kind == 2).count() > 128 {
        return Err((16, 0));
    }
    match records(sheet).position(|(kind, body)| kind == 3 && body[2..].len() > 16) {
        Some(before) => Err((17, before as u32 + 1)),
        None => Ok(()),
    }
}

// The same records, but for the edition in the head.
pub fn sheet_towards(sheet: &[u8], to: Edition) -> Result<Vec<u8>, Refusal> {
    read_sheet(sheet)?;
    allowed(sheet, to)?;
    let written = |(kind, body): (u16, &[u8])| match kind {
        1 => record(1, &[&to.number().to_le_bytes(), &body[2..]].concat()),
        _ => record(kind, body),
    };
    Ok(records(sheet).flat_map(written).collect())
}

// The same rows, with member, side and groups kept.
pub fn register_towards(sheet: &[u8], register: &[u8], to: Edition) -> Result<Vec<u8>, Refusal> {
    let read = read_sheet(sheet)?;
    allowed(sheet, to)?;
    let rows = read_register(register, read.edition, read.groups.len())?;
    let written = |&((number, side), groups): &(Ear, Groups)| {
        record(to.row_kind(), &[&number.to_le_bytes()[..], &side.to_le_bytes(), &groups.bytes(to)].concat())
    };
    Ok(rows.iter().flat_map(written).collect())
}
