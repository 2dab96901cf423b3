// Sheets and registers from one edition to the other in ordinary Rust: the sheet's bytes with another edition in the head, the rows
// with fewer or more bytes of membership. It is what the library's speed is held to.

use super::register::each_member;
use super::sheet::{get16, pack, put16, put32, read, wide, Edition, Refusal, Tables, EDITIONS, NARROW, WIDE};

// Reads the sheet, whose groups and labels must be such as the edition may have.
fn read_towards<const N: usize>(to: &Edition, s: &[u8], t: &mut Tables<N>) -> Result<(), Refusal> {
    read(s, t)?;
    if t.groups > to.groups as usize {
        return Err((16, 0));
    }
    let mut at = 12 + 12 * t.groups;
    for i in 1..=t.names {
        let len = get16(s, at) as usize;
        if len > 4 + to.label {
            return Err((17, (1 + t.groups + i) as u32));
        }
        at += len + 2;
    }
    Ok(())
}

// How many bytes were written, or the refusal.
type Written = Result<usize, Refusal>;

fn convert_sheet<const N: usize>(edition: u16, sheet: &[u8], reply: &mut [u8]) -> Written {
    let mut t = Tables::<N>::EMPTY;
    read_towards(&EDITIONS[edition as usize - 1], sheet, &mut t)?;
    let Some(out) = reply.get_mut(..sheet.len()) else { return Err((14, 0)) };
    out.copy_from_slice(sheet);
    put16(out, 4, edition);
    Ok(sheet.len())
}

// Rows have ROW bytes and W words of membership, those of the reply OUT bytes. All are read before one is written.
fn convert_rows<const N: usize, const W: usize, const ROW: usize, const OUT: usize>(
    edition: u16,
    sheet: &[u8],
    register: &[u8],
    reply: &mut [u8],
) -> Written {
    let to = &EDITIONS[edition as usize - 1];
    let mut t = Tables::<N>::EMPTY;
    read_towards(to, sheet, &mut t)?;
    each_member::<N, W, ROW>(&t, register, |_, _| ())?;
    let (rows, _) = register.as_chunks::<ROW>();
    let size = OUT * rows.len();
    let Some(out) = reply.get_mut(..size) else { return Err((14, 0)) };
    let kept = ROW.min(OUT);
    for (out, row) in out.as_chunks_mut::<OUT>().0.iter_mut().zip(rows) {
        put32(out, 0, to.row);
        out[4..kept].copy_from_slice(&row[4..kept]);
        out[kept..].fill(0);
    }
    Ok(size)
}

fn returned(written: Written) -> u64 {
    match written {
        Ok(size) => pack(0, size as u32),
        Err((n, r)) => pack(n, r),
    }
}

pub fn sheet_to(edition: u16, sheet: &[u8], reply: &mut [u8]) -> u64 {
    returned(if wide(sheet) { convert_sheet::<WIDE>(edition, sheet, reply) } else { convert_sheet::<NARROW>(edition, sheet, reply) })
}

pub fn register_to(edition: u16, sheet: &[u8], register: &[u8], reply: &mut [u8]) -> u64 {
    let convert = match (wide(sheet), edition) {
        (false, 1) => convert_rows::<NARROW, 2, 26, 26>,
        (false, _) => convert_rows::<NARROW, 2, 26, 42>,
        (true, 1) => convert_rows::<WIDE, 4, 42, 26>,
        (true, _) => convert_rows::<WIDE, 4, 42, 42>,
    };
    returned(convert(edition, sheet, register, reply))
}
