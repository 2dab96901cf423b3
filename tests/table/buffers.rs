// Buffers around the replies of 127 to 129, 255 and 256 groups. All other answers are asked with some buffers each (table.rs).
use crate::library::Ask;
use crate::limits::*;
use crate::records::*;
use crate::table::*;

// Of 256 groups: 5,120 bytes for ranges, 3,590 for a verdict with sets, 6 and 8 for the others.
pub fn all(t: &mut Table) {
    for (e, g) in [(FIRST, 127), (FIRST, 128), (SECOND, 128), (SECOND, 129), (SECOND, 255), (SECOND, 256)] {
        let list = listed_groups(g, &[(1, (0, 0, 1, 0))]);
        let s = e.sheet(&list, &[1, g, 0], &[count(1, 0, 1), count(2, 1, 1), place(&[2], &[3]), place(&[3], &[2])]);
        let what = format!("{g} groups in edition {}", e.number);
        let n = g as usize;
        let bytes = [18, 0, 17, 0, 0, 0, 0, 0, 1, 0, 0, 0, 1, 0, 0, 0, 0, 0, 0, 0].repeat(n);
        for len in [0, 19, 20, 2539, 2540, 2541, 2559, 2560, 2561, 2579, 2580, 2581, 3590, 5099, 5100, 5101, 5119, 5120, 5121, 5140, 10_240] {
            if len < 20 * n {
                t.turned(&format!("{what}, ranges, {len} bytes"), Ask::Ranges, &s, len, 14, 0);
            } else {
                t.written(&format!("{what}, ranges, {len} bytes"), Ask::Ranges, &s, len, &bytes);
            }
        }
        let shown = 6 + 14 * n;
        for len in [0, 5, 6, 7, 8, 1783, 1784, 1785, 1797, 1798, 1799, 1811, 1812, 1813, 3575, 3576, 3577, 3589, 3590, 3591, 5120] {
            for (c, verdict) in [(1, 1), (4, 0)] {
                let what = format!("{what}, claim {c}, {len} bytes");
                if len < 6 {
                    t.turned(&what, Ask::Claim(c), &s, len, 14, 0);
                } else {
                    t.written(&what, Ask::Claim(c), &s, len, &[4, 0, 18, 0, verdict, 0]);
                }
            }
            for (c, verdict) in [(2, 0), (3, 1)] {
                let what = format!("{what}, claim {c}, {len} bytes");
                if len < shown {
                    t.turned(&what, Ask::Claim(c), &s, len, 14, 0);
                } else {
                    let mut buffer = vec![0xa5u8; len];
                    let got = call(Ask::Claim(c), &s, &mut buffer);
                    let ok = got == shown as u64 && buffer[..6] == [4, 0, 18, 0, verdict, 0] && buffer[shown..].iter().all(|&b| b == 0xa5);
                    t.note(&what, ok, format!("wanted a verdict with sets, got {} {}", got >> 32, got as u32));
                }
            }
        }
        let reg = e.row(1, &[1, n]);
        t.register(&format!("{what}, a member of the last"), &s, &reg, 0, 0);
        t.register(&format!("{what}, two members"), &s, &[reg.clone(), e.row(2, &[1])].concat(), 1, 6);
    }
}
