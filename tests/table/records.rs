// Sheets by their records. What takes no edition is of edition 1.
use crate::limits::{Edition, FIRST, NO_END};

pub type Bytes = Vec<u8>;

pub fn record(kind: u16, body: &[u8]) -> Bytes {
    framed(body.len() as u16 + 2, kind, body)
}

pub fn framed(length: u16, kind: u16, body: &[u8]) -> Bytes {
    let mut b = length.to_le_bytes().to_vec();
    b.extend(kind.to_le_bytes());
    b.extend(body);
    b
}

pub fn words(ws: &[u16]) -> Bytes {
    ws.iter().flat_map(|w| w.to_le_bytes()).collect()
}

impl Edition {
    pub fn head(self, g: u16, s: u16, q: u16) -> Bytes {
        record(1, &words(&[self.number, g, s, q]))
    }

    // Groups alone, by parent, lo, hi and mode; or with names N1, N2, .. of these groups, and claims.
    pub fn groups(self, list: &[(u16, u16, u16, u16)]) -> Bytes {
        self.sheet(list, &[], &[])
    }

    pub fn sheet(self, list: &[(u16, u16, u16, u16)], names: &[u16], claims: &[Bytes]) -> Bytes {
        let mut b = self.head(list.len() as u16, names.len() as u16, claims.len() as u16);
        for &(parent, lo, hi, mode) in list {
            b.extend(group(parent, lo, hi, mode));
        }
        for (i, &g) in names.iter().enumerate() {
            b.extend(name(g, &format!("N{}", i + 1)));
        }
        b.extend(claims.concat());
        b
    }

    // The table's own sheet: records 1 head, 2 to 4 groups, 5 to 7 names, 8 to 10 claims.
    pub fn base(self) -> Vec<Bytes> {
        vec![
            self.head(3, 3, 3),
            group(0, 0, 9, 0),
            group(1, 0, 9, 0),
            group(1, 0, 9, 0),
            name(1, "A"),
            name(2, "B"),
            name(3, "C"),
            count(1, 0, 9),
            inside(&[2], &[1]),
            apart(&[2], &[3]),
        ]
    }

    // The same with another record.
    pub fn with(self, no: usize, new: Bytes) -> Bytes {
        let mut b = self.base();
        b[no - 1] = new;
        b.concat()
    }

    // n groups of any count: the root, these, and all others sons of the root.
    pub fn groups_with(self, n: u16, these: &[(u16, (u16, u16, u16, u16))]) -> Bytes {
        self.groups(&listed_groups(n, these))
    }

    // A root of this mode and n - 1 sons, all free.
    pub fn star(self, n: u16, mode: u16) -> Bytes {
        self.groups_with(n, &[(1, (0, 0, NO_END, mode))])
    }
}

pub fn listed_groups(n: u16, these: &[(u16, (u16, u16, u16, u16))]) -> Vec<(u16, u16, u16, u16)> {
    let of = |g| these.iter().find(|x| x.0 == g).map_or((if g == 1 { 0 } else { 1 }, 0, NO_END, 0), |x| x.1);
    (1..=n).map(of).collect()
}

pub fn head(g: u16, s: u16, q: u16) -> Bytes {
    FIRST.head(g, s, q)
}

pub fn group(parent: u16, lo: u16, hi: u16, mode: u16) -> Bytes {
    record(2, &words(&[parent, lo, hi, mode]))
}

pub fn name(group: u16, label: &str) -> Bytes {
    let mut b = words(&[group]);
    b.extend(label.as_bytes());
    record(3, &b)
}

pub fn count(name: u16, lo: u16, hi: u16) -> Bytes {
    record(4, &words(&[name, lo, hi]))
}

pub fn lists(kind: u16, left: &[u16], right: &[u16]) -> Bytes {
    let mut w = vec![left.len() as u16, right.len() as u16];
    w.extend(left);
    w.extend(right);
    record(kind, &words(&w))
}

pub fn inside(left: &[u16], right: &[u16]) -> Bytes {
    lists(5, left, right)
}

pub fn apart(left: &[u16], right: &[u16]) -> Bytes {
    lists(6, left, right)
}

pub fn place(left: &[u16], right: &[u16]) -> Bytes {
    lists(7, left, right)
}

pub fn groups(list: &[(u16, u16, u16, u16)]) -> Bytes {
    FIRST.groups(list)
}

pub fn sheet(list: &[(u16, u16, u16, u16)], names: &[u16], claims: &[Bytes]) -> Bytes {
    FIRST.sheet(list, names, claims)
}

// Groups of any count, by parent and mode.
pub fn free(list: &[(u16, u16)]) -> Bytes {
    groups(&list.iter().map(|&(parent, mode)| (parent, 0, NO_END, mode)).collect::<Vec<_>>())
}

pub fn star(n: u16, mode: u16) -> Bytes {
    FIRST.star(n, mode)
}

pub fn base() -> Vec<Bytes> {
    FIRST.base()
}

pub fn with(no: usize, new: Bytes) -> Bytes {
    FIRST.with(no, new)
}

pub fn with2(a: usize, x: Bytes, b: usize, y: Bytes) -> Bytes {
    let mut r = base();
    r[a - 1] = x;
    r[b - 1] = y;
    r.concat()
}

// Up to a record, and so many bytes of it.
pub fn cut(no: usize, keep: usize) -> Bytes {
    let b = base();
    let mut s = b[..no - 1].concat();
    s.extend(&b[no - 1][..keep]);
    s
}

// The printed case, with its own claims and with these.
pub fn printed() -> Bytes {
    printed_with(&[count(2, 4, 5), apart(&[4], &[3]), inside(&[2], &[4])])
}

pub fn printed_with(claims: &[Bytes]) -> Bytes {
    let mut b = head(4, 4, claims.len() as u16);
    b.extend([group(0, 10, 12, 3), group(1, 0, 5, 0), group(1, 2, 6, 0), group(2, 3, NO_END, 0)].concat());
    b.extend([name(1, "ALL"), name(2, "LEFT"), name(3, "RIGHT"), name(4, "NEW")].concat());
    b.extend(claims.concat());
    b
}
