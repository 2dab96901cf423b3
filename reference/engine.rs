// Ranges and claims in ordinary Rust, with the engine's algorithm: one fold from the last group to the first, then flat passes
// from 2 to G. It is what the library's speed is held to.

use super::sheet::{get16, pack, put16, put32, read, wide, Tables, COVER, DISJOINT, ENDLESS, MAX_LIST, NARROW, SAME, WIDE};

const NO_UPPER: u32 = 65535;

// A span of counts: none where lo is above hi.
#[derive(Clone, Copy, PartialEq)]
struct Span {
    lo: u32,
    hi: u32,
}

const NONE: Span = Span { lo: 1, hi: 0 };
const ANY: Span = Span { lo: 0, hi: ENDLESS };
const ZERO: Span = Span { lo: 0, hi: 0 };

impl Span {
    fn none(self) -> bool {
        self.lo > self.hi
    }
    fn has(self, x: u32) -> bool {
        self.lo <= x && x <= self.hi
    }
    fn meet(self, o: Span) -> Span {
        let r = Span { lo: self.lo.max(o.lo), hi: self.hi.min(o.hi) };
        if r.none() { NONE } else { r }
    }
    fn hull(self, o: Span) -> Span {
        if self.none() {
            o
        } else if o.none() {
            self
        } else {
            Span { lo: self.lo.min(o.lo), hi: self.hi.max(o.hi) }
        }
    }
}

fn plus(a: u32, b: u32) -> u32 {
    if a == ENDLESS || b == ENDLESS { ENDLESS } else { a + b }
}

// a less b, cut at 0; less endless is 0.
fn less(a: u32, b: u32) -> u32 {
    if b == ENDLESS { 0 } else if a == ENDLESS { ENDLESS } else { a.saturating_sub(b) }
}

#[derive(Clone, Copy, PartialEq)]
enum Joint {
    Lap,
    Add,
    Eq,
}

fn joint(mode: u16) -> Joint {
    if mode & SAME != 0 {
        Joint::Eq
    } else if mode & DISJOINT != 0 {
        Joint::Add
    } else {
        Joint::Lap
    }
}

fn shut(mode: u16, sons: u16) -> bool {
    if mode & SAME != 0 && sons >= 1 {
        sons >= 2 && mode & DISJOINT != 0
    } else {
        mode & COVER != 0
    }
}

fn join(j: Joint, a: Span, b: Span) -> Span {
    if a.none() || b.none() {
        return NONE;
    }
    match j {
        Joint::Lap => Span { lo: a.lo.max(b.lo), hi: plus(a.hi, b.hi) },
        Joint::Add => Span { lo: a.lo + b.lo, hi: plus(a.hi, b.hi) },
        Joint::Eq => a.meet(b),
    }
}

fn pull(j: Joint, r: Span, b: Span) -> Span {
    if r.none() || b.none() {
        return NONE;
    }
    match j {
        Joint::Lap => {
            if b.lo > r.hi { NONE } else { Span { lo: less(r.lo, b.hi), hi: r.hi } }
        }
        Joint::Add => {
            if b.lo > r.hi {
                NONE
            } else {
                Span { lo: less(r.lo, b.hi), hi: less(r.hi, b.lo) }
            }
        }
        Joint::Eq => r.meet(b),
    }
}

fn meet_bounds(a: Span, lo: u32, hi: u32, c: u32) -> Span {
    if hi < c {
        return NONE;
    }
    a.meet(Span { lo: lo.saturating_sub(c), hi: if hi == ENDLESS { ENDLESS } else { hi - c } })
}

// The fold of one state: z[g] is what the part of the tree at g can take, before[i] what the later
// sons of i's parent gave before i was joined.
struct Plain<const N: usize> {
    z: [Span; N],
    before: [Span; N],
}

fn fold_plain<const N: usize>(t: &Tables<N>, lo: &[u32; N], hi: &[u32; N], f: &mut Plain<N>) {
    let mut acc = [ANY; N];
    for g in 1..=t.groups {
        if shut(t.mode[g], t.sons[g]) {
            acc[g] = ZERO;
        }
    }
    for g in (1..=t.groups).rev() {
        f.z[g] = meet_bounds(acc[g], lo[g], hi[g], 0);
        if g > 1 {
            let p = t.parent[g] as usize;
            f.before[g] = acc[p];
            acc[p] = join(joint(t.mode[p]), acc[p], f.z[g]);
        }
    }
}

pub fn ranges(sheet: &[u8], reply: &mut [u8]) -> u64 {
    if wide(sheet) { ranges_of::<WIDE>(sheet, reply) } else { ranges_of::<NARROW>(sheet, reply) }
}

fn ranges_of<const N: usize>(sheet: &[u8], reply: &mut [u8]) -> u64 {
    let mut t = Tables::<N>::EMPTY;
    if let Err((n, r)) = read(sheet, &mut t) {
        return pack(n, r);
    }
    let mut f = Plain { z: [NONE; N], before: [NONE; N] };
    fold_plain(&t, &t.lo, &t.hi, &mut f);
    if f.z[1].none() {
        return pack(8, 0);
    }
    let size = 20 * t.groups;
    if reply.len() < size {
        return pack(14, 0);
    }
    // Ranges: take the sons off, first first, as the fold joined them last.
    let mut range = [NONE; N];
    let mut rest = [NONE; N];
    range[1] = f.z[1];
    rest[1] = range[1];
    for i in 2..=t.groups {
        let p = t.parent[i] as usize;
        let j = joint(t.mode[p]);
        range[i] = f.z[i].meet(pull(j, rest[p], f.before[i]));
        rest[p] = f.before[i].meet(pull(j, rest[p], f.z[i]));
        rest[i] = range[i];
    }
    // The arrangement.
    let mut first = [0u32; N];
    let mut count = [0u32; N];
    let mut ended = [0u32; N];
    let mut left = [0u32; N];
    let mut later = [0u32; N];
    for i in 2..=t.groups {
        later[t.parent[i] as usize] += f.z[i].lo;
    }
    first[1] = 1;
    count[1] = f.z[1].lo;
    ended[1] = 1;
    left[1] = count[1];
    for i in 2..=t.groups {
        let p = t.parent[i] as usize;
        let m = t.mode[p];
        later[p] = later[p].wrapping_sub(f.z[i].lo);
        let (c, at);
        if m & SAME != 0 {
            c = if m & DISJOINT != 0 && t.sons[p] >= 2 { 0 } else { count[p] };
            at = first[p];
        } else if m == 0 {
            c = f.z[i].lo;
            at = first[p];
        } else if m == DISJOINT {
            c = f.z[i].lo;
            at = ended[p];
        } else if m == COVER {
            c = f.z[i].hi.min(count[p]);
            at = ended[p].min(first[p] + count[p] - c);
        } else {
            c = f.z[i].hi.min(left[p] - later[p]);
            at = ended[p];
            left[p] -= c;
        }
        first[i] = at;
        count[i] = c;
        ended[p] = at + c;
        ended[i] = at;
        left[i] = c;
    }
    for g in 1..=t.groups {
        let at = 20 * (g - 1);
        put16(reply, at, 18);
        put16(reply, at + 2, 17);
        put32(reply, at + 4, range[g].lo);
        put32(reply, at + 8, range[g].hi);
        put32(reply, at + 12, first[g]);
        put32(reply, at + 16, count[g]);
    }
    pack(0, size as u32)
}

// The fold of two states: without and with the member that is asked for.
struct Marked<const N: usize> {
    z: [[Span; 2]; N],
    before: [[Span; 2]; N],
}

fn marks_join(j: Joint, x: usize, y: usize, z: usize) -> bool {
    match j {
        Joint::Lap => x <= z && y <= z && z <= x + y,
        Joint::Add => x + y == z,
        Joint::Eq => x == y && y == z,
    }
}

// may[g]: bit 0 the member may be out of g, bit 1 it may be in.
fn fold_marked<const N: usize>(
    t: &Tables<N>,
    lo: &[u32; N],
    hi: &[u32; N],
    may: &[u8; N],
    f: &mut Marked<N>,
) {
    let mut acc = [[ANY; 2]; N];
    for g in 1..=t.groups {
        if shut(t.mode[g], t.sons[g]) {
            acc[g] = [ZERO, NONE];
        }
    }
    for g in (1..=t.groups).rev() {
        for c in 0..2 {
            f.z[g][c] = if may[g] >> c & 1 == 1 {
                meet_bounds(acc[g][c], lo[g], hi[g], c as u32)
            } else {
                NONE
            };
        }
        if g > 1 {
            let p = t.parent[g] as usize;
            let (a, z) = (acc[p], f.z[g]);
            f.before[g] = a;
            let j = joint(t.mode[p]);
            acc[p][0] = join(j, a[0], z[0]);
            acc[p][1] = match j {
                Joint::Lap => join(j, a[1], z[0]).hull(join(j, a[0], z[1])).hull(join(j, a[1], z[1])),
                Joint::Add => join(j, a[1], z[0]).hull(join(j, a[0], z[1])),
                Joint::Eq => join(j, a[1], z[1]),
            };
        }
    }
}

struct Shown<const N: usize> {
    first: [u32; N],
    count: [u32; N],
    mark: [u8; N],
}

// Sizes, marks and starts from the root's state c, in one visit per group.
fn unfold<const N: usize>(t: &Tables<N>, f: &Marked<N>, c: usize, out: &mut Shown<N>) {
    let mut rest = [0u32; N];
    let mut rest_mark = [0usize; N];
    out.count[1] = f.z[1][c].lo;
    out.mark[1] = c as u8;
    rest[1] = out.count[1];
    rest_mark[1] = c;
    for i in 2..=t.groups {
        let p = t.parent[i] as usize;
        let j = joint(t.mode[p]);
        let r = rest[p];
        'found: for a in 0..2 {
            for b in 0..2 {
                let (x, y) = (f.before[i][a], f.z[i][b]);
                if !marks_join(j, a, b, rest_mark[p]) || !join(j, x, y).has(r) {
                    continue;
                }
                let (left, mine) = match j {
                    Joint::Eq => (r, r),
                    Joint::Lap => (x.hi.min(r), y.hi.min(r)),
                    Joint::Add => {
                        let mine = y.lo.max(less(r, x.hi));
                        (r - mine, mine)
                    }
                };
                out.count[i] = mine;
                out.mark[i] = b as u8;
                rest[p] = left;
                rest_mark[p] = a;
                rest[i] = mine;
                rest_mark[i] = b;
                break 'found;
            }
        }
    }
    let mut ended = [0u32; N];
    out.first[1] = 1;
    ended[1] = 1;
    for i in 2..=t.groups {
        let p = t.parent[i] as usize;
        let at = match t.mode[p] {
            0 | 4..=7 => out.first[p],
            COVER => ended[p].min(out.first[p] + out.count[p] - out.count[i]),
            _ => ended[p],
        };
        out.first[i] = at;
        ended[p] = at + out.count[i];
        ended[i] = at;
    }
}

const OUT: u8 = 1;
const IN: u8 = 2;

// Sets that fit, with one member in every group of 'within' and in none of 'without'.
fn place<const N: usize>(t: &Tables<N>, within: &[usize], without: &[usize], f: &mut Marked<N>, out: &mut Shown<N>) -> bool {
    let mut may = [IN | OUT; N];
    for &g in within {
        may[g] &= IN;
    }
    for &g in without {
        may[g] &= OUT;
    }
    fold_marked(t, &t.lo, &t.hi, &may, f);
    let found = !f.z[1][1].none();
    if found {
        unfold(t, f, 1, out);
    }
    found
}

// Sets that fit and break the claim; of kind 7, that have its member.
fn shows<const N: usize>(s: &[u8], t: &Tables<N>, at: usize, f: &mut Marked<N>, out: &mut Shown<N>) -> bool {
    let kind = get16(s, at + 2);
    if kind == 4 {
        let g = t.named[get16(s, at + 4) as usize] as usize;
        let (lo, hi) = (get16(s, at + 6) as u32, get16(s, at + 8) as u32);
        let may = [OUT; N];
        if g == 0 {
            if lo == 0 {
                return false;
            }
            fold_marked(t, &t.lo, &t.hi, &may, f);
            unfold(t, f, 0, out);
            return true;
        }
        if lo >= 1 {
            let mut narrow = t.hi;
            narrow[g] = narrow[g].min(lo - 1);
            fold_marked(t, &t.lo, &narrow, &may, f);
            if !f.z[1][0].none() {
                unfold(t, f, 0, out);
                return true;
            }
        }
        if hi != NO_UPPER {
            let mut narrow = t.lo;
            narrow[g] = narrow[g].max(hi + 1);
            fold_marked(t, &narrow, &t.hi, &may, f);
            if !f.z[1][0].none() {
                unfold(t, f, 0, out);
                return true;
            }
        }
        return false;
    }
    // The groups of each list; names of the empty set are left out.
    let mut groups = [[0; MAX_LIST]; 2];
    let mut many = [0; 2];
    let mut k = at + 8;
    for list in 0..2 {
        for _ in 0..get16(s, at + 4 + 2 * list) {
            let g = t.named[get16(s, k) as usize] as usize;
            k += 2;
            if g != 0 {
                groups[list][many[list]] = g;
                many[list] += 1;
            } else if kind == 7 && list == 0 {
                return false;
            }
        }
    }
    let (left, right) = (&groups[0][..many[0]], &groups[1][..many[1]]);
    match kind {
        5 => left.iter().any(|&x| place(t, &[x], right, f, out)),
        6 => left.iter().any(|&x| right.iter().any(|&y| place(t, &[x, y], &[], f, out))),
        _ => place(t, left, right, f, out),
    }
}

pub fn claim(sheet: &[u8], claim: u32, reply: &mut [u8]) -> u64 {
    if wide(sheet) { claim_of::<WIDE>(sheet, claim, reply) } else { claim_of::<NARROW>(sheet, claim, reply) }
}

fn claim_of<const N: usize>(sheet: &[u8], claim: u32, reply: &mut [u8]) -> u64 {
    let mut t = Tables::<N>::EMPTY;
    if let Err((n, r)) = read(sheet, &mut t) {
        return pack(n, r);
    }
    let mut plain = Plain { z: [NONE; N], before: [NONE; N] };
    fold_plain(&t, &t.lo, &t.hi, &mut plain);
    if plain.z[1].none() {
        return pack(8, 0);
    }
    if claim == 0 || claim as usize > t.claims {
        return pack(9, 0);
    }
    let mut f = Marked { z: [[NONE; 2]; N], before: [[NONE; 2]; N] };
    let mut out = Shown { first: [1; N], count: [0; N], mark: [0; N] };
    let at = t.claim_at[claim as usize] as usize;
    let shown = shows(sheet, &t, at, &mut f, &mut out);
    let holds = shown == (get16(sheet, at + 2) == 7);
    let size = if shown { 6 + 14 * t.groups } else { 6 };
    if reply.len() < size {
        return pack(14, 0);
    }
    put16(reply, 0, 4);
    put16(reply, 2, 18);
    put16(reply, 4, holds as u16);
    if shown {
        for g in 1..=t.groups {
            let at = 6 + 14 * (g - 1);
            put16(reply, at, 12);
            put16(reply, at + 2, 19);
            put32(reply, at + 4, out.first[g]);
            put32(reply, at + 8, out.count[g]);
            put16(reply, at + 12, out.mark[g] as u16);
        }
    }
    pack(0, size as u32)
}
