// Small sheets by enumeration, from the meaning alone: all that one member can be in, then all
// tables of counts that adding such members one by one can reach.
//
// Why the caps suffice. Take members away as long as all counts stay at lo or more: what is left
// has at most the sum of all lo members, and no count grew. So a least count is at most that sum,
// and a group that some legal member without any finite hi is in has no greatest count. In every
// other group each member is also in a group with a finite hi, so the sum of these bounds it.

use crate::format::{Claim, Sheet};

pub struct Small {
    vectors: Vec<u32>,
    caps: Vec<u64>,
    endless: Vec<bool>,
    good: Vec<bool>, // by state: members can be added to it so that all fits
    pub possible: bool,
    pub ranges: Vec<(u64, Option<u64>)>,
}

fn legal(sheet: &Sheet, v: u32) -> bool {
    let has = |g: usize| v >> g & 1 == 1;
    (0..sheet.groups.len()).all(|g| {
        let group = &sheet.groups[g];
        let held = sheet.sons[g].iter().filter(|&&s| has(s)).count();
        group.parent.is_none_or(|p| !has(g) || has(p))
            && (!group.same() || sheet.sons[g].iter().all(|&s| has(s) == has(g)))
            && (!group.cover() || !has(g) || held >= 1)
            && (!group.disjoint() || held <= 1)
    })
}

impl Small {
    // None where there would be more than 'limit' steps.
    pub fn new(sheet: &Sheet, limit: u64) -> Option<Small> {
        let n = sheet.groups.len();
        if n > 8 {
            return None;
        }
        let vectors: Vec<u32> = (1..1u32 << n).filter(|&v| legal(sheet, v)).collect();
        let finite: u32 =
            (0..n).filter(|&g| sheet.groups[g].hi.is_some()).map(|g| 1 << g).sum();
        let lo_sum: u64 = sheet.groups.iter().map(|g| g.lo).sum();
        let hi_sum: u64 = sheet.groups.iter().filter_map(|g| g.hi).sum();
        let endless: Vec<bool> = (0..n)
            .map(|g| vectors.iter().any(|&v| v >> g & 1 == 1 && v & finite == 0))
            .collect();
        let caps: Vec<u64> = (0..n)
            .map(|g| match sheet.groups[g].hi {
                Some(hi) => hi,
                None if endless[g] => lo_sum + 1,
                None => hi_sum,
            })
            .collect();
        let mut states = 1u64;
        for &c in &caps {
            states = states.checked_mul(c + 1)?;
            if states * (vectors.len() as u64 + 1) > limit {
                return None;
            }
        }
        let mut small =
            Small { vectors, caps, endless, good: Vec::new(), possible: false, ranges: Vec::new() };
        let states = states as usize;
        let fits = |digits: &[u64]| (0..n).all(|g| digits[g] >= sheet.groups[g].lo);

        // Which tables can be reached from nobody.
        let mut reached = vec![false; states];
        reached[0] = true;
        let mut digits = vec![0u64; n];
        let mut ranges: Vec<Option<(u64, u64)>> = vec![None; n];
        for s in 0..states {
            if reached[s] {
                if fits(&digits) {
                    for g in 0..n {
                        let d = digits[g];
                        ranges[g] =
                            Some(ranges[g].map_or((d, d), |(a, b)| (a.min(d), b.max(d))));
                    }
                }
                for i in 0..small.vectors.len() {
                    if let Some(to) = small.step(&digits, s, small.vectors[i]) {
                        reached[to] = true;
                    }
                }
            }
            small.count_up(&mut digits);
        }
        small.possible = ranges[0].is_some();
        if small.possible {
            small.ranges = (0..n)
                .map(|g| {
                    let (a, b) = ranges[g].unwrap();
                    (a, if small.endless[g] { None } else { Some(b) })
                })
                .collect();
        }

        // From which tables a fitting one can be reached: later states first.
        let mut good = vec![false; states];
        for s in (0..states).rev() {
            let mut left = s;
            for g in 0..n {
                digits[g] = (left as u64) % (small.caps[g] + 1);
                left /= (small.caps[g] + 1) as usize;
            }
            good[s] = fits(&digits)
                || small.vectors.iter().any(|&v| {
                    small.step(&digits, s, v).is_some_and(|to| to != s && good[to])
                });
        }
        small.good = good;
        Some(small)
    }

    fn count_up(&self, digits: &mut [u64]) {
        for (d, &cap) in digits.iter_mut().zip(&self.caps) {
            if *d < cap {
                *d += 1;
                return;
            }
            *d = 0;
        }
    }

    // One more member with the groups of v. Counts without a greatest stay at their cap.
    fn step(&self, digits: &[u64], state: usize, v: u32) -> Option<usize> {
        let mut to = state as u64;
        let mut weight = 1;
        for g in 0..digits.len() {
            if v >> g & 1 == 1 {
                if digits[g] < self.caps[g] {
                    to += weight;
                } else if !self.endless[g] {
                    return None;
                }
            }
            weight *= self.caps[g] + 1;
        }
        Some(to as usize)
    }

    // Whether the reply to the claim shows sets: some that fit break it, or have the member of a place. Asked only of a
    // possible sheet.
    pub fn shown(&self, claim: &Claim) -> bool {
        let zero = vec![0; self.caps.len()];
        match claim {
            Claim::Count { set, lo, hi } => {
                let (least, greatest) = set.map_or((0, Some(0)), |g| self.ranges[g]);
                least < *lo
                    || match (greatest, *hi) {
                        (_, None) => false,
                        (None, Some(_)) => true,
                        (Some(a), Some(b)) => a > b,
                    }
            }
            Claim::Lists { kind, left, right } => self.vectors.iter().any(|&v| {
                kind.sought(left, right, |set| set.is_some_and(|g| v >> g & 1 == 1))
                    && self.step(&zero, 0, v).is_some_and(|s| self.good[s])
            }),
        }
    }
}
