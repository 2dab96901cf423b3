// Sheets of any size, by closed forms over all sons of a group at once.
//
// What a group can count, given what its sons can (least a_i, greatest b_i each):
//   no mode            max a_i and more        (sons are parts of it)
//   disjoint           sum a_i and more        (and lie side by side)
//   cover              max a_i to sum b_i
//   disjoint + cover   sum a_i to sum b_i
//   same               max a_i to min b_i; with disjoint and two or more sons 0
//   no sons            0 under cover, else anything
// each met with lo to hi. Ranges are found by bisection: the least count of g is the smallest k
// for which the sheet with hi(g) cut down to k is possible, the greatest the largest k for which
// the sheet with lo(g) raised to k is. For one member's place the same forms are used for all
// others' counts, over every choice of the sons that have that member.

use crate::format::{Claim, Group, ListKind, Sheet};

// A span of counts; None as upper end: no end.
pub type Span = (u64, Option<u64>);

fn add(a: Option<u64>, b: Option<u64>) -> Option<u64> {
    Some(a? + b?)
}

fn at_most(a: u64, end: Option<u64>) -> bool {
    end.is_none_or(|e| a <= e)
}

pub fn smaller(a: Option<u64>, b: Option<u64>) -> Option<u64> {
    match (a, b) {
        (Some(a), Some(b)) => Some(a.min(b)),
        (a, None) => a,
        (None, b) => b,
    }
}

fn larger(a: Option<u64>, b: Option<u64>) -> Option<u64> {
    Some(a?.max(b?))
}

fn met(span: Option<Span>, lo: u64, hi: Option<u64>) -> Option<Span> {
    let (a, b) = span?;
    let (a, b) = (a.max(lo), smaller(b, hi));
    at_most(a, b).then_some((a, b))
}

// What the sons allow, when each son has a span.
fn allowed(group: &Group, sons: &[Span]) -> Option<Span> {
    if sons.is_empty() {
        return Some((0, if group.cover() { Some(0) } else { None }));
    }
    let most_least = sons.iter().map(|s| s.0).max().unwrap();
    let sum_least: u64 = sons.iter().map(|s| s.0).sum();
    let sum_most = sons.iter().fold(Some(0), |x, s| add(x, s.1));
    let least_most = sons.iter().fold(None, |x, s| smaller(x, s.1));
    if group.same() {
        let end = if group.disjoint() && sons.len() >= 2 { Some(0) } else { least_most };
        return at_most(most_least, end).then_some((most_least, end));
    }
    let a = if group.disjoint() { sum_least } else { most_least };
    let b = if group.cover() { sum_most } else { None };
    at_most(a, b).then_some((a, b))
}

pub struct Large<'a> {
    sheet: &'a Sheet,
    pub up: Vec<Option<Span>>, // bounds from the sons, before any parent has narrowed them
}

impl<'a> Large<'a> {
    pub fn new(sheet: &'a Sheet) -> Large<'a> {
        let mut large = Large { sheet, up: vec![None; sheet.groups.len()] };
        for g in (0..sheet.groups.len()).rev() {
            let (lo, hi) = (sheet.groups[g].lo, sheet.groups[g].hi);
            large.up[g] = large.one(g, lo, hi, None);
        }
        large
    }

    // The span of g; 'instead' is another span for one of the sons.
    fn one(&self, g: usize, lo: u64, hi: Option<u64>, instead: Option<(usize, Span)>) -> Option<Span> {
        let mut sons = Vec::with_capacity(self.sheet.sons[g].len());
        for &s in &self.sheet.sons[g] {
            sons.push(match instead {
                Some((i, span)) if i == s => span,
                _ => self.up[s]?,
            });
        }
        met(allowed(&self.sheet.groups[g], &sons), lo, hi)
    }

    pub fn possible(&self) -> bool {
        self.up[0].is_some()
    }

    // Is the sheet possible with these bounds for g?
    fn possible_with(&self, g: usize, lo: u64, hi: Option<u64>) -> bool {
        let mut at = g;
        let Some(mut span) = self.one(g, lo, hi, None) else { return false };
        while let Some(p) = self.sheet.groups[at].parent {
            let (lo, hi) = (self.sheet.groups[p].lo, self.sheet.groups[p].hi);
            let Some(above) = self.one(p, lo, hi, Some((at, span))) else { return false };
            at = p;
            span = above;
        }
        true
    }

    // Least and greatest count of g in a possible sheet.
    pub fn range(&self, g: usize) -> Span {
        let (lo, hi) = (self.sheet.groups[g].lo, self.sheet.groups[g].hi);
        let under = |k: u64| self.possible_with(g, lo, smaller(hi, Some(k)));
        let over = |k: u64| self.possible_with(g, lo.max(k), hi);
        let most = self.sheet.edition.greatest_end();
        assert!(under(most) && over(0), "no count of group {} at all", g + 1);
        // No count is outside what the sons allow: most often its ends are the range's.
        let (first, last) = self.up[g].unwrap();
        let (mut no, mut yes) = (first, most); // under: false up to here, true from there
        let least = if under(first) {
            first
        } else {
            while yes - no > 1 {
                let k = (no + yes) / 2;
                if under(k) { yes = k } else { no = k }
            }
            yes
        };
        if over(most + 1) {
            assert!(over(1 << 40), "group {} has an end above {most}", g + 1);
            return (least, None);
        }
        let last = last.unwrap_or(most + 1);
        if over(last) {
            return (least, Some(last));
        }
        let (mut yes, mut no) = (least, last);
        while no - yes > 1 {
            let k = (no + yes) / 2;
            if over(k) { yes = k } else { no = k }
        }
        (least, Some(yes))
    }

    // Can some sets that fit have a member in all of 'within' and in none of 'without'?
    pub fn place(&self, within: &[usize], without: &[usize]) -> bool {
        let n = self.sheet.groups.len();
        // others[g][x]: what the other members of g can count, without (0) and with (1) our one.
        let mut others: Vec<[Option<Span>; 2]> = vec![[None; 2]; n];
        for g in (0..n).rev() {
            let group = &self.sheet.groups[g];
            let sons: Vec<[Option<Span>; 2]> =
                self.sheet.sons[g].iter().map(|&s| others[s]).collect();
            if !within.contains(&g) {
                let plain: Option<Vec<Span>> = sons.iter().map(|s| s[0]).collect();
                let span = plain.and_then(|p| allowed(group, &p));
                others[g][0] = met(span, group.lo, group.hi);
            }
            if !without.contains(&g) && group.hi != Some(0) {
                let span = with_member(group, &sons);
                others[g][1] = met(span, group.lo.saturating_sub(1), group.hi.map(|h| h - 1));
            }
        }
        others[0][1].is_some()
    }

    // Whether the reply to the claim shows sets.
    pub fn shown(&self, claim: &Claim) -> bool {
        match claim {
            Claim::Count { set, lo, hi } => {
                let (least, greatest) = set.map_or((0, Some(0)), |g| self.range(g));
                least < *lo || hi.is_some_and(|h| greatest.is_none_or(|g| g > h))
            }
            Claim::Lists { kind, left, right } => {
                let (l, r) = (distinct(left), distinct(right));
                match kind {
                    ListKind::Inside => l.iter().any(|&g| !r.contains(&g) && self.place(&[g], &r)),
                    ListKind::Apart => l.iter().any(|&a| r.iter().any(|&b| self.place(&[a, b], &[]))),
                    ListKind::Place => !left.contains(&None) && self.place(&l, &r),
                }
            }
        }
    }
}

fn distinct(sets: &[Option<usize>]) -> Vec<usize> {
    let mut v: Vec<usize> = sets.iter().flatten().copied().collect();
    v.sort_unstable();
    v.dedup();
    v
}

// Spans as one; that there is no gap between them is checked, not assumed.
fn union(mut spans: Vec<Span>) -> Option<Span> {
    spans.sort_unstable_by_key(|s| s.0);
    let mut all = *spans.first()?;
    for s in spans {
        assert!(all.1.is_none_or(|e| s.0 <= e + 1), "a gap between spans");
        all.1 = larger(all.1, s.1);
    }
    Some(all)
}

// What the others in a group that has our member can count, over every choice of the sons that
// have it too.
fn with_member(group: &Group, sons: &[[Option<Span>; 2]]) -> Option<Span> {
    if sons.is_empty() {
        return (!group.cover()).then_some((0, None));
    }
    if group.same() {
        if group.disjoint() && sons.len() >= 2 {
            return None;
        }
        let all: Option<Vec<Span>> = sons.iter().map(|s| s[1]).collect();
        return allowed(group, &all?);
    }
    if group.disjoint() {
        // At most one son, under cover exactly one: sums before and after it.
        let sum = |a: Option<Span>, b: Option<Span>| -> Option<Span> {
            let (a, b) = (a?, b?);
            Some((a.0 + b.0, add(a.1, b.1)))
        };
        let mut after = vec![Some((0, Some(0)))];
        for s in sons.iter().rev() {
            after.push(sum(*after.last().unwrap(), s[0]));
        }
        let mut found = Vec::new();
        let mut before = Some((0, Some(0)));
        for (i, s) in sons.iter().enumerate() {
            found.extend(sum(sum(before, s[1]), after[sons.len() - 1 - i]));
            before = sum(before, s[0]);
        }
        if group.cover() {
            return union(found);
        }
        found.extend(before);
        return union(found.into_iter().map(|s| (s.0, None)).collect());
    }
    // No disjointness: any sons, under cover at least one. Choices so far, as (greatest least,
    // sum of greatest, does some son have it), without those that another one outdoes.
    let mut choices: Vec<(u64, Option<u64>, bool)> = vec![(0, Some(0), false)];
    for s in sons {
        let mut next: Vec<(u64, Option<u64>, bool)> = Vec::new();
        for &(a, b, some) in &choices {
            for (x, span) in s.iter().enumerate() {
                if let Some((c, d)) = span {
                    let new = (a.max(*c), add(b, *d), some || x == 1);
                    let better = |p: &(u64, Option<u64>, bool), q: &(u64, Option<u64>, bool)| {
                        p.0 <= q.0 && larger(p.1, q.1) == p.1 && (p.2 || !q.2)
                    };
                    if !next.iter().any(|p| better(p, &new)) {
                        next.retain(|p| !better(&new, p));
                        next.push(new);
                    }
                }
            }
        }
        choices = next;
    }
    if group.cover() {
        union(choices.iter().filter(|c| c.2 && at_most(c.0, c.1)).map(|c| (c.0, c.1)).collect())
    } else {
        union(choices.iter().map(|c| (c.0, None)).collect())
    }
}

// First and count of every group, by document 01's rules.
pub fn arrangement(sheet: &Sheet, up: &[Option<Span>]) -> Vec<(u64, u64)> {
    let mut runs = vec![(0, 0); sheet.groups.len()];
    runs[0] = (1, up[0].unwrap().0);
    for p in 0..sheet.groups.len() {
        let group = &sheet.groups[p];
        let (start, size) = runs[p];
        let end = start + size;
        let sons = &sheet.sons[p];
        let mut place = start; // where the previous son ended
        for (k, &s) in sons.iter().enumerate() {
            let (least, greatest) = up[s].unwrap();
            let cut = |x: u64| greatest.map_or(x, |g| g.min(x));
            let count = if group.same() {
                if group.disjoint() && sons.len() >= 2 { 0 } else { size }
            } else {
                match group.mode {
                    0 | 1 => least,
                    2 => cut(size),
                    _ => {
                        let earlier: u64 = sons[..k].iter().map(|&e| runs[e].1).sum();
                        let later: u64 = sons[k + 1..].iter().map(|&l| up[l].unwrap().0).sum();
                        cut(size - earlier - later)
                    }
                }
            };
            let first = match group.mode {
                0 | 4..=7 => start,
                2 => place.min(end - count),
                _ => place,
            };
            runs[s] = (first, count);
            place = first + count;
        }
    }
    runs
}
