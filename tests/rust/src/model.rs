//! Documents 01 and 02 by their definitions, for small N: a timetable is a set of packages as a bit mask, a set of timetables says of every mask whether it is in.
//! Nothing here is taken from the library; nothing is meant to be fast.

use std::collections::HashSet;

/// The greatest number of items.
pub const ITEMS: u32 = 192;

/// A set of items, as the interface has it: item i is bit i % 64 of word i / 64.
#[derive(Clone, Copy, PartialEq, Eq, Debug)]
pub struct Set(pub [u64; 3]);

impl Set {
    pub const NONE: Set = Set([0; 3]);

    pub fn of(items: impl IntoIterator<Item = u32>) -> Set {
        let mut s = Set::NONE;
        items.into_iter().for_each(|i| s.add(i));
        s
    }

    pub fn add(&mut self, i: u32) {
        self.0[i as usize / 64] |= 1 << (i % 64);
    }

    pub fn has(self, i: u32) -> bool {
        i < ITEMS && self.0[i as usize / 64] >> (i % 64) & 1 == 1
    }

    pub fn items(self) -> impl Iterator<Item = u32> {
        (0..ITEMS).filter(move |&i| self.has(i))
    }

    pub fn below(self, m: u32) -> bool {
        self.items().all(|i| i < m)
    }

    pub fn or(self, other: Set) -> Set {
        Set([0, 1, 2].map(|j| self.0[j] | other.0[j]))
    }

    pub fn and(self, other: Set) -> Set {
        Set([0, 1, 2].map(|j| self.0[j] & other.0[j]))
    }

    pub fn without(self, other: Set) -> Set {
        Set([0, 1, 2].map(|j| self.0[j] & !other.0[j]))
    }

    pub fn inside(self, other: Set) -> bool {
        self.without(other) == Set::NONE
    }

    /// The set as a number of 192 bits, modulo so many places: long division, a word at a time.
    pub fn place(self, places: usize) -> usize {
        let rest = self.0.iter().rev().fold(0, |rest: u128, &word| (rest << 64 | word as u128) % places as u128);
        rest as usize
    }
}

/// The packages as they are lent.
pub fn lent(sets: &[Set]) -> Vec<u64> {
    sets.iter().flat_map(|s| s.0).collect()
}

/// A set of timetables: bit t of the words, for the timetable with the mask t.
#[derive(Clone, PartialEq, Eq, Hash, Debug)]
pub struct Family(Vec<u64>);

impl Family {
    pub fn none(n: usize) -> Family {
        Family(vec![0; (1usize << n).div_ceil(64)])
    }

    pub fn empty_one(n: usize) -> Family {
        let mut f = Family::none(n);
        f.add(0);
        f
    }

    pub fn add(&mut self, t: u32) {
        self.0[t as usize / 64] |= 1 << (t % 64);
    }

    pub fn has(&self, t: u32) -> bool {
        self.0[t as usize / 64] >> (t % 64) & 1 == 1
    }

    pub fn members(&self) -> Vec<u32> {
        let mut all = Vec::new();
        for (i, word) in self.0.iter().enumerate() {
            let mut w = *word;
            while w != 0 {
                all.push(i as u32 * 64 + w.trailing_zeros());
                w &= w - 1;
            }
        }
        all
    }

    pub fn len(&self) -> u64 {
        self.0.iter().map(|w| w.count_ones() as u64).sum()
    }

    /// Every union of a timetable of this one and one of the other.
    pub fn join(&self, other: &Family) -> Family {
        let mut all = Family(vec![0; self.0.len()]);
        for s in self.members() {
            for t in other.members() {
                all.add(s | t);
            }
        }
        all
    }
}

/// The memo of a search, in each place a set and its timetables; the steps so far, and the greatest number of them.
struct Walk {
    memo: Vec<Option<(Set, Family)>>,
    steps: u64,
    most: u64,
}

/// What a call is lent besides its table.
pub struct Week<'a> {
    pub m: u32,
    pub sets: &'a [Set],
    pub optional: Set,
    pub order: &'a [u8],
    /// Where the earliest compulsory item of each package stands in the order.
    leads: Vec<Option<usize>>,
    /// The packages in precedence.
    precedence: Vec<usize>,
}

/// Where the earliest item of a set stands in an order that has one.
fn earliest(order: &[u8], set: Set) -> Option<usize> {
    order.iter().position(|&i| set.has(i as u32))
}

impl<'a> Week<'a> {
    pub fn new(m: u32, sets: &'a [Set], optional: Set, order: &'a [u8]) -> Week<'a> {
        let leads: Vec<Option<usize>> = sets.iter().map(|s| earliest(order, s.without(optional))).collect();
        let mut precedence: Vec<usize> = (0..sets.len()).collect();
        precedence.sort_by_key(|&p| (leads[p], p));
        Week { m, sets, optional, order, leads, precedence }
    }

    pub fn n(&self) -> usize {
        self.sets.len()
    }

    /// p comes before q.
    pub fn before(&self, p: usize, q: usize) -> bool {
        (self.leads[p], p) < (self.leads[q], q)
    }

    /// A timetable as it is written.
    pub fn written(&self, t: u32) -> Vec<u16> {
        self.precedence.iter().filter(|&&p| p < 32 && t >> p & 1 == 1).map(|&p| p as u16).collect()
    }

    /// The listing of a set of timetables. "Of two timetables, find the first package in precedence that only one of them has: the one that has it is
    /// listed first."
    pub fn listing(&self, f: &Family) -> Vec<u32> {
        let mut all = f.members();
        all.sort_by(|&a, &b| {
            for &p in &self.precedence {
                let (x, y) = (a >> p & 1, b >> p & 1);
                if x != y {
                    return y.cmp(&x);
                }
            }
            std::cmp::Ordering::Equal
        });
        all
    }

    /// In how many packages two timetables differ, "counting those in one but not in the other".
    pub fn difference(&self, s: u32, t: u32) -> u32 {
        (0..self.n()).filter(|&p| (s >> p & 1) != (t >> p & 1)).count() as u32
    }

    /// The timetable of f that differs from s in the fewest packages. "Every other member differs in as many or more, and those with as many are listed later."
    pub fn closest(&self, f: &Family, s: u32) -> Option<u32> {
        let all = self.listing(f);
        let fewest = all.iter().map(|&t| self.difference(s, t)).min();
        all.into_iter().find(|&t| Some(self.difference(s, t)) == fewest)
    }

    /// A list of packages is in precedence, without repetition and without an unknown one.
    pub fn in_precedence(&self, list: &[u16]) -> bool {
        list.iter().all(|&p| (p as usize) < self.n()) && list.windows(2).all(|w| self.before(w[0] as usize, w[1] as usize))
    }

    /// Inside d, each compulsory item of d in just one package, each optional one in at most one.
    fn covers(&self, t: u32, d: Set) -> bool {
        let chosen: Vec<Set> = (0..self.n()).filter(|&p| t >> p & 1 == 1).map(|p| self.sets[p]).collect();
        let fits = |i: u32| match chosen.iter().filter(|s| s.has(i)).count() {
            0 => self.optional.has(i),
            n => n == 1,
        };
        chosen.iter().all(|s| s.inside(d)) && d.items().all(fits)
    }

    /// The timetables that cover d.
    pub fn covering(&self, d: Set) -> Family {
        let mut f = Family::none(self.n());
        for t in 0..1u32 << self.n() {
            if self.covers(t, d) {
                f.add(t);
            }
        }
        f
    }

    /// Search by its text, with a memo of `places` places: the timetables that it finds, and its steps. Stopped above `most` steps.
    pub fn searched(&self, d: Set, places: usize, most: u64) -> (Family, u64) {
        let mut walk = Walk { memo: vec![None; places], steps: 0, most };
        let found = self.search(d, &mut walk);
        (found, walk.steps)
    }

    fn search(&self, a: Set, walk: &mut Walk) -> Family {
        walk.steps += 1;
        let due = a.without(self.optional);
        if due == Set::NONE || walk.steps > walk.most {
            return Family::empty_one(self.n());
        }
        let place = a.place(walk.memo.len());
        match &walk.memo[place] {
            Some((known, f)) if *known == a => return f.clone(),
            _ => {}
        }
        let lead = self.order[earliest(self.order, due).expect("an order of all items")] as u32;
        let mut f = Family::none(self.n());
        for p in (0..self.n()).rev() {
            let s = self.sets[p];
            if s.has(lead) && s.inside(a) {
                let rest = self.search(a.without(s), walk);
                rest.members().into_iter().for_each(|t| f.add(t | 1 << p));
            }
        }
        walk.memo[place] = Some((a, f.clone()));
        f
    }

    /// The branch sets of f: f itself, and those of its two halves by its first package.
    fn branches(&self, f: &Family, all: &mut HashSet<Family>) {
        if *f == Family::none(self.n()) || *f == Family::empty_one(self.n()) || all.contains(f) {
            return;
        }
        all.insert(f.clone());
        let members = f.members();
        let first = *self.precedence.iter().find(|&&p| members.iter().any(|t| t >> p & 1 == 1)).unwrap();
        let (mut hi, mut lo) = (Family::none(self.n()), Family::none(self.n()));
        for t in members {
            if t >> first & 1 == 1 {
                hi.add(t & !(1 << first));
            } else {
                lo.add(t);
            }
        }
        self.branches(&hi, all);
        self.branches(&lo, all);
    }

    /// How many branch sets of f no number of the table holds.
    pub fn missing(&self, known: &[Family], f: &Family) -> u64 {
        let mut all = HashSet::new();
        self.branches(f, &mut all);
        all.iter().filter(|b| !known.contains(b)).count() as u64
    }

    /// How many different branch sets these have together: the nodes that a table needs for them.
    pub fn nodes(&self, families: &[Family]) -> usize {
        let mut all = HashSet::new();
        families.iter().for_each(|f| self.branches(f, &mut all));
        all.len()
    }

    /// Those of f's timetables that have no withdrawn package, in the new numbers: "the packages that remain are renumbered from 0 in their old order".
    pub fn withdrawn(&self, f: &Family, gone: &[u16]) -> Family {
        let remain: Vec<usize> = (0..self.n()).filter(|&p| !gone.contains(&(p as u16))).collect();
        let mut left = Family::none(remain.len());
        for t in f.members() {
            if gone.iter().all(|&p| t >> p & 1 == 0) {
                left.add((0..remain.len()).filter(|&q| t >> remain[q] & 1 == 1).fold(0, |new, q| new | 1 << q));
            }
        }
        left
    }

    /// The items of the packages that some timetable of f has.
    pub fn items(&self, f: &Family) -> Set {
        let packages = f.members().into_iter().fold(0, |all, t| all | t);
        (0..self.n()).filter(|&p| packages >> p & 1 == 1).fold(Set::NONE, |all, p| all.or(self.sets[p]))
    }

    /// Some package on a node below a shares an item with one on a node below b.
    pub fn overlap(&self, t: &[u32], a: u32, b: u32) -> bool {
        let on_nodes = |k: u32| below(t, k).into_iter().filter(|&k| k >= 2).map(|k| self.sets[t[1 + 3 * (k as usize - 2)] as usize]);
        let second: Vec<Set> = on_nodes(b).collect();
        on_nodes(a).any(|x| second.iter().any(|&y| x.and(y) != Set::NONE))
    }

    /// 1 oversize, 2 stray, 29 optional item of M or above, 30 package without a compulsory item, 34 order that is not each item just once, or 0.
    pub fn refusal(&self) -> u32 {
        if self.m > ITEMS || self.n() > 512 {
            return 1;
        }
        if self.sets.iter().any(|&s| s == Set::NONE || !s.below(self.m)) {
            return 2;
        }
        if !self.optional.below(self.m) {
            return 29;
        }
        if self.sets.iter().any(|s| s.inside(self.optional)) {
            return 30;
        }
        let times = |i: u32| self.order.iter().filter(|&&j| j as u32 == i).count();
        if self.order.len() != self.m as usize || (0..self.m).any(|i| times(i) != 1) {
            return 34;
        }
        0
    }

    /// A table is sound: document 01's sentence, clause by clause.
    pub fn sound(&self, t: &[u32]) -> bool {
        if t.is_empty() {
            return false;
        }
        let n = t[0] as usize;
        if n > capacity(t) {
            return false;
        }
        let node = |k: usize| (t[1 + 3 * (k - 2)], t[2 + 3 * (k - 2)] as usize, t[3 + 3 * (k - 2)] as usize);
        for k in 2..n + 2 {
            let (label, lo, hi) = node(k);
            if label as usize >= self.n() || lo >= k || hi >= k || hi == 0 {
                return false;
            }
            for child in [lo, hi] {
                if child >= 2 && !self.before(label as usize, node(child).0 as usize) {
                    return false;
                }
            }
            if (2..k).any(|j| node(j) == node(k)) {
                return false;
            }
        }
        t[1 + 3 * n..].iter().all(|&w| w == 0)
    }

    /// What each number of a sound table holds.
    pub fn families(&self, t: &[u32]) -> Vec<Family> {
        let mut all = vec![Family::none(self.n()), Family::empty_one(self.n())];
        for k in 0..t[0] as usize {
            let (label, lo, hi) = (t[1 + 3 * k], t[2 + 3 * k] as usize, t[3 + 3 * k] as usize);
            let mut f = all[lo].clone();
            for s in all[hi].members() {
                f.add(s | 1 << label);
            }
            all.push(f);
        }
        all
    }
}

/// The numbers below a in a sound table: a itself, and those below its lo and its hi.
pub fn below(t: &[u32], a: u32) -> HashSet<u32> {
    let mut all = HashSet::from([a]);
    if a >= 2 {
        let at = 1 + 3 * (a as usize - 2);
        all.extend(below(t, t[at + 1]));
        all.extend(below(t, t[at + 2]));
    }
    all
}

pub fn capacity(t: &[u32]) -> usize {
    ((t.len() - 1) / 3).min(65534)
}
