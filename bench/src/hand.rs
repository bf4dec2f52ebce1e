//! The library's algorithm written by hand in Rust, on item sets of 192 bits and in a lent order of the items as well: every call checks the lent table and
//! builds the index, then works.

/// A set of at most 192 items: item i is bit i % 64 of word i / 64.
#[derive(Clone, Copy, PartialEq, Eq)]
struct Items {
    w0: u64,
    w1: u64,
    w2: u64,
}

impl Items {
    fn of(&[w0, w1, w2]: &[u64; 3]) -> Items {
        Items { w0, w1, w2 }
    }

    fn below(m: u32) -> Items {
        let word = |j: u32| match m.saturating_sub(64 * j) {
            0 => 0,
            some => u64::MAX >> (64 - some.min(64)),
        };
        Items { w0: word(0), w1: word(1), w2: word(2) }
    }

    fn is_empty(self) -> bool {
        self.w0 | self.w1 | self.w2 == 0
    }

    /// Whether it has no item of 64 or above.
    fn is_narrow(self) -> bool {
        self.w1 | self.w2 == 0
    }

    fn without(self, part: Items) -> Items {
        Items { w0: self.w0 & !part.w0, w1: self.w1 & !part.w1, w2: self.w2 & !part.w2 }
    }

    fn inside(self, whole: Items) -> bool {
        self.without(whole).is_empty()
    }

    fn or(self, more: Items) -> Items {
        Items { w0: self.w0 | more.w0, w1: self.w1 | more.w1, w2: self.w2 | more.w2 }
    }

    fn single(i: u32) -> Items {
        let word = |j: u32| if i / 64 == j { 1 << (i % 64) } else { 0 };
        Items { w0: word(0), w1: word(1), w2: word(2) }
    }

    fn lowest(self) -> u32 {
        if self.w0 != 0 {
            self.w0.trailing_zeros()
        } else if self.w1 != 0 {
            64 + self.w1.trailing_zeros()
        } else {
            128 + self.w2.trailing_zeros()
        }
    }

    /// The set as a number, modulo the places.
    fn place(self, places: u64) -> u64 {
        if self.is_narrow() {
            return self.w0 % places;
        }
        let next = |r: u64, w: u64| (((r as u128) << 64 | w as u128) % places as u128) as u64;
        next(next(self.w2 % places, self.w1), self.w0)
    }
}

/// Where each item stands in the lent order. There the earliest item of a set is the lowest.
struct Positions {
    plain: bool,
    of: [u8; 192],
}

impl Positions {
    /// None where the order is not each item below m once.
    fn new(m: u32, order: &[u8]) -> Option<Positions> {
        if order.len() != m as usize {
            return None;
        }
        let mut positions = Positions { plain: true, of: [255; 192] };
        for (j, &i) in order.iter().enumerate() {
            if i as u32 >= m || positions.of[i as usize] != 255 {
                return None;
            }
            positions.of[i as usize] = j as u8;
            positions.plain &= i as usize == j;
        }
        Some(positions)
    }

    /// The positions of the items of a set, as a set; in the plain order that is the set itself.
    fn set(&self, x: Items) -> Items {
        if self.plain {
            return x;
        }
        let (mut rest, mut at) = (x, Items::of(&[0; 3]));
        while !rest.is_empty() {
            let i = rest.lowest();
            at = at.or(Items::single(self.of[i as usize] as u32));
            rest = rest.without(Items::single(i));
        }
        at
    }
}

/// 65,536 heads of buckets, and for each node the next one of its bucket.
pub struct Index([u16; 131072]);

/// The bucket of a triple.
pub fn hash(label: u32, lo: u32, hi: u32) -> usize {
    ((label as u64 * 951274213 + lo as u64 * 663608941 + hi as u64 * 444758373) / 65536 % 65536) as usize
}

impl Index {
    fn find(&self, t: &[u32], h: usize, label: u32, lo: u32, hi: u32) -> u32 {
        let mut k = self.0[h];
        while k != 0 {
            let w = 3 * k as usize - 5;
            if t[w] == label && t[w + 1] == lo && t[w + 2] == hi {
                return k as u32;
            }
            k = self.0[65536 + k as usize];
        }
        0
    }

    fn insert(&mut self, h: usize, k: u32) {
        self.0[65536 + k as usize] = self.0[h];
        self.0[h] = k as u16;
    }

    /// The number of the triple, found or made; None where there is no room.
    fn unique(&mut self, t: &mut [u32], label: u32, lo: u32, hi: u32) -> Option<u32> {
        let h = hash(label, lo, hi);
        let k = self.find(t, h, label, lo, hi);
        if k != 0 {
            return Some(k);
        }
        let n = t[0];
        let w = 1 + 3 * n as usize;
        if n >= 65534 || t.len() < w + 3 {
            return None;
        }
        t[w..w + 3].copy_from_slice(&[label, lo, hi]);
        t[0] = n + 1;
        self.insert(h, n + 2);
        Some(n + 2)
    }

    /// The table is sound; its nodes go into the index.
    fn check(&mut self, t: &[u32], keys: &[u32]) -> bool {
        if t.is_empty() || t[0] > 65534 || 3 * t[0] as usize >= t.len() {
            return false;
        }
        let n = t[0] as usize;
        for i in 0..n {
            let w = 1 + 3 * i;
            let (label, lo, hi) = (t[w], t[w + 1], t[w + 2]);
            if label as usize >= keys.len() || hi == 0 {
                return false;
            }
            let key = keys[label as usize];
            for c in [lo as usize, hi as usize] {
                if c >= i + 2 || c >= 2 && keys[t[3 * c - 5] as usize] <= key {
                    return false;
                }
            }
            let h = hash(label, lo, hi);
            if self.find(t, h, label, lo, hi) != 0 {
                return false;
            }
            self.insert(h, i as u32 + 2);
        }
        t[1 + 3 * n..].iter().fold(0, |any, &w| any | w) == 0
    }
}

/// What every call on a table is lent besides it.
#[derive(Clone, Copy)]
pub struct Week<'a> {
    pub m: u32,
    pub packs: &'a [[u64; 3]],
    pub optional: &'a [u64; 3],
    pub order: &'a [u8],
}

impl Week<'_> {
    /// 1, 2, 29 or 30.
    fn packages_refusal(self) -> Option<u32> {
        let (all, optional) = (Items::below(self.m), Items::of(self.optional));
        if self.m > 192 || self.packs.len() > 512 {
            return Some(1);
        }
        let mut bare = false;
        for s in self.packs.iter().map(Items::of) {
            if s.is_empty() || !s.inside(all) {
                return Some(2);
            }
            bare |= s.inside(optional);
        }
        if !optional.inside(all) {
            Some(29)
        } else {
            bare.then_some(30)
        }
    }

    /// What every call tests first. It makes the keys and the index.
    fn admit(self, t: &[u32], keys: &mut [u32; 512], index: &mut Index) -> Result<Positions, u32> {
        if let Some(r) = self.packages_refusal() {
            return Err(r);
        }
        let positions = Positions::new(self.m, self.order).ok_or(34u32)?;
        let optional = Items::of(self.optional);
        for (p, s) in self.packs.iter().map(Items::of).enumerate() {
            keys[p] = positions.set(s.without(optional)).lowest() * 512 + p as u32;
        }
        if !index.check(t, &keys[..self.packs.len()]) {
            return Err(4);
        }
        Ok(positions)
    }
}

/// Four words a place. The low words of the sets and the answers stand in the first half, the high words in the second, which only sets with items of 64 or
/// above touch: a bit above the answer tells them.
struct Memo<'a> {
    words: &'a mut [u64],
    places: usize,
}

const HIGH: u64 = 1 << 32;

impl Memo<'_> {
    fn new(words: &mut [u64]) -> Memo<'_> {
        let places = words.len() / 4;
        words[..2 * places].fill(0);
        Memo { words, places }
    }

    // left to itself the compiler calls it, and passes the set in memory
    #[inline(always)]
    fn get(&self, at: usize, items: Items) -> Option<u32> {
        let (low, answer) = (self.words[2 * at], self.words[2 * at + 1]);
        if low != items.w0 {
            return None;
        }
        let same = if answer < HIGH {
            items.is_narrow()
        } else {
            let high = 2 * self.places + 2 * at;
            self.words[high] == items.w1 && self.words[high + 1] == items.w2
        };
        same.then_some(answer as u32)
    }

    fn put(&mut self, at: usize, items: Items, answer: u32) {
        self.words[2 * at] = items.w0;
        if items.is_narrow() {
            self.words[2 * at + 1] = answer as u64;
            return;
        }
        let high = 2 * self.places + 2 * at;
        self.words[2 * at + 1] = answer as u64 | HIGH;
        self.words[high] = items.w1;
        self.words[high + 1] = items.w2;
    }
}

/// All but the memo's places is in positions of the order: there item stands for position.
struct Search<'a> {
    packs: &'a [[u64; 3]],
    optional: Items,
    /// The packages by lowest compulsory item: 193 heads, and from 194 on the next one of each package.
    leads: [u16; 706],
    /// The packages' places in the memo, by their items as they are lent. What a package leaves of a set has its place by one subtraction, so that no step
    /// divides.
    homes: [u64; 512],
    t: &'a mut [u32],
    index: &'a mut Index,
    memo: Memo<'a>,
    limit: u64,
    steps: u64,
    full: bool,
    over: bool,
}

impl Search<'_> {
    fn enlist(&mut self, lent: &[[u64; 3]]) {
        for (p, set) in self.packs.iter().map(Items::of).enumerate() {
            let low = set.without(self.optional).lowest() as usize;
            self.leads[194 + p] = self.leads[low];
            self.leads[low] = p as u16 + 1;
            self.homes[p] = Items::of(&lent[p]).place(self.memo.places as u64);
        }
    }

    #[inline(always)]
    fn search(&mut self, at: usize, items: Items) -> u32 {
        if self.steps >= self.limit {
            self.over = true;
            return 0;
        }
        self.steps += 1;
        let compulsory = items.without(self.optional);
        if compulsory.is_empty() {
            return 1;
        }
        match self.memo.get(at, items) {
            Some(answer) => answer,
            None => self.trial(at, compulsory.lowest(), items.w0, items.w1, items.w2),
        }
    }

    /// The lowest compulsory item as search has found it, which is faster than to find it again, and the words one by one: a struct of three would be passed in
    /// memory.
    fn trial(&mut self, at: usize, lead: u32, w0: u64, w1: u64, w2: u64) -> u32 {
        let items = Items { w0, w1, w2 };
        let mut p = self.leads[lead as usize];
        let mut answer = 0;
        while p != 0 {
            let k = p as usize - 1;
            let pack = Items::of(&self.packs[k]);
            p = self.leads[194 + k];
            if !pack.inside(items) {
                continue;
            }
            let home = self.homes[k] as usize;
            let there = if at < home { at + (self.memo.places - home) } else { at - home };
            let y = self.search(there, items.without(pack));
            if self.over {
                return 0;
            }
            if y == 0 || self.full {
                continue;
            }
            match self.index.unique(self.t, k as u32, answer, y) {
                Some(z) => answer = z,
                None => self.full = true,
            }
        }
        self.memo.put(at, items, answer);
        answer
    }
}

fn rollback(t: &mut [u32], n: u32) {
    let last = 1 + 3 * t[0] as usize;
    t[1 + 3 * n as usize..last].fill(0);
    t[0] = n;
}

/// The packages in positions.
fn permuted(packs: &[[u64; 3]], positions: &Positions) -> [[u64; 3]; 512] {
    let mut all = [[0; 3]; 512];
    for (to, pack) in all.iter_mut().zip(packs) {
        let Items { w0, w1, w2 } = positions.set(Items::of(pack));
        *to = [w0, w1, w2];
    }
    all
}

/// The answer and the steps, or a refusal.
#[inline(never)]
#[no_mangle]
pub fn hand_cover(week: Week, t: &mut [u32], d: &[u64; 3], limit: u32, work: &mut [u64]) -> Result<(u32, u64), u32> {
    let mut keys = [0; 512];
    let mut index = Index([0; 131072]);
    let Week { m, packs, optional, .. } = week;
    let positions = week.admit(t, &mut keys, &mut index)?;
    let d = Items::of(d);
    if !d.inside(Items::below(m)) {
        return Err(7);
    }
    if work.len() < 4 {
        return Err(8);
    }
    let n = t[0];
    let memo = Memo::new(work);
    let at = d.place(memo.places as u64) as usize;
    let (leads, homes, limit) = ([0; 706], [0; 512], limit as u64);
    let moved;
    let placed = if positions.plain {
        packs
    } else {
        moved = permuted(packs, &positions);
        &moved[..packs.len()]
    };
    let optional = positions.set(Items::of(optional));
    let mut s = Search { packs: placed, optional, leads, homes, t, index: &mut index, memo, limit, steps: 0, full: false, over: false };
    s.enlist(packs);
    let answer = s.search(at, positions.set(d));
    let (over, full, steps) = (s.over, s.full, s.steps);
    if over || full {
        rollback(t, n);
        return Err(if over { 9 } else { 10 });
    }
    Ok((answer, steps))
}

/// What is remembered of pairs, two places a word: the place and 16 bits beside the result tell the mixed pair.
struct Pairs<'a>(&'a mut [u64]);

/// The place of a pair.
#[derive(Clone, Copy)]
struct Place {
    mixed: u32,
    word: usize,
    shift: usize,
}

impl Pairs<'_> {
    #[inline(always)]
    fn place(&self, x: u32, y: u32) -> Place {
        let mixed = (x << 16 | y).wrapping_mul(4021839121);
        let at = (mixed as u64 * (2 * self.0.len() as u64) >> 32) as usize;
        Place { mixed, word: at / 2, shift: 32 * (at % 2) }
    }

    #[inline(always)]
    fn get(&self, Place { mixed, word, shift }: Place) -> Option<u32> {
        let known = (self.0[word] >> shift) as u32;
        if known >> 16 == mixed & 65535 && known & 65535 != 0 {
            return Some((known & 65535) - 1);
        }
        None
    }

    #[inline(always)]
    fn put(&mut self, Place { mixed, word, shift }: Place, r: u32) {
        if r < 65535 {
            let new = ((mixed & 65535) << 16 | (r + 1)) as u64;
            self.0[word] = self.0[word] & !(0xffff_ffff << shift) | new << shift;
        }
    }
}

struct Table<'a> {
    t: &'a mut [u32],
    keys: &'a [u32],
    index: &'a mut Index,
}

impl Table<'_> {
    fn make(&mut self, label: u32, lo: u32, hi: u32) -> Option<u32> {
        if hi == 0 {
            return Some(lo);
        }
        self.index.unique(self.t, label, lo, hi)
    }

    fn node(&self, k: u32) -> (u32, u32, u32) {
        let w = 3 * k as usize - 5;
        (self.t[w], self.t[w + 1], self.t[w + 2])
    }

    fn top(&self, k: u32) -> u64 {
        if k < 2 {
            1 << 32
        } else {
            self.keys[self.node(k).0 as usize] as u64
        }
    }

    fn combine(&mut self, memo: &mut Pairs, op: u8, f: u32, g: u32) -> Option<u32> {
        if f == 0 {
            return Some(if op == 0 { g } else { 0 });
        }
        if g == 0 {
            return Some(if op == 1 { 0 } else { f });
        }
        if f == g {
            return Some(if op < 2 { f } else { 0 });
        }
        let (x, y) = if op < 2 && g < f { (g, f) } else { (f, g) };
        let place = memo.place(x, y);
        if let Some(known) = memo.get(place) {
            return Some(known);
        }
        let (a, b) = (self.top(f), self.top(g));
        let (label, f1, g1, f0, g0) = if a < b {
            let (label, lo, hi) = self.node(f);
            (label, hi, 0, lo, g)
        } else if b < a {
            let (label, lo, hi) = self.node(g);
            (label, 0, hi, f, lo)
        } else {
            let ((label, lo, hi), (_, lo2, hi2)) = (self.node(f), self.node(g));
            (label, hi, hi2, lo, lo2)
        };
        let h = self.combine(memo, op, f1, g1)?;
        let l = self.combine(memo, op, f0, g0)?;
        let r = self.make(label, l, h)?;
        memo.put(place, r);
        Some(r)
    }

    /// Of two that have no label in common.
    fn join(&mut self, memo: &mut Pairs, f: u32, g: u32) -> Option<u32> {
        if f == 0 || g == 0 {
            return Some(0);
        }
        if f == 1 {
            return Some(g);
        }
        if g == 1 {
            return Some(f);
        }
        let place = memo.place(f, g);
        if let Some(known) = memo.get(place) {
            return Some(known);
        }
        let ((p, f0, f1), (q, g0, g1)) = (self.node(f), self.node(g));
        let (label, h, l) = if self.keys[p as usize] < self.keys[q as usize] {
            (p, self.join(memo, f1, g)?, self.join(memo, f0, g)?)
        } else {
            (q, self.join(memo, f, g1)?, self.join(memo, f, g0)?)
        };
        let r = self.make(label, l, h)?;
        memo.put(place, r);
        Some(r)
    }

    fn restrict(&mut self, memo: &mut [u16; 65536], p: u32, holding: bool, f: u32) -> Option<u32> {
        if f < 2 {
            return Some(if holding { 0 } else { f });
        }
        let (label, lo, hi) = self.node(f);
        if label == p {
            return if holding { self.make(p, 0, hi) } else { Some(lo) };
        }
        if self.keys[p as usize] < self.keys[label as usize] {
            return Some(if holding { 0 } else { f });
        }
        if memo[f as usize] != 0 {
            return Some(memo[f as usize] as u32 - 1);
        }
        let h = self.restrict(memo, p, holding, hi)?;
        let l = self.restrict(memo, p, holding, lo)?;
        let r = self.make(label, l, h)?;
        if r < 65535 {
            memo[f as usize] = r as u16 + 1;
        }
        Some(r)
    }
}

/// Many lent words as the memory, cleared.
fn long(work: &mut [u64]) -> Pairs<'_> {
    let words = work.len().min(1 << 31);
    work[..words].fill(0);
    Pairs(&mut work[..words])
}

/// either, both, only, with, without: 0 to 4.
#[inline(never)]
#[no_mangle]
pub fn hand_combine(op: u8, week: Week, t: &mut [u32], a: u32, b: u32, work: &mut [u64]) -> Result<u32, u32> {
    let mut keys = [0; 512];
    let mut index = Index([0; 131072]);
    week.admit(t, &mut keys, &mut index)?;
    let packs = week.packs;
    let n = t[0];
    if a >= n + 2 || op < 3 && b >= n + 2 {
        return Err(5);
    }
    if op >= 3 && b as usize >= packs.len() {
        return Err(6);
    }
    if work.len() < 2 {
        return Err(8);
    }
    let mut table = Table { t, keys: &keys[..packs.len()], index: &mut index };
    let r = if op >= 3 {
        table.restrict(&mut [0; 65536], b, op == 3, a)
    } else if work.len() < 131072 {
        table.combine(&mut Pairs(&mut [0; 32768]), op, a, b)
    } else {
        table.combine(&mut long(work), op, a, b)
    };
    if r.is_none() {
        rollback(t, n);
    }
    r.ok_or(10)
}

/// The items of the packages on the nodes below a, whose children have smaller numbers.
#[inline(never)]
fn support(packs: &[[u64; 3]], t: &[u32], a: u32) -> Items {
    let mut marks = [false; 65536];
    let mut items = Items::of(&[0; 3]);
    marks[a as usize] = true;
    for k in (2..=a as usize).rev() {
        if marks[k] {
            let w = 3 * k - 5;
            items = items.or(Items::of(&packs[t[w] as usize]));
            marks[t[w + 1] as usize] = true;
            marks[t[w + 2] as usize] = true;
        }
    }
    items
}

#[inline(never)]
#[no_mangle]
pub fn hand_join(week: Week, t: &mut [u32], a: u32, b: u32, work: &mut [u64]) -> Result<u32, u32> {
    let mut keys = [0; 512];
    let mut index = Index([0; 131072]);
    week.admit(t, &mut keys, &mut index)?;
    let packs = week.packs;
    let n = t[0];
    if a >= n + 2 || b >= n + 2 {
        return Err(5);
    }
    let (first, second) = (support(packs, t, a), support(packs, t, b));
    if first.without(second) != first {
        return Err(35);
    }
    if work.len() < a.max(b).max(1) as usize + 1 {
        return Err(8);
    }
    let mut table = Table { t, keys: &keys[..packs.len()], index: &mut index };
    let r = if work.len() < 131072 { table.join(&mut Pairs(&mut [0; 32768]), a, b) } else { table.join(&mut long(work), a, b) };
    if r.is_none() {
        rollback(t, n);
    }
    r.ok_or(10)
}

/// What a question does first: the table is checked, and it knows the answer. It makes the keys.
fn opened(week: Week, t: &[u32], a: u32, keys: &mut [u32; 512]) -> Result<(), u32> {
    let mut index = Index([0; 131072]);
    week.admit(t, keys, &mut index)?;
    if a >= t[0] + 2 {
        return Err(5);
    }
    Ok(())
}

/// A word for each number up to a: how many timetables, less one, at most the greatest word.
fn counts(t: &[u32], a: usize, work: &mut [u64]) -> Result<u64, u32> {
    if work.len() <= a {
        return Err(8);
    }
    work[0] = 0;
    if a == 0 {
        return Ok(0);
    }
    work[1] = 0;
    for k in 2..=a {
        let w = 3 * k - 5;
        let (lo, hi) = (t[w + 1] as usize, t[w + 2] as usize);
        let (x, y) = (work[hi], work[lo]);
        work[k] = if lo == 0 { x } else { x.saturating_add(y).saturating_add(1) };
    }
    work[a].checked_add(1).ok_or(11)
}

/// The walk to the k-th timetable, whose packages are told on the way.
fn walk(t: &[u32], a: usize, mut k: u64, work: &[u64], mut package: impl FnMut(u32)) {
    let mut node = a;
    while node != 1 {
        let w = 3 * node - 5;
        let hi = t[w + 2] as usize;
        if k <= work[hi] {
            package(t[w]);
            node = hi;
        } else {
            k -= work[hi] + 1;
            node = t[w + 1] as usize;
        }
    }
}

fn length(t: &[u32], a: usize, k: u64, work: &mut [u64]) -> Result<usize, u32> {
    if counts(t, a, work)? <= k {
        return Err(12);
    }
    let mut n = 0;
    walk(t, a, k, work, |_| n += 1);
    Ok(n)
}

#[inline(never)]
pub fn hand_check(week: Week, t: &[u32]) -> u32 {
    let mut keys = [0; 512];
    let mut index = Index([0; 131072]);
    week.admit(t, &mut keys, &mut index).err().unwrap_or(0)
}

#[inline(never)]
pub fn hand_count(week: Week, t: &[u32], a: u32, work: &mut [u64]) -> Result<u64, u32> {
    opened(week, t, a, &mut [0; 512])?;
    counts(t, a as usize, work)
}

#[inline(never)]
pub fn hand_measure(week: Week, t: &[u32], a: u32, k: u64, work: &mut [u64]) -> Result<usize, u32> {
    opened(week, t, a, &mut [0; 512])?;
    length(t, a as usize, k, work)
}

#[inline(never)]
pub fn hand_pick(week: Week, t: &[u32], a: u32, k: u64, work: &mut [u64], page: &mut [u16]) -> Result<usize, u32> {
    opened(week, t, a, &mut [0; 512])?;
    let a = a as usize;
    if page.len() < length(t, a, k, work)? {
        return Err(15);
    }
    let mut n = 0;
    walk(t, a, k, work, |p| {
        page[n] = p as u16;
        n += 1;
    });
    Ok(n)
}

/// The walk to the lightest timetable, by the weights of the numbers up to a; its packages are told on the way.
fn descend(t: &[u32], a: usize, takes_hi: impl Fn(usize) -> bool, mut package: impl FnMut(u32)) {
    let mut node = a;
    while node != 1 {
        let w = 3 * node - 5;
        node = if takes_hi(node) {
            package(t[w]);
            t[w + 2] as usize
        } else {
            t[w + 1] as usize
        };
    }
}

/// The first listed of the lightest timetables, and its weight: a timetable weighs `start` and what its packages weigh, modulo 2^64 since one may weigh -1. A word
/// for each number up to a has the least weight of its timetables, that of 0 the greatest word.
#[inline(always)]
fn lightest(t: &[u32], a: usize, start: u64, weight: impl Fn(u32) -> u64, work: &mut [u64], page: &mut [u16]) -> Result<(usize, u32), u32> {
    if work.len() <= a {
        return Err(8);
    }
    if a == 0 {
        return Err(13);
    }
    let by_hi = |node: &[u32], work: &[u64]| work[node[2] as usize].wrapping_add(weight(node[0]));
    work[0] = u64::MAX;
    work[1] = start;
    for (k, node) in t[1..].chunks_exact(3).take(a - 1).enumerate() {
        work[k + 2] = by_hi(node, work).min(work[node[1] as usize]);
    }
    let takes_hi = |k: usize| {
        let node = &t[3 * k - 5..3 * k - 2];
        by_hi(node, work) <= work[node[1] as usize]
    };
    let (mut long, mut n) = (0, 0);
    descend(t, a, takes_hi, |_| long += 1);
    if page.len() < long {
        return Err(15);
    }
    descend(t, a, takes_hi, |p| {
        page[n] = p as u16;
        n += 1;
    });
    Ok((n, work[a] as u32))
}

/// The packages and the cost.
#[inline(never)]
pub fn hand_cheapest(week: Week, costs: &[u16], t: &[u32], a: u32, work: &mut [u64], page: &mut [u16]) -> Result<(usize, u32), u32> {
    if week.packages_refusal().is_none() && Positions::new(week.m, week.order).is_some() && costs.len() != week.packs.len() {
        return Err(3);
    }
    opened(week, t, a, &mut [0; 512])?;
    lightest(t, a as usize, 0, |p| costs[p as usize] as u64, work, page)
}

/// The packages and in how many they and the list differ.
#[inline(never)]
pub fn hand_closest(week: Week, t: &[u32], a: u32, list: &[u16], work: &mut [u64], page: &mut [u16]) -> Result<(usize, u32), u32> {
    let mut keys = [0; 512];
    opened(week, t, a, &mut keys)?;
    let key = |p: u16| keys[p as usize];
    if list.iter().any(|&p| p as usize >= week.packs.len()) || list.windows(2).any(|w| key(w[0]) >= key(w[1])) {
        return Err(6);
    }
    // one less for a package of the list, which the empty timetable lacks; one more for another
    let mut weights = [1u64; 512];
    list.iter().for_each(|&p| weights[p as usize] = u64::MAX);
    lightest(t, a as usize, list.len() as u64, |p| weights[p as usize], work, page)
}

/// Of each package 0 where it is withdrawn, and otherwise one more than its new number.
fn names(packages: usize, gone: &[u16]) -> [u32; 512] {
    let mut names = [1; 512];
    gone.iter().for_each(|&p| names[p as usize] = 0);
    let mut left = 0;
    for name in names[..packages].iter_mut().filter(|name| **name != 0) {
        left += 1;
        *name = left;
    }
    names
}

/// Marks the listed answers and the numbers that these need: lo of each such node, and hi where its package remains. Children have smaller numbers.
fn mark(t: &[u32], names: &[u32; 512], answers: &[u32], work: &mut [u64]) {
    let n = t[0] as usize;
    work[..n + 2].fill(0);
    answers.iter().for_each(|&a| work[a as usize] = 1);
    for i in (0..n).rev() {
        if work[i + 2] != 0 {
            let w = 1 + 3 * i;
            work[t[w + 1] as usize] = 1;
            if names[t[w] as usize] != 0 {
                work[t[w + 2] as usize] = 1;
            }
        }
    }
    (work[0], work[1]) = (0, 1);
}

/// Each marked node's new number, children first: the new nodes stand from the first place on, where old ones were read before.
fn renew(t: &mut [u32], names: &[u32; 512], index: &mut Index, work: &mut [u64]) {
    let n = t[0] as usize;
    t[0] = 0;
    for i in 0..n {
        if work[i + 2] == 0 {
            continue;
        }
        let w = 1 + 3 * i;
        let (name, lo, hi) = (names[t[w] as usize], work[t[w + 1] as usize] as u32, work[t[w + 2] as usize] as u32);
        let number = if name == 0 || hi == 0 { lo } else { index.unique(t, name - 1, lo, hi).unwrap() };
        work[i + 2] = number as u64;
    }
}

/// How many nodes are left.
#[inline(never)]
#[no_mangle]
pub fn hand_withdraw(week: Week, t: &mut [u32], gone: &[u16], answers: &mut [u32], work: &mut [u64]) -> Result<u32, u32> {
    let mut keys = [0; 512];
    let mut index = Index([0; 131072]);
    week.admit(t, &mut keys, &mut index)?;
    let n = t[0];
    if answers.iter().any(|&a| a >= n + 2) {
        return Err(5);
    }
    if gone.iter().any(|&p| p as usize >= week.packs.len()) || gone.windows(2).any(|w| w[0] >= w[1]) {
        return Err(36);
    }
    if work.len() < n as usize + 2 {
        return Err(8);
    }
    let names = names(week.packs.len(), gone);
    mark(t, &names, answers, work);
    index.0.fill(0);
    renew(t, &names, &mut index, work);
    let left = t[0];
    t[1 + 3 * left as usize..1 + 3 * n as usize].fill(0);
    answers.iter_mut().for_each(|a| *a = work[*a as usize] as u32);
    Ok(left)
}
