//! A random history of calls, each compared with the model.

use crate::ffi;
use crate::model::{below, capacity, lent, Family, Set, Week, ITEMS};
use crate::rng::Rng;
use std::collections::HashSet;

/// The greatest number of packages for which every set of them is tried.
const MOST: u64 = 9;
/// The greatest number of steps that the model counts.
const STEPS: u64 = 20_000;

/// How often each number was said, 0 for an answer.
pub type Outcomes = [u64; 40];
const NO_OUTCOME: Outcomes = [0; 40];

/// What was said in some calls.
#[derive(Clone, Copy)]
pub struct Tally {
    pub calls: u64,
    pub outcomes: Outcomes,
    /// Those of joins alone, and how many of these answered for two answers above 1.
    pub joins: Outcomes,
    pub joined: u64,
    /// Those of closest alone, how many of these answered with the difference 0, and how many chose the first of several that differ in the fewest packages.
    pub closest: Outcomes,
    pub kept: u64,
    pub tied: u64,
    /// Those of withdraw alone, how many withdrew some package, how many withdrew none and made room, and the covers that were found again.
    pub withdrawals: Outcomes,
    pub shortened: u64,
    pub freed: u64,
    pub again: u64,
    /// Those of the calls on bids files, in the order of bids::CALLS; how many weeks read were covered, and how many of these had optional slots and a timetable.
    pub files: [Outcomes; 4],
    /// Those of all calls on weeks read.
    pub lent: Outcomes,
    pub covered: u64,
    pub open: u64,
}

impl Tally {
    pub const NONE: Tally = Tally {
        calls: 0,
        outcomes: NO_OUTCOME,
        joins: NO_OUTCOME,
        joined: 0,
        closest: NO_OUTCOME,
        kept: 0,
        tied: 0,
        withdrawals: NO_OUTCOME,
        shortened: 0,
        freed: 0,
        again: 0,
        files: [NO_OUTCOME; 4],
        lent: NO_OUTCOME,
        covered: 0,
        open: 0,
    };

    pub fn add(&mut self, more: &Tally) {
        let add = |all: &mut Outcomes, more: &Outcomes| all.iter_mut().zip(more).for_each(|(a, b)| *a += b);
        add(&mut self.outcomes, &more.outcomes);
        add(&mut self.joins, &more.joins);
        add(&mut self.closest, &more.closest);
        add(&mut self.withdrawals, &more.withdrawals);
        add(&mut self.lent, &more.lent);
        self.files.iter_mut().zip(&more.files).for_each(|(all, more)| add(all, more));
        self.calls += more.calls;
        self.joined += more.joined;
        self.kept += more.kept;
        self.tied += more.tied;
        self.shortened += more.shortened;
        self.freed += more.freed;
        self.again += more.again;
        self.covered += more.covered;
        self.open += more.open;
    }
}

/// What the calls of a history are lent besides the table.
#[derive(Clone)]
pub struct Lent {
    m: u32,
    pub sets: Vec<Set>,
    /// The packages as they are lent: words that do not make up a package may follow.
    pub words: Vec<u64>,
    optional: Set,
    order: Vec<u8>,
    /// The items of two halves, where the week has such; packages that have items of both are few.
    halves: Option<[Set; 2]>,
}

impl Lent {
    pub fn model(&self) -> Week<'_> {
        Week::new(self.m, &self.sets, self.optional, &self.order)
    }

    pub fn week(&self) -> ffi::Week<'_> {
        ffi::Week { m: self.m, packages: &self.words, optional: &self.optional.0, order: &self.order }
    }
}

pub struct History {
    pub rng: Rng,
    pub lent: Lent,
    pub table: Vec<u32>,
    /// The working words as the last cover left them.
    left: Vec<u64>,
    /// What each number of the table holds, while the table is sound.
    pub known: Vec<Family>,
    /// The ledger: an answer given and the set that the definitions give it.
    pub ledger: Vec<(u32, Family)>,
    /// The covers given: the item set and the answer.
    pub covers: Vec<(Set, u32)>,
    /// Whether operands are, but for a few, answers given, as in document 01's histories; otherwise they are any numbers of the table.
    strict: bool,
    pub tally: Tally,
}

/// What a call that makes an answer should say.
enum Expected {
    Refused(u32),
    Answer { family: Family, steps: u64, made: u64 },
}

impl History {
    pub fn new(mut rng: Rng) -> History {
        let strict = rng.once_in(4);
        let (m, sets, halves) = if rng.once_in(3) {
            let (m, sets, halves) = two_halves(&mut rng);
            (m, sets, Some(halves))
        } else {
            let (m, sets) = if strict { many_timetables(&mut rng) } else { random_packages(&mut rng) };
            (m, sets, None)
        };
        let words = match rng.below(8) {
            0 => rng.below(4),
            1 => 1 + 3 * rng.below(6),
            2 => rng.from(10, 60),
            _ => 1 + 3 * rng.from(30, 300),
        };
        let table = vec![0; words as usize];
        let mut words = lent(&sets);
        if rng.once_in(3) {
            words.extend((0..rng.from(1, 2)).map(|_| rng.next()).collect::<Vec<u64>>());
        }
        let optional = random_optional(&mut rng, m, &sets);
        let order = random_order(&mut rng, m, 60);
        let lent = Lent { m, sets, words, optional, order, halves };
        let (known, ledger, covers, left) = (Vec::new(), Vec::new(), Vec::new(), Vec::new());
        let mut history = History { rng, lent, table, left, known, ledger, covers, strict, tally: Tally::NONE };
        history.learn();
        history
    }

    pub fn run(&mut self) {
        let halves = self.lent.halves.is_some();
        for _ in 0..self.rng.from(20, if self.strict || halves { 160 } else { 60 }) {
            match self.rng.below(if halves { 25 } else { 21 }) {
                0 => self.cover(),
                1..=3 if halves || !self.strict => self.cover(),
                1..=8 => self.combine(),
                9 => self.check(),
                10 => self.count(),
                11 | 12 => self.pick(),
                13 => self.place(),
                14 => self.cheapest(),
                15 => self.measure(),
                16 => self.damaged(),
                17 | 18 => self.closest(),
                19 => self.withdraw(),
                _ => self.join(),
            }
        }
        self.no_spare_node();
        self.postings_hold("at the end");
        self.list_one();
    }

    /// Reads the table anew.
    pub fn learn(&mut self) {
        let s = self.lent.model();
        self.known = if s.refusal() == 0 && s.sound(&self.table) { s.families(&self.table) } else { Vec::new() };
    }

    pub fn told(&mut self, refusal: u32) {
        self.tally.calls += 1;
        self.tally.outcomes[refusal as usize] += 1;
    }

    /// 1, 2, 29, 30, 34, 4, or 0.
    pub fn first_refusal(&self) -> u32 {
        let s = self.lent.model();
        match s.refusal() {
            0 if self.known.is_empty() => 4,
            r => r,
        }
    }

    fn nodes(&self) -> u64 {
        self.known.len().saturating_sub(2) as u64
    }

    /// An answer given or a number of the table, rarely an unknown one.
    pub fn operand(&mut self) -> u32 {
        let n = self.nodes();
        let given: Vec<u32> = self.ledger.iter().map(|p| p.0).filter(|&a| a >= 2).collect();
        if self.strict && !given.is_empty() && !self.rng.once_in(20) {
            return given[self.rng.below(given.len() as u64) as usize];
        }
        match self.rng.below(40) {
            0 => (n + 2) as u32,
            1 => u32::MAX - self.rng.below(3) as u32,
            2 => (n + self.rng.below(5)) as u32,
            3..=10 if !self.ledger.is_empty() => self.ledger[self.rng.below(self.ledger.len() as u64) as usize].0,
            _ => self.rng.below(n + 2) as u32,
        }
    }

    /// Working words with anything in them: sometimes fewer than `least`.
    pub fn work(&mut self, least: u64) -> Vec<u64> {
        let words = match self.rng.below(12) {
            0 => self.rng.below(least + 1),
            1 => least,
            2 => least.saturating_sub(1),
            _ => least + self.rng.below(40),
        };
        (0..words).map(|_| if self.rng.once_in(2) { self.rng.next() } else { self.rng.below(300) }).collect()
    }

    /// Many working words, with what a memory of earlier results might have held: in each half a tag and a number of the table.
    fn long_work(&mut self) -> Vec<u64> {
        let n = self.nodes() + 3;
        let words = [131071, 131072, 140001, 262144][self.rng.below(4) as usize];
        (0..words).map(|_| (self.rng.next() & 0xffff_0000_ffff_0000) | self.rng.below(n) << 32 | self.rng.below(n)).collect()
    }

    fn page(&mut self, about: usize) -> Vec<u16> {
        let long = match self.rng.below(6) {
            0 => self.rng.below(about as u64 + 1) as usize,
            1 => about,
            _ => about + self.rng.below(4) as usize,
        };
        (0..long).map(|_| self.rng.next() as u16).collect()
    }

    // ---- the calls that make an answer

    /// How many of the table's words are lent: mostly all, sometimes no more than have room for a few new nodes.
    pub fn lent_words(&mut self) -> usize {
        let few = 1 + 3 * self.nodes() as usize + self.rng.below(15) as usize;
        if self.first_refusal() != 0 || !self.rng.once_in(6) {
            return self.table.len();
        }
        few.min(self.table.len())
    }

    /// A set to cover: any, none, the optional items alone, those of all packages or of some, mostly in one half where the week has two; rarely with an item next
    /// to M or in the highest word.
    fn items(&mut self) -> Set {
        let mut d = match self.rng.below(6) {
            0 => Set([0; 3].map(|_| self.rng.next() & self.rng.next())),
            1 if self.rng.once_in(2) => self.lent.optional,
            1 => Set::NONE,
            2 | 3 => self.lent.sets.iter().fold(Set::NONE, |a, &s| a.or(s)),
            _ => {
                let some: Vec<Set> = self.lent.sets.iter().copied().filter(|_| self.rng.once_in(2)).collect();
                some.iter().fold(Set::NONE, |a, &s| a.or(s))
            }
        };
        if let Some(halves) = self.lent.halves.filter(|_| !self.rng.once_in(4)) {
            d = d.and(halves[self.rng.below(2) as usize]);
        }
        match self.rng.below(24) {
            0 => d.add(self.rng.from(128, 191) as u32),
            1 => d.add(self.lent.m.min(ITEMS - 1)),
            2 => d.add(self.lent.m.saturating_sub(1).min(ITEMS - 1)),
            _ => {}
        }
        d
    }

    /// Working words for cover: few places, so that sets push each other out, or more, or what the last cover left, which is not to be believed.
    fn memo(&mut self) -> Vec<u64> {
        match self.rng.below(8) {
            0 | 1 => self.work(4),
            2 => vec![7; self.rng.from(0, 20) as usize],
            3 if !self.left.is_empty() => self.left.clone(),
            4 => vec![7; self.rng.from(280, 20_000) as usize],
            _ => vec![7; self.rng.from(20, 280) as usize],
        }
    }

    fn cover(&mut self) {
        let d = self.items();
        let mut work = self.memo();
        let end = self.lent_words();
        let s = self.lent.model();
        let places = work.len() / 4;
        let fits = self.first_refusal() == 0 && d.below(self.lent.m);
        let (found, steps) = if fits && places > 0 { s.searched(d, places, STEPS) } else { (Family::none(0), 0) };
        let limit = match self.rng.below(5) {
            0 => steps.saturating_sub(1),
            1 => steps,
            2 => self.rng.below(steps + 2),
            _ => 1_000_000,
        } as u32;
        if steps > STEPS {
            return;
        }
        let expected = match self.first_refusal() {
            0 if !fits => Expected::Refused(7),
            0 if places == 0 => Expected::Refused(8),
            0 if steps > limit as u64 => Expected::Refused(9),
            0 => {
                assert_eq!(found, s.covering(d), "the model: Search by its text and covering by its definition");
                self.made(found, steps, end)
            }
            r => Expected::Refused(r),
        };
        let before = self.table.clone();
        let got = ffi::cover(self.lent.week(), &mut self.table[..end], &d.0, limit, &mut work);
        self.compare(&format!("cover {d:?} limit {limit} words {}", work.len()), &before, expected, got);
        if got.refusal == 0 {
            self.covers.push((d, got.answer));
        }
        self.left = work;
    }

    /// either, both, only, with, without.
    fn combine(&mut self) {
        let op = self.rng.below(5) as usize;
        let a = self.operand();
        let n = self.lent.sets.len() as u64;
        let b = match (op < 3, self.rng.below(20)) {
            (true, _) => self.operand(),
            (false, 0) => n as u32,
            (false, 1) => u32::MAX,
            (false, _) => self.rng.below(n.max(1)) as u32,
        };
        let mut work = if self.rng.once_in(30) { self.long_work() } else { self.work(2) };
        let end = self.lent_words();
        let known = |k: u32| (k as u64) < self.nodes() + 2;
        let expected = match self.first_refusal() {
            0 if !known(a) || (op < 3 && !known(b)) => Expected::Refused(5),
            0 if op >= 3 && b as u64 >= n => Expected::Refused(6),
            0 if work.len() < 2 => Expected::Refused(8),
            0 => {
                let mut f = Family::none(self.lent.sets.len());
                let first = &self.known[a as usize];
                for t in 0..1u32 << n {
                    let second = op < 3 && self.known[b as usize].has(t);
                    let holds = op >= 3 && t >> b & 1 == 1;
                    let x = first.has(t);
                    if [x || second, x && second, x && !second, x && holds, x && !holds][op] {
                        f.add(t);
                    }
                }
                self.made(f, 0, end)
            }
            r => Expected::Refused(r),
        };
        let before = self.table.clone();
        let got = ffi::combine(op, self.lent.week(), &mut self.table[..end], a, b, &mut work);
        self.compare(&format!("call {op} of {a} and {b}"), &before, expected, got);
    }

    /// Operands for a join: mostly two answers above 1 whose packages have no compulsory item in common, where there are such.
    fn two_operands(&mut self) -> (u32, u32) {
        let s = self.lent.model();
        let numbers: Vec<u32> = if self.strict { self.ledger.iter().map(|p| p.0).collect() } else { (0..self.known.len() as u32).collect() };
        let compulsory = |a: u32| s.items(&self.known[a as usize]).without(self.lent.optional);
        let items: Vec<(u32, Set)> = numbers.into_iter().filter(|&a| a >= 2).map(|a| (a, compulsory(a))).collect();
        let partners = |x: Set| items.iter().filter(|y| x.and(y.1) == Set::NONE).map(|y| y.0).collect::<Vec<u32>>();
        let first: Vec<&(u32, Set)> = items.iter().filter(|x| !partners(x.1).is_empty()).collect();
        if first.is_empty() || self.rng.once_in(4) {
            return (self.operand(), self.operand());
        }
        let (a, x) = first[self.rng.below(first.len() as u64) as usize];
        let apart = partners(*x);
        (*a, apart[self.rng.below(apart.len() as u64) as usize])
    }

    fn join(&mut self) {
        let (a, b) = self.two_operands();
        let least = a.max(b).max(1) as u64 + 1;
        let mut work = if self.rng.once_in(30) { self.long_work() } else { self.work(least.min(2000)) };
        let end = self.lent_words();
        let known = |k: u32| (k as u64) < self.nodes() + 2;
        let expected = match self.first_refusal() {
            0 if !known(a) || !known(b) => Expected::Refused(5),
            0 => {
                let s = self.lent.model();
                let (first, second) = (&self.known[a as usize], &self.known[b as usize]);
                let overlap = s.overlap(&self.table, a, b);
                assert_eq!(overlap, s.items(first).and(s.items(second)) != Set::NONE, "the model: packages on nodes and packages of timetables");
                if overlap {
                    Expected::Refused(35)
                } else if (work.len() as u64) < least {
                    Expected::Refused(8)
                } else {
                    let f = first.join(second);
                    assert_eq!(f.len(), first.len() * second.len(), "the model: a join has as many as the product");
                    self.made(f, 0, end)
                }
            }
            r => Expected::Refused(r),
        };
        let before = self.table.clone();
        let got = ffi::join(self.lent.week(), &mut self.table[..end], a, b, &mut work);
        self.compare(&format!("join of {a} and {b}, words {}", work.len()), &before, expected, got);
        self.tally.joins[got.refusal as usize] += 1;
        self.tally.joined += (got.refusal == 0 && a > 1 && b > 1) as u64;
    }

    /// The call makes f in the first words of the table, up to `end`: full, or an answer.
    fn made(&self, f: Family, steps: u64, end: usize) -> Expected {
        let made = self.lent.model().missing(&self.known, &f);
        if made > capacity(&self.table[..end]) as u64 - self.nodes() {
            return Expected::Refused(10);
        }
        Expected::Answer { family: f, steps, made }
    }

    fn compare(&mut self, call: &str, before: &[u32], expected: Expected, got: ffi::Report) {
        self.told(got.refusal);
        match expected {
            Expected::Refused(n) => {
                assert_eq!(got, ffi::Report { refusal: n, answer: 0, steps: 0, made: 0 }, "{call}");
                assert_eq!(self.table, before, "{call}: refused, and the table changed");
            }
            Expected::Answer { family, steps, made } => {
                assert_eq!((got.refusal, got.steps as u64, got.made as u64), (0, steps, made), "{call}");
                let s = self.lent.model();
                let old = 1 + 3 * before[0] as usize;
                assert_eq!(self.table[1..old], before[1..old], "{call}: old nodes");
                assert_eq!(self.table[0], before[0] + got.made, "{call}: word 0");
                assert!(s.sound(&self.table), "{call}: not sound");
                let new = below(&self.table, got.answer).into_iter().filter(|&k| k >= before[0] + 2).count();
                assert_eq!(got.made as usize, new, "{call}: new nodes below the answer");
                self.known = s.families(&self.table);
                assert_eq!(self.known[got.answer as usize], family, "{call}: another set");
                self.ledger.push((got.answer, family));
            }
        }
    }

    /// Each node of the table is below an answer given.
    pub fn no_spare_node(&self) {
        let needed: HashSet<u32> = self.ledger.iter().flat_map(|(a, _)| below(&self.table, *a)).collect();
        let nodes = self.table.first().map_or(0, |&n| n);
        for k in 2..nodes + 2 {
            assert!(needed.contains(&k), "node {k} is below no answer");
        }
    }

    /// Any two postings have equal numbers exactly when they have equal sets, and the numbers still hold their sets.
    pub fn postings_hold(&self, when: &str) {
        for i in 0..self.ledger.len() {
            let (a, f) = &self.ledger[i];
            assert!(self.known[*a as usize] == *f, "{when}: posting {i}");
            for (b, g) in &self.ledger[..i] {
                assert_eq!(a == b, f == g, "{when}: postings of {a} and {b}");
            }
        }
    }

    /// pick 0, 1, 2, .. lists the set of one posting, and then says 12.
    fn list_one(&mut self) {
        if self.ledger.is_empty() {
            return;
        }
        let (a, f) = self.ledger[self.rng.below(self.ledger.len() as u64) as usize].clone();
        let s = self.lent.model();
        let mut work = vec![0; a as usize + 1];
        for (k, t) in s.listing(&f).into_iter().enumerate() {
            let mut page = vec![9999; 12];
            let got = ffi::pick(self.lent.week(), &self.table, a, k as u64, &mut work, &mut page);
            let written = s.written(t);
            assert_eq!((got.refusal, got.packages), (0, written.len() as u64), "pick {k} of {a}");
            assert_eq!(page[..written.len()], written[..], "pick {k} of {a}");
            let measured = ffi::measure(self.lent.week(), &self.table, a, k as u64, &mut work);
            assert_eq!(measured, ffi::Number { refusal: 0, value: got.packages }, "measure {k} of {a}");
        }
        let past = ffi::pick(self.lent.week(), &self.table, a, f.len(), &mut work, &mut [0; 12]);
        assert_eq!(past.refusal, 12);
        let past = ffi::measure(self.lent.week(), &self.table, a, f.len(), &mut work);
        assert_eq!(past, ffi::Number { refusal: 12, value: 0 });
    }

    // ---- the questions

    fn check(&mut self) {
        let got = ffi::check(self.lent.week(), &self.table);
        self.told(got);
        assert_eq!(got, self.first_refusal(), "check");
    }

    /// 1 to 8 of a question on answer a.
    fn question_refusal(&self, a: u32, work: &[u64], cost_list: bool, list: Option<&[u16]>) -> u32 {
        let s = self.lent.model();
        match self.first_refusal() {
            0 | 4 if !cost_list => 3,
            0 if a as u64 >= self.nodes() + 2 => 5,
            0 if list.is_some_and(|l| !s.in_precedence(l)) => 6,
            0 if (work.len() as u64) < a as u64 + 1 => 8,
            r => r,
        }
    }

    fn count(&mut self) {
        let a = self.operand();
        let mut work = self.work((a as u64 + 1).min(2000));
        let got = ffi::count(self.lent.week(), &self.table, a, &mut work);
        self.told(got.refusal);
        let expected = match self.question_refusal(a, &work, true, None) {
            0 => ffi::Number { refusal: 0, value: self.known[a as usize].len() },
            r => ffi::Number { refusal: r, value: 0 },
        };
        assert_eq!(got, expected, "count {a}");
    }

    /// An answer, a k, the timetable there, if there is one, and working words; and 1 to 12 of a call for it.
    fn kth(&mut self) -> (u32, u64, Vec<u16>, Vec<u64>, u32) {
        let a = self.operand();
        let count = self.known.get(a as usize).map_or(0, |f| f.len());
        let k = match self.rng.below(12) {
            0 => count,
            1 => self.rng.next(),
            2 => count.saturating_sub(1),
            _ => self.rng.below(count.max(1)),
        };
        let work = self.work((a as u64 + 1).min(2000));
        let s = self.lent.model();
        let member = self.known.get(a as usize).and_then(|f| s.listing(f).get(k as usize).copied());
        let list = member.map(|t| s.written(t)).unwrap_or_default();
        let refusal = match self.question_refusal(a, &work, true, None) {
            0 if k >= count => 12,
            r => r,
        };
        (a, k, list, work, refusal)
    }

    fn pick(&mut self) {
        let (a, k, list, mut work, refusal) = self.kth();
        let mut page = self.page(list.len());
        let before = page.clone();
        let got = ffi::pick(self.lent.week(), &self.table, a, k, &mut work, &mut page);
        self.told(got.refusal);
        let refusal = if refusal == 0 && list.len() > before.len() { 15 } else { refusal };
        compare_page(&format!("pick {k} of {a}"), refusal, &list, 0, [&before, &page], (got.refusal, got.cost, got.packages));
    }

    /// measure, and with the same working words pick on a page with just that many places and on one with one less.
    fn measure(&mut self) {
        let (a, k, list, mut work, refusal) = self.kth();
        let got = ffi::measure(self.lent.week(), &self.table, a, k, &mut work);
        self.told(got.refusal);
        assert_eq!(got, ffi::Number { refusal, value: if refusal == 0 { list.len() as u64 } else { 0 } }, "measure {k} of {a}");
        let mut page = vec![9999; got.value as usize];
        let picked = ffi::pick(self.lent.week(), &self.table, a, k, &mut work, &mut page);
        assert_eq!((picked.refusal, picked.packages), (got.refusal, got.value), "pick {k} of {a} as measured");
        if page.pop().is_some() {
            page.fill(9999);
            let short = ffi::pick(self.lent.week(), &self.table, a, k, &mut work, &mut page);
            assert_eq!((short.refusal, short.packages), (15, 0), "pick {k} of {a} on a page with one place less");
            assert!(page.iter().all(|&p| p == 9999), "pick {k} of {a}: refused, and the page changed");
        }
    }

    fn place(&mut self) {
        let a = self.operand();
        let s = self.lent.model();
        let n = s.n() as u64;
        let listing = self.known.get(a as usize).map(|f| s.listing(f)).unwrap_or_default();
        let mut list = if listing.is_empty() || self.rng.once_in(4) {
            let t = self.rng.below(1 << n.min(MOST)) as u32;
            s.written(t)
        } else {
            s.written(listing[self.rng.below(listing.len() as u64) as usize])
        };
        match self.rng.below(12) {
            0 => list.push(self.rng.below(n + 3) as u16),
            1 => list.reverse(),
            2 => list.insert(0, self.rng.next() as u16),
            3 if !list.is_empty() => list.push(list[0]),
            _ => {}
        }
        let mut work = self.work((a as u64 + 1).min(2000));
        let got = ffi::place(self.lent.week(), &self.table, a, &list, &mut work);
        self.told(got.refusal);
        let refusal = self.question_refusal(a, &work, true, Some(&list));
        let mask = list.iter().fold(0u32, |t, &p| t | 1u32.checked_shl(p as u32).unwrap_or(0));
        let expected = match (refusal, listing.iter().position(|&t| t == mask)) {
            (0, Some(k)) => ffi::Number { refusal: 0, value: k as u64 },
            (0, None) => ffi::Number { refusal: 14, value: 0 },
            (r, _) => ffi::Number { refusal: r, value: 0 },
        };
        assert_eq!(got, expected, "place {list:?} in {a}");
    }

    fn cheapest(&mut self) {
        let a = self.operand();
        let lent = self.lent.clone();
        let s = lent.model();
        let long = match self.rng.below(10) {
            0 => self.rng.below(s.n() as u64 + 3) as usize,
            _ => s.n(),
        };
        let top = [3, 65536, 10][self.rng.below(3) as usize];
        let costs: Vec<u16> = (0..long).map(|_| self.rng.below(top) as u16).collect();
        let cost = |t: u32| (0..s.n()).filter(|&p| t >> p & 1 == 1).map(|p| costs.get(p).map_or(0, |&c| c as u32)).sum::<u32>();
        let listing = self.known.get(a as usize).map(|f| s.listing(f)).unwrap_or_default();
        let least = listing.iter().map(|&t| cost(t)).min();
        let first = listing.iter().copied().find(|&t| Some(cost(t)) == least);
        let list = first.map(|t| s.written(t)).unwrap_or_default();
        let mut work = self.work((a as u64 + 1).min(2000));
        let mut page = self.page(list.len());
        let before = page.clone();
        let got = ffi::cheapest(self.lent.week(), &costs, &self.table, a, &mut work, &mut page);
        self.told(got.refusal);
        let refusal = match self.question_refusal(a, &work, costs.len() == s.n(), None) {
            0 if a == 0 => 13,
            0 if list.len() > before.len() => 15,
            r => r,
        };
        let call = format!("cheapest of {a}");
        compare_page(&call, refusal, &list, least.unwrap_or(0), [&before, &page], (got.refusal, got.cost, got.packages));
    }

    /// A list to be compared with the answer's timetables: one of them, or with a package dropped, added or changed, or any, none or all packages; sometimes
    /// spoilt.
    fn given(&mut self, listing: &[u32]) -> Vec<u16> {
        let s = self.lent.model();
        let n = (s.n() as u64).min(MOST);
        let any = self.rng.below(1 << n) as u32;
        let member = if listing.is_empty() { any } else { listing[self.rng.below(listing.len() as u64) as usize] };
        let (one, other) = (self.rng.below(n.max(1)), self.rng.below(n.max(1)));
        let mask = match self.rng.below(12) {
            0..=2 => member,
            3..=5 => member ^ 1 << one,
            6 | 7 => member ^ 1 << one ^ 1 << other,
            8 => 0,
            9 => (1 << n) - 1,
            _ => any,
        };
        let mut list = s.written(mask);
        if self.rng.once_in(5) {
            spoil_list(&mut self.rng, &mut list, s.n() as u64);
        }
        list
    }

    fn closest(&mut self) {
        // mostly not 0 or 1, which have no choice
        let a = match self.operand() {
            0 | 1 if !self.rng.once_in(4) => self.operand(),
            a => a,
        };
        let lent = self.lent.clone();
        let s = lent.model();
        let family = self.known.get(a as usize).cloned().unwrap_or(Family::none(s.n().min(MOST as usize)));
        let given = self.given(&s.listing(&family));
        let mask = given.iter().fold(0u32, |t, &p| t | 1u32.checked_shl(p as u32).unwrap_or(0));
        let closest = s.closest(&family, mask);
        let difference = closest.map_or(0, |t| s.difference(mask, t));
        let list = closest.map(|t| s.written(t)).unwrap_or_default();
        let mut work = self.work((a as u64 + 1).min(2000));
        let mut page = self.page(list.len());
        let before = page.clone();
        let got = ffi::closest(self.lent.week(), &self.table, a, &given, &mut work, &mut page);
        self.told(got.refusal);
        let refusal = match self.question_refusal(a, &work, true, Some(&given)) {
            0 if a == 0 => 13,
            0 if list.len() > before.len() => 15,
            r => r,
        };
        let call = format!("closest to {given:?} of {a}");
        compare_page(&call, refusal, &list, difference, [&before, &page], (got.refusal, got.difference, got.packages));
        self.tally.closest[got.refusal as usize] += 1;
        if got.refusal == 0 {
            let as_close = family.members().into_iter().filter(|&t| s.difference(mask, t) == difference).count();
            self.tally.kept += (difference == 0) as u64;
            self.tally.tied += (as_close > 1) as u64;
            self.closest_to_itself(a, &list, &mut work);
        }
    }

    /// A timetable of the answer is closest to itself.
    fn closest_to_itself(&self, a: u32, list: &[u16], work: &mut [u64]) {
        let mut page = vec![9999; list.len()];
        let got = ffi::closest(self.lent.week(), &self.table, a, list, work, &mut page);
        assert_eq!(got, ffi::Comparison { refusal: 0, difference: 0, packages: list.len() as u64 }, "closest to {list:?}, a timetable of {a}");
        assert_eq!(page, list, "closest to {list:?}, a timetable of {a}");
    }

    // ---- damaged tables

    /// Some calls on a table with words changed, or with another optional set or another order than the table was made with; then all is put back.
    fn damaged(&mut self) {
        let (table, known, ledger, lent) = (self.table.clone(), self.known.clone(), self.ledger.clone(), self.lent.clone());
        let covers = std::mem::take(&mut self.covers);
        let what = self.rng.below(6);
        if what > 1 && !self.table.is_empty() {
            self.change_words();
        }
        if what == 0 || what == 2 {
            self.lent.optional = random_optional(&mut self.rng, self.lent.m, &self.lent.sets);
        }
        if what == 1 || what == 3 || self.rng.once_in(8) {
            self.lent.order = random_order(&mut self.rng, self.lent.m, 4);
        }
        self.learn();
        self.ledger.clear();
        for _ in 0..self.rng.from(1, 3) {
            match self.rng.below(11) {
                0 => self.cover(),
                1 => self.combine(),
                2 => self.count(),
                3 => self.pick(),
                4 => self.place(),
                5 => self.cheapest(),
                6 => self.measure(),
                7 => self.join(),
                8 => self.closest(),
                9 => self.withdraw(),
                _ => self.check(),
            }
        }
        self.check();
        (self.table, self.known, self.ledger, self.lent, self.covers) = (table, known, ledger, lent, covers);
    }

    /// Up to three words of a table that has some.
    fn change_words(&mut self) {
        let long = self.table.len() as u64;
        let used = (1 + 3 * self.table[0] as u64).min(long);
        for _ in 0..self.rng.from(1, 3) {
            let at = match self.rng.below(4) {
                0 => 0,
                1 => self.rng.below(long),
                2 => long - 1,
                _ => self.rng.below(used),
            } as usize;
            self.table[at] = match self.rng.below(5) {
                0 => self.rng.next() as u32,
                1 => self.table[at].wrapping_add(1),
                2 => self.table[at].wrapping_sub(1),
                3 => 0,
                _ => self.rng.below(used + 2) as u32,
            };
        }
    }
}

/// The result of pick, cheapest or closest, with its cost or difference and how many packages it wrote, and the page before and after it.
fn compare_page(call: &str, refusal: u32, list: &[u16], value: u32, [before, page]: [&[u16]; 2], got: (u32, u32, u64)) {
    if refusal != 0 {
        assert_eq!(got, (refusal, 0, 0), "{call}");
        assert_eq!(page, before, "{call}: refused, and the page changed");
        return;
    }
    assert_eq!(got, (0, value, list.len() as u64), "{call}");
    assert_eq!(&page[..list.len()], list, "{call}");
    assert_eq!(page[list.len()..], before[list.len()..], "{call}: the rest of the page");
}

/// An M, and so many different items below it.
fn few_items(rng: &mut Rng, few: u64) -> (u32, Vec<u32>) {
    let m = if rng.once_in(2) { few as u32 } else { random_m(rng).clamp(few as u32, ITEMS) };
    let mut items: Vec<u32> = Vec::new();
    while items.len() < few as usize {
        let i = random_item(rng, m);
        if !items.contains(&i) {
            items.push(i);
        }
    }
    (m, items)
}

/// Several packages for each of a few items: a cover has many timetables, and so the parts of it are many sets.
fn many_timetables(rng: &mut Rng) -> (u32, Vec<Set>) {
    let few = rng.from(2, 4);
    let (m, items) = few_items(rng, few);
    let mut sets: Vec<Set> = (0..rng.from(6, MOST)).map(|p| Set::of([items[(p % few) as usize]])).collect();
    let shared = random_item(rng, m);
    let often = rng.from(2, 12);
    for s in &mut sets {
        if rng.once_in(6) {
            s.add(items[rng.below(few) as usize]);
        }
        if rng.once_in(often) {
            s.add(shared);
        }
    }
    (m, sets)
}

/// Packages on the items of two halves, which lie mixed below M; sometimes a package that has items of both, or an item more that some packages of both have.
fn two_halves(rng: &mut Rng) -> (u32, Vec<Set>, [Set; 2]) {
    let n = rng.from(4, MOST);
    let (first, second) = (rng.from(1, n.div_ceil(2).min(3)), rng.from(1, (n / 2).min(3)));
    let (m, mut items) = few_items(rng, first + second + 1);
    let shared = items.pop().unwrap();
    let halves = [&items[..first as usize], &items[first as usize..]];
    let heavy = rng.from(2, 8);
    let mut sets: Vec<Set> = (0..n)
        .map(|p| {
            let half = halves[p as usize % 2];
            let mut s = Set::of([half[p as usize / 2 % half.len()]]);
            half.iter().filter(|_| rng.once_in(heavy)).for_each(|&i| s.add(i));
            s
        })
        .collect();
    let mut halves = halves.map(|half| Set::of(half.iter().copied()));
    match rng.below(9) {
        0 => {
            let any = rng.below(n) as usize;
            sets[any] = sets[any].or(Set::of([items[0], items[first as usize]]));
        }
        1..=3 => {
            sets.iter_mut().filter(|_| rng.once_in(3)).for_each(|s| s.add(shared));
            halves.iter_mut().for_each(|half| half.add(shared));
        }
        _ => {}
    }
    (m, sets, halves)
}

/// Optional items: often none, mostly some that leave each package a compulsory item; rarely also all items of a package, one that no package has, or one of M
/// or above.
fn random_optional(rng: &mut Rng, m: u32, sets: &[Set]) -> Set {
    let mut optional = Set::NONE;
    if rng.once_in(3) {
        return optional;
    }
    let mut items: Vec<u32> = sets.iter().fold(Set::NONE, |a, &s| a.or(s)).items().collect();
    let start = rng.below(items.len().max(1) as u64) as usize;
    items.rotate_left(start);
    for i in items {
        let more = optional.or(Set::of([i]));
        if !rng.once_in(4) && !sets.iter().any(|s| s.inside(more)) {
            optional = more;
        }
    }
    match rng.below(30) {
        0 if !sets.is_empty() => optional = optional.or(sets[rng.below(sets.len() as u64) as usize]),
        1 => optional.add(m.min(ITEMS - 1)),
        2 => optional.add(rng.below(ITEMS as u64) as u32),
        3 => optional = Set([0; 3].map(|_| rng.next())),
        _ => {}
    }
    optional
}

/// An order of the items below m: often the plain one, or that reversed, or with two items exchanged, mostly any; once in `often` times it is spoilt.
fn random_order(rng: &mut Rng, m: u32, often: u64) -> Vec<u8> {
    let m = m.min(ITEMS) as usize;
    let mut order: Vec<u8> = (0..m).map(|i| i as u8).collect();
    match rng.below(8) {
        0 | 1 => {}
        2 => order.reverse(),
        3 if m > 0 => order.swap(rng.below(m as u64) as usize, rng.below(m as u64) as usize),
        _ => (1..m).for_each(|i| order.swap(i, rng.below(i as u64 + 1) as usize)),
    }
    if rng.once_in(often) {
        spoil(rng, &mut order);
    }
    order
}

/// Makes a list of an order that, but for rare chance, is none: an item twice, an item of M or above, one item short or too many, none at all, or far too many.
fn spoil(rng: &mut Rng, order: &mut Vec<u8>) {
    let m = order.len() as u64;
    let at = rng.below(m.max(1)) as usize;
    match rng.below(7) {
        0 if m > 0 => order[at] = rng.below(m) as u8,
        1 if m > 0 => order[at] = rng.from(m, 255) as u8,
        2 if m > 0 => drop(order.remove(at)),
        3 => order.push(rng.below(m.max(1)) as u8),
        4 => order.push(m as u8),
        5 => order.clear(),
        _ => order.extend((0..rng.from(1, 400)).map(|_| rng.next() as u8)),
    }
}

/// Makes a list of packages that is mostly not in precedence: turned round, two neighbours exchanged, a package twice in a row or later again, a package of n or
/// more anywhere, or far too many.
pub fn spoil_list(rng: &mut Rng, list: &mut Vec<u16>, n: u64) {
    let long = list.len() as u64;
    let at = rng.below(long.max(1)) as usize;
    match rng.below(7) {
        0 => list.reverse(),
        1 if long > 1 => list.swap(at, (at + 1) % long as usize),
        2 if long > 0 => list.insert(at, list[at]),
        3 if long > 0 => list.push(list[at]),
        4 => list.insert(at, (n + rng.below(3)) as u16),
        5 => list.push([n, 512, 65535, rng.below(65536)][rng.below(4) as usize] as u16),
        _ => list.extend((0..rng.from(1, 600)).map(|_| rng.below(n.max(1)) as u16)),
    }
}

/// M: mostly small, often next to where a word ends, rarely above the greatest.
fn random_m(rng: &mut Rng) -> u32 {
    const BORDERS: [u32; 9] = [63, 64, 65, 127, 128, 129, 191, 192, 193];
    match rng.below(12) {
        0 => rng.below(3) as u32,
        1..=4 => BORDERS[rng.below(9) as usize],
        5 | 6 => rng.from(11, 200) as u32,
        _ => rng.from(2, 10) as u32,
    }
}

/// An item below m, often one where a word begins or ends.
fn random_item(rng: &mut Rng, m: u32) -> u32 {
    let border = [0, 63, 64, 127, 128, 191][rng.below(6) as usize];
    if border < m && rng.once_in(2) {
        return border;
    }
    rng.below(m as u64) as u32
}

/// Packages over a few items, which lie anywhere below M.
fn random_packages(rng: &mut Rng) -> (u32, Vec<Set>) {
    let m = random_m(rng);
    let items: Vec<u32> = (0..rng.from(1, 7)).map(|_| random_item(rng, m.clamp(1, ITEMS))).collect();
    let n = match rng.below(30) {
        0 => rng.from(0, 1),
        1 => rng.from(510, 514),
        _ => rng.from(2, MOST),
    };
    let heavy = rng.from(2, 4);
    let mut sets: Vec<Set> = (0..n)
        .map(|_| {
            let mut s = Set::of([items[rng.below(items.len() as u64) as usize]]);
            for &i in &items {
                if rng.once_in(heavy) {
                    s.add(i);
                }
            }
            s
        })
        .collect();
    if n > 512 {
        return (m, sets);
    }
    if n > MOST {
        // too many for the model: spoil one, so that every call is refused by 2
        sets[rng.below(n) as usize] = Set::NONE;
    } else if rng.once_in(20) && n > 0 {
        let k = rng.below(n) as usize;
        match rng.below(3) {
            0 => sets[k] = Set::NONE,
            1 => sets[k] = Set([0; 3].map(|_| rng.next())),
            _ => sets[k].add(m.min(ITEMS - 1)),
        }
    } else if rng.once_in(4) && n > 1 {
        sets[0] = sets[n as usize - 1];
    }
    (m, sets)
}
