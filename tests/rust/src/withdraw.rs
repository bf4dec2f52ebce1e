//! Withdraw: document 02's rules one by one, on weeks that can be counted out by hand, random withdrawals in the histories of calls.rs, and some from tables of
//! random nodes. What each entry becomes is told by the model.

use crate::calls::{spoil_list, History, Tally};
use crate::ffi;
use crate::model::{lent, Family, Set, Week};
use crate::optional::listing;
use crate::rng::Rng;
use std::collections::HashSet;

/// The words of the packages that remain.
fn shortened(words: &[u64], gone: &[u16]) -> Vec<u64> {
    words.chunks(3).enumerate().filter(|(p, _)| !gone.contains(&(*p as u16))).flat_map(|(_, w)| w.to_vec()).collect()
}

// ---- by hand

/// A withdrawal that answers, with just the working words that it needs, and then the same table with one less, which is refused and changes nothing. The nodes
/// left and the entries.
fn left(week: ffi::Week, table: &mut [u32], gone: &[u16], answers: &[u32]) -> (u64, Vec<u32>) {
    let words = table[0] as usize + 2;
    let (before, mut list) = (table.to_vec(), answers.to_vec());
    assert_eq!(ffi::withdraw(week, table, gone, &mut list, &mut vec![7; words - 1]), ffi::Number { refusal: 8, value: 0 });
    assert_eq!((&*table, &list[..]), (&before[..], answers), "refused, and table or list changed");
    let got = ffi::withdraw(week, table, gone, &mut list, &mut vec![7; words]);
    assert_eq!((got.refusal, got.value), (0, table[0] as u64));
    assert!(table[1 + 3 * table[0] as usize..].iter().all(|&w| w == 0), "the words behind the nodes");
    let packages = shortened(week.packages, gone);
    assert_eq!(ffi::check(ffi::Week { packages: &packages, ..week }, table), 0);
    (got.value, list)
}

/// Only the refusal; table and list stay as they are.
fn refused(week: ffi::Week, table: &[u32], gone: &[u16], answers: &[u32], words: usize) -> u32 {
    let (mut after, mut list) = (table.to_vec(), answers.to_vec());
    let got = ffi::withdraw(week, &mut after, gone, &mut list, &mut vec![7; words]);
    assert_eq!((got.value, &after[..], &list[..]), (0, table, answers), "refused, and table or list changed");
    got.refusal
}

fn covered(week: ffi::Week, table: &mut [u32], d: Set) -> (u32, u32) {
    let r = ffi::cover(week, table, &d.0, 1000, &mut [5; 4 * 64]);
    assert_eq!(r.refusal, 0);
    (r.answer, r.made)
}

/// {0} three times: without 1 and 2 the cover, the cover without 2 and the cover without 1 are one answer, on one node.
pub fn three_become_one() {
    let words = lent(&[Set::of([0]); 3]);
    let week = ffi::Week::plain(1, &words);
    let mut table = vec![0; 1 + 3 * 10];
    let (a, _) = covered(week, &mut table, Set::of([0]));
    let [b, c] = [2, 1].map(|p| ffi::combine(4, week, &mut table, a, p, &mut [0; 2]).answer);
    assert!(a != b && b != c && a != c);
    let full = table.clone();
    assert_eq!(left(week, &mut table, &[1, 2], &[b, c, a, b, 0, 1]), (1, vec![2, 2, 2, 2, 0, 1]));
    assert_eq!(table[..4], [1, 0, 0, 1]);
    // the cover of the shortened list is its entry, and no node more
    let one = ffi::Week::plain(1, &words[..3]);
    assert_eq!(covered(one, &mut table, Set::of([0])), (2, 0));
    assert_eq!(listing(one, &table, 2), [[0]]);
    // package 0 withdrawn: those that remain have new numbers, and of the listed answers c, without 1, has the second of them alone
    table = full.clone();
    let (_, entries) = left(week, &mut table, &[0], &[a, c]);
    let two = ffi::Week::plain(1, &words[..6]);
    assert_eq!(entries.iter().map(|&e| listing(two, &table, e)).collect::<Vec<_>>(), [vec![vec![0], vec![1]], vec![vec![1]]]);
    // all withdrawn, and none: then 0 is all that is left, or each answer
    table = full.clone();
    assert_eq!(left(week, &mut table, &[0, 1, 2], &[a, b, c, 1]), (0, vec![0, 0, 0, 1]));
    table = full.clone();
    let (nodes, entries) = left(week, &mut table, &[], &[a, b, c]);
    assert_eq!((nodes as u32, listing(week, &table, entries[0])), (full[0], vec![vec![0], vec![1], vec![2]]));
    // no answer listed: no node stays
    for gone in [&[][..], &[1], &[0, 1, 2]] {
        table = full.clone();
        assert_eq!(left(week, &mut table, gone, &[]), (0, vec![]));
        table = full.clone();
        assert_eq!(left(week, &mut table, gone, &[1, 0, 0]), (0, vec![1, 0, 0]));
        assert!(table.iter().all(|&w| w == 0));
    }
}

/// 4, 5, 36, 8: what is wrong is put right one after the other. What stands before them each call says, see order.rs.
pub fn refusal_order() {
    let words = lent(&[Set::of([0, 1]), Set::of([1]), Set::of([2])]);
    let week = ffi::Week::plain(3, &words);
    let (table, spoilt) = ([2, 2, 0, 1, 0, 0, 2, 0, 0, 0], [2, 2, 0, 1, 0, 0, 3, 0, 0, 0]);
    for bad in [&[3][..], &[1, 0], &[2, 2], &[0, 2, 1], &[0, 1, 2, 2], &[65535], &[0, 0, 1, 2], &[0, 1, 2, 3]] {
        assert_eq!(refused(week, &spoilt, bad, &[4], 0), 4);
        for unknown in [&[4][..], &[u32::MAX, 0], &[0, 1, 2, 3, 4], &[3, 4, 3], &[3, 65536 + 2]] {
            assert_eq!(refused(week, &table, bad, unknown, 0), 5, "{unknown:?}");
        }
        assert_eq!([refused(week, &table, bad, &[3, 0], 0), refused(week, &table, bad, &[], 9)], [36, 36], "{bad:?}");
    }
    for gone in [&[][..], &[1], &[0, 2], &[0, 1, 2]] {
        assert_eq!([refused(week, &table, gone, &[], 0), refused(week, &table, gone, &[3, 2], 3)], [8, 8]);
        left(week, &mut table.clone(), gone, &[3, 2]);
    }
    // an empty table wants two words, and a table has at least one
    assert_eq!([refused(week, &[0], &[], &[], 1), refused(week, &[], &[], &[], 9)], [8, 4]);
    assert_eq!(left(week, &mut [0], &[0, 1], &[1, 0]), (0, vec![1, 0]));
}

/// A table that is full: with the answers still in use listed and nothing withdrawn there is room again.
pub fn makes_room() {
    let sets = [Set::of([0]), Set::of([0]), Set::of([1]), Set::of([1])];
    let words = lent(&sets);
    let week = ffi::Week::plain(2, &words);
    let mut table = vec![0; 1 + 3 * 4];
    let (first, _) = covered(week, &mut table, Set::of([0]));
    let (second, _) = covered(week, &mut table, Set::of([1]));
    let d = Set::of([0, 1]);
    assert_eq!(ffi::cover(week, &mut table, &d.0, 1000, &mut [5; 64]).refusal, 10);
    let before = listing(week, &table, second);
    assert_eq!(left(week, &mut table, &[], &[second]), (2, vec![3]));
    assert_eq!(listing(week, &table, 3), before);
    assert_eq!(covered(week, &mut table, d), (5, 2));
    assert_eq!(listing(week, &table, 5).len(), 4);
    assert!(first >= 2);
}

/// 512 packages of one item: the timetable of all and every set of them. A withdrawn package leaves nothing of the one, and of the other the sets of 511.
pub fn longest() {
    let words = lent(&[Set::of([191]); 512]);
    let week = ffi::Week::plain(192, &words);
    let mut table = vec![1024];
    (0..512).for_each(|i| table.extend([511 - i, 0, i + 1]));
    table.extend([511, 1, 1]);
    (1..512).for_each(|i| table.extend([511 - i, 513 + i, 513 + i]));
    let (whole, subsets) = (513, 1025);
    assert_eq!(ffi::check(week, &table), 0);
    for gone in [0, 255, 511] {
        assert_eq!(left(week, &mut table.clone(), &[gone], &[whole, subsets]), (511, vec![0, 512]));
    }
    let all: Vec<u16> = (0..512).collect();
    assert_eq!(left(week, &mut table.clone(), &all, &[whole, subsets]), (0, vec![0, 1]));
    assert_eq!(left(week, &mut table.clone(), &all[1..], &[whole, subsets]), (1, vec![0, 2]));
    assert_eq!(refused(week, &table, &[&all[..], &[512]].concat(), &[whole], 1026), 36);
    assert_eq!(refused(week, &table, &[&all[..], &[511]].concat(), &[whole], 1026), 36);
}

/// A table of 65534 nodes: all of them listed, one of them alone, and just the working words; an answer of 65536 is unknown.
pub fn last_number() {
    let sets = lent(&(0..512).map(|p| Set::of([p / 8])).collect::<Vec<Set>>());
    let week = ffi::Week::plain(64, &sets);
    let mut table: Vec<u32> = vec![65534];
    for label in (0..512).rev() {
        let known = table.len() as u32 / 3 + 2;
        let pairs = (1..known).flat_map(|hi| (0..known).map(move |lo| (lo, hi))).take(129);
        pairs.for_each(|(lo, hi)| table.extend([label, lo, hi]));
    }
    table.truncate(1 + 3 * 65534);
    assert_eq!(ffi::check(week, &table), 0);
    let all: Vec<u32> = (0..65536).collect();
    assert_eq!(refused(week, &table, &[], &[65535, 65536], 65536), 5);
    let mut after = table.clone();
    // each node is listed: the table stays as it is, node for node
    assert_eq!((left(week, &mut after, &[], &all), &after), ((65534, all.clone()), &table));
    let (nodes, entries) = left(week, &mut after, &[], &[65535]);
    let needed = crate::model::below(&table, 65535).into_iter().filter(|&k| k >= 2).count() as u64;
    assert_eq!((nodes, entries), (needed, vec![needed as u32 + 1]));
    // without the last 256 packages nothing is left of most answers
    let mut after = table.clone();
    let late: Vec<u16> = (256..512).collect();
    assert!(left(week, &mut after, &late, &all).0 < 65534);
}

// ---- in random histories

/// A list of withdrawn packages of n: none, one, few, any or all; sometimes spoilt.
fn random_gone(rng: &mut Rng, n: u64) -> Vec<u16> {
    let one = rng.below(n.max(1));
    let mut gone: Vec<u16> = match rng.below(12) {
        0..=3 => Vec::new(),
        4..=7 => (0..n).filter(|&p| p == one).map(|p| p as u16).collect(),
        8 | 9 => (0..n).filter(|_| rng.once_in(4)).map(|p| p as u16).collect(),
        10 => (0..n).filter(|_| rng.once_in(2)).map(|p| p as u16).collect(),
        _ if rng.once_in(4) => (0..n).map(|p| p as u16).collect(),
        _ => Vec::new(),
    };
    if rng.once_in(6) {
        spoil_list(rng, &mut gone, n);
    }
    gone
}

impl History {
    /// The answers that are listed: mostly all postings, or some, or any numbers of the table, repeating, with 0 and 1 among them; sometimes none at all, rarely
    /// an unknown one.
    fn listed(&mut self) -> Vec<u32> {
        let postings: Vec<u32> = self.ledger.iter().map(|p| p.0).collect();
        let mut all: Vec<u32> = match self.rng.below(8) {
            0 if self.rng.once_in(3) => Vec::new(),
            0 | 1 => (0..self.rng.below(12)).map(|_| self.operand()).collect(),
            2 => postings.into_iter().filter(|_| self.rng.once_in(2)).collect(),
            _ => postings,
        };
        let n = self.known.len() as u32;
        all.retain(|&a| a < n || self.rng.once_in(4));
        match self.rng.below(16) {
            0 => all.push(n),
            1 => all.insert(0, u32::MAX),
            2 | 3 => all.extend([1, 0]),
            4 if !all.is_empty() => all.push(all[0]),
            _ => {}
        }
        all
    }

    /// 1, 2, 29, 30, 34, 4, 5, 36, 8, or 0.
    fn withdrawal_refusal(&self, gone: &[u16], answers: &[u32], words: usize) -> u32 {
        let n = self.lent.sets.len();
        match self.first_refusal() {
            0 if answers.iter().any(|&a| a as usize >= self.known.len()) => 5,
            0 if gone.iter().any(|&p| p as usize >= n) || gone.windows(2).any(|w| w[0] >= w[1]) => 36,
            0 if words < self.known.len() => 8,
            r => r,
        }
    }

    pub fn withdraw(&mut self) {
        let gone = random_gone(&mut self.rng, self.lent.sets.len() as u64);
        let answers = self.listed();
        let mut work = self.work((self.known.len() as u64).max(2));
        let end = self.lent_words();
        let refusal = self.withdrawal_refusal(&gone, &answers, work.len());
        let before = self.table.clone();
        let mut entries = answers.clone();
        let got = ffi::withdraw(self.lent.week(), &mut self.table[..end], &gone, &mut entries, &mut work);
        self.told(got.refusal);
        self.tally.withdrawals[got.refusal as usize] += 1;
        let call = format!("withdraw {gone:?}, answers {answers:?}, words {}", work.len());
        if refusal != 0 {
            assert_eq!(got, ffi::Number { refusal, value: 0 }, "{call}");
            assert_eq!(self.table, before, "{call}: refused, and the table changed");
            assert_eq!(entries, answers, "{call}: refused, and the list changed");
            return;
        }
        assert_eq!(got, ffi::Number { refusal: 0, value: self.table[0] as u64 }, "{call}");
        self.settle(&call, &gone, &answers, &entries);
        self.tally.shortened += !gone.is_empty() as u64;
        self.tally.freed += (gone.is_empty() && self.table[0] < before[0]) as u64;
    }

    /// After a withdrawal: the shortened week, the table, each entry and the ledger are as the model has them. From now on these are lent.
    fn settle(&mut self, call: &str, gone: &[u16], answers: &[u32], entries: &[u32]) {
        let old = self.lent.model();
        let families: Vec<Family> = answers.iter().map(|&a| old.withdrawn(&self.known[a as usize], gone)).collect();
        let whole: Vec<(Set, u32)> = self.covers.iter().filter_map(|&(d, a)| answers.iter().position(|&b| a == b).map(|j| (d, entries[j]))).collect();
        let n = self.lent.sets.len();
        let rest = self.lent.words.split_off(3 * n);
        self.lent.sets = (0..n).filter(|&p| !gone.contains(&(p as u16))).map(|p| self.lent.sets[p]).collect();
        self.lent.words = [shortened(&self.lent.words, gone), rest].concat();
        let lent = self.lent.clone();
        let s = lent.model();
        assert!(s.sound(&self.table), "{call}: not sound");
        assert_eq!(ffi::check(lent.week(), &self.table), 0, "{call}: check");
        let nodes = self.table[0] as usize;
        assert!(self.table[1 + 3 * nodes..].iter().all(|&w| w == 0), "{call}: words behind the nodes");
        assert_eq!(nodes, s.nodes(&families), "{call}: nodes left");
        self.known = s.families(&self.table);
        self.ledger = entries.iter().copied().zip(families).collect();
        self.postings_hold(call);
        for (i, (a, f)) in self.ledger.iter().enumerate() {
            let expected: Vec<Vec<u16>> = s.listing(f).into_iter().map(|t| s.written(t)).collect();
            let seen = self.ledger[..i].iter().any(|posting| posting.0 == *a);
            assert!(seen || listing(lent.week(), &self.table, *a) == expected, "{call}: the listing of {a}");
        }
        self.no_spare_node();
        self.covers = whole;
        self.covers_again(call);
    }

    /// A listed cover is the cover by the packages that remain: it is found, and no node is made.
    fn covers_again(&mut self, call: &str) {
        let before = self.table.clone();
        for &(d, a) in &self.covers {
            let r = ffi::cover(self.lent.week(), &mut self.table, &d.0, u32::MAX, &mut [7; 4 * 499]);
            assert_eq!((r.refusal, r.answer, r.made), (0, a, 0), "{call}: cover {d:?} again");
            self.tally.again += 1;
        }
        assert_eq!(self.table, before, "{call}: covers again, and the table changed");
    }

    /// Random nodes on an empty table, each package's behind those of the packages that come later.
    fn fill(&mut self) {
        let s = self.lent.model();
        if s.refusal() != 0 || self.table.is_empty() || self.table[0] != 0 {
            return;
        }
        let mut packages: Vec<usize> = (0..s.n()).collect();
        packages.sort_by(|&p, &q| s.before(p, q).cmp(&s.before(q, p)));
        let (mut nodes, mut seen) = (0, HashSet::new());
        for p in packages {
            let known = nodes as u64 + 2;
            for _ in 0..self.rng.below(9) {
                let node = [p as u32, self.rng.below(known) as u32, self.rng.from(1, known - 1) as u32];
                if 4 + 3 * nodes <= self.table.len() && seen.insert(node) {
                    self.table[1 + 3 * nodes..4 + 3 * nodes].copy_from_slice(&node);
                    nodes += 1;
                }
            }
        }
        self.table[0] = nodes as u32;
        self.learn();
        assert!(!self.known.is_empty(), "the model: random nodes are sound");
    }
}

/// Withdrawals one after the other from a table of random nodes.
pub fn some_tables(rng: &mut Rng, tally: &mut Tally) {
    let mut history = History::new(Rng(rng.next()));
    history.fill();
    for _ in 0..4 {
        history.withdraw();
    }
    tally.add(&history.tally);
}

/// The model: a week and what is left of it, on Figure 1 of document 000.
pub fn model() {
    let sets = [&[0, 1, 2, 4][..], &[0, 1], &[3, 5], &[2, 3, 5], &[2, 4]].map(|pack| Set::of(pack.iter().copied()));
    let order: Vec<u8> = (0..6).collect();
    let week = Week::new(6, &sets, Set::NONE, &order);
    let all = week.covering(Set::of(0..6));
    let short: Vec<Set> = [1, 2, 3, 4].map(|p: usize| sets[p]).to_vec();
    let rest = Week::new(6, &short, Set::NONE, &order);
    assert_eq!(week.withdrawn(&all, &[0]), rest.covering(Set::of(0..6)));
    assert_eq!((all.len(), week.withdrawn(&all, &[0]).len(), week.withdrawn(&all, &[2]).len()), (2, 1, 0));
    assert_eq!(rest.nodes(&[week.withdrawn(&all, &[0])]), 3);
}
