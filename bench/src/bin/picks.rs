//! 10,000 picks in a row, their k spread over the listing, from the benchmark's answers, and beside them what a pick consists of: the check of the table, the
//! count, the walk that measures and, in pick alone, the walk that writes; and as many calls of cheapest and closest. The library, the same calls by hand in Rust
//! and, where one is given, an earlier archive take turns (see build.rs).

#[path = "../../../tests/rust/src/ffi.rs"]
#[allow(dead_code)]
mod ffi;
#[path = "../hand.rs"]
#[allow(dead_code)]
mod hand;
#[path = "../instances.rs"]
#[allow(dead_code)]
mod instances;
#[cfg(old)]
#[path = "../old.rs"]
#[allow(dead_code)]
mod old;

use instances::Instance;
use std::hint::black_box;
use std::time::Instant;

const PICKS: u64 = 10_000;
/// Calls that are timed together.
const BLOCK: u64 = 100;
/// How many lists closest is given.
const LISTS: usize = 128;

/// What is lent, and the answer.
struct Desk<'a> {
    who: &'a Instance,
    table: Vec<u32>,
    answer: u32,
    work: Vec<u64>,
    page: Vec<u16>,
    costs: Vec<u16>,
    /// What closest is given in turn: timetables of the answer, every third package left out.
    lists: Vec<Vec<u16>>,
}

/// One call of k; what it gives.
type Call = fn(&mut Desk, u64) -> u64;

const CALLS: [&str; 6] = ["check", "count", "measure", "pick", "cheapest", "closest"];

/// How many packages were written, and their cost or difference.
fn both(packages: u64, value: u32) -> u64 {
    packages | (value as u64) << 32
}

const LIBRARY: [Option<Call>; 6] = [
    Some(|d, _| ffi::check(d.who.week(), &d.table) as u64),
    Some(|d, _| ffi::count(d.who.week(), &d.table, d.answer, &mut d.work).value),
    Some(|d, k| ffi::measure(d.who.week(), &d.table, d.answer, k, &mut d.work).value),
    Some(|d, k| ffi::pick(d.who.week(), &d.table, d.answer, k, &mut d.work, &mut d.page).packages),
    Some(|d, _| {
        let r = ffi::cheapest(d.who.week(), &d.costs, &d.table, d.answer, &mut d.work, &mut d.page);
        both(r.packages, r.cost)
    }),
    Some(|d, k| {
        let r = ffi::closest(d.who.week(), &d.table, d.answer, &d.lists[k as usize % LISTS], &mut d.work, &mut d.page);
        both(r.packages, r.difference)
    }),
];

const HAND: [Option<Call>; 6] = [
    Some(|d, _| hand::hand_check(d.who.by_hand(), &d.table) as u64),
    Some(|d, _| hand::hand_count(d.who.by_hand(), &d.table, d.answer, &mut d.work).unwrap()),
    Some(|d, k| hand::hand_measure(d.who.by_hand(), &d.table, d.answer, k, &mut d.work).unwrap() as u64),
    Some(|d, k| hand::hand_pick(d.who.by_hand(), &d.table, d.answer, k, &mut d.work, &mut d.page).unwrap() as u64),
    Some(|d, _| {
        let (n, cost) = hand::hand_cheapest(d.who.by_hand(), &d.costs, &d.table, d.answer, &mut d.work, &mut d.page).unwrap();
        both(n as u64, cost)
    }),
    Some(|d, k| {
        let list = &d.lists[k as usize % LISTS];
        let (n, difference) = hand::hand_closest(d.who.by_hand(), &d.table, d.answer, list, &mut d.work, &mut d.page).unwrap();
        both(n as u64, difference)
    }),
];

#[cfg(old)]
const OLD: [Option<Call>; 6] = [
    Some(|d, _| old::check(d.who.week(), &d.table) as u64),
    Some(|d, _| old::count(d.who.week(), &d.table, d.answer, &mut d.work).value),
    Some(|d, k| old::measure(d.who.week(), &d.table, d.answer, k, &mut d.work).value),
    Some(|d, k| old::pick(d.who.week(), &d.table, d.answer, k, &mut d.work, &mut d.page).packages),
    Some(|d, _| {
        let r = old::cheapest(d.who.week(), &d.costs, &d.table, d.answer, &mut d.work, &mut d.page);
        both(r.packages, r.cost)
    }),
    None,
];

const THEM: &[(&str, [Option<Call>; 6])] = &[
    ("library", LIBRARY),
    ("by hand", HAND),
    #[cfg(old)]
    ("before", OLD),
];

impl Desk<'_> {
    fn new(who: &Instance) -> Desk<'_> {
        let mut d = Desk {
            who,
            table: vec![0; 1 + 3 * who.nodes],
            answer: 0,
            work: vec![1; 4 * who.places],
            page: vec![0; 64],
            costs: (0..who.packs.len()).map(|p| (37 * p % 101) as u16).collect(),
            lists: Vec::new(),
        };
        d.answer = ffi::cover(who.week(), &mut d.table, &who.all(), u32::MAX, &mut d.work).answer;
        let count = ffi::count(who.week(), &d.table, d.answer, &mut d.work);
        assert_eq!((count.refusal, count.value), (0, who.count));
        d.lists = (0..LISTS as u64).map(|i| d.some_of(i * PICKS / LISTS as u64)).collect();
        d
    }

    /// The packages of the i-th pick but every third.
    fn some_of(&mut self, i: u64) -> Vec<u16> {
        let k = self.spread(i);
        let n = ffi::pick(self.who.week(), &self.table, self.answer, k, &mut self.work, &mut self.page).packages;
        (0..n as usize).filter(|j| j % 3 != 2).map(|j| self.page[j]).collect()
    }

    /// The i-th of the k that are picked.
    fn spread(&self, i: u64) -> u64 {
        (i as u128 * self.who.count as u128 / PICKS as u128) as u64
    }

    /// All give the same, before any is timed.
    fn agree(&mut self) {
        for i in 0..PICKS {
            let k = self.spread(i);
            for (j, name) in CALLS.iter().enumerate() {
                let mut given: Vec<(u64, Vec<u16>)> = Vec::new();
                for call in THEM.iter().filter_map(|x| x.1[j]) {
                    self.page.fill(0);
                    given.push((call(self, k), self.page.clone()));
                }
                assert!(given.iter().all(|g| *g == given[0]), "{name} {k}");
            }
        }
    }

    /// Microseconds a call in one block of picks.
    fn block(&mut self, call: Call, block: u64) -> f64 {
        let started = Instant::now();
        for i in block * BLOCK..(block + 1) * BLOCK {
            let k = self.spread(i);
            black_box(call(self, k));
        }
        started.elapsed().as_nanos() as f64 / 1000.0 / BLOCK as f64
    }
}

fn median(x: &[f64]) -> f64 {
    let mut x = x.to_vec();
    x.sort_by(f64::total_cmp);
    x[x.len() / 2]
}

fn least(x: &[f64]) -> f64 {
    x.iter().copied().fold(f64::INFINITY, f64::min)
}

fn compare(who: &Instance) {
    let mut desk = Desk::new(who);
    desk.agree();
    println!("{}: {} timetables, {} nodes in a table for {}", who.name, who.count, desk.table[0], who.nodes);
    let mut times = vec![vec![Vec::new(); THEM.len()]; CALLS.len()];
    for block in 0..PICKS / BLOCK {
        for turn in 0..THEM.len() {
            let them = (turn + block as usize) % THEM.len();
            for (i, call) in THEM[them].1.iter().enumerate().filter_map(|(i, call)| call.map(|c| (i, c))) {
                times[i][them].push(desk.block(call, block));
            }
        }
    }
    for (name, columns) in CALLS.iter().zip(&times) {
        print!("  {name:<8}");
        for x in columns {
            if x.is_empty() {
                print!(" {:>9} {:>9}", "-", "-");
            } else {
                print!(" {:>9.2} {:>9.2}", median(x), least(x));
            }
        }
        for x in &columns[1..] {
            if x.is_empty() {
                print!(" {:>9}", "-");
            } else {
                print!(" {:>9.2}", least(&columns[0]) / least(x));
            }
        }
        println!();
    }
}

fn main() {
    println!("{PICKS} picks in a row: microseconds a call, median and least of {} blocks of {BLOCK}, then the ratios of the least", PICKS / BLOCK);
    print!("          ");
    THEM.iter().for_each(|x| print!(" {:<19}", x.0));
    THEM[1..].iter().for_each(|x| print!(" {:>9}", format!("to {}", x.0.trim_start_matches("by "))));
    println!();
    instances::instances().iter().for_each(compare);
}
