//! The library beside the same algorithm written by hand in Rust and, where it is installed, beside CUDD's ZDDs: instances of document 000's Table 1
//! and queens compiled, rounds of with, without, either, both and only on what was compiled, two such weeks joined, and how a call's time grows with the nodes.
//! An earlier archive, without join, stands beside it where one is given (see build.rs). CUDD's search takes the weeks in the plain order, of at most 64 items,
//! and each of two pools of so many.
//!
//! `bench [REPETITIONS]` prints the table. `bench WHO INSTANCE` does one repetition of one, for instruction counts (see bench/instructions).

#[cfg(cudd)]
mod cudd;
#[path = "../../tests/rust/src/ffi.rs"]
#[allow(dead_code)]
mod ffi;
#[allow(dead_code)]
mod hand;
#[allow(dead_code)]
mod instances;
#[cfg(old)]
#[allow(dead_code)]
mod old;

use instances::{instances, pools, Instance, Pools};
use std::cell::RefCell;
use std::hint::black_box;
use std::time::Instant;

/// The last is the five before it together.
const CALLS: [&str; 7] = ["cover", "either", "both", "only", "with", "without", "round"];
/// Packages of one instance that the rounds go through.
const ROUNDS: usize = 6;

/// The packages of the rounds, spread over all.
fn chosen(who: &Instance) -> impl Iterator<Item = usize> + '_ {
    (0..ROUNDS).map(|i| i * who.packs.len() / ROUNDS)
}

/// The nanoseconds of one repetition, for each of CALLS (the rounds' calls on average), and the steps.
struct Times([f64; 7], u64);

/// One repetition by calls on numbers: cover first, then the rounds, after each of which `back` puts the table back to the compiled one.
fn repetition<A: Copy + PartialEq>(
    who: &Instance,
    mut cover: impl FnMut() -> (A, u64),
    mut combine: impl FnMut(usize, A, A, usize) -> A,
    mut back: impl FnMut(),
    zero: A,
) -> Times {
    let mut times = [0.0; 7];
    let started = Instant::now();
    let (all, steps) = black_box(cover());
    times[0] = started.elapsed().as_nanos() as f64;
    for p in chosen(who) {
        let mut timed = |op: usize, a: A, b: A| {
            let started = Instant::now();
            let f = black_box(combine(op, a, b, p));
            times[1 + op] += started.elapsed().as_nanos() as f64 / ROUNDS as f64;
            f
        };
        let with = timed(3, all, all);
        let without = timed(4, all, all);
        assert!(timed(0, with, without) == all);
        assert!(timed(1, with, without) == zero);
        assert!(timed(2, all, with) == without);
        back();
    }
    times[6] = times[1..6].iter().sum();
    Times(times, steps)
}

/// What is lent, and the nodes of the compiled table.
struct Lent {
    table: Vec<u32>,
    work: Vec<u64>,
    compiled: u32,
}

impl Lent {
    fn new(who: &Instance) -> Lent {
        Lent { table: vec![0; 1 + 3 * who.nodes], work: vec![1; 4 * who.places], compiled: 0 }
    }

    fn back(&mut self) {
        self.table[1 + 3 * self.compiled as usize..].fill(0);
        self.table[0] = self.compiled;
    }
}

/// By calls on a table and working words. The rounds are lent two words a place of cover's memo: what they remember goes to the lent words where these are
/// many, and so few are nowhere many.
fn by_calls(
    who: &Instance,
    cover: impl Fn(&mut [u32], &mut [u64]) -> (u32, u64),
    combine: impl Fn(usize, &mut [u32], u32, u32, &mut [u64]) -> u32,
) -> Times {
    let lent = RefCell::new(Lent::new(who));
    repetition(
        who,
        || {
            let l = &mut *lent.borrow_mut();
            let r = cover(&mut l.table, &mut l.work);
            l.compiled = l.table[0];
            r
        },
        |op, a, b, p| {
            let l = &mut *lent.borrow_mut();
            let b = if op < 3 { b } else { p as u32 };
            combine(op, &mut l.table, a, b, &mut l.work[..2 * who.places])
        },
        || lent.borrow_mut().back(),
        0,
    )
}

/// The answer and the steps of a call that is not refused.
fn answered(r: ffi::Report) -> (u32, u64) {
    assert_eq!(r.refusal, 0);
    (r.answer, r.steps as u64)
}

fn library(who: &Instance) -> Times {
    let (week, d) = (who.week(), who.all());
    by_calls(
        who,
        |t, work| answered(ffi::cover(week, t, &d, u32::MAX, work)),
        |op, t, a, b, work| answered(ffi::combine(op, week, t, a, b, work)).0,
    )
}

fn by_hand(who: &Instance) -> Times {
    let (week, d) = (who.by_hand(), who.all());
    by_calls(
        who,
        |t, work| hand::hand_cover(week, t, &d, u32::MAX, work).unwrap(),
        |op, t, a, b, work| hand::hand_combine(op as u8, week, t, a, b, work).unwrap(),
    )
}

#[cfg(old)]
fn before(who: &Instance) -> Times {
    let (week, d) = (who.week(), who.all());
    by_calls(
        who,
        |t, work| answered(old::cover(week, t, &d, u32::MAX, work)),
        |op, t, a, b, work| answered(old::combine(op, week, t, a, b, work)).0,
    )
}

#[cfg(cudd)]
fn by_cudd(who: &Instance) -> Times {
    assert!(who.m <= 64);
    let order = cudd::Order::new(who, &who.all());
    let manager = cudd::Manager::new(&order);
    let (mut keys, mut values) = (vec![1; who.places], vec![std::ptr::null_mut(); who.places]);
    repetition(who, || manager.cover(&mut keys, &mut values), |op, a, b, p| manager.combine(op, a, b, p), || {}, manager.zero())
}

fn median(mut x: Vec<f64>) -> f64 {
    x.sort_by(f64::total_cmp);
    x[x.len() / 2]
}

fn least(x: &[f64]) -> f64 {
    x.iter().copied().fold(f64::INFINITY, f64::min)
}

/// One who is compared, and the weeks that it takes.
struct Column {
    name: &'static str,
    run: fn(&Instance) -> Times,
    takes: fn(&Instance) -> bool,
}

/// Who is compared, in the order of the columns.
fn all_of_them() -> Vec<Column> {
    vec![
        Column { name: "library", run: library, takes: |_| true },
        Column { name: "by hand", run: by_hand, takes: |_| true },
        #[cfg(cudd)]
        Column { name: "CUDD", run: by_cudd, takes: |who| who.m <= 64 && who.plain() },
        #[cfg(old)]
        Column { name: "before", run: before, takes: |_| true },
    ]
}

fn compare(who: &Instance, repetitions: usize) {
    let them = all_of_them();
    let able: Vec<usize> = (0..them.len()).filter(|&i| (them[i].takes)(who)).collect();
    let mut times: Vec<Vec<Times>> = them.iter().map(|_| Vec::new()).collect();
    // in turn, so that none always runs in the caches that another leaves
    for i in 0..able.len() * repetitions {
        let turn = able[(i + i / able.len()) % able.len()];
        times[turn].push((them[turn].run)(who));
    }
    let steps = times[0][0].1;
    assert!(times.iter().flatten().all(|t| t.1 == steps), "steps differ");
    let lent = compiled(who);
    println!(
        "{}: {} items{}{}, {} packages, {steps} steps, {} nodes in a table for {}, memo of {} places",
        who.name,
        who.m,
        if who.optional_items() == 0 { String::new() } else { format!(" ({} optional)", who.optional_items()) },
        if who.plain() { "" } else { " in a lent order" },
        who.packs.len(),
        lent.table[0],
        who.nodes,
        who.places
    );
    let times: Vec<Vec<[f64; 7]>> = times.into_iter().map(|t| t.into_iter().map(|x| x.0).collect()).collect();
    rows(CALLS, &times);
}

/// A row for each call: for each who takes part, what its repetitions took, in microseconds, then the ratios.
fn rows<const N: usize>(calls: [&str; N], times: &[Vec<[f64; N]>]) {
    for (i, call) in calls.iter().enumerate() {
        print!("  {call:<8}");
        let columns: Vec<Vec<f64>> = times.iter().map(|t| t.iter().map(|x| x[i] / 1000.0).collect()).collect();
        for x in &columns {
            if x.is_empty() {
                print!(" {:>9} {:>9}", "-", "-");
            } else {
                print!(" {:>9.1} {:>9.1}", median(x.clone()), least(x));
            }
        }
        for x in &columns[1..] {
            if x.is_empty() {
                print!(" {:>9}", "-");
            } else {
                print!(" {:>9.2}", least(&columns[0]) / least(x));
            }
        }
        println!();
    }
}

/// The instance compiled, its count as it is known, and as many nodes by hand.
fn compiled(who: &Instance) -> Lent {
    let mut lent = Lent::new(who);
    let r = ffi::cover(who.week(), &mut lent.table, &who.all(), u32::MAX, &mut lent.work);
    assert_eq!(ffi::count(who.week(), &lent.table, r.answer, &mut lent.work), ffi::Number { refusal: 0, value: who.count });
    let mut hand = Lent::new(who);
    hand::hand_cover(who.by_hand(), &mut hand.table, &who.all(), u32::MAX, &mut hand.work).unwrap();
    assert_eq!(lent.table[0], hand.table[0], "nodes differ");
    lent
}

// ---- two pools

/// The two covers together, and their join.
const JOINED: [&str; 2] = ["covers", "join"];

/// The nanoseconds of one repetition, for each of JOINED; and what was made: the nodes of the join and the timetables, by the table or by CUDD.
struct JoinTimes([f64; 2], usize, u64);

/// One repetition by calls on numbers: the two covers, and then the join.
fn joined<A: Copy>(mut cover: impl FnMut(usize) -> A, mut join: impl FnMut(A, A) -> A) -> ([f64; 2], A) {
    let started = Instant::now();
    let (a, b) = black_box((cover(0), cover(1)));
    let covers = started.elapsed().as_nanos() as f64;
    let started = Instant::now();
    let both = black_box(join(a, b));
    ([covers, started.elapsed().as_nanos() as f64], both)
}

/// The nodes below an answer, its own included: children have smaller numbers.
fn below(t: &[u32], a: u32) -> usize {
    let mut marks = vec![false; a as usize + 2];
    marks[a as usize] = true;
    for k in (2..=a as usize).rev() {
        if marks[k] {
            marks[t[3 * k - 4] as usize] = true;
            marks[t[3 * k - 3] as usize] = true;
        }
    }
    marks[2..].iter().filter(|&&m| m).count()
}

/// By calls on a table and working words, as many as the rounds are lent.
fn join_by_calls(
    who: &Pools,
    cover: impl Fn(&mut [u32], &[u64; 3], &mut [u64]) -> u32,
    join: impl Fn(&mut [u32], u32, u32, &mut [u64]) -> u32,
) -> JoinTimes {
    let lent = RefCell::new(Lent::new(&who.week));
    let (times, both) = joined(
        |pool| {
            let l = &mut *lent.borrow_mut();
            cover(&mut l.table, &who.items[pool], &mut l.work)
        },
        |a, b| {
            let l = &mut *lent.borrow_mut();
            join(&mut l.table, a, b, &mut l.work[..2 * who.week.places])
        },
    );
    let l = &mut *lent.borrow_mut();
    let count = ffi::count(who.week.week(), &l.table, both, &mut l.work);
    assert_eq!(count.refusal, 0);
    JoinTimes(times, below(&l.table, both), count.value)
}

fn join_library(who: &Pools) -> JoinTimes {
    let week = who.week.week();
    join_by_calls(
        who,
        |t, d, work| answered(ffi::cover(week, t, d, u32::MAX, work)).0,
        |t, a, b, work| answered(ffi::join(week, t, a, b, work)).0,
    )
}

fn join_by_hand(who: &Pools) -> JoinTimes {
    let week = who.week.by_hand();
    join_by_calls(
        who,
        |t, d, work| hand::hand_cover(week, t, d, u32::MAX, work).unwrap().0,
        |t, a, b, work| hand::hand_join(week, t, a, b, work).unwrap(),
    )
}

#[cfg(cudd)]
fn join_by_cudd(who: &Pools) -> JoinTimes {
    let orders = [0, 1].map(|pool| cudd::Order::new(&who.week, &who.items[pool]));
    let manager = cudd::Manager::new(&orders[0]);
    let places = who.week.places;
    let (mut keys, mut values) = (vec![1; places], vec![std::ptr::null_mut(); places]);
    let (times, both) = joined(|pool| manager.cover_by(&orders[pool], &mut keys, &mut values).0, |a, b| manager.join(a, b));
    let (nodes, count) = manager.size(both);
    JoinTimes(times, nodes, count)
}

/// Who joins, by the columns' names; one who does not, as an earlier archive, has an empty column.
fn joiner(name: &str) -> Option<fn(&Pools) -> JoinTimes> {
    match name {
        "library" => Some(join_library),
        "by hand" | "hand" => Some(join_by_hand),
        #[cfg(cudd)]
        "CUDD" | "cudd" => Some(join_by_cudd),
        _ => None,
    }
}

fn compare_joins(who: &Pools, repetitions: usize) {
    let them: Vec<_> = all_of_them().iter().map(|x| joiner(x.name)).collect();
    let able: Vec<usize> = (0..them.len()).filter(|&i| them[i].is_some()).collect();
    let mut times: Vec<Vec<[f64; 2]>> = vec![Vec::new(); them.len()];
    let mut made = Vec::new();
    // in turn, as above
    for i in 0..able.len() * repetitions {
        let turn = able[(i + i / able.len()) % able.len()];
        let JoinTimes(t, nodes, count) = them[turn].unwrap()(who);
        times[turn].push(t);
        made.push((nodes, count));
    }
    let week = &who.week;
    assert!(made.iter().all(|m| *m == (made[0].0, week.count)), "nodes or counts differ");
    println!(
        "{}: {} items{}, {} packages, a join of {} timetables and {} nodes, in a table for {}, memo of {} places",
        week.name,
        week.m,
        if week.optional_items() == 0 { String::new() } else { format!(" ({} optional)", week.optional_items()) },
        week.packs.len(),
        week.count,
        made[0].0,
        week.nodes,
        week.places
    );
    rows(JOINED, &times);
}

/// The check of the first n nodes of a table, in a table with just room for them: what every call does first.
fn growth(who: &Instance, repetitions: usize) {
    let lent = compiled(who);
    println!("how a call's time grows with the nodes of its table ({}): the soundness check, microseconds, and nanoseconds a node", who.name);
    let mut n = 256;
    while n <= lent.table[0] as usize {
        let mut t = lent.table[..1 + 3 * n].to_vec();
        t[0] = n as u32;
        let times: Vec<f64> = (0..4 * repetitions)
            .map(|_| {
                let started = Instant::now();
                assert_eq!(ffi::check(who.week(), &t), 0);
                started.elapsed().as_nanos() as f64 / 1000.0
            })
            .collect();
        println!("  {n:>6} nodes {:>9.1} {:>9.1} {:>9.1}", median(times.clone()), least(&times), least(&times) * 1000.0 / n as f64);
        n *= 2;
    }
}

/// One repetition of one, to be counted.
fn once(who: &str, instance: &Instance) {
    match who {
        "library" => library(instance),
        "hand" => by_hand(instance),
        #[cfg(cudd)]
        "cudd" => by_cudd(instance),
        #[cfg(old)]
        "before" => before(instance),
        _ => panic!("library, hand, cudd or before"),
    };
}

fn main() {
    let args: Vec<String> = std::env::args().skip(1).collect();
    let (all, two) = (instances(), pools());
    if args.len() == 2 {
        if let Some(who) = two.iter().find(|x| x.week.name == args[1]) {
            joiner(&args[0]).expect("library, hand or cudd")(who);
            return;
        }
        return once(&args[0], all.iter().find(|i| i.name == args[1]).expect("an instance"));
    }
    let repetitions = args.first().map_or(101, |a| a.parse().expect("a number"));
    println!("microseconds a call: median and least of {repetitions} repetitions, then the ratios of the least");
    let names: Vec<&str> = all_of_them().iter().map(|x| x.name).collect();
    print!("          ");
    names.iter().for_each(|n| print!(" {n:<19}"));
    names[1..].iter().for_each(|n| print!(" {:>9}", format!("to {}", n.trim_start_matches("by "))));
    println!();
    for who in &all {
        compare(who, repetitions);
    }
    for who in &two {
        compare_joins(who, repetitions);
    }
    #[cfg(cudd)]
    {
        let order = cudd::Order::new(&all[0], &all[0].all());
        let times = (0..repetitions).map(|_| {
            let started = Instant::now();
            black_box(cudd::Manager::new(&order));
            started.elapsed().as_nanos() as f64 / 1000.0
        });
        println!("CUDD's manager is made before its cover and not counted: made and freed, least {:.1}", least(&times.collect::<Vec<_>>()));
    }
    growth(&all[1], repetitions);
}
