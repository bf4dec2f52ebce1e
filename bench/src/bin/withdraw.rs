//! What a withdrawal costs, by the nodes of the table: layered answers of about 15,000, 30,000 and 60,000 nodes, made for it, and covers of the benchmark's weeks.
//! Nothing is withdrawn, or some packages are, and all of the table is listed, or a part of it, or nothing; beside it the check of the same table, which is part of
//! every call. The library and the same calls by hand in Rust take turns, each on a fresh copy of the table, which is not timed.
//!
//! `withdraw` prints the table. `withdraw one LAYERS` makes one call of each on a layered answer, nothing withdrawn and the answer listed, for instruction counts.
//!
//! A layered answer has 128 nodes for each of its packages, whose lo and hi are those of the next package, shuffled twice, below a tree of 127 nodes (as in words.rs).

#[path = "../../../tests/rust/src/ffi.rs"]
#[allow(dead_code)]
mod ffi;
#[path = "../hand.rs"]
#[allow(dead_code)]
mod hand;
#[path = "../instances.rs"]
#[allow(dead_code)]
mod instances;

use instances::Instance;
use std::hint::black_box;
use std::time::Instant;

const TURNS: usize = 101;
/// Nodes of a layer, packages of the tree above the layers, packages of the single sets below them.
const WIDE: usize = 128;
const TREE: usize = WIDE.ilog2() as usize;
const ENDS: usize = 16;
/// The layers of the answers made for it.
const DEPTHS: [usize; 3] = [115, 232, 466];
/// The weeks whose covers are taken.
const COVERS: [&str; 3] = ["domino.10.10", "doublefact-17", "queens.12"];

/// A fixed sequence of numbers that look random.
struct Draw(u64);

impl Draw {
    fn below(&mut self, n: usize) -> usize {
        self.0 = self.0.wrapping_mul(6364136223846793005).wrapping_add(1442695040888963407);
        (self.0 >> 33) as usize % n
    }

    fn shuffled(&mut self, numbers: &[u32]) -> Vec<u32> {
        let mut all = numbers.to_vec();
        for i in (1..all.len()).rev() {
            all.swap(i, self.below(i + 1));
        }
        all
    }
}

/// The number of a node that the table has not yet.
fn node(table: &mut Vec<u32>, label: usize, lo: u32, hi: u32) -> u32 {
    table.extend([label as u32, lo, hi]);
    table[0] += 1;
    table[0] + 1
}

/// The layered answer of so many layers is the last number of its table. Package p has the item p / 8, so that precedence is the order of the numbers.
fn layered(depth: usize) -> (Instance, Vec<u32>) {
    let (mut t, mut draw) = (vec![0], Draw(1));
    let packages = TREE + depth + 1 + ENDS;
    let single: Vec<u32> = (packages - ENDS..packages).map(|p| node(&mut t, p, 0, 1)).collect();
    let pairs = (0..WIDE).map(|i| (single[i % ENDS], single[(i % ENDS + i / ENDS) % ENDS]));
    let mut below: Vec<u32> = pairs.map(|(lo, hi)| node(&mut t, packages - ENDS - 1, lo, hi)).collect();
    for label in (TREE..TREE + depth).rev() {
        let (lo, hi) = (draw.shuffled(&below), draw.shuffled(&below));
        below = lo.into_iter().zip(hi).map(|(lo, hi)| node(&mut t, label, lo, hi)).collect();
    }
    for label in (0..TREE).rev() {
        below = below.chunks(2).map(|two| node(&mut t, label, two[0], two[1])).collect();
    }
    let packs = (0..packages).map(|p| [1 << (p / 8), 0, 0]).collect();
    let week = Instance { name: "layered", m: 64, packs, optional: [0; 3], order: (0..64).collect(), count: 0, nodes: t[0] as usize, places: 1 };
    (week, t)
}

/// The table of a week's cover, which is its last number.
fn covered(week: Instance) -> (Instance, Vec<u32>) {
    let mut t = vec![0; 1 + 3 * week.nodes];
    let r = ffi::cover(week.week(), &mut t, &week.all(), u32::MAX, &mut vec![1; 4 * week.places]);
    assert_eq!((r.refusal, r.answer), (0, t[0] + 1));
    t.truncate(1 + 3 * t[0] as usize);
    (week, t)
}

/// One call on a table and a list; the nodes left.
type Call = fn(&Instance, &mut [u32], &[u16], &mut [u32], &mut [u64]) -> u32;

const LIBRARY: Call = |week, t, gone, answers, work| {
    let r = ffi::withdraw(week.week(), t, gone, answers, work);
    assert_eq!(r.refusal, 0);
    r.value as u32
};
const HAND: Call = |week, t, gone, answers, work| hand::hand_withdraw(week.by_hand(), t, gone, answers, work).unwrap();

fn median(x: &mut [f64]) -> f64 {
    x.sort_by(f64::total_cmp);
    x[x.len() / 2]
}

fn microseconds(started: Instant) -> f64 {
    started.elapsed().as_nanos() as f64 / 1000.0
}

/// What is withdrawn and what is listed.
struct Case {
    name: &'static str,
    gone: Vec<u16>,
    answers: Vec<u32>,
}

/// The whole answer, and one about a quarter of the way up the table, which needs no more nodes than that.
fn cases(week: &Instance, t: &[u32]) -> Vec<Case> {
    let (packages, all) = (week.packs.len() as u16, t[0] + 1);
    let eighth: Vec<u16> = (0..packages).filter(|p| p % 8 == 3).collect();
    vec![
        Case { name: "nothing withdrawn", gone: vec![], answers: vec![all] },
        Case { name: "one package", gone: vec![packages / 2], answers: vec![all] },
        Case { name: "every eighth", gone: eighth.clone(), answers: vec![all] },
        Case { name: "nothing, each number listed", gone: vec![], answers: (0..all + 1).collect() },
        Case { name: "every eighth, each number listed", gone: eighth, answers: (0..all + 1).collect() },
        Case { name: "nothing, an early answer listed", gone: vec![], answers: vec![all / 4] },
        Case { name: "nothing, no answer listed", gone: vec![], answers: vec![] },
    ]
}

/// Both give the same table and list; then they are timed in turns, on copies.
fn compare(week: &Instance, t: &[u32], case: &Case) {
    let mut work = vec![1; t[0] as usize + 2];
    let mut run = |call: Call| {
        let (mut table, mut answers) = (t.to_vec(), case.answers.clone());
        let started = Instant::now();
        let left = black_box(call(week, &mut table, &case.gone, &mut answers, &mut work));
        (microseconds(started), left, table, answers)
    };
    let (first, second) = (run(LIBRARY), run(HAND));
    assert!((first.1, &first.2, &first.3) == (second.1, &second.2, &second.3), "{}: the two differ", case.name);
    let mut times = [Vec::new(), Vec::new()];
    for turn in 0..2 * TURNS {
        let who = (turn / 2 + turn) % 2;
        times[who].push(run([LIBRARY, HAND][who]).0);
    }
    let [library, hand] = &mut times;
    let (l, h) = (median(library), median(hand));
    print!("  {:<33} {:>6} {l:>8.1} {:>8.1} {h:>8.1} {:>8.1}", case.name, first.1, library[0], hand[0]);
    println!(" {:>8.2} {:>8.2}", library[0] / hand[0], 1000.0 * library[0] / t[0] as f64);
}

/// The check alone, for comparison.
fn check(week: &Instance, t: &[u32]) {
    let mut times = [Vec::new(), Vec::new()];
    for turn in 0..2 * TURNS {
        let table = t.to_vec();
        let started = Instant::now();
        let who = (turn / 2 + turn) % 2;
        let refusal = if who == 0 { ffi::check(week.week(), &table) } else { hand::hand_check(week.by_hand(), &table) };
        assert_eq!(black_box(refusal), 0);
        times[who].push(microseconds(started));
    }
    let [library, hand] = &mut times;
    let (l, h) = (median(library), median(hand));
    print!("  {:<33} {:>6} {l:>8.1} {:>8.1} {h:>8.1} {:>8.1}", "(check)", "", library[0], hand[0]);
    println!(" {:>8.2} {:>8.2}", library[0] / hand[0], 1000.0 * library[0] / t[0] as f64);
}

/// One call of each, for callgrind: --toggle-collect=mogedorn_withdraw, or hand_withdraw.
fn one(depth: usize) {
    let (week, t) = layered(depth);
    let case = &cases(&week, &t)[0];
    for call in [LIBRARY, HAND] {
        let left = call(&week, &mut t.clone(), &case.gone, &mut case.answers.clone(), &mut vec![1; t[0] as usize + 2]);
        println!("{} nodes, {left} left", t[0]);
    }
}

fn main() {
    let args: Vec<String> = std::env::args().skip(1).collect();
    if args.first().is_some_and(|a| a == "one") {
        return one(args[1].parse().expect("a number of layers"));
    }
    println!(
        "microseconds of a withdrawal: median and least of {TURNS}, by the library and by hand, the ratio of the least, and the library's nanoseconds a node"
    );
    println!("{:<35} {:>6} {:<17} {:<17} {:>8} {:>8}", "", "left", " library", " by hand", "to hand", "ns/node");
    let covers = instances::instances().into_iter().filter(|i| COVERS.contains(&i.name)).map(covered);
    for (week, t) in DEPTHS.into_iter().map(layered).chain(covers) {
        println!("{}: {} nodes, {} packages", week.name, t[0], week.packs.len());
        assert_eq!(ffi::check(week.week(), &t), 0);
        check(&week, &t);
        cases(&week, &t).iter().for_each(|case| compare(&week, &t, case));
    }
}
