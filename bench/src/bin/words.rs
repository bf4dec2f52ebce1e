//! How many working words either, both, only and join want: `both` of two answers made to meet in as many pairs of nodes as they can, by their nodes and the
//! words lent, and `join` of such on separate items. Weeks of a desk are not like these; the tables show where the words that are lent decide.
//!
//! An answer is layered: for each of so many packages 128 nodes, whose lo and hi are those of the next package, shuffled twice, below a tree of 127 nodes.
//! The two answers have the same packages and no node in common, so that all 128 × 128 pairs of each layer meet. Given is the slowest of three such pairs.
//! Each call runs in a process of its own, which is ended after a while.
//!
//! For join the packages are in turns those of one answer and of the other, and there are fewer nodes in a layer: each pair that meets is a node of the join, so
//! that no more than the table has room for do.
//!
//! `words [SECONDS]` prints the tables. `words one DEPTH WORDS DRAW` makes one call of `both` and prints its seconds.

#[path = "../../../tests/rust/src/ffi.rs"]
#[allow(dead_code)]
mod ffi;

use std::io::Read;
use std::process::{Command, Stdio};
use std::time::{Duration, Instant};

/// Nodes of a layer, packages of the tree above the layers, packages of the single sets below them.
const WIDE: usize = 128;
const TREE: usize = WIDE.ilog2() as usize;
const ENDS: usize = 16;
/// Of join: nodes of a layer, and the layers of each answer.
const SHAPES: [(usize, usize); 3] = [(8, 220), (16, 110), (32, 26)];

/// The first numbers of the draws.
const DRAWS: [u64; 3] = [1, 2, 3];
const DEPTHS: [usize; 7] = [16, 24, 32, 56, 112, 168, 224];
const WORDS: [usize; 5] = [2, 1 << 17, 1 << 18, 1 << 20, 1 << 22];

/// Of join; the first are no more than answers of so few nodes need.
const JOIN_WORDS: [usize; 5] = [6000, 1 << 17, 1 << 18, 1 << 20, 1 << 22];

/// A fixed sequence of numbers that look random.
struct Draw(u64);

impl Draw {
    fn below(&mut self, n: usize) -> usize {
        self.0 = self.0.wrapping_mul(6364136223846793005).wrapping_add(1442695040888963407);
        (self.0 >> 33) as usize % n
    }

    fn shuffled(&mut self, numbers: &[u32]) -> Vec<u32> {
        let mut all = numbers.to_vec();
        for i in (1..all.len()).rev() {
            all.swap(i, self.below(i + 1));
        }
        all
    }
}

struct Layers {
    table: Vec<u32>,
    draw: Draw,
}

impl Layers {
    /// The number of a node that the table has not yet.
    fn node(&mut self, label: usize, lo: u32, hi: u32) -> u32 {
        self.table.extend([label as u32, lo, hi]);
        self.table[0] += 1;
        self.table[0] + 1
    }

    /// The nodes of one package over those of the next.
    fn layer(&mut self, label: usize, below: &[u32]) -> Vec<u32> {
        let (lo, hi) = (self.draw.shuffled(below), self.draw.shuffled(below));
        lo.into_iter().zip(hi).map(|(lo, hi)| self.node(label, lo, hi)).collect()
    }

    /// An answer on these packages, which ascend: a tree, layers of so many nodes, and sets of one or two of the last.
    fn answer(&mut self, wide: usize, packages: &[usize]) -> u32 {
        let (above, end) = packages.split_at(packages.len() - 1 - ENDS);
        let (tree, layers) = above.split_at(wide.ilog2() as usize);
        let single: Vec<u32> = end[1..].iter().map(|&p| self.node(p, 0, 1)).collect();
        let pairs = (0..wide).map(|i| (single[i % ENDS], single[(i % ENDS + i / ENDS) % ENDS]));
        let mut below: Vec<u32> = pairs.map(|(lo, hi)| self.node(end[0], lo, hi)).collect();
        for &label in layers.iter().rev() {
            below = self.layer(label, &below);
        }
        for &label in tree.iter().rev() {
            below = below.chunks(2).map(|two| self.node(label, two[0], two[1])).collect();
        }
        below[0]
    }
}

/// The seconds of one call, and the nodes of the two answers together.
fn one(depth: usize, words: usize, draw: u64) -> (f64, u32) {
    let (last, ends) = (TREE + depth, 1 + ENDS);
    let packages: Vec<u64> = (0..last + 2 * ends).flat_map(|p| [1 << (p / 8), 0, 0]).collect();
    let mut layers = Layers { table: vec![0], draw: Draw(draw) };
    let [a, b] = [last, last + ends].map(|end| layers.answer(WIDE, &(0..last).chain(end..end + ends).collect::<Vec<_>>()));
    let nodes = layers.table[0];
    let mut work = vec![1; words];
    let started = Instant::now();
    let r = ffi::combine(1, ffi::Week::plain(64, &packages), &mut layers.table, a, b, &mut work);
    assert_eq!((r.refusal, r.answer), (0, 0), "the two answers share no timetable");
    (started.elapsed().as_secs_f64(), nodes)
}

/// The seconds of a join, the nodes of the two answers together, and those that are made.
fn one_join((wide, depth): (usize, usize), words: usize, draw: u64) -> (f64, u32, u32) {
    let most = 2 * (wide.ilog2() as usize + depth + 1 + ENDS);
    // package p has an item of the answer 0 or 1 that p is, in turns
    let item = |p: usize| 2 * (p / 6) + p % 2;
    let mut packages = vec![0; 3 * most];
    (0..most).for_each(|p| packages[3 * p + item(p) / 64] = 1 << (item(p) % 64));
    let mut layers = Layers { table: vec![0], draw: Draw(draw) };
    let [a, b] = [0, 1].map(|turn| layers.answer(wide, &(turn..most).step_by(2).collect::<Vec<_>>()));
    let nodes = layers.table[0];
    layers.table.resize(1 + 3 * 65534, 0);
    let mut work = vec![1; words];
    let started = Instant::now();
    let r = ffi::join(ffi::Week::plain(192, &packages), &mut layers.table, a, b, &mut work);
    assert_eq!(r.refusal, 0);
    (started.elapsed().as_secs_f64(), nodes, r.made)
}

/// The seconds of one call, by a process of its own; none where it takes longer than the seconds given.
fn timed(depth: usize, words: usize, draw: u64, seconds: f64) -> Option<f64> {
    let mut child = Command::new(std::env::current_exe().unwrap())
        .args(["one", &depth.to_string(), &words.to_string(), &draw.to_string()])
        .stdout(Stdio::piped())
        .spawn()
        .unwrap();
    let started = Instant::now();
    while child.try_wait().unwrap().is_none() {
        if started.elapsed().as_secs_f64() > seconds {
            child.kill().unwrap();
            child.wait().unwrap();
            return None;
        }
        std::thread::sleep(Duration::from_millis(2));
    }
    let mut said = String::new();
    child.stdout.unwrap().read_to_string(&mut said).unwrap();
    said.parse().ok()
}

fn main() {
    let args: Vec<String> = std::env::args().skip(1).collect();
    if args.first().is_some_and(|a| a == "one") {
        print!("{}", one(args[1].parse().unwrap(), args[2].parse().unwrap(), args[3].parse().unwrap()).0);
        return;
    }
    let seconds = args.first().map_or(5.0, |a| a.parse().expect("a number"));
    println!("seconds of `both`, by the nodes of the two answers together and the working words; -: over {seconds} s");
    print!("{:>8} {:>10}", "nodes", "pairs");
    WORDS.iter().for_each(|w| print!(" {w:>9}"));
    println!();
    for depth in DEPTHS {
        let nodes = one(depth, 1 << 23, 1).1;
        print!("{nodes:>8} {:>10}", WIDE * WIDE * depth);
        for words in WORDS {
            // none where one of them takes too long
            let slowest = DRAWS.iter().try_fold(0.0, |most: f64, &draw| Some(most.max(timed(depth, words, draw, seconds)?)));
            print!(" {:>9}", slowest.map_or("-".to_string(), |s| format!("{s:.3}")));
        }
        println!();
    }
    println!("seconds of `join`, by the nodes of the two answers together, the nodes made and the working words");
    print!("{:>8} {:>10}", "nodes", "made");
    JOIN_WORDS.iter().for_each(|w| print!(" {w:>9}"));
    println!();
    for shape in SHAPES {
        let (_, nodes, made) = one_join(shape, JOIN_WORDS[0], 1);
        print!("{nodes:>8} {made:>10}");
        for words in JOIN_WORDS {
            let slowest = DRAWS.iter().map(|&draw| one_join(shape, words, draw).0).fold(0.0, f64::max);
            print!(" {slowest:>9.4}");
        }
        println!();
    }
}
