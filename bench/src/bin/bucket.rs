//! What a table costs that is made on purpose so that all its nodes share one bucket of the node index: the soundness check, and a withdrawal of nothing with each
//! number listed, which fills the bucket anew, by the nodes.

#[path = "../../../tests/rust/src/ffi.rs"]
#[allow(dead_code)]
mod ffi;
#[path = "../hand.rs"]
#[allow(dead_code)]
mod hand;

use hand::hash;
use std::time::Instant;

/// A sound table of at most so many nodes, 192 for each package, whose lo and hi are numbers of later packages. All but those of the last four packages,
/// which the others need to choose from, are in bucket 0.
fn table(nodes: usize) -> Vec<u32> {
    let mut t = vec![0];
    for label in (0..512).rev() {
        let known = t.len() as u32 / 3 + 2;
        let pairs = (0..known).flat_map(|lo| (1..known).map(move |hi| (lo, hi)));
        let chosen: Vec<_> = pairs.filter(|&(lo, hi)| label >= 508 || hash(label, lo, hi) == 0).take(192).collect();
        chosen.iter().for_each(|&(lo, hi)| t.extend([label, lo, hi]));
    }
    t.truncate(1 + 3 * nodes);
    t[0] = t.len() as u32 / 3;
    t
}

fn main() {
    // package p has item p / 8, so that precedence is the order of the numbers
    let packages: Vec<u64> = (0..512).flat_map(|p| [1 << (p / 8), 0, 0]).collect();
    let whole = table(65534);
    let shared = (0..whole[0] as usize).filter(|i| hash(whole[1 + 3 * i], whole[2 + 3 * i], whole[3 + 3 * i]) == 0).count();
    println!("{} nodes, {shared} of them in one bucket", whole[0]);
    for nodes in [4096, 8192, 16384, 32768, whole[0] as usize] {
        let mut t = whole[..1 + 3 * nodes].to_vec();
        t[0] = nodes as u32;
        let week = ffi::Week::plain(64, &packages);
        let started = Instant::now();
        assert_eq!(ffi::check(week, &t), 0);
        let check = started.elapsed().as_secs_f64();
        let mut all: Vec<u32> = (0..nodes as u32 + 2).collect();
        let started = Instant::now();
        assert_eq!(ffi::withdraw(week, &mut t, &[], &mut all, &mut vec![0; nodes + 2]), ffi::Number { refusal: 0, value: nodes as u64 });
        println!("{nodes:>6} nodes: check {check:>7.3} s, withdraw {:>7.3} s", started.elapsed().as_secs_f64());
    }
}
