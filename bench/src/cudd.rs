//! CUDD's ZDDs, through cudd.c; the items are in the plain order.

use crate::instances::{items, Instance};
use std::collections::HashMap;
use std::ffi::c_void;

pub type Node = *mut c_void;

extern "C" {
    fn shim_new(vars: i32) -> Node;
    fn shim_free(dd: Node);
    fn shim_cover(
        dd: Node,
        sets: *const u64,
        optional: u64,
        first: *const i32,
        after: *const i32,
        d: u64,
        keys: *mut u64,
        values: *mut Node,
        places: usize,
        steps: *mut u64,
    ) -> Node;
    fn shim_pair(dd: Node, op: i32, a: Node, b: Node) -> Node;
    fn shim_join(dd: Node, a: Node, b: Node) -> Node;
    fn shim_with(dd: Node, a: Node, v: i32) -> Node;
    fn shim_without(dd: Node, a: Node, v: i32) -> Node;
    fn shim_node(a: Node, lo: *mut Node, hi: *mut Node) -> i32;
    fn shim_zero(dd: Node) -> Node;
}

/// The packages in precedence, with the order of trial for a set to cover, whose items are numbered anew as they rise; and where a package stands.
pub struct Order {
    sets: Vec<u64>,
    optional: u64,
    first: [i32; 64],
    after: Vec<i32>,
    place: Vec<i32>,
    /// The set to cover.
    d: u64,
}

impl Order {
    /// Of a week in the plain order, and of at most 64 of its items.
    pub fn new(week: &Instance, covered: &[u64; 3]) -> Order {
        assert!(week.plain());
        let known: Vec<usize> = items(covered).collect();
        let number = |i: usize| known.binary_search(&i).ok();
        let set = |words: &[u64; 3]| items(words).filter_map(number).fold(0, |s, j| s | 1u64.checked_shl(j as u32).expect("at most 64 items"));
        let compulsory = |p: usize| [0, 1, 2].map(|j| week.packs[p][j] & !week.optional[j]);
        let lowest = |p: usize| items(&compulsory(p)).next().unwrap();
        let mut order: Vec<usize> = (0..week.packs.len()).collect();
        order.sort_by_key(|&p| (lowest(p), p));
        let sets: Vec<u64> = order.iter().map(|&p| set(&week.packs[p])).collect();
        let mut place = vec![0; sets.len()];
        let (mut first, mut after) = ([-1; 64], vec![-1; sets.len()]);
        for (v, &p) in order.iter().enumerate() {
            place[p] = v as i32;
            if let Some(low) = number(lowest(p)) {
                after[v] = first[low];
                first[low] = v as i32;
            }
        }
        Order { sets, optional: set(&week.optional), first, after, place, d: set(covered) }
    }
}

pub struct Manager<'a> {
    dd: Node,
    order: &'a Order,
}

impl Manager<'_> {
    pub fn new(order: &Order) -> Manager<'_> {
        Manager { dd: unsafe { shim_new(order.sets.len() as i32) }, order }
    }

    pub fn cover(&self, keys: &mut [u64], values: &mut [Node]) -> (Node, u64) {
        self.cover_by(self.order, keys, values)
    }

    /// By an order of the same packages.
    pub fn cover_by(&self, o: &Order, keys: &mut [u64], values: &mut [Node]) -> (Node, u64) {
        let mut steps = 0;
        let (sets, first, after, places) = (o.sets.as_ptr(), o.first.as_ptr(), o.after.as_ptr(), keys.len());
        let f = unsafe { shim_cover(self.dd, sets, o.optional, first, after, o.d, keys.as_mut_ptr(), values.as_mut_ptr(), places, &mut steps) };
        (f, steps)
    }

    pub fn join(&self, a: Node, b: Node) -> Node {
        unsafe { shim_join(self.dd, a, b) }
    }

    /// The nodes of a set, and how many members it has.
    pub fn size(&self, a: Node) -> (usize, u64) {
        let mut counts = HashMap::new();
        let count = self.count(a, &mut counts);
        (counts.len(), count)
    }

    fn count(&self, a: Node, counts: &mut HashMap<Node, u64>) -> u64 {
        let (mut lo, mut hi) = (a, a);
        if unsafe { shim_node(a, &mut lo, &mut hi) } == 0 {
            return (a != self.zero()) as u64;
        }
        if let Some(&n) = counts.get(&a) {
            return n;
        }
        let n = self.count(lo, counts) + self.count(hi, counts);
        counts.insert(a, n);
        n
    }

    pub fn combine(&self, op: usize, a: Node, b: Node, p: usize) -> Node {
        let v = self.order.place[p];
        unsafe {
            match op {
                3 => shim_with(self.dd, a, v),
                4 => shim_without(self.dd, a, v),
                _ => shim_pair(self.dd, op as i32, a, b),
            }
        }
    }

    pub fn zero(&self) -> Node {
        unsafe { shim_zero(self.dd) }
    }
}

impl Drop for Manager<'_> {
    fn drop(&mut self) {
        unsafe { shim_free(self.dd) }
    }
}
