//! The week of an accepted bids file, lent to every call with arguments of any kind: of what is lent besides the table only an order can be refused.

use crate::ffi::{self, Week};
use crate::rng::Rng;

/// The refusals of the packages and the optional items.
const NEVER: [u32; 4] = [1, 2, 29, 30];

/// Makes every call once: 34 is said just where the order is not each item once, and 1, 2, 29 and 30 are not. What was said.
pub fn each_call(rng: &mut Rng, plain: Week, costs: &[u16]) -> Vec<u32> {
    let (order, whole) = random_order(rng, plain.order);
    let week = Week { order: &order, ..plain };
    let said = refusals(rng, week, costs);
    let met = |&refusal: &u32| if whole { refusal != 34 && !NEVER.contains(&refusal) } else { refusal == 34 };
    assert!(said.iter().all(met), "{said:?}, {} items in the order {order:?}", week.m);
    said
}

/// The plain order, another one, or one that repeats an item, lacks one or has one more; and whether it has each item once.
fn random_order(rng: &mut Rng, plain: &[u8]) -> (Vec<u8>, bool) {
    let (mut order, m) = (plain.to_vec(), plain.len() as u64);
    match rng.below(12) {
        0 if m > 1 => {
            order[0] = order[m as usize - 1];
            return (order, false);
        }
        1 if m > 0 => {
            order.remove(rng.below(m) as usize);
            return (order, false);
        }
        2 => {
            order.push(rng.next() as u8);
            return (order, false);
        }
        3..=5 => (1..m as usize).for_each(|i| order.swap(i, rng.below(i as u64 + 1) as usize)),
        _ => {}
    }
    (order, true)
}

/// A table of zeros, of no word, of any words, or as a cover of all items left it.
fn random_table(rng: &mut Rng, week: Week) -> Vec<u32> {
    let mut table = vec![0; rng.below(80) as usize];
    match rng.below(4) {
        0 => {}
        1 => table.iter_mut().for_each(|w| *w = rng.below(5) as u32),
        _ => {
            ffi::cover(week, &mut table, &ffi::all_items(week.m), 300, &mut [0; 4 * 31]);
        }
    }
    table
}

/// A number that mostly is small.
fn number(rng: &mut Rng) -> u64 {
    if rng.once_in(8) {
        rng.next()
    } else {
        rng.below(5)
    }
}

fn refusals(rng: &mut Rng, week: Week, costs: &[u16]) -> Vec<u32> {
    let mut t = random_table(rng, week);
    let d = if rng.once_in(2) { ffi::all_items(week.m) } else { [rng.next(), rng.next() & rng.next(), 0].map(|w| if rng.once_in(3) { 0 } else { w }) };
    let mut work = vec![0; if rng.once_in(3) { number(rng) % 9 } else { 60 } as usize];
    let mut page = vec![0; rng.below(6) as usize];
    let list: Vec<u16> = (0..rng.below(4)).map(|_| number(rng) as u16).collect();
    let costs = &costs[..costs.len() - rng.below(2).min(costs.len() as u64) as usize];
    let (a, b, k) = (number(rng) as u32, number(rng) as u32, number(rng));
    let mut said = vec![ffi::check(week, &t), ffi::cover(week, &mut t, &d, number(rng) as u32 % 300, &mut work).refusal];
    said.extend((0..6).map(|op| ffi::combine(op, week, &mut t, a, b, &mut work).refusal));
    said.extend([
        ffi::count(week, &t, a, &mut work).refusal,
        ffi::measure(week, &t, a, k, &mut work).refusal,
        ffi::pick(week, &t, a, k, &mut work, &mut page).refusal,
        ffi::place(week, &t, a, &list, &mut work).refusal,
        ffi::cheapest(week, costs, &t, a, &mut work, &mut page).refusal,
        ffi::closest(week, &t, a, &list, &mut work, &mut page).refusal,
        ffi::withdraw(week, &mut t, &list, &mut [a, b], &mut work).refusal,
    ]);
    said
}
