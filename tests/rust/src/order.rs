//! The order of the items: document 02's rules one by one, on weeks that can be counted out by hand. Random orders are in calls.rs.

use crate::ffi;
use crate::model::{lent, Set, Week, ITEMS};
use crate::optional::{listing, refusals};

/// Document 000's Figure 1.
fn figure() -> [Set; 5] {
    [&[0, 1, 2, 4][..], &[0, 1], &[3, 5], &[2, 3, 5], &[2, 4]].map(|pack| Set::of(pack.iter().copied()))
}

/// All of it covered in an order, with so many places: the report, and the table.
fn covered(week: ffi::Week, places: usize) -> (ffi::Report, Vec<u32>) {
    let mut table = vec![0; 1 + 3 * 20];
    let all = ffi::cover(week, &mut table, &Set::of(0..6).0, 1000, &mut vec![5; 4 * places]);
    assert_eq!(all.refusal, 0, "{:?}", week.order);
    (all, table)
}

/// Reversed, its two timetables are written 2 0 and 2 4 1; and the places of the memo go by item sets, whatever the order.
pub fn figure_one() {
    let words = lent(&figure());
    let week = |order| ffi::Week { order, ..ffi::Week::plain(6, &words) };
    let reversed = week(&[5, 4, 3, 2, 1, 0]);
    let (all, table) = covered(reversed, 64);
    assert_eq!(listing(reversed, &table, all.answer), [vec![2, 0], vec![2, 4, 1]]);
    let place = |list: &[u16]| ffi::place(reversed, &table, all.answer, list, &mut [0; 40]);
    assert_eq!(place(&[2, 4, 1]), ffi::Number { refusal: 0, value: 1 });
    assert_eq!(place(&[1, 4, 2]).refusal, 6);
    assert_eq!(place(&[2, 4]).refusal, 14);
    let contested = week(&[2, 0, 1, 3, 4, 5]);
    let steps = [64, 7, 4].map(|places| covered(contested, places).0.steps);
    assert_eq!(steps, [7, 8, 8]);
    for (order, steps) in [(&[0, 1, 2, 3, 4, 5], [6, 7]), (&[5, 4, 3, 2, 1, 0], [6, 6])] {
        assert_eq!([64, 4].map(|places| covered(week(order), places).0.steps), steps, "{order:?}");
    }
}

/// The orders of n items.
fn orders(n: u8) -> Vec<Vec<u8>> {
    if n == 0 {
        return vec![Vec::new()];
    }
    let fewer = orders(n - 1);
    let with = |order: &Vec<u8>, at: usize| [&order[..at], &[n - 1], &order[at..]].concat();
    fewer.iter().flat_map(|order| (0..n as usize).map(move |at| with(order, at))).collect()
}

/// Figure 1 in each order of its items: steps by the model, and the listing of the week whose items are renamed to their positions, in the plain order.
pub fn each_order() {
    let sets = figure();
    let words = lent(&sets);
    for order in orders(6) {
        let week = ffi::Week { order: &order, ..ffi::Week::plain(6, &words) };
        let model = Week::new(6, &sets, Set::NONE, &order);
        for places in [1, 4, 7, 64, 1009] {
            assert_eq!(covered(week, places).0.steps as u64, model.searched(Set::of(0..6), places, 1000).1, "{places} places, {order:?}");
        }
        let position = |i: u32| order.iter().position(|&j| j as u32 == i).unwrap() as u32;
        let renamed = lent(&sets.map(|s| Set::of(s.items().map(position))));
        let plain = ffi::Week::plain(6, &renamed);
        let ((a, table), (b, plain_table)) = (covered(week, 64), covered(plain, 64));
        assert_eq!(a.made, b.made, "{order:?}");
        assert_eq!(listing(week, &table, a.answer), listing(plain, &plain_table, b.answer), "{order:?}");
    }
}

/// Packages {0} and {1}: a table of both is sound in the order that it was made in alone, one of either in both orders. Optional items count for nothing.
pub fn another_order() {
    let words = lent(&[Set::of([0, 2]), Set::of([1, 3])]);
    let optional = Set::of([2, 3]).0;
    let week = |order| ffi::Week { order, optional: &optional, ..ffi::Week::plain(4, &words) };
    let (rising, falling) = (week(&[0, 1, 2, 3]), week(&[1, 0, 2, 3]));
    let (public_first, public_turned) = (week(&[3, 2, 0, 1]), week(&[2, 3, 0, 1]));
    for (made, others, written) in [(rising, falling, [0, 1]), (falling, rising, [1, 0])] {
        let mut table = [0; 7];
        let all = ffi::cover(made, &mut table, &[15, 0, 0], 3, &mut [0; 4]);
        assert_eq!((all.refusal, all.answer, all.steps, all.made), (0, 3, 3, 2));
        assert_eq!(listing(made, &table, 3), [written]);
        assert_eq!((ffi::check(made, &table), ffi::check(others, &table)), (0, 4));
        // each call is refused, but cheapest, lent one cost for two packages, by 3
        assert_eq!(refusals(others, &table), [4, 4, 4, 4, 4, 4, 4, 4, 4, 4, 4, 4, 4, 4, 3]);
        let expected = if made.order == rising.order { 0 } else { 4 };
        assert_eq!((ffi::check(public_first, &table), ffi::check(public_turned, &table)), (expected, expected));
    }
    for lone in [[1, 0, 0, 1], [1, 1, 0, 1]] {
        assert_eq!((ffi::check(rising, &lone), ffi::check(falling, &lone)), (0, 0));
    }
}

/// For each M: plain, reversed and turned orders are good; with an item twice, of M or above, short by one, or too long they are not.
pub fn each_m() {
    for m in 0..=ITEMS {
        let check = |order: &[u8]| ffi::check(ffi::Week { order, ..ffi::Week::plain(m, &[]) }, &[0]);
        let plain: Vec<u8> = (0..m as u8).collect();
        assert_eq!(check(&plain), 0, "{m}");
        (m as u8..=255).for_each(|more| assert_eq!(check(&[&plain[..], &[more]].concat()), 34, "{more} behind the items below {m}"));
        (0..m as u8).for_each(|more| assert_eq!(check(&[&plain[..], &[more]].concat()), 34, "{more} twice, of {m}"));
        if m == 0 {
            continue;
        }
        let reversed: Vec<u8> = plain.iter().rev().copied().collect();
        let turned: Vec<u8> = (0..m).map(|i| ((i + m / 2) % m) as u8).collect();
        assert_eq!((check(&reversed), check(&turned)), (0, 0), "{m}");
        assert_eq!((check(&plain[1..]), check(&reversed[1..]), check(&[])), (34, 34, 34), "{m}");
        for at in [0, m as usize / 2, m as usize - 1] {
            let with = |item: u8| {
                let mut order = turned.clone();
                order[at] = item;
                order
            };
            (0..=255).for_each(|item| assert_eq!(check(&with(item)), if item == turned[at] { 0 } else { 34 }, "{item} at {at} of {m}"));
        }
        for long in [193, 255, 256, 257, 512] {
            let order: Vec<u8> = (0..long).map(|i| (i % m) as u8).collect();
            assert_eq!(check(&order), 34, "{long} of {m}");
        }
    }
}

/// Without items only the empty list will do.
pub fn no_items() {
    let week = |order| ffi::Week { order, ..ffi::Week::plain(0, &[]) };
    for order in [&[][..], &[0], &[255], &[0, 0]] {
        let expected = if order.is_empty() { 0 } else { 34 };
        assert_eq!(ffi::check(week(order), &[0]), expected, "{order:?}");
        let all = ffi::cover(week(order), &mut [0], &[0; 3], 1, &mut [0; 4]);
        let answer = if order.is_empty() { 1 } else { 0 };
        assert_eq!(all, ffi::Report { refusal: expected, answer, steps: answer, made: 0 }, "{order:?}");
    }
}

/// 1, 2, 29, 30, 34, 3, 4: what is wrong is put right one after the other, and each call says the next. The list of costs has one cost, the table is not sound.
pub fn refusal_order() {
    let (stray, good) = (lent(&[Set::of([0]), Set::of([64, 65])]), lent(&[Set::of([0]), Set::of([63])]));
    let (beyond, whole, part) = (Set::of([0, 64]).0, Set::of([0]).0, Set::of([1]).0);
    let plain: Vec<u8> = (0..64).collect();
    for bad in [&plain[1..], &[&plain[..], &[64]].concat(), &[&plain[..63], &[0]].concat(), &[&plain[..63], &[64]].concat(), &[]] {
        let refused = |m: u32, packages: &[u64], optional: &[u64; 3]| refusals(ffi::Week { m, packages, optional, order: bad }, &[1, 0, 0, 0]);
        assert_eq!(refused(193, &stray, &beyond), [1; 15]);
        assert_eq!(refused(64, &stray, &beyond), [2; 15]);
        assert_eq!(refused(64, &good, &beyond), [29; 15]);
        assert_eq!(refused(64, &good, &whole), [30; 15]);
        assert_eq!(refused(64, &good, &part), [34; 15]);
    }
    let reversed: Vec<u8> = plain.iter().rev().copied().collect();
    for order in [&plain, &reversed] {
        let refused = refusals(ffi::Week { m: 64, packages: &good, optional: &part, order }, &[1, 0, 0, 0]);
        assert_eq!(refused, [4, 4, 4, 4, 4, 4, 4, 4, 4, 4, 4, 4, 4, 4, 3]);
    }
}

/// A package for each of 192 items, in the reversed order: the deepest search, and the timetable falls.
pub fn one_by_one() {
    let words = lent(&(0..ITEMS).map(|i| Set::of([i])).collect::<Vec<Set>>());
    let order: Vec<u8> = (0..192).rev().collect();
    let week = ffi::Week { order: &order, ..ffi::Week::plain(ITEMS, &words) };
    let (mut table, mut work) = (vec![0; 1 + 3 * 192], vec![3; 194]);
    let all = ffi::cover(week, &mut table, &Set::of(0..ITEMS).0, 193, &mut work);
    assert_eq!((all.refusal, all.answer, all.steps, all.made), (0, 193, 193, 192));
    let falling: Vec<u16> = (0..192).rev().collect();
    assert_eq!(listing(week, &table, 193), [falling.clone()]);
    assert_eq!(ffi::place(week, &table, 193, &falling, &mut work), ffi::Number { refusal: 0, value: 0 });
    assert_eq!(ffi::check(ffi::Week::plain(ITEMS, &words), &table), 4);
}
