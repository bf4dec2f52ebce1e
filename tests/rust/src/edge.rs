//! Edges that the random histories reach seldom or never: each M with the items around it, list lengths around a package and around the longest list, Figure 1
//! over the words of a set with the memo's places counted out, 192 items one by one; 2^64 timetables, by two packages for each of 64 items; a timetable of 512
//! packages at the greatest cost; and a table of 65534 nodes, whose last number is the one result that is not remembered. Optional items have
//! theirs in optional.rs, orders in order.rs, joins in join.rs, closest in closest.rs.

use crate::ffi;
use crate::model::{lent, Set, Week, ITEMS};

/// The set of all items, for each M and some more.
pub fn all_items() {
    for m in (0..=200).chain([256, u32::MAX]) {
        assert_eq!(Set(ffi::all_items(m)), Set::of(0..m.min(ITEMS)), "all items below {m}");
    }
}

/// For each M the items M - 1 and M, in a package, in the set to cover and in the optional set.
pub fn each_m() {
    for m in 0..=ITEMS + 1 {
        for i in [m.saturating_sub(1), m].into_iter().filter(|&i| i < ITEMS) {
            let set = Set::of([i]);
            let week = ffi::Week::plain(m, &set.0);
            let refusal = Week::new(m, &[set], Set::NONE, week.order).refusal();
            assert_eq!(ffi::check(week, &[0]), refusal, "item {i} of {m}");
            let got = ffi::cover(ffi::Week::plain(m, &[]), &mut [0], &set.0, 9, &mut [0; 4]);
            assert_eq!(got.refusal, if refusal == 2 { 7 } else { refusal }, "item {i} of {m}");
            let got = ffi::check(ffi::Week { optional: &set.0, ..ffi::Week::plain(m, &[]) }, &[0]);
            assert_eq!(got, if refusal == 2 { 29 } else { refusal }, "optional item {i} of {m}");
        }
    }
}

/// Words that do not make up a package are none: below three, and behind 512 packages.
pub fn list_lengths() {
    for m in [0, 1, 64, 192] {
        let check = |packages: &[u64]| ffi::check(ffi::Week::plain(m, packages), &[0]);
        assert_eq!(check(&[]), 0);
        assert_eq!(check(&[0]), 0);
        assert_eq!(check(&[u64::MAX, u64::MAX]), 0);
        assert_eq!(check(&[0, 0, 0]), 2);
    }
    let long = vec![1; 3 * 514];
    for words in 3 * 511..long.len() {
        assert_eq!(ffi::check(ffi::Week::plain(192, &long[..words]), &[0]), if words / 3 > 512 { 1 } else { 0 }, "{words} words");
    }
}

/// Document 000's Figure 1 on the six items given: its two timetables, the steps for each number of places, and document 01's P5 to P8.
fn figure_one_on(items: [u32; 6], steps: &[(usize, u64)]) {
    let sets = [&[0, 1, 2, 4][..], &[0, 1], &[3, 5], &[2, 3, 5], &[2, 4]].map(|pack| Set::of(pack.iter().map(|&i: &usize| items[i])));
    let (words, d, m) = (lent(&sets), Set::of(items), items[5] + 1);
    let week = ffi::Week::plain(m, &words);
    let model = Week::new(m, &sets, Set::NONE, week.order);
    let call = |nodes: usize, limit: u64, words_lent: usize| {
        let mut table = vec![0; 1 + 3 * nodes];
        (ffi::cover(week, &mut table, &d.0, limit as u32, &mut vec![5; words_lent]), table)
    };
    for &(places, steps) in steps {
        assert_eq!(model.searched(d, places, 1000).1, steps, "the model's steps with {places} places");
        // up to three words more make no place
        for more in 0..4 {
            let (all, table) = call(4, steps, 4 * places + more);
            assert_eq!((all.refusal, all.steps as u64, all.made), (0, steps, 4), "{places} places");
            let mut page = [0; 3];
            assert_eq!(ffi::pick(week, &table, all.answer, 0, &mut [0; 6], &mut page).packages, 2);
            assert_eq!(page[..2], [0, 2]);
            assert_eq!(ffi::pick(week, &table, all.answer, 1, &mut [0; 6], &mut page).packages, 3);
            assert_eq!(page, [1, 4, 2]);
        }
        assert_eq!(call(4, steps - 1, 4 * places).0.refusal, 9);
        assert_eq!(call(3, steps, 4 * places).0.refusal, 10);
    }
    (0..4).for_each(|words_lent| assert_eq!(call(4, 1000, words_lent).0.refusal, 8));
}

pub fn figure_one() {
    figure_one_on([0, 1, 2, 3, 4, 5], &[(4, 7), (64, 6)]);
    figure_one_on([0, 1, 64, 65, 128, 129], &[(3, 7), (4, 7), (5, 6), (7, 6), (64, 7)]);
}

/// A package for each of 192 items: the longest timetable without a shared item, and the deepest search.
pub fn one_by_one() {
    let sets: Vec<Set> = (0..ITEMS).rev().map(|i| Set::of([i])).collect();
    let words = lent(&sets);
    let week = ffi::Week::plain(192, &words);
    let d = Set::of(0..ITEMS);
    let mut table = vec![0; 1 + 3 * 192];
    let mut work = vec![3; 194];
    let mut page = [0; 192];
    let all = ffi::cover(week, &mut table, &d.0, 193, &mut work);
    assert_eq!((all.refusal, all.answer, all.steps, all.made), (0, 193, 193, 192));
    assert_eq!(ffi::count(week, &table, 193, &mut work), ffi::Number { refusal: 0, value: 1 });
    assert_eq!(ffi::pick(week, &table, 193, 0, &mut work, &mut page).packages, 192);
    assert!(page.iter().enumerate().all(|(i, &p)| p as usize == 191 - i));
    assert_eq!(ffi::place(week, &table, 193, &page, &mut work), ffi::Number { refusal: 0, value: 0 });
    assert_eq!(ffi::cover(ffi::Week { m: 191, ..week }, &mut table, &d.0, 193, &mut work).refusal, 2);
    assert_eq!(ffi::cover(ffi::Week { m: 193, ..week }, &mut table, &d.0, 193, &mut work).refusal, 1);
}

/// Two packages for each of 64 items, which are so far apart.
pub fn sixty_four_bits(apart: u32) {
    let m = 63 * apart + 1;
    let sets: Vec<Set> = (0..128).map(|p| Set::of([p / 2 * apart])).collect();
    let d = Set::of((0..64).map(|i| i * apart)).0;
    let sets = lent(&sets);
    let week = ffi::Week::plain(m, &sets);
    let mut table = vec![0; 1 + 3 * 20000];
    let mut work = vec![0; 40004];
    let mut page = vec![0; 64];
    let all = ffi::cover(week, &mut table, &d, 1000, &mut work);
    assert_eq!((all.refusal, all.made), (0, 128));
    let a = all.answer;
    assert_eq!(ffi::count(week, &table, a, &mut work).refusal, 11);
    assert_eq!(ffi::pick(week, &table, a, 0, &mut work, &mut page).refusal, 11);
    assert_eq!(ffi::measure(week, &table, a, 0, &mut work), ffi::Number { refusal: 11, value: 0 });
    // cheapest has no such bound: the odd packages, at 64 times 1
    let costs: Vec<u16> = (0..128).map(|p| 2 - p % 2).collect();
    let least = ffi::cheapest(week, &costs, &table, a, &mut work, &mut page);
    assert_eq!((least.refusal, least.packages, least.cost), (0, 64, 64));
    assert!(page.iter().enumerate().all(|(i, &p)| p as usize == 2 * i + 1));
    assert_eq!(ffi::place(week, &table, a, &page, &mut work).refusal, 11);
    // the last listed timetable alone, and all but it: 2^64 - 1
    let mut last = a;
    for p in 0..64 {
        last = ffi::combine(3, week, &mut table, last, 2 * p + 1, &mut work).answer;
    }
    assert_eq!(ffi::count(week, &table, last, &mut work), ffi::Number { refusal: 0, value: 1 });
    let rest = ffi::combine(2, week, &mut table, a, last, &mut work).answer;
    assert_eq!(ffi::count(week, &table, rest, &mut work), ffi::Number { refusal: 0, value: u64::MAX });
    assert_eq!(ffi::pick(week, &table, rest, u64::MAX, &mut work, &mut page).refusal, 12);
    assert_eq!(ffi::measure(week, &table, rest, u64::MAX, &mut work), ffi::Number { refusal: 12, value: 0 });
    assert_eq!(ffi::measure(week, &table, rest, u64::MAX - 1, &mut work), ffi::Number { refusal: 0, value: 64 });
    assert_eq!(ffi::pick(week, &table, rest, u64::MAX - 1, &mut work, &mut page).refusal, 0);
    assert!(page.iter().enumerate().all(|(i, &p)| p as usize == if i < 63 { 2 * i + 1 } else { 126 }));
    assert_eq!(ffi::place(week, &table, rest, &page, &mut work), ffi::Number { refusal: 0, value: u64::MAX - 1 });
    // union gives the first number back, and the intersection is empty
    assert_eq!(ffi::combine(0, week, &mut table, rest, last, &mut work).answer, a);
    assert_eq!(ffi::combine(1, week, &mut table, rest, last, &mut work).answer, 0);
}

pub fn greatest_cost() {
    let (sets, costs) = (lent(&[Set::of([0]); 512]), vec![65535; 512]);
    let mut table = vec![512];
    (0..512).for_each(|i| table.extend([511 - i, 0, i + 1]));
    let mut work = vec![0; 514];
    let mut page = vec![9; 512];
    // one word too few, then just enough
    let short = ffi::cheapest(ffi::Week::plain(1, &sets), &costs, &table, 513, &mut work[..513], &mut page);
    assert_eq!((short.refusal, page.iter().all(|&p| p == 9)), (8, true));
    let all = ffi::cheapest(ffi::Week::plain(1, &sets), &costs, &table, 513, &mut work, &mut page);
    assert_eq!((all.refusal, all.packages, all.cost), (0, 512, 33553920));
    assert!(page.iter().enumerate().all(|(i, &p)| p as usize == i));
}

pub fn last_number() {
    let sets = lent(&(0..512).map(|p| Set::of([p / 8])).collect::<Vec<Set>>());
    let mut table: Vec<u32> = vec![0];
    for label in (1..512).rev() {
        let known = table.len() as u32 / 3 + 2;
        let pairs = (1..known).flat_map(|hi| (0..known).map(move |lo| (lo, hi))).take(129);
        pairs.for_each(|(lo, hi)| table.extend([label, lo, hi]));
    }
    table.truncate(1 + 3 * 65532);
    // the sets of `rest`, and those of 65532 with package 0 added: the second of these alone, and both
    let (rest, part, whole) = (65533, 65534, 65535);
    table.extend([0, 0, 65532, 0, rest, 65532]);
    table[0] = 65534;
    let mut work = vec![0; 2];
    let mut call = |op: usize, a: u32, b: u32| {
        let r = ffi::combine(op, ffi::Week::plain(64, &sets), &mut table, a, b, &mut work);
        assert_eq!((r.refusal, r.made), (0, 0));
        r.answer
    };
    assert_eq!((call(3, whole, 0), call(4, whole, 0), call(4, part, 0)), (part, rest, 0));
    assert_eq!((call(0, part, rest), call(0, rest, whole), call(1, whole, part), call(1, rest, whole)), (whole, whole, part, rest));
    assert_eq!((call(2, whole, part), call(2, whole, rest), call(2, part, whole)), (rest, part, 0));
}
