//! Join: document 02's rules one by one, on weeks that can be counted out by hand. Random joins are in calls.rs.

use crate::ffi;
use crate::model::{lent, Set, Week, ITEMS};
use crate::optional::listing;

/// A call that answers: the answer, and the nodes made.
fn made(r: ffi::Report) -> (u32, u32) {
    assert_eq!((r.refusal, r.steps), (0, 0));
    (r.answer, r.made)
}

fn covered(week: ffi::Week, table: &mut [u32], d: Set) -> u32 {
    let r = ffi::cover(week, table, &d.0, 1000, &mut [5; 4 * 64]);
    assert_eq!(r.refusal, 0);
    r.answer
}

/// Document 000's Figure 1 at each of two pools, whose items are given: their join is the cover of both, whichever comes first, and has 2 × 2 timetables. Just the
/// working words and the room that it needs are lent, and then one less.
fn two_pools_on(pools: [[u32; 6]; 2], order: &[u8]) {
    let figure = [&[0, 1, 2, 4][..], &[0, 1], &[3, 5], &[2, 3, 5], &[2, 4]];
    let sets: Vec<Set> = pools.iter().flat_map(|items| figure.map(|pack| Set::of(pack.iter().map(|&i: &usize| items[i])))).collect();
    let (words, m) = (lent(&sets), order.len() as u32);
    let week = ffi::Week { order, ..ffi::Week::plain(m, &words) };
    let model = Week::new(m, &sets, Set::NONE, order);
    let [d, e] = pools.map(Set::of);
    let expected = model.covering(d).join(&model.covering(e));
    assert_eq!((&expected, expected.len()), (&model.covering(d.or(e)), 4), "the model: the join is the cover of both");
    let mut table = vec![0; 1 + 3 * 40];
    let (a, b) = (covered(week, &mut table, d), covered(week, &mut table, e));
    let halves = table.clone();
    let most = a.max(b) as usize;
    let (both, new) = made(ffi::join(week, &mut table, a, b, &mut vec![7; most + 1]));
    let all: Vec<Vec<u16>> = model.listing(&expected).into_iter().map(|t| model.written(t)).collect();
    assert_eq!(listing(week, &table, both), all);
    assert_eq!(new as u64, model.missing(&model.families(&halves), &expected));
    assert_eq!((table[0], ffi::check(week, &table)), (halves[0] + new, 0));
    // no node more for the other way round, nor for the cover
    assert_eq!(made(ffi::join(week, &mut table, b, a, &mut vec![7; most + 1])), (both, 0));
    assert_eq!((covered(week, &mut table, d.or(e)), table[0]), (both, halves[0] + new));
    assert_eq!(ffi::join(week, &mut table, a, b, &mut vec![7; most]).refusal, 8);
    for (room, refusal) in [(new, 0), (new - 1, 10), (0, 10)] {
        let mut short = halves[..1 + 3 * (halves[0] + room) as usize].to_vec();
        let before = short.clone();
        let got = ffi::join(week, &mut short, a, b, &mut vec![7; most + 1]);
        assert_eq!((got.refusal, got.made), (refusal, if refusal == 0 { new } else { 0 }));
        assert!(refusal == 0 || short == before, "refused, and the table changed");
    }
}

pub fn two_pools() {
    let plain: Vec<u8> = (0..192).collect();
    let reversed: Vec<u8> = (0..12).rev().collect();
    let behind = [[0, 1, 2, 3, 4, 5], [6, 7, 8, 9, 10, 11]];
    let in_turns = [[0, 2, 4, 6, 8, 10], [1, 3, 5, 7, 9, 11]];
    for pools in [behind, in_turns, [[3, 0, 11, 5, 1, 8], [2, 7, 10, 4, 9, 6]]] {
        two_pools_on(pools, &plain[..12]);
        two_pools_on(pools, &reversed);
        two_pools_on(pools, &[7, 0, 3, 11, 9, 2, 1, 10, 4, 8, 5, 6]);
    }
    two_pools_on([[0, 63, 64, 127, 128, 191], [1, 62, 65, 126, 129, 190]], &plain);
}

/// Joined with 1 an answer is itself, with 0 it is 0; and the two with each other. No node is made, none is below them, and two words are enough for them.
pub fn zero_and_one() {
    let words = lent(&[Set::of([0]), Set::of([0]), Set::of([1])]);
    let week = ffi::Week::plain(2, &words);
    let mut table = vec![0; 1 + 3 * 5];
    let all = covered(week, &mut table, Set::of([0, 1]));
    for (a, b, answer) in [(all, 1, all), (1, all, all), (all, 0, 0), (0, all, 0), (0, 0, 0), (0, 1, 0), (1, 0, 0), (1, 1, 1)] {
        let most = a.max(b).max(1) as usize;
        assert_eq!(made(ffi::join(week, &mut table, a, b, &mut vec![7; most + 1])), (answer, 0), "join of {a} and {b}");
        assert_eq!(ffi::join(week, &mut table, a, b, &mut vec![7; most]).refusal, 8, "join of {a} and {b}");
    }
}

/// Packages {0}, {1, 4}, {2, 4}, {3}, item 4 optional. Refused are two answers with 1 and 2 on their nodes, be it below others; but not where a package that
/// shares an item is on no node of the two, nor where its nodes are in the table and below neither.
pub fn overlap() {
    let sets = [Set::of([0]), Set::of([1, 4]), Set::of([2, 4]), Set::of([3])];
    let (words, optional) = (lent(&sets), Set::of([4]).0);
    let week = ffi::Week { optional: &optional, ..ffi::Week::plain(5, &words) };
    let mut table = vec![0; 1 + 3 * 30];
    let single = [0, 1, 2, 3].map(|p: usize| covered(week, &mut table, sets[p]));
    let mut join = |a: u32, b: u32, words: usize| ffi::join(week, &mut table, a, b, &mut vec![7; words]);
    let (early, late) = (made(join(single[0], single[1], 30)).0, made(join(single[2], single[3], 30)).0);
    // 1 and 2 stand on the two own nodes, below the first, on the second
    for (a, b) in [(single[1], single[2]), (early, single[2]), (single[1], late), (early, late), (early, early), (single[0], early), (early, single[1])] {
        for words in [0, 1, a.max(b) as usize, a.max(b) as usize + 1] {
            assert_eq!([join(a, b, words).refusal, join(b, a, words).refusal], [35, 35], "join of {a} and {b}, {words} words");
        }
    }
    for (a, b) in [(early, single[3]), (single[0], late), (single[0], single[3])] {
        assert_eq!(join(a, b, 30).refusal, 0, "join of {a} and {b}");
    }
}

/// 5, 35, 8, 10: what is wrong is put right one after the other. What stands before them each call says, see order.rs.
pub fn refusal_order() {
    let words = lent(&[Set::of([0, 1]), Set::of([1]), Set::of([2])]);
    let week = ffi::Week::plain(3, &words);
    let mut table = vec![3, 0, 0, 1, 1, 0, 1, 2, 0, 1];
    let mut join = |a, b, words: usize| ffi::join(week, &mut table, a, b, &mut vec![7; words]).refusal;
    assert_eq!([join(5, 2, 0), join(2, 5, 0), join(5, 5, 0), join(u32::MAX, 0, 0), join(0, u32::MAX, 0)], [5; 5]);
    assert_eq!([join(2, 3, 0), join(3, 2, 0), join(2, 2, 0), join(4, 4, 9)], [35; 4]);
    assert_eq!([join(2, 4, 4), join(4, 2, 0), join(3, 4, 1)], [8; 3]);
    assert_eq!([join(2, 4, 5), join(4, 2, 5), join(3, 4, 9)], [10; 3]);
}

/// Two packages for each of 64 items, in halves of 32: 2^32 timetables each, 2^64 joined, which is one too many to count; with one item less 2^63.
pub fn sixty_four_bits() {
    let words = lent(&(0..128).map(|p| Set::of([p / 2])).collect::<Vec<Set>>());
    let week = ffi::Week::plain(64, &words);
    let (mut table, mut work, mut page) = (vec![0; 1 + 3 * 500], vec![0; 502], [0; 64]);
    let even = covered(week, &mut table, Set::of((0..32).map(|i| 2 * i)));
    let odd = covered(week, &mut table, Set::of((0..32).map(|i| 2 * i + 1)));
    let less = covered(week, &mut table, Set::of((0..31).map(|i| 2 * i + 1)));
    let count = |table: &[u32], a, work: &mut [u64]| ffi::count(week, table, a, work);
    assert_eq!(count(&table, even, &mut work), ffi::Number { refusal: 0, value: 1 << 32 });
    let (part, _) = made(ffi::join(week, &mut table, even, less, &mut work));
    assert_eq!(count(&table, part, &mut work), ffi::Number { refusal: 0, value: 1 << 63 });
    let (all, new) = made(ffi::join(week, &mut table, odd, even, &mut work));
    // the nodes of the last item are those of the odd half
    assert_eq!(new, 126);
    assert_eq!(count(&table, all, &mut work).refusal, 11);
    assert_eq!(ffi::measure(week, &table, all, 0, &mut work).refusal, 11);
    assert_eq!(ffi::pick(week, &table, all, 0, &mut work, &mut page).refusal, 11);
    let costs: Vec<u16> = (0..128).map(|p| 2 - p % 2).collect();
    let least = ffi::cheapest(week, &costs, &table, all, &mut work, &mut page);
    assert_eq!((least.refusal, least.packages, least.cost), (0, 64, 64));
    assert!(page.iter().enumerate().all(|(i, &p)| p as usize == 2 * i + 1));
    assert_eq!(ffi::place(week, &table, all, &page, &mut work).refusal, 11);
}

/// 512 packages on 192 items: the timetable of all at even places of the order, and every set of those at odd places. Their join is on one path of all packages,
/// and its cheapest has the even ones alone.
pub fn deepest() {
    let place = |p: u32| p * 191 / 511;
    let order: Vec<u8> = (0..192).rev().collect();
    let words = lent(&(0..512).map(|p| Set::of([order[place(p) as usize] as u32])).collect::<Vec<Set>>());
    let week = ffi::Week { order: &order, ..ffi::Week::plain(ITEMS, &words) };
    let mut table = vec![0];
    let (mut even, mut odd) = (1, 1);
    for p in (0..512).rev() {
        let child = if place(p) % 2 == 0 { &mut even } else { &mut odd };
        table.extend([p, if place(p) % 2 == 0 { 0 } else { *child }, *child]);
        table[0] += 1;
        *child = table[0] + 1;
    }
    table.resize(1 + 3 * 1200, 0);
    let mut work = vec![3; 1202];
    // the last package, an odd one, is below it already
    let (all, new) = made(ffi::join(week, &mut table, even, odd, &mut work[..514]));
    assert_eq!(new, 511);
    assert_eq!(made(ffi::join(week, &mut table, odd, even, &mut work)), (all, 0));
    assert_eq!(ffi::count(week, &table, all, &mut work).refusal, 11);
    let mut page = [0; 512];
    let least = ffi::cheapest(week, &[1; 512], &table, all, &mut work, &mut page);
    let expected: Vec<u16> = (0..512).filter(|&p| place(p as u32) % 2 == 0).collect();
    assert_eq!((least.refusal, &page[..least.packages as usize]), (0, &expected[..]));
}

/// A table of 65534 nodes, and one with room for just the last: the join of package 0 alone with an answer on other items is the last number.
pub fn last_number() {
    let sets = lent(&(0..512).map(|p| Set::of([p / 8])).collect::<Vec<Set>>());
    let week = ffi::Week::plain(64, &sets);
    let mut table: Vec<u32> = vec![0];
    for label in (8..512).rev() {
        let known = table.len() as u32 / 3 + 2;
        let pairs = (1..known).flat_map(|hi| (0..known).map(move |lo| (lo, hi))).take(132);
        pairs.for_each(|(lo, hi)| table.extend([label, lo, hi]));
    }
    table.truncate(1 + 3 * 65532);
    let (rest, single, last) = (65533, 65534, 65535);
    table.extend([0, 0, 1]);
    table[0] = 65533;
    table.resize(1 + 3 * 65540, 0);
    let mut work = vec![0; 65536];
    assert_eq!(ffi::join(week, &mut table[..1 + 3 * 65533], single, rest, &mut work).refusal, 10);
    assert_eq!(ffi::join(week, &mut table, single, rest, &mut work[..65534]).refusal, 8);
    assert_eq!(made(ffi::join(week, &mut table, rest, single, &mut work[..65535])), (last, 1));
    assert_eq!(made(ffi::join(week, &mut table, single, rest, &mut work)), (last, 0));
    assert_eq!(made(ffi::join(week, &mut table, last, 1, &mut work)), (last, 0));
    assert_eq!(ffi::join(week, &mut table, last, 1, &mut work[..65535]).refusal, 8);
    assert_eq!(ffi::join(week, &mut table, last, single, &mut work).refusal, 35);
    // no place is left, however long the table is
    assert_eq!(ffi::join(week, &mut table, single, rest - 1, &mut work).refusal, 10);
}
