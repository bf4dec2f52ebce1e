//! Closest: document 02's rules one by one, on weeks that can be counted out by hand. Random ones are in calls.rs.

use crate::ffi;
use crate::model::{lent, Set, Week};

/// What is written, and the difference; working words and page are just as long as needed.
fn closest(week: ffi::Week, table: &[u32], a: u32, list: &[u16]) -> (Vec<u16>, u32) {
    let (mut work, mut page) = (vec![7; a as usize + 1], vec![9999; 512]);
    let got = ffi::closest(week, table, a, list, &mut work, &mut page);
    assert_eq!(got.refusal, 0, "closest to {list:?} of {a}");
    let (written, rest) = page.split_at(got.packages as usize);
    assert!(rest.iter().all(|&p| p == 9999), "the rest of the page");
    let mut just = vec![9999; written.len()];
    assert_eq!((ffi::closest(week, table, a, list, &mut work, &mut just), &just[..]), (got, written));
    (written.to_vec(), got.difference)
}

/// Only the refusal; the page stays as it is.
fn refused(week: ffi::Week, table: &[u32], a: u32, list: &[u16], words: usize, places: usize) -> u32 {
    let mut page = vec![9999; places];
    let got = ffi::closest(week, table, a, list, &mut vec![7; words], &mut page);
    assert_eq!((got.difference, got.packages), (0, 0));
    assert!(page.iter().all(|&p| p == 9999), "refused, and the page changed");
    got.refusal
}

/// Lists of at most so many numbers below n.
fn lists(n: u16, most: usize) -> Vec<Vec<u16>> {
    let mut all = vec![Vec::new()];
    let mut last = 0;
    for _ in 0..most {
        let longer: Vec<Vec<u16>> = all[last..].iter().flat_map(|l: &Vec<u16>| (0..n).map(|p| [&l[..], &[p]].concat())).collect();
        last = all.len();
        all.extend(longer);
    }
    all
}

/// Document 000's Figure 1, its two timetables 0 2 and 1 4 2: in two orders every list of at most five numbers up to 5, which is one too great, and each answer
/// of the table.
pub fn figure_one() {
    let sets = [&[0, 1, 2, 4][..], &[0, 1], &[3, 5], &[2, 3, 5], &[2, 4]].map(|pack| Set::of(pack.iter().copied()));
    let words = lent(&sets);
    let covered = |week: ffi::Week| {
        let mut table = vec![0; 1 + 3 * 4];
        assert_eq!(ffi::cover(week, &mut table, &Set::of(0..6).0, 100, &mut [5; 256]).answer, 5);
        table
    };
    let plain = ffi::Week::plain(6, &words);
    let table = covered(plain);
    assert_eq!(closest(plain, &table, 5, &[]), (vec![0, 2], 2));
    assert_eq!(closest(plain, &table, 5, &[1, 4]), (vec![1, 4, 2], 1));
    assert_eq!(closest(plain, &table, 5, &[0, 1, 3, 4, 2]), (vec![1, 4, 2], 2));
    for week in [plain, ffi::Week { order: &[5, 4, 3, 2, 1, 0], ..plain }] {
        let (table, model) = (covered(week), Week::new(6, &sets, Set::NONE, week.order));
        let families = model.families(&table);
        for list in lists(6, 5) {
            if !model.in_precedence(&list) {
                assert_eq!(refused(week, &table, 5, &list, 6, 3), 6, "{list:?}");
                continue;
            }
            let mask = list.iter().fold(0, |t, &p| t | 1 << p);
            for a in 1..6 {
                let t = model.closest(&families[a], mask).unwrap();
                assert_eq!(closest(week, &table, a as u32, &list), (model.written(t), model.difference(mask, t)), "{list:?} of {a}");
            }
        }
    }
}

/// Packages of one item: to a list with none of them or with all they are equally close, and the first is given.
pub fn equals() {
    let words = lent(&[Set::of([0]); 4]);
    let week = ffi::Week::plain(1, &words);
    let mut table = vec![0; 1 + 3 * 4];
    let all = ffi::cover(week, &mut table, &[1, 0, 0], 9, &mut [5; 4]).answer;
    let cases = [(&[][..], 0, 1), (&[0, 1, 2, 3], 0, 3), (&[1, 2], 1, 1), (&[2, 3], 2, 1), (&[3], 3, 0), (&[0, 3], 0, 1), (&[1, 2, 3], 1, 2)];
    for (list, first, difference) in cases {
        assert_eq!(closest(week, &table, all, list), (vec![first], difference), "{list:?}");
    }
    // without the first two
    for p in [0, 1] {
        assert_eq!(ffi::combine(4, week, &mut table, all - p, p, &mut [0; 2]).answer, all - p - 1);
    }
    assert_eq!(closest(week, &table, all - 2, &[]), (vec![2], 1));
    assert_eq!(closest(week, &table, all - 2, &[0, 1]), (vec![2], 3));
}

/// The empty timetable alone lacks the whole list, and there is none in 0.
pub fn zero_and_one() {
    let words = lent(&[Set::of([0]), Set::of([0, 1]), Set::of([1])]);
    let week = ffi::Week::plain(2, &words);
    for list in [&[][..], &[0], &[2], &[0, 1, 2]] {
        assert_eq!(closest(week, &[0], 1, list), (vec![], list.len() as u32));
        assert_eq!((refused(week, &[0], 1, list, 1, 9), refused(week, &[0], 0, list, 1, 9), refused(week, &[0], 0, list, 0, 9)), (8, 13, 8));
    }
}

/// 512 packages of one item: the timetable of all, that and the empty one, and every set of them.
pub fn longest() {
    let words = lent(&[Set::of([191]); 512]);
    let week = ffi::Week::plain(192, &words);
    let mut table = vec![1025];
    (0..511).for_each(|i| table.extend([511 - i, 0, i + 1]));
    table.extend([0, 0, 512, 0, 1, 512, 511, 1, 1]);
    (1..512).for_each(|i| table.extend([511 - i, 514 + i, 514 + i]));
    let (whole, or_none, subsets) = (513, 514, 1026);
    assert_eq!(ffi::check(week, &table), 0);
    let all: Vec<u16> = (0..512).collect();
    let even: Vec<u16> = (0..256).map(|i| 2 * i).collect();
    assert_eq!(closest(week, &table, whole, &all), (all.clone(), 0));
    assert_eq!(closest(week, &table, whole, &[]), (all.clone(), 512));
    assert_eq!(closest(week, &table, whole, &all[1..]), (all.clone(), 1));
    // as far from both: the first listed
    assert_eq!(closest(week, &table, or_none, &even), (all.clone(), 256));
    assert_eq!(closest(week, &table, or_none, &even[1..]), (vec![], 255));
    assert_eq!(closest(week, &table, or_none, &[&[0, 1], &even[1..]].concat()), (all.clone(), 255));
    for list in [&[][..], &even, &all, &all[1..], &all[..511], &[511]] {
        assert_eq!(closest(week, &table, subsets, list), (list.to_vec(), 0));
    }
    assert_eq!(refused(week, &table, whole, &all, 514, 511), 15);
    assert_eq!(refused(week, &table, whole, &all, 513, 512), 8);
    // longer than any timetable
    assert_eq!(refused(week, &table, whole, &[&all[..], &[511]].concat(), 514, 512), 6);
    assert_eq!(refused(week, &table, whole, &[&all[..], &[512]].concat(), 514, 512), 6);
}

/// Two packages for each of 64 items: too many timetables to count, and closest answers.
pub fn sixty_four_bits() {
    let words = lent(&(0..128).map(|p| Set::of([p / 2])).collect::<Vec<Set>>());
    let week = ffi::Week::plain(64, &words);
    let (mut table, mut work) = (vec![0; 1 + 3 * 128], vec![0; 404]);
    let all = ffi::cover(week, &mut table, &Set::of(0..64).0, 1000, &mut work).answer;
    assert_eq!(ffi::count(week, &table, all, &mut work).refusal, 11);
    let (odd, even): (Vec<u16>, Vec<u16>) = ((0..64).map(|i| 2 * i + 1).collect(), (0..64).map(|i| 2 * i).collect());
    assert_eq!(closest(week, &table, all, &odd), (odd.clone(), 0));
    assert_eq!(closest(week, &table, all, &[]), (even.clone(), 64));
    assert_eq!(closest(week, &table, all, &(0..128).collect::<Vec<u16>>()), (even.clone(), 64));
    assert_eq!(closest(week, &table, all, &odd[60..]), ([&even[..60], &odd[60..]].concat(), 60));
}

/// 4, 5, 6, 8, 13, 15: what is wrong is put right one after the other. What stands before them each call says, see order.rs.
pub fn refusal_order() {
    let words = lent(&[Set::of([0, 1]), Set::of([1]), Set::of([2])]);
    let week = ffi::Week::plain(3, &words);
    let (table, spoilt) = ([2, 2, 0, 1, 0, 0, 2], [2, 2, 0, 1, 0, 0, 3]);
    for bad in [&[3][..], &[1, 0], &[2, 2], &[0, 2, 1], &[0, 1, 2, 2], &[65535], &[0, 0, 1, 2]] {
        assert_eq!(refused(week, &spoilt, 4, bad, 0, 0), 4);
        assert_eq!([refused(week, &table, 4, bad, 0, 0), refused(week, &table, u32::MAX, bad, 0, 0)], [5, 5]);
        assert_eq!([refused(week, &table, 3, bad, 0, 0), refused(week, &table, 0, bad, 0, 0), refused(week, &table, 3, bad, 4, 2)], [6, 6, 6], "{bad:?}");
    }
    for list in [&[][..], &[1], &[0, 2], &[0, 1, 2]] {
        assert_eq!([refused(week, &table, 3, list, 3, 0), refused(week, &table, 0, list, 0, 0)], [8, 8]);
        assert_eq!(refused(week, &table, 0, list, 1, 0), 13);
        assert_eq!([refused(week, &table, 3, list, 4, 1), refused(week, &table, 3, list, 9, 0)], [15, 15]);
        assert_eq!(closest(week, &table, 3, list).0, [0, 2]);
    }
    // the same table in the order 2, 1, 0 is not sound, and one of a single package is: then the list goes by the order
    let turned = ffi::Week { order: &[2, 1, 0], ..week };
    assert_eq!(refused(turned, &table, 3, &[0, 2], 4, 2), 4);
    assert_eq!((refused(turned, &[1, 2, 0, 1], 2, &[0, 2], 3, 2), closest(turned, &[1, 2, 0, 1], 2, &[2, 0])), (6, (vec![2], 1)));
}

/// A table of 65534 nodes: its last number wants 65536 words.
pub fn last_number() {
    let sets = lent(&(0..512).map(|p| Set::of([p / 8])).collect::<Vec<Set>>());
    let week = ffi::Week::plain(64, &sets);
    let mut table: Vec<u32> = vec![65534];
    for label in (1..512).rev() {
        let known = table.len() as u32 / 3 + 2;
        let pairs = (1..known).flat_map(|hi| (0..known).map(move |lo| (lo, hi))).take(129);
        pairs.for_each(|(lo, hi)| table.extend([label, lo, hi]));
    }
    table.truncate(1 + 3 * 65533);
    table.extend([0, 0, 1]);
    assert_eq!(closest(week, &table, 65535, &[0]), (vec![0], 0));
    assert_eq!(closest(week, &table, 65535, &[1, 511]), (vec![0], 3));
    assert_eq!((refused(week, &table, 65535, &[0], 65535, 9), refused(week, &table, 65536, &[0], 65537, 9)), (8, 5));
}
