//! Optional items: document 02's rules one by one, on weeks that can be counted out by hand. Random weeks with optional items are in calls.rs.

use crate::ffi;
use crate::model::{lent, Set, Week, ITEMS};

/// The timetables of an answer, as pick writes them one after the other.
pub fn listing(week: ffi::Week, table: &[u32], answer: u32) -> Vec<Vec<u16>> {
    let mut work = vec![0; answer as usize + 1];
    let count = ffi::count(week, table, answer, &mut work);
    assert_eq!(count.refusal, 0);
    let pick = |k| {
        let mut page = vec![0; 512];
        let picked = ffi::pick(week, table, answer, k, &mut work, &mut page);
        assert_eq!(picked.refusal, 0);
        page.truncate(picked.packages as usize);
        page
    };
    (0..count.value).map(pick).collect()
}

/// Packages {a}, {a, c}, {b, c}, {b}.
fn ways([a, b, c]: [u32; 3]) -> [Set; 4] {
    [Set::of([a]), Set::of([a, c]), Set::of([b, c]), Set::of([b])]
}

/// These with c optional: it may stay, and two packages may not share it. A memo that went by compulsory items alone would take
/// what {b} gives, where c is gone, for what {b, c} gives.
fn shared_slot_on([a, b, c]: [u32; 3]) {
    let sets = ways([a, b, c]);
    let (words, optional, d) = (lent(&sets), Set::of([c]), Set::of([a, b, c]));
    let m = a.max(b).max(c) + 1;
    let week = ffi::Week { optional: &optional.0, ..ffi::Week::plain(m, &words) };
    let model = Week::new(m, &sets, optional, week.order);
    assert_eq!(model.searched(d, 1009, 1000).1, 6, "the model's steps with many places");
    for places in (1..70).chain([1009]) {
        let (found, steps) = model.searched(d, places, 1000);
        assert_eq!(found, model.covering(d), "the model: Search by its text and covering by its definition");
        let call = |nodes: usize, limit: u64| {
            let mut table = vec![0; 1 + 3 * nodes];
            (ffi::cover(week, &mut table, &d.0, limit as u32, &mut vec![5; 4 * places]), table)
        };
        let (all, table) = call(4, steps);
        assert_eq!((all.refusal, all.steps as u64, all.made), (0, steps, 4), "{places} places");
        assert_eq!(listing(week, &table, all.answer), [[0, 2], [0, 3], [1, 3]]);
        assert_eq!(call(4, steps - 1).0.refusal, 9);
        assert_eq!(call(3, steps).0.refusal, 10);
    }
    // a D without c: no package that has it lies inside
    let mut table = [0; 7];
    let less = ffi::cover(week, &mut table, &Set::of([a, b]).0, 3, &mut [5; 4]);
    assert_eq!((less.refusal, less.steps, less.made), (0, 3, 2));
    assert_eq!(listing(week, &table, less.answer), [[0, 3]]);
}

pub fn shared_slot() {
    for items in [[0, 1, 2], [1, 2, 0], [0, 2, 1], [0, 64, 128], [64, 128, 0], [63, 191, 127], [189, 190, 191]] {
        shared_slot_on(items);
    }
}

/// Packages {1} and {0, 2}: 1 comes before 0; but where item 0 is optional 0 before 1, as 1 is lower than 2. A table made with one set is not sound with the other.
pub fn precedence() {
    let words = lent(&[Set::of([1]), Set::of([0, 2])]);
    let none = ffi::Week::plain(3, &words);
    let some = ffi::Week { optional: &[1, 0, 0], ..none };
    for (week, other, order) in [(none, some, [1, 0]), (some, none, [0, 1])] {
        let mut table = [0; 7];
        let all = ffi::cover(week, &mut table, &[7, 0, 0], 3, &mut [0; 4]);
        assert_eq!((all.refusal, all.answer, all.steps, all.made), (0, 3, 3, 2));
        assert_eq!(listing(week, &table, 3), [order]);
        assert_eq!(ffi::place(week, &table, 3, &order, &mut [0; 4]), ffi::Number { refusal: 0, value: 0 });
        assert_eq!(ffi::place(week, &table, 3, &[order[1], order[0]], &mut [0; 4]).refusal, 6);
        assert_eq!((ffi::check(week, &table), ffi::check(other, &table)), (0, 4));
    }
}

/// A set without a compulsory item, empty or not: the empty timetable alone, in one step and without a node.
pub fn nothing_compulsory() {
    let words = lent(&[Set::of([0, 70, 191]), Set::of([1, 2])]);
    let optional = Set::of([2, 5, 70, 191]);
    let week = ffi::Week { optional: &optional.0, ..ffi::Week::plain(ITEMS, &words) };
    for d in [Set::NONE, optional, Set::of([5]), Set::of([70]), Set::of([2, 191])] {
        let all = ffi::cover(week, &mut [0], &d.0, 1, &mut [0; 4]);
        assert_eq!(all, ffi::Report { refusal: 0, answer: 1, steps: 1, made: 0 }, "{d:?}");
        assert_eq!(ffi::cover(week, &mut [0], &d.0, 0, &mut [0; 4]).refusal, 9, "{d:?}");
    }
}

/// What each call refuses that is lent this week, a list with one cost, this table, and nothing else that would do. Cheapest comes last.
pub fn refusals(week: ffi::Week, table: &[u32]) -> Vec<u32> {
    let (t, unknown) = (&mut table.to_vec()[..], u32::MAX);
    let mut all = vec![ffi::check(week, t), ffi::cover(week, t, &[u64::MAX; 3], 0, &mut []).refusal];
    all.extend((0..6).map(|op| ffi::combine(op, week, t, unknown, unknown, &mut []).refusal));
    all.push(ffi::count(week, t, unknown, &mut []).refusal);
    all.push(ffi::measure(week, t, unknown, 9, &mut []).refusal);
    all.push(ffi::pick(week, t, unknown, 9, &mut [], &mut []).refusal);
    all.push(ffi::place(week, t, unknown, &[9, 9], &mut []).refusal);
    all.push(ffi::closest(week, t, unknown, &[9, 9], &mut [], &mut []).refusal);
    let mut listed = [unknown];
    all.push(ffi::withdraw(week, t, &[9, 9], &mut listed, &mut []).refusal);
    all.push(ffi::cheapest(week, &[9], t, unknown, &mut [], &mut []).refusal);
    assert_eq!((&*t, listed), (table, [unknown]), "refused, and table or list changed");
    all
}

/// 1, 2, 29, 30, 3, 4: what is wrong is put right one after the other, and each call says the next.
pub fn refusal_order() {
    let (stray, lost) = (lent(&[Set::of([0]), Set::of([64, 65])]), lent(&[Set::of([0]), Set::of([63])]));
    let (beyond, whole, part) = (Set::of([0, 64]).0, Set::of([0]).0, Set::of([1]).0);
    let refused = |m: u32, packages: &[u64], optional: &[u64; 3]| refusals(ffi::Week { optional, ..ffi::Week::plain(m, packages) }, &[1, 0, 0, 0]);
    assert_eq!(refused(193, &stray, &beyond), [1; 15]);
    assert_eq!(refused(64, &stray, &beyond), [2; 15]);
    assert_eq!(refused(64, &lost, &beyond), [29; 15]);
    assert_eq!(refused(64, &lost, &whole), [30; 15]);
    assert_eq!(refused(64, &lost, &part), [4, 4, 4, 4, 4, 4, 4, 4, 4, 4, 4, 4, 4, 4, 3]);
    // of 512 packages the last four have no compulsory item
    let many = lent(&(0..512).map(|p| Set::of([p / 4, 128 + p / 8])).collect::<Vec<Set>>());
    assert_eq!(refused(ITEMS, &many, &Set::of([127, 191]).0), [30; 15]);
    assert_eq!(refused(ITEMS, &many[..3 * 508], &Set::of([127, 191]).0)[0], 4);
}

/// Group j of 192 items, three next to each other: two compulsory ones, and one that is optional, the first, second or third in turn.
fn group(j: u32) -> [u32; 3] {
    let mut items = [3 * j, 3 * j + 1, 3 * j + 2];
    items[j as usize % 3..].rotate_left(1);
    items
}

/// Two groups, with few places: sets push each other out of the memo, but those without a compulsory item none.
pub fn few_places() {
    let sets = [ways(group(0)), ways(group(1))].concat();
    let (words, optional, d) = (lent(&sets), Set::of([group(0)[2], group(1)[2]]), Set::of(0..6));
    let week = ffi::Week { optional: &optional.0, ..ffi::Week::plain(6, &words) };
    let model = Week::new(6, &sets, optional, week.order);
    for places in 1..200 {
        let got = ffi::cover(week, &mut [0; 1 + 3 * 8], &d.0, u32::MAX, &mut vec![5; 4 * places]);
        assert_eq!((got.refusal, got.steps as u64, got.made), (0, model.searched(d, places, 1000).1, 8), "{places} places");
    }
}

/// These packages for each of 64 groups, of which some are covered: each has three ways. The memo tells apart which optional items stayed, so
/// for each set of those that may have stayed so far a group takes five steps: two of its own, and three on to the next group.
pub fn groups() {
    const COVERED: u32 = 6;
    let words = lent(&(0..64).map(group).flat_map(ways).collect::<Vec<Set>>());
    let optional = Set::of((0..64).map(|j| group(j)[2]));
    let week = ffi::Week { optional: &optional.0, ..ffi::Week::plain(ITEMS, &words) };
    let d = Set::of((0..COVERED).flat_map(|i| group(i * 63 / (COVERED - 1))));
    let mut table = vec![0; 1 + 3 * 4 * COVERED as usize];
    let mut work = vec![3; 4 * 65521];
    let all = ffi::cover(week, &mut table, &d.0, u32::MAX, &mut work);
    assert_eq!((all.refusal, all.steps, all.made), (0, 1 + 5 * ((1 << COVERED) - 1), 4 * COVERED));
    assert_eq!(ffi::count(week, &table, all.answer, &mut work), ffi::Number { refusal: 0, value: 3u64.pow(COVERED) });
}
