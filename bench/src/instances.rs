//! Instances of document 000's Table 1, domino.8.8 once more on items that are spread over three words and once with its cells numbered badly and the order
//! that mends it, bell-09 once more in the reversed order, queens that do not attack each other, in two orders; two such weeks on separate items; and what is lent
//! for them.

use crate::ffi::Week;
use crate::hand;

pub struct Instance {
    pub name: &'static str,
    pub m: u32,
    /// The packages, each as three words, lowest first.
    pub packs: Vec<[u64; 3]>,
    pub optional: [u64; 3],
    /// The order of the items.
    pub order: Vec<u8>,
    /// The timetables: by Table 1, and of queens the known numbers of ways to place them.
    pub count: u64,
    /// What is lent: the nodes that the table has room for, and the places of the memo, a prime.
    pub nodes: usize,
    pub places: usize,
}

impl Instance {
    /// The packages as they are lent.
    pub fn words(&self) -> &[u64] {
        self.packs.as_flattened()
    }

    pub fn week(&self) -> Week<'_> {
        Week { m: self.m, packages: self.words(), optional: &self.optional, order: &self.order }
    }

    pub fn by_hand(&self) -> hand::Week<'_> {
        hand::Week { m: self.m, packs: &self.packs, optional: &self.optional, order: &self.order }
    }

    /// Every item of a package: what is covered.
    pub fn all(&self) -> [u64; 3] {
        self.packs.iter().fold([0; 3], |all, pack| [0, 1, 2].map(|j| all[j] | pack[j]))
    }

    /// In the order of the items' numbers, as all weeks were before.
    pub fn plain(&self) -> bool {
        self.order == plain_order(self.m)
    }

    /// How many items are optional.
    pub fn optional_items(&self) -> u32 {
        self.optional.iter().map(|w| w.count_ones()).sum()
    }
}

fn set(items: impl IntoIterator<Item = usize>) -> [u64; 3] {
    let mut words = [0; 3];
    items.into_iter().for_each(|i| words[i / 64] |= 1 << (i % 64));
    words
}

/// The items of a set, rising.
pub fn items(words: &[u64; 3]) -> impl Iterator<Item = usize> + '_ {
    (0..192).filter(|i| words[i / 64] >> (i % 64) & 1 == 1)
}

fn plain_order(m: u32) -> Vec<u8> {
    (0..m).map(|i| i as u8).collect()
}

/// A week without optional items, in the plain order.
fn plain(name: &'static str, m: u32, packs: Vec<[u64; 3]>, count: u64, nodes: usize, places: usize) -> Instance {
    Instance { name, m, packs, optional: [0; 3], order: plain_order(m), count, nodes, places }
}

/// The sets of so many items whose number of items is as wished.
fn sets_of(m: usize, wished: impl Fn(u32) -> bool) -> Vec<[u64; 3]> {
    (1..1u64 << m).filter(|x| wished(x.count_ones())).map(|x| [x, 0, 0]).collect()
}

/// The domino placings on side by side cells, rows in turn, and the item of each cell.
fn dominoes(side: usize, item: impl Fn(usize) -> usize) -> Vec<[u64; 3]> {
    let mut placings = Vec::new();
    for cell in 0..side * side {
        if cell % side < side - 1 {
            placings.push(set([item(cell), item(cell + 1)]));
        }
        if cell < side * (side - 1) {
            placings.push(set([item(cell), item(cell + side)]));
        }
    }
    placings
}

/// domino.8.8 with its cells numbered far from their neighbours: in the plain order 50 million steps do not end it, with a million places. Lent is the order
/// that takes the cells row by row.
fn numbered_badly() -> Instance {
    let item = |cell: usize| 37 * cell % 64;
    let order = (0..64).map(|cell| item(cell) as u8).collect();
    Instance { name: "domino.order", m: 64, packs: dominoes(8, item), optional: [0; 3], order, count: 12988816, nodes: 8192, places: 16381 }
}

/// Queens on side by side cells, none of which attacks another: rows and columns must have one, diagonals may. The items are the rows, the columns, and the
/// diagonals of each direction, in this order: rows and columns in turn take 1.2 to 1.4 times the steps and 1.1 to 1.2 times the nodes.
fn queens(side: usize, name: &'static str, count: u64, nodes: usize, places: usize) -> Instance {
    let lines = 2 * side - 1;
    let cell = |row: usize, column: usize| set([row, side + column, 2 * side + row + column, 2 * side + lines + row + side - 1 - column]);
    let packs = (0..side * side).map(|i| cell(i / side, i % side)).collect();
    let m = 2 * side + 2 * lines;
    Instance { name, m: m as u32, packs, optional: set(2 * side..m), order: plain_order(m as u32), count, nodes, places }
}

/// The week with its items in the reversed order.
fn reversed(mut week: Instance) -> Instance {
    week.order.reverse();
    week
}

/// The same from the middle lines of the board outwards, rows and columns in turn: of 10 by 10 cells 0.86 of the steps and 1.09 of the nodes.
fn from_the_middle(side: usize, name: &'static str, count: u64, nodes: usize, places: usize) -> Instance {
    let mut week = queens(side, name, count, nodes, places);
    let mut lines: Vec<usize> = (0..side).collect();
    lines.sort_by_key(|&i| (2 * i + 1).abs_diff(side));
    let turns = lines.into_iter().flat_map(|i| [i, side + i]);
    week.order = turns.chain(2 * side..week.m as usize).map(|i| i as u8).collect();
    week
}

pub fn instances() -> Vec<Instance> {
    let bell = || sets_of(9, |_| true);
    vec![
        plain("bell-09", 9, bell(), 21147, 8192, 16381),
        plain("doublefact-17", 18, sets_of(18, |n| n == 2), 34459425, 65534, 65521),
        plain("domino.8.8", 64, dominoes(8, |cell| cell), 12988816, 8192, 16381),
        // the same on the items 0, 3, .., 189: what the width alone costs
        plain("domino.wide", 190, dominoes(8, |cell| 3 * cell), 12988816, 8192, 16381),
        // the same search, its packages and the set to cover permuted first: what the order costs
        numbered_badly(),
        // bell-09 in the reversed order: every call takes the keys of 511 packages from positions
        reversed(plain("bell.order", 9, bell(), 21147, 8192, 16381)),
        plain("domino.10.10", 100, dominoes(10, |cell| cell), 258584046368, 40960, 65521),
        queens(8, "queens.8", 92, 4096, 16381),
        queens(10, "queens.10", 724, 16384, 65521),
        from_the_middle(10, "queens.middle", 724, 16384, 65521),
        queens(12, "queens.12", 14200, 65534, 65521),
    ]
}

/// The same week at each of two pools, on separate items: planned apart, and then joined.
pub struct Pools {
    /// Both pools: the packages of the first, then those of the second. The count is that of the join.
    pub week: Instance,
    /// The items of each.
    pub items: [[u64; 3]; 2],
}

/// Where item i of a week of so many items is at the first pool, 0, and at the second, 1.
type Moved = fn(usize, usize, usize) -> usize;

/// The second pool's items behind all of the first: a join puts the second answer below the first.
const BEHIND: Moved = |m, pool, i| pool * m + i;
/// The two pools' items in turns: a join goes through pairs of nodes.
const IN_TURNS: Moved = |_, pool, i| 2 * i + pool;

/// Of a week with the room that is lent for both.
fn two_pools(one: Instance, moved: Moved) -> Pools {
    let at = |pool: usize| {
        let m = one.m as usize;
        move |words: &[u64; 3]| set(items(words).map(|i| moved(m, pool, i)))
    };
    let (first, second) = (at(0), at(1));
    let both = |words: &[u64; 3]| [0, 1, 2].map(|j| first(words)[j] | second(words)[j]);
    let week = Instance {
        m: 2 * one.m,
        packs: one.packs.iter().map(&first).chain(one.packs.iter().map(&second)).collect(),
        optional: both(&one.optional),
        order: plain_order(2 * one.m),
        count: one.count * one.count,
        ..one
    };
    Pools { items: [first(&one.all()), second(&one.all())], week }
}

pub fn pools() -> Vec<Pools> {
    vec![
        two_pools(plain("two-domino.6.6", 36, dominoes(6, |cell| cell), 6728, 4096, 16381), BEHIND),
        two_pools(plain("two-domino.8.8", 64, dominoes(8, |cell| cell), 12988816, 8192, 16381), BEHIND),
        two_pools(plain("two-bell-08", 8, sets_of(8, |_| true), 4140, 8192, 16381), BEHIND),
        two_pools(plain("two-doublefact-15", 16, sets_of(16, |n| n == 2), 2027025, 40960, 65521), BEHIND),
        two_pools(plain("turns-domino.6.6", 36, dominoes(6, |cell| cell), 6728, 16384, 16381), IN_TURNS),
        two_pools(plain("turns-bell-07", 7, sets_of(7, |_| true), 877, 40960, 65521), IN_TURNS),
        two_pools(queens(8, "turns-queens.8", 92, 40960, 65521), IN_TURNS),
    ]
}
