//! The entries of include/mogedorn.h, on slices and a week.

#[repr(C)]
#[derive(Clone, Copy, Debug, PartialEq, Eq)]
pub struct Report {
    pub refusal: u32,
    pub answer: u32,
    pub steps: u32,
    pub made: u32,
}

#[repr(C)]
#[derive(Clone, Copy, Debug, PartialEq, Eq)]
pub struct Number {
    pub refusal: u32,
    pub value: u64,
}

#[repr(C)]
#[derive(Clone, Copy, Debug, PartialEq, Eq)]
pub struct Timetable {
    pub refusal: u32,
    pub cost: u32,
    pub packages: u64,
}

#[repr(C)]
#[derive(Clone, Copy, Debug, PartialEq, Eq)]
pub struct Comparison {
    pub refusal: u32,
    pub difference: u32,
    pub packages: u64,
}

#[repr(C)]
#[derive(Clone, Copy, Debug, PartialEq, Eq)]
pub struct Bids {
    pub refusal: u32,
    pub schools: u32,
    pub slots: u32,
    pub packages: u64,
    pub optional: [u64; 3],
}

/// What every call on a table is lent besides it.
#[derive(Clone, Copy)]
pub struct Week<'a> {
    pub m: u32,
    /// Three words a package.
    pub packages: &'a [u64],
    pub optional: &'a [u64; 3],
    /// Each item once.
    pub order: &'a [u8],
}

/// 0 .. 191.
static ITEMS: [u8; 192] = {
    let mut all = [0; 192];
    let mut i = 0;
    while i < 192 {
        all[i] = i as u8;
        i += 1;
    }
    all
};

impl<'a> Week<'a> {
    /// Without optional items, in the order 0 .. m - 1; of an m above 192 the list is that of 192.
    pub fn plain(m: u32, packages: &'a [u64]) -> Week<'a> {
        Week { m, packages, optional: &[0; 3], order: &ITEMS[..m.min(192) as usize] }
    }
}

type ReadBids = unsafe extern "C" fn(*const u8, usize, *mut u64, usize, *mut u16, usize) -> Bids;
type Convert = unsafe extern "C" fn(*const u8, usize, *mut u8, usize) -> Number;
type Combine = unsafe extern "C" fn(u32, *const u64, usize, *const u64, *const u8, usize, *mut u32, usize, u32, u32, *mut u64, usize) -> Report;

/// Entries that take a week: the arguments that it stands for come first, then their own.
macro_rules! entries {
    ($($entry:ident($($own:ident: $type:ty),*) -> $result:ty;)*) => {
        extern "C" {
            $(fn $entry(m: u32, p: *const u64, pn: usize, o: *const u64, r: *const u8, rn: usize, $($own: $type),*) -> $result;)*
        }
    };
}

entries! {
    mogedorn_check(t: *const u32, tn: usize) -> u32;
    mogedorn_cover(t: *mut u32, tn: usize, d: *const u64, limit: u32, w: *mut u64, wn: usize) -> Report;
    mogedorn_either(t: *mut u32, tn: usize, a: u32, b: u32, w: *mut u64, wn: usize) -> Report;
    mogedorn_both(t: *mut u32, tn: usize, a: u32, b: u32, w: *mut u64, wn: usize) -> Report;
    mogedorn_only(t: *mut u32, tn: usize, a: u32, b: u32, w: *mut u64, wn: usize) -> Report;
    mogedorn_with(t: *mut u32, tn: usize, a: u32, k: u32, w: *mut u64, wn: usize) -> Report;
    mogedorn_without(t: *mut u32, tn: usize, a: u32, k: u32, w: *mut u64, wn: usize) -> Report;
    mogedorn_join(t: *mut u32, tn: usize, a: u32, b: u32, w: *mut u64, wn: usize) -> Report;
    mogedorn_count(t: *const u32, tn: usize, a: u32, w: *mut u64, wn: usize) -> Number;
    mogedorn_pick(t: *const u32, tn: usize, a: u32, k: u64, w: *mut u64, wn: usize, g: *mut u16, gn: usize) -> Timetable;
    mogedorn_measure(t: *const u32, tn: usize, a: u32, k: u64, w: *mut u64, wn: usize) -> Number;
    mogedorn_place(t: *const u32, tn: usize, a: u32, l: *const u16, ln: usize, w: *mut u64, wn: usize) -> Number;
    mogedorn_cheapest(c: *const u16, cn: usize, t: *const u32, tn: usize, a: u32, w: *mut u64, wn: usize, g: *mut u16, gn: usize) -> Timetable;
    mogedorn_closest(t: *const u32, tn: usize, a: u32, l: *const u16, ln: usize, w: *mut u64, wn: usize, g: *mut u16, gn: usize) -> Comparison;
    mogedorn_withdraw(t: *mut u32, tn: usize, l: *const u16, ln: usize, a: *mut u32, an: usize, w: *mut u64, wn: usize) -> Number;
}

extern "C" {
    fn mogedorn_all_items(m: u32, d: *mut u64);
    fn mogedorn_read_bids(f: *const u8, fnn: usize, p: *mut u64, pn: usize, c: *mut u16, cn: usize) -> Bids;
    fn mogedorn_read_bids2(f: *const u8, fnn: usize, p: *mut u64, pn: usize, c: *mut u16, cn: usize) -> Bids;
    fn mogedorn_convert_up(f: *const u8, fnn: usize, o: *mut u8, on: usize) -> Number;
    fn mogedorn_convert_down(f: *const u8, fnn: usize, o: *mut u8, on: usize) -> Number;
}

/// A call of an entry, with the arguments that the week stands for.
macro_rules! call {
    ($entry:expr, $week:ident, $($rest:expr),+) => {
        unsafe {
            let (packages, order) = ($week.packages, $week.order);
            $entry($week.m, packages.as_ptr(), packages.len(), $week.optional.as_ptr(), order.as_ptr(), order.len(), $($rest),+)
        }
    };
}

pub fn check(week: Week, t: &[u32]) -> u32 {
    call!(mogedorn_check, week, t.as_ptr(), t.len())
}

pub fn cover(week: Week, t: &mut [u32], d: &[u64; 3], limit: u32, w: &mut [u64]) -> Report {
    call!(mogedorn_cover, week, t.as_mut_ptr(), t.len(), d.as_ptr(), limit, w.as_mut_ptr(), w.len())
}

/// either, both, only, with, without, join: 0 to 5.
pub fn combine(op: usize, week: Week, t: &mut [u32], a: u32, b: u32, w: &mut [u64]) -> Report {
    let f: Combine = [mogedorn_either, mogedorn_both, mogedorn_only, mogedorn_with, mogedorn_without, mogedorn_join][op];
    call!(f, week, t.as_mut_ptr(), t.len(), a, b, w.as_mut_ptr(), w.len())
}

pub fn join(week: Week, t: &mut [u32], a: u32, b: u32, w: &mut [u64]) -> Report {
    combine(5, week, t, a, b, w)
}

pub fn count(week: Week, t: &[u32], a: u32, w: &mut [u64]) -> Number {
    call!(mogedorn_count, week, t.as_ptr(), t.len(), a, w.as_mut_ptr(), w.len())
}

pub fn pick(week: Week, t: &[u32], a: u32, k: u64, w: &mut [u64], page: &mut [u16]) -> Timetable {
    call!(mogedorn_pick, week, t.as_ptr(), t.len(), a, k, w.as_mut_ptr(), w.len(), page.as_mut_ptr(), page.len())
}

pub fn measure(week: Week, t: &[u32], a: u32, k: u64, w: &mut [u64]) -> Number {
    call!(mogedorn_measure, week, t.as_ptr(), t.len(), a, k, w.as_mut_ptr(), w.len())
}

pub fn place(week: Week, t: &[u32], a: u32, list: &[u16], w: &mut [u64]) -> Number {
    call!(mogedorn_place, week, t.as_ptr(), t.len(), a, list.as_ptr(), list.len(), w.as_mut_ptr(), w.len())
}

pub fn cheapest(week: Week, costs: &[u16], t: &[u32], a: u32, w: &mut [u64], page: &mut [u16]) -> Timetable {
    let (cn, tn, wn, gn) = (costs.len(), t.len(), w.len(), page.len());
    call!(mogedorn_cheapest, week, costs.as_ptr(), cn, t.as_ptr(), tn, a, w.as_mut_ptr(), wn, page.as_mut_ptr(), gn)
}

pub fn closest(week: Week, t: &[u32], a: u32, list: &[u16], w: &mut [u64], page: &mut [u16]) -> Comparison {
    let (tn, ln, wn, gn) = (t.len(), list.len(), w.len(), page.len());
    call!(mogedorn_closest, week, t.as_ptr(), tn, a, list.as_ptr(), ln, w.as_mut_ptr(), wn, page.as_mut_ptr(), gn)
}

pub fn withdraw(week: Week, t: &mut [u32], gone: &[u16], answers: &mut [u32], w: &mut [u64]) -> Number {
    let (tn, ln, an, wn) = (t.len(), gone.len(), answers.len(), w.len());
    call!(mogedorn_withdraw, week, t.as_mut_ptr(), tn, gone.as_ptr(), ln, answers.as_mut_ptr(), an, w.as_mut_ptr(), wn)
}

/// Three words that held something else.
pub fn all_items(m: u32) -> [u64; 3] {
    let mut d = [0x5555_5555_5555_5555; 3];
    unsafe { mogedorn_all_items(m, d.as_mut_ptr()) };
    d
}

/// The reader of version 1 or 2.
pub fn read_bids(version: u16, file: &[u8], packages: &mut [u64], costs: &mut [u16]) -> Bids {
    let f: ReadBids = [mogedorn_read_bids, mogedorn_read_bids2][version as usize - 1];
    unsafe { f(file.as_ptr(), file.len(), packages.as_mut_ptr(), packages.len(), costs.as_mut_ptr(), costs.len()) }
}

/// Up from version 1, or down from version 2.
pub fn convert(from: u16, file: &[u8], out: &mut [u8]) -> Number {
    let f: Convert = [mogedorn_convert_up, mogedorn_convert_down][from as usize - 1];
    unsafe { f(file.as_ptr(), file.len(), out.as_mut_ptr(), out.len()) }
}
