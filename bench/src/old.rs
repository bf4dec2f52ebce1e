//! The entries of an earlier archive, one without join and closest, that the benchmark calls (see build.rs).

use crate::ffi::{Number, Report, Timetable, Week};

type Combine = unsafe extern "C" fn(u32, *const u64, usize, *const u64, *const u8, usize, *mut u32, usize, u32, u32, *mut u64, usize) -> Report;

/// Entries that take a week: the arguments that it stands for come first, then their own.
macro_rules! entries {
    ($($entry:ident($($own:ident: $type:ty),*) -> $result:ty;)*) => {
        extern "C" {
            $(fn $entry(m: u32, p: *const u64, pn: usize, o: *const u64, r: *const u8, rn: usize, $($own: $type),*) -> $result;)*
        }
    };
}

entries! {
    old_mogedorn_check(t: *const u32, tn: usize) -> u32;
    old_mogedorn_cover(t: *mut u32, tn: usize, d: *const u64, limit: u32, w: *mut u64, wn: usize) -> Report;
    old_mogedorn_either(t: *mut u32, tn: usize, a: u32, b: u32, w: *mut u64, wn: usize) -> Report;
    old_mogedorn_both(t: *mut u32, tn: usize, a: u32, b: u32, w: *mut u64, wn: usize) -> Report;
    old_mogedorn_only(t: *mut u32, tn: usize, a: u32, b: u32, w: *mut u64, wn: usize) -> Report;
    old_mogedorn_with(t: *mut u32, tn: usize, a: u32, k: u32, w: *mut u64, wn: usize) -> Report;
    old_mogedorn_without(t: *mut u32, tn: usize, a: u32, k: u32, w: *mut u64, wn: usize) -> Report;
    old_mogedorn_count(t: *const u32, tn: usize, a: u32, w: *mut u64, wn: usize) -> Number;
    old_mogedorn_pick(t: *const u32, tn: usize, a: u32, k: u64, w: *mut u64, wn: usize, g: *mut u16, gn: usize) -> Timetable;
    old_mogedorn_measure(t: *const u32, tn: usize, a: u32, k: u64, w: *mut u64, wn: usize) -> Number;
    old_mogedorn_cheapest(c: *const u16, cn: usize, t: *const u32, tn: usize, a: u32, w: *mut u64, wn: usize, g: *mut u16, gn: usize) -> Timetable;
}

/// A call of an entry, with the arguments that the week stands for.
macro_rules! call {
    ($entry:expr, $week:ident, $($rest:expr),+) => {
        unsafe {
            let (packages, order) = ($week.packages, $week.order);
            $entry($week.m, packages.as_ptr(), packages.len(), $week.optional.as_ptr(), order.as_ptr(), order.len(), $($rest),+)
        }
    };
}

pub fn cover(week: Week, t: &mut [u32], d: &[u64; 3], limit: u32, w: &mut [u64]) -> Report {
    call!(old_mogedorn_cover, week, t.as_mut_ptr(), t.len(), d.as_ptr(), limit, w.as_mut_ptr(), w.len())
}

/// either, both, only, with, without: 0 to 4.
pub fn combine(op: usize, week: Week, t: &mut [u32], a: u32, b: u32, w: &mut [u64]) -> Report {
    let f: Combine = [old_mogedorn_either, old_mogedorn_both, old_mogedorn_only, old_mogedorn_with, old_mogedorn_without][op];
    call!(f, week, t.as_mut_ptr(), t.len(), a, b, w.as_mut_ptr(), w.len())
}

pub fn check(week: Week, t: &[u32]) -> u32 {
    call!(old_mogedorn_check, week, t.as_ptr(), t.len())
}

pub fn count(week: Week, t: &[u32], a: u32, w: &mut [u64]) -> Number {
    call!(old_mogedorn_count, week, t.as_ptr(), t.len(), a, w.as_mut_ptr(), w.len())
}

pub fn pick(week: Week, t: &[u32], a: u32, k: u64, w: &mut [u64], page: &mut [u16]) -> Timetable {
    call!(old_mogedorn_pick, week, t.as_ptr(), t.len(), a, k, w.as_mut_ptr(), w.len(), page.as_mut_ptr(), page.len())
}

pub fn measure(week: Week, t: &[u32], a: u32, k: u64, w: &mut [u64]) -> Number {
    call!(old_mogedorn_measure, week, t.as_ptr(), t.len(), a, k, w.as_mut_ptr(), w.len())
}

pub fn cheapest(week: Week, costs: &[u16], t: &[u32], a: u32, w: &mut [u64], page: &mut [u16]) -> Timetable {
    let (cn, tn, wn, gn) = (costs.len(), t.len(), w.len(), page.len());
    call!(old_mogedorn_cheapest, week, costs.as_ptr(), cn, t.as_ptr(), tn, a, w.as_mut_ptr(), wn, page.as_mut_ptr(), gn)
}
