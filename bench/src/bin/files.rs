//! What reading a bids file costs, and converting it to the other version: the library beside the reader and converter of the differential test, which are written
//! straight from the documents, with vectors. The library before, where it is given, reads version 1. Microseconds, the least of 41.

#[path = "../../../tests/rust/src/ffi.rs"]
#[allow(dead_code)]
mod ffi;
#[path = "../../../tests/rust/src/files.rs"]
#[allow(dead_code)]
mod files;
#[path = "../../../tests/rust/src/model.rs"]
#[allow(dead_code)]
mod model;

use files::{body, convert, read, sealed, Bid, File};
use std::hint::black_box;
use std::time::Instant;

/// A file of s schools, t slots and n packages that differ.
fn file(s: usize, t: usize, n: usize) -> File {
    let schools: Vec<_> = (0..s).map(|j| (1 + j as u16 / 8, j as u8 % 8)).collect();
    let bids = (0..n).map(|k| Bid { school: schools[k % s], slots: (k / s * 37 + 1) as u64 & ((1 << t) - 1), cost: k as u16 }).collect();
    File { slots: t as u8, optional: 0, schools, bids }
}

fn least(turns: usize, mut call: impl FnMut()) -> f64 {
    let once = |call: &mut dyn FnMut()| {
        let started = Instant::now();
        (0..turns).for_each(|_| call());
        started.elapsed().as_secs_f64() * 1e6 / turns as f64
    };
    (0..41).map(|_| once(&mut call)).fold(f64::MAX, f64::min)
}

#[cfg(old)]
extern "C" {
    fn old_mogedorn_read_bids(f: *const u8, fnn: usize, p: *mut u64, pn: usize, c: *mut u16, cn: usize) -> ffi::Bids;
}

#[cfg(old)]
fn before(b: &[u8], packages: &mut [u64], costs: &mut [u16]) {
    // its struct is the first fields of today's, which has room for it
    unsafe { old_mogedorn_read_bids(b.as_ptr(), b.len(), packages.as_mut_ptr(), packages.len(), costs.as_mut_ptr(), costs.len()) };
}

fn main() {
    println!("schools slots packages version  read: library   by hand    before  convert: library   by hand");
    for (s, t, n, turns) in [(2, 2, 6, 20000), (16, 40, 128, 400), (44, 20, 512, 40)] {
        let one = sealed(body(1, &file(s, t, n)));
        let two = convert(1, &one).unwrap();
        let (mut packages, mut costs, mut out) = (vec![0; 1536], vec![0; 512], vec![0; 6869]);
        for (version, b) in [(1, &one), (2, &two)] {
            assert_eq!(ffi::read_bids(version, b, &mut packages, &mut costs).refusal, 0);
            let library = least(turns, || _ = black_box(ffi::read_bids(version, black_box(b), &mut packages, &mut costs)));
            let hand = least(turns, || _ = black_box(read(version, black_box(b))));
            #[cfg(old)]
            let old = if version == 1 { least(turns, || before(black_box(b), &mut packages, &mut costs)) } else { f64::NAN };
            #[cfg(not(old))]
            let old = f64::NAN;
            let turned = least(turns, || _ = black_box(ffi::convert(version, black_box(b), &mut out)));
            let by_hand = least(turns, || _ = black_box(convert(version, black_box(b))));
            println!("{s:>7} {t:>5} {n:>8} {version:>7} {library:>14.2} {hand:>9.2} {old:>9.2} {turned:>17.2} {by_hand:>9.2}");
        }
    }
}
