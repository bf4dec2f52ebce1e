//! Bids files of both versions, random and damaged. Each is given to both readers and both converters, with buffers of several lengths.

use crate::calls::Tally;
use crate::desk;
use crate::ffi::{self, Number};
use crate::files::{body, convert, read, sealed, Bid, File, School};
use crate::model::{lent, Set, Week};
use crate::optional::listing;
use crate::rng::Rng;

/// The calls on files, as the tally has them.
pub const CALLS: [&str; 4] = ["read_bids", "read_bids2", "convert_up", "convert_down"];
const READERS: usize = 0;
const CONVERTERS: usize = 2;

/// The greatest number of packages for which a week that was read is covered.
const MOST: usize = 8;

/// Gives a few files to each call.
pub fn some_files(rng: &mut Rng, tally: &mut Tally) {
    for _ in 0..12 {
        let file = random_file(rng);
        each_call(rng, &file, tally);
    }
}

// ---- a file and the calls

fn each_call(rng: &mut Rng, file: &[u8], tally: &mut Tally) {
    for version in [1, 2] {
        reads(rng, version, file, tally);
        conversions(rng, version, file, tally);
    }
}

fn count(tally: &mut Tally, calls: usize, version: u16, refusal: u32) {
    tally.files[calls + version as usize - 1][refusal as usize] += 1;
    tally.outcomes[refusal as usize] += 1;
}

/// One too short, just long enough, longer.
fn lengths(rng: &mut Rng, whole: usize) -> [usize; 3] {
    [whole.saturating_sub(1), whole, whole + rng.from(1, 9) as usize]
}

fn overwrite<T: Copy>(all: &mut [T], start: &[T]) {
    all[..start.len()].copy_from_slice(start);
}

fn reads(rng: &mut Rng, version: u16, file: &[u8], tally: &mut Tally) {
    let expected = read(version, file);
    let n = expected.as_ref().map_or(2, |f| f.bids.len());
    let (words, costs) = (lengths(rng, 3 * n), lengths(rng, n));
    for (i, j) in [(1, 1), (0, 1), (1, 0), (2, 2)] {
        let packages = (0..words[i]).map(|_| rng.next()).collect();
        let costs = (0..costs[j]).map(|_| rng.next() as u16).collect();
        let refusal = read_into(version, file, &expected, packages, costs);
        count(tally, READERS, version, refusal);
    }
    if let Ok(f) = expected {
        cover(rng, &f, tally);
    }
}

/// Reads a file to buffers of these lengths and contents.
fn read_into(version: u16, file: &[u8], expected: &Result<File, u32>, mut packages: Vec<u64>, mut costs: Vec<u16>) -> u32 {
    let mut after = (packages.clone(), costs.clone());
    let refused = |refusal| ffi::Bids { refusal, schools: 0, slots: 0, packages: 0, optional: [0; 3] };
    let answer = match expected {
        Ok(f) if packages.len() < 3 * f.bids.len() || costs.len() < f.bids.len() => refused(15),
        Ok(f) => {
            overwrite(&mut after.0, &lent(&f.packages()));
            overwrite(&mut after.1, &f.costs());
            ffi::Bids { refusal: 0, schools: f.schools.len() as u32, slots: f.slots as u32, packages: f.bids.len() as u64, optional: f.optional_items().0 }
        }
        Err(refusal) => refused(*refusal),
    };
    let got = ffi::read_bids(version, file, &mut packages, &mut costs);
    assert_eq!(got, answer, "version {version}, file {file:?}");
    assert_eq!((packages, costs), after, "version {version}, file {file:?}");
    got.refusal
}

/// The week of an accepted file: the engine takes it, whatever call is made, and finds the model's timetables of all items.
fn cover(rng: &mut Rng, f: &File, tally: &mut Tally) {
    let (sets, optional, m) = (f.packages(), f.optional_items(), f.schools.len() as u32 + f.slots as u32);
    let words = lent(&sets);
    let week = ffi::Week { optional: &optional.0, ..ffi::Week::plain(m, &words) };
    assert_eq!(ffi::check(week, &[0]), 0, "{f:?}");
    for refusal in desk::each_call(rng, week, &f.costs()) {
        tally.lent[refusal as usize] += 1;
    }
    if sets.len() > MOST {
        return;
    }
    let (model, everything) = (Week::new(m, &sets, optional, week.order), Set::of(0..m));
    let timetables: Vec<Vec<u16>> = model.listing(&model.covering(everything)).into_iter().map(|t| model.written(t)).collect();
    let mut table = vec![0; 1 + 3 * 256];
    let all = ffi::cover(week, &mut table, &everything.0, 1000, &mut [0; 4 * 31]);
    assert_eq!(all.refusal, 0, "{f:?}");
    assert_eq!(listing(week, &table, all.answer), timetables, "{f:?}");
    tally.covered += 1;
    tally.open += (f.optional != 0 && !timetables.is_empty()) as u64;
}

fn conversions(rng: &mut Rng, from: u16, file: &[u8], tally: &mut Tally) {
    let expected = convert(from, file);
    let whole = expected.as_ref().map_or(file.len(), Vec::len);
    let any = rng.below(whole as u64 + 1) as usize;
    for length in lengths(rng, whole).into_iter().chain([0, any]) {
        let out = (0..length).map(|_| rng.next() as u8).collect();
        count(tally, CONVERTERS, from, convert_into(from, file, &expected, out));
    }
    // there and back
    if let Ok(other) = expected {
        let back = convert_into(3 - from, &other, &Ok(file.to_vec()), vec![0; file.len()]);
        count(tally, CONVERTERS, 3 - from, back);
    }
}

/// Converts a file to a buffer of this length and contents.
fn convert_into(from: u16, file: &[u8], expected: &Result<Vec<u8>, u32>, mut out: Vec<u8>) -> u32 {
    let mut after = out.clone();
    let answer = match expected {
        Ok(other) if out.len() < other.len() => Number { refusal: 15, value: 0 },
        Ok(other) => {
            overwrite(&mut after, other);
            Number { refusal: 0, value: other.len() as u64 }
        }
        Err(refusal) => Number { refusal: *refusal, value: 0 },
    };
    let got = ffi::convert(from, file, &mut out);
    assert_eq!((got, out), (answer, after), "from version {from}, file {file:?}");
    got.refusal
}

// ---- random files

fn random_file(rng: &mut Rng) -> Vec<u8> {
    let version = rng.from(1, 2) as u16;
    let mut b = body(version, &random_content(rng));
    damage(rng, &mut b);
    let mut b = sealed(b);
    damage_sealed(rng, &mut b);
    b
}

fn random_content(rng: &mut Rng) -> File {
    let many = rng.once_in(40);
    let (s, t) = match rng.below(8) {
        0 => (rng.below(70), rng.below(70)),
        1 => (64, 0),
        2 | 3 => at_the_limit(rng),
        _ if many => at_the_limit(rng),
        _ => (rng.below(5), rng.below(6)),
    };
    let n = if many { rng.from(505, 516) } else { rng.below(8) };
    let schools = random_schools(rng, s);
    let in_turn = rng.once_in(2);
    let bid = |k: u64| {
        let turn = if in_turn { k } else { rng.next() };
        random_bid(rng, &schools, turn, t)
    };
    let bids = (0..n).map(bid).collect();
    File { slots: t as u8, optional: random_optional(rng, t), schools, bids }
}

/// S and T that make 64 together.
fn at_the_limit(rng: &mut Rng) -> (u64, u64) {
    let s = rng.below(65);
    (s, 64 - s)
}

/// Schools that are all narrow and distinct, or with sites that agree in the low byte, or any of a few; rarely one of them becomes wide.
fn random_schools(rng: &mut Rng, s: u64) -> Vec<School> {
    const SITES: [u16; 6] = [0, 1, 255, 256, 257, 65535];
    let kind = rng.below(8);
    let school = |j: u64| match kind {
        0 => (SITES[rng.below(6) as usize], rng.below(16) as u8),
        1 => (2 + 256 * (j % 7) as u16, (j / 7) as u8),
        2 => (rng.below(3) as u16, rng.below(3) as u8),
        _ => ((j / 16) as u16, (j % 16) as u8),
    };
    let mut schools: Vec<School> = (0..s).map(school).collect();
    if s > 0 && rng.once_in(8) {
        schools[rng.below(s) as usize].0 |= 256;
    }
    schools
}

/// The schools take turns.
fn random_bid(rng: &mut Rng, schools: &[School], turn: u64, t: u64) -> Bid {
    let mut school = if schools.is_empty() { (1, 4) } else { schools[turn as usize % schools.len()] };
    if rng.once_in(60) {
        school.0 ^= 1 << rng.below(16);
    }
    let mut slots = rng.next() & rng.next() & below(t);
    if rng.once_in(60) {
        slots |= 1 << rng.below(64);
    }
    Bid { school, slots, cost: rng.next() as u16 }
}

fn random_optional(rng: &mut Rng, t: u64) -> u64 {
    match rng.below(30) {
        0 => 1 << rng.below(64),
        1 if t > 0 => 1 << ((t - 1) % 64),
        2 => 1 << (t % 64),
        3..=8 => below(t),
        9..=14 => rng.next() & below(t),
        _ => 0,
    }
}

/// The slots below t.
fn below(t: u64) -> u64 {
    if t >= 64 {
        u64::MAX
    } else {
        (1 << t) - 1
    }
}

/// Changes bytes before the check is computed.
fn damage(rng: &mut Rng, b: &mut Vec<u8>) {
    let at = rng.below(b.len() as u64) as usize;
    match rng.below(24) {
        0 => b[rng.below(3) as usize] ^= 0x20,
        1 => b[3 + rng.below(2) as usize] ^= 1 << rng.below(8),
        2 => b[3] = 3 - b[3].min(2),
        3 => b[5 + rng.below(4) as usize] = rng.next() as u8,
        4 => b[at] = rng.next() as u8,
        5 => b.truncate(at),
        6 => b.insert(at, rng.next() as u8),
        _ => {}
    }
}

/// Changes bytes, the check among them, after it is computed.
fn damage_sealed(rng: &mut Rng, b: &mut Vec<u8>) {
    let at = rng.below(b.len() as u64) as usize;
    match rng.below(24) {
        0 => b.truncate(at),
        1 => b.push(0),
        2 => b[at] ^= 1 << rng.below(8),
        3 => {
            let check = b.len() - 1 - rng.below(4) as usize;
            b[check] ^= 1 << rng.below(8);
        }
        _ => {}
    }
}

// ---- what is the same in each run

fn compare(file: &[u8]) {
    each_call(&mut Rng(1), file, &mut Tally::NONE.clone());
}

/// What the four calls say of a file with buffers for nothing.
fn refusals(file: &[u8]) -> [u32; 4] {
    compare(file);
    let read = |version| ffi::read_bids(version, file, &mut [], &mut []).refusal;
    let convert = |from| ffi::convert(from, file, &mut []).refusal;
    [read(1), read(2), convert(1), convert(2)]
}

fn bid(school: School, slots: u64, cost: u16) -> Bid {
    Bid { school, slots, cost }
}

/// Document 01's example.
fn small() -> File {
    let (one, two) = ((1, 4), (2, 4));
    let bids = vec![bid(one, 1, 3), bid(one, 2, 1), bid(two, 2, 2), bid(two, 1, 5), bid(one, 3, 2), bid(two, 0, 9)];
    File { slots: 2, optional: 0, schools: vec![one, two], bids }
}

/// It in both versions: lengths and checks were computed elsewhere.
pub fn example() {
    let (old, new) = (sealed(body(1, &small())), sealed(body(2, &small())));
    assert_eq!((old.len(), &old[85..]), (89, &[0x20, 0xc8, 0x65, 0x3d][..]));
    assert_eq!((new.len(), &new[101..]), (105, &[0xbf, 0xc7, 0xc5, 0x46][..]));
    let mut out = [7; 110];
    assert_eq!((ffi::convert(1, &old, &mut out).value, &out[..105], &out[105..]), (105, &new[..], &[7; 5][..]));
    assert_eq!((ffi::convert(2, &new, &mut out).value, &out[..89], &out[89..105], &out[105..]), (89, &old[..], &new[89..], &[7; 5][..]));
    [&old, &new].into_iter().for_each(|b| compare(b));
}

/// Each bit of the example changed, with the check as it was and computed anew; version 2 also with a slot optional.
pub fn each_bit() {
    for (version, optional) in [(1, 0), (2, 0), (2, 2)] {
        let file = sealed(body(version, &File { optional, ..small() }));
        for bit in 0..8 * file.len() {
            let mut b = file.clone();
            b[bit / 8] ^= 1 << (bit % 8);
            compare(&b);
            b.truncate(file.len() - 4);
            compare(&sealed(b));
        }
    }
}

/// The example cut and lengthened, the check as it was or computed anew; and each length of buffer.
pub fn each_length() {
    for version in [1, 2] {
        let mut longer = sealed(body(version, &small()));
        let expected = convert(version, &longer);
        for length in 0..120 {
            convert_into(version, &longer, &expected, vec![9; length]);
        }
        longer.extend([0; 30]);
        for length in 0..longer.len() {
            let b = longer[..length].to_vec();
            compare(&b);
            compare(&sealed(b));
        }
    }
}

/// A file of s schools, each with one package of these slots.
fn one_each(version: u16, s: u64, t: u64, optional: u64, slots: u64) -> Vec<u8> {
    let schools: Vec<School> = (0..s).map(|j| (j as u16, 4)).collect();
    let bids = schools.iter().map(|&school| bid(school, slots, 1)).collect();
    sealed(body(version, &File { slots: t as u8, optional, schools, bids }))
}

fn accepted(version: u16, file: &[u8]) {
    assert!(read(version, file).is_ok(), "{file:?}");
    compare(file);
}

/// S and T that make 64, or one more; the last slot, all slots or the one behind them optional or in packages.
pub fn limits() {
    for s in 0..=64 {
        let t = 64 - s;
        let last = below(t) & !(below(t) >> 1);
        accepted(1, &one_each(1, s, t, 0, last));
        accepted(2, &one_each(2, s, t, last, last));
        accepted(2, &one_each(2, s, t, below(t), below(t)));
        assert_eq!(refusals(&one_each(1, s, t + 1, 0, 0)), [24, 22, 24, 22]);
        assert_eq!(refusals(&one_each(2, s, t + 1, 0, 0)), [22, 24, 22, 24]);
        if s > 0 {
            assert_eq!(refusals(&one_each(1, s, t, 0, 1 << t)), [26, 22, 26, 22]);
            assert_eq!(refusals(&one_each(2, s, t, last, 1 << t)), [22, 26, 22, 26]);
            assert_eq!(refusals(&one_each(2, s, t, 1 << t, last)), [22, 31, 22, 31]);
        }
    }
}

/// The longest file that is accepted, of 60 schools, 4 slots and 512 packages; one package more; and the empty file.
pub fn longest() {
    let schools: Vec<School> = (0..60).map(|j| (j, 4)).collect();
    let bids: Vec<Bid> = (0..513).map(|k| bid(schools[k % 60], k as u64 / 60, k as u16)).collect();
    for (version, length) in [(1, 6277), (2, 6857)] {
        let file = |n: usize| sealed(body(version, &File { slots: 4, optional: 0, schools: schools.clone(), bids: bids[..n].to_vec() }));
        assert_eq!(file(512).len(), length);
        accepted(version, &file(512));
        assert_eq!(refusals(&file(513))[version as usize - 1], 24);
        accepted(version, &one_each(version, 0, 0, 0, 0));
    }
}

/// Sites that agree in the low byte are not the same; no site above 255 goes down, whether its school has packages or not.
pub fn wide_sites() {
    let file = |schools: &[School], of: &[School]| {
        let bids = of.iter().zip(0..).map(|(&school, t)| bid(school, 1 << t, 5)).collect();
        sealed(body(2, &File { slots: 3, optional: 0, schools: schools.to_vec(), bids }))
    };
    let (narrow, wide, wider) = ((2, 4), (258, 4), (65282, 4));
    let alike = file(&[narrow, wide, wider], &[wider, narrow, wide]);
    assert_eq!(refusals(&alike), [22, 15, 22, 32]);
    let (mut packages, mut costs) = ([0; 9], [0; 3]);
    ffi::read_bids(2, &alike, &mut packages, &mut costs);
    assert_eq!(packages, [1 << 2 | 1 << 3, 0, 0, 1 << 0 | 1 << 4, 0, 0, 1 << 1 | 1 << 5, 0, 0]);
    assert_eq!(refusals(&file(&[narrow, wide], &[narrow])), [22, 15, 22, 32]);
    assert_eq!(refusals(&file(&[wide], &[])), [22, 0, 22, 32]);
    assert_eq!(refusals(&file(&[(256, 4)], &[(256, 4)])), [22, 15, 22, 32]);
    assert_eq!(refusals(&file(&[(255, 4)], &[(255, 4)])), [22, 15, 22, 15]);
    assert_eq!(refusals(&file(&[narrow], &[narrow, wide])), [22, 26, 22, 26]);
    assert_eq!(refusals(&file(&[wide], &[narrow])), [22, 26, 22, 26]);
}

/// What is wrong is put right one after the other, and each call says the next.
pub fn refusal_order() {
    let (wide, other) = ((258, 4), (258, 5));
    let mut f = File { slots: 2, optional: 6, schools: vec![wide; 2], bids: vec![bid(wide, 4, 1); 2] };
    let mut b = body(2, &f);
    (b[0], b[3], b[6]) = (b'p', 3, 63);
    b.extend([9; 5]);
    let of_2 = |reader, converter| [22, reader, 22, converter];
    assert_eq!(refusals(&b[..12]), [20; 4]);
    assert_eq!(refusals(&b), [21; 4]);
    b[0] = b'P';
    assert_eq!(refusals(&b), [22; 4]);
    b[3] = 2;
    assert_eq!(refusals(&b), of_2(24, 24));
    b[6] = 2;
    assert_eq!(refusals(&b), of_2(20, 20));
    b.pop();
    assert_eq!(refusals(&b), of_2(23, 23));
    let said = |version: u16, f: &File| refusals(&sealed(body(version, f)));
    assert_eq!(said(2, &f), of_2(31, 31));
    f.optional = 2;
    assert_eq!(said(2, &f), of_2(25, 25));
    f.schools[1] = other;
    assert_eq!(said(2, &f), of_2(26, 26));
    f.bids = vec![bid(wide, 3, 1), bid(wide, 3, 2)];
    assert_eq!(said(2, &f), of_2(27, 27));
    f.bids[1].slots = 2;
    assert_eq!(said(2, &f), of_2(15, 32));
    f.schools[0].0 = 255;
    f.bids.iter_mut().for_each(|x| x.school.0 = 255);
    assert_eq!(said(2, &f), of_2(15, 32));
    f.schools[1].0 = 255;
    assert_eq!(said(2, &f), of_2(15, 33));
    f.optional = 0;
    assert_eq!(said(2, &f), of_2(15, 15));
    assert_eq!(said(1, &f), [15, 22, 15, 22]);
}
