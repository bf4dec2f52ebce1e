//! Bids files of both versions by documents 01 and 02, and the conversions. Nothing here is taken from the library.

use crate::model::Set;

/// A site and a number.
pub type School = (u16, u8);

#[derive(Clone, PartialEq, Eq, Debug)]
pub struct Bid {
    pub school: School,
    pub slots: u64,
    pub cost: u16,
}

/// What a file says; of version 1 no slot is optional.
#[derive(Clone, PartialEq, Eq, Debug)]
pub struct File {
    pub slots: u8,
    pub optional: u64,
    pub schools: Vec<School>,
    pub bids: Vec<Bid>,
}

pub fn fnv(bytes: &[u8]) -> u32 {
    bytes.iter().fold(2166136261, |h: u32, &b| (h ^ b as u32).wrapping_mul(16777619))
}

/// The file with its check.
pub fn sealed(mut body: Vec<u8>) -> Vec<u8> {
    body.extend(fnv(&body).to_le_bytes());
    body
}

/// The length of a file of s schools and n packages.
fn length(version: u16, s: u64, n: u64) -> u64 {
    match version {
        1 => 13 + 2 * s + 12 * n,
        _ => 21 + 3 * s + 13 * n,
    }
}

fn site_bytes(version: u16) -> usize {
    match version {
        1 => 1,
        _ => 2,
    }
}

/// Takes a number of so many bytes off the front.
fn take(b: &mut &[u8], bytes: usize) -> u64 {
    let (front, rest) = b.split_at(bytes);
    *b = rest;
    front.iter().rev().fold(0, |n, &x| n << 8 | x as u64)
}

fn take_school(version: u16, b: &mut &[u8]) -> School {
    let site = take(b, site_bytes(version));
    (site as u16, take(b, 1) as u8)
}

fn take_bid(version: u16, b: &mut &[u8]) -> Bid {
    let school = take_school(version, b);
    let slots = take(b, 8);
    Bid { school, slots, cost: take(b, 2) as u16 }
}

/// The slots are all below t.
fn known(slots: u64, t: u64) -> bool {
    Set([slots, 0, 0]).below(t as u32)
}

/// Reads a file of the version: what it says, or its refusal but 15.
pub fn read(version: u16, b: &[u8]) -> Result<File, u32> {
    if b.len() < 13 {
        return Err(20);
    }
    if &b[..3] != b"PSB" {
        return Err(21);
    }
    let rest = &mut &b[3..];
    if take(rest, 2) != version as u64 {
        return Err(22);
    }
    let (s, t, n) = (take(rest, 1), take(rest, 1), take(rest, 2));
    if s + t > 64 || n > 512 {
        return Err(24);
    }
    if b.len() as u64 != length(version, s, n) {
        return Err(20);
    }
    if sealed(b[..b.len() - 4].to_vec()) != b {
        return Err(23);
    }
    let optional = if version == 2 { take(rest, 8) } else { 0 };
    let schools: Vec<School> = (0..s).map(|_| take_school(version, rest)).collect();
    let bids: Vec<Bid> = (0..n).map(|_| take_bid(version, rest)).collect();
    if !known(optional, t) {
        return Err(31);
    }
    if (0..schools.len()).any(|j| schools[..j].contains(&schools[j])) {
        return Err(25);
    }
    if bids.iter().any(|x| !schools.contains(&x.school) || !known(x.slots, t)) {
        return Err(26);
    }
    let same = |x: &Bid, y: &Bid| x.school == y.school && x.slots == y.slots;
    if (0..bids.len()).any(|k| bids[..k].iter().any(|x| same(x, &bids[k]))) {
        return Err(27);
    }
    Ok(File { slots: t as u8, optional, schools, bids })
}

/// What stands before the check; of a site above 255 version 1 has the low byte.
pub fn body(version: u16, f: &File) -> Vec<u8> {
    let school = |x: School| {
        let mut b = x.0.to_le_bytes()[..site_bytes(version)].to_vec();
        b.push(x.1);
        b
    };
    let mut b = b"PSB".to_vec();
    b.extend(version.to_le_bytes());
    b.extend([f.schools.len() as u8, f.slots]);
    b.extend((f.bids.len() as u16).to_le_bytes());
    if version == 2 {
        b.extend(f.optional.to_le_bytes());
    }
    f.schools.iter().for_each(|&x| b.extend(school(x)));
    for x in &f.bids {
        b.extend(school(x.school));
        b.extend(x.slots.to_le_bytes());
        b.extend(x.cost.to_le_bytes());
    }
    b
}

/// A file of version `from` as one of the other: it, or the refusal but 15.
pub fn convert(from: u16, b: &[u8]) -> Result<Vec<u8>, u32> {
    let f = read(from, b)?;
    let to = 3 - from;
    if to == 1 && f.schools.iter().any(|x| x.0 > 255) {
        return Err(32);
    }
    if to == 1 && f.optional != 0 {
        return Err(33);
    }
    Ok(sealed(body(to, &f)))
}

impl File {
    /// Slots as items.
    fn items(&self, slots: u64) -> Set {
        Set::of(Set([slots, 0, 0]).items().map(|t| self.schools.len() as u32 + t))
    }

    pub fn optional_items(&self) -> Set {
        self.items(self.optional)
    }

    /// The items of each package: its school and its slots.
    pub fn packages(&self) -> Vec<Set> {
        let school = |x: &Bid| self.schools.iter().position(|&y| y == x.school).unwrap() as u32;
        self.bids.iter().map(|x| Set::of([school(x)]).or(self.items(x.slots))).collect()
    }

    pub fn costs(&self) -> Vec<u16> {
        self.bids.iter().map(|x| x.cost).collect()
    }
}
