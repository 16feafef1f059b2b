//! Lawful structures of components: rows of TDMS numbers that rise in (FLN1, FCP), and the one that is none.

use crate::map;
use crate::xorshift::Xorshift;

/// Fields of a component at most.
const FIELDS: usize = 8;
/// All ones: there is no such component, or there will be none.
pub const DELETION: u64 = (1 << 62) - 1;

/// The fields of a component. Some have one, some are full.
pub fn list(random: &mut Xorshift) -> Vec<u64> {
    let count = [1, 1, 2, 3, 1 + random.below(FIELDS), FIELDS][random.below(6)];
    rising((0..count).map(|_| structure(random)).collect())
}

/// Fields of a small stock, so that structures share them and come back. Some differ in what does not count for their order.
pub fn of_stock(random: &mut Xorshift) -> Vec<u64> {
    let count = 1 + random.below(4);
    let mut number = |from: u32, below| from + random.below(below) as u32;
    let rows = (0..count).map(|_| [number(0, 4), number(10, 2), 1023, 1023, 40, 50]);
    rising(rows.collect())
}

/// More fields than a map has room for.
pub fn long(random: &mut Xorshift) -> Vec<u64> {
    let count = FIELDS + 1 + random.below(3);
    let lines = 0..count as u32;
    rising(lines.map(|line| [line, 20, 1023, 1023, 40, 50]).collect())
}

/// The same fields but for one, which goes, comes, or is another.
pub fn altered(random: &mut Xorshift, list: &[u64]) -> Vec<u64> {
    let mut rows: Vec<[u32; 6]> = list.iter().map(|&tdms| map::unpack(tdms).1).collect();
    if rows.len() > 1 && random.chance() {
        rows.remove(random.below(rows.len()));
    }
    if rows.len() < FIELDS && random.chance() {
        rows.push(structure(random));
    }
    rising(rows)
}

/// Some of the same fields, one at least.
pub fn reduced(random: &mut Xorshift, list: &[u64]) -> Vec<u64> {
    let kept = random.below(list.len());
    let fields = list.iter().enumerate();
    fields
        .filter(|&(place, _)| place == kept || random.chance())
        .map(|(_, &tdms)| tdms)
        .collect()
}

/// Numbers in their order. Of those that would be at one place, one is kept.
fn rising(mut rows: Vec<[u32; 6]>) -> Vec<u64> {
    rows.sort_by_key(|row| (row[0], row[4]));
    rows.dedup_by_key(|row| (row[0], row[4]));
    rows.into_iter().map(|row| map::pack(row).1).collect()
}

/// Six numbers whose pairs are good, and which are not a deletion.
fn structure(random: &mut Xorshift) -> [u32; 6] {
    let [first, second] = [pair(random, 1023), pair(random, 1023)];
    let [fcp, lcp] = pair(random, 2047);
    if [first, second] == [[1023; 2]; 2] {
        return [0, 622, 1023, 1023, fcp, lcp];
    }
    [first[0], first[1], second[0], second[1], fcp, lcp]
}

/// A first and a last number. Small ones come often, so that fields differ in one number only.
fn pair(random: &mut Xorshift, ones: u32) -> [u32; 2] {
    let below = [4, ones as usize][random.below(2)];
    let one = random.below(below) as u32;
    let other = random.below(below) as u32;
    match random.below(8) {
        0 => [ones, ones],
        1 => [0, ones - 1],
        2 => [one, one],
        _ => [one.min(other), one.max(other)],
    }
}
