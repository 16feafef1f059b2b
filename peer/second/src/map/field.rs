//! A field of the multiplex's description (ETS 300 352, 4.5.4): a row of 80 bits, cut into numbers and joined again.

use crate::bits;
use crate::numbers::{refuse_unless, BAD_PAIR, LENGTH, TOO_LARGE};

/// Bytes of a field.
pub const FIELD: usize = 10;
/// The component that is a panning vector. Its TDMS is no structure, so nothing is asked of it.
pub const PANNING: u8 = 0x81;

/// FCNT, UDF, TDMCID, TDMS and LINKS, and how many bits each has.
const FIELD_WIDTHS: [usize; 5] = [8, 1, 8, TDMS_WIDTH, 1];
/// FLN1, LLN1, FLN2, LLN2, FCP and LCP in a TDMS.
const TDMS_WIDTHS: [usize; 6] = [10, 10, 10, 10, 11, 11];
const TDMS_WIDTH: usize = 62;
/// All ones of a line number.
const NO_LINE: u32 = 1023;

#[derive(Clone, Debug, PartialEq, Eq)]
pub struct Field {
    pub count: u8,
    /// Whether it is about what comes into force with the next change.
    pub flag: bool,
    pub id: u8,
    pub tdms: u64,
    pub links: bool,
}

impl Field {
    /// What ten bytes hold. Refused: 20 for any other length.
    pub fn decode(bytes: &[u8]) -> Result<Field, u8> {
        refuse_unless(bytes.len() == FIELD, LENGTH)?;
        let [count, flag, id, tdms, links] = cut(&bits::of_bytes(bytes), FIELD_WIDTHS);
        Ok(Field {
            count: count as u8,
            flag: flag == 1,
            id: id as u8,
            tdms,
            links: links == 1,
        })
    }

    pub fn encode(&self) -> Vec<u8> {
        let numbers = [
            self.count.into(),
            self.flag.into(),
            self.id.into(),
            self.tdms,
            self.links.into(),
        ];
        bits::to_bytes(&join(numbers, FIELD_WIDTHS))
    }

    /// Refused: 44 for a pair that goes backwards or has an end that is none.
    pub fn refuse_bad_pairs(&self) -> Result<(), u8> {
        let pairs = [0, 2, 4].map(|first| pair_is_good(self.tdms, first));
        refuse_unless(self.is_panning() || pairs == [true; 3], BAD_PAIR)
    }

    pub fn is_panning(&self) -> bool {
        self.id == PANNING
    }

    /// Whether the component is said not to be there. The clock periods may be anything.
    pub fn is_deletion(&self) -> bool {
        parts(self.tdms)[..4] == [NO_LINE; 4]
    }
}

/// The first and the last number of a pair may be equal, all ones too. Otherwise they rise, and the last is not all
/// ones.
fn pair_is_good(tdms: u64, first: usize) -> bool {
    let numbers = parts(tdms);
    let ones = largest(TDMS_WIDTHS[first + 1]);
    let (first, last) = (numbers[first], numbers[first + 1]);
    first == last || first < last && last != ones
}

/// By what the fields of a component follow each other: FLN1, and FCP where that is the same.
pub fn key(tdms: u64) -> (u32, u32) {
    let [fln1, _, _, _, fcp, _] = parts(tdms);
    (fln1, fcp)
}

/// The six numbers of a TDMS. What stands above its 62 bits is not looked at.
pub fn parts(tdms: u64) -> [u32; 6] {
    cut(&bits::of_wide(tdms, TDMS_WIDTH), TDMS_WIDTHS).map(|number| number as u32)
}

/// The TDMS of six numbers. Refused: 33 if one does not fit.
pub fn of_parts(numbers: [u32; 6]) -> Result<u64, u8> {
    let fits = |(&number, width): (&u32, usize)| number <= largest(width);
    let all = numbers.iter().zip(TDMS_WIDTHS).all(fits);
    refuse_unless(all, TOO_LARGE)?;
    Ok(bits::to_wide(&join(numbers.map(u64::from), TDMS_WIDTHS)))
}

/// Refused: 33 for a number that has more bits than a TDMS.
pub fn refuse_wide(tdms: u64) -> Result<(), u8> {
    let kept = bits::to_wide(&bits::of_wide(tdms, TDMS_WIDTH));
    refuse_unless(kept == tdms, TOO_LARGE)
}

/// The number that is so many ones.
fn largest(width: usize) -> u32 {
    bits::to_number(&vec![true; width])
}

/// A row's numbers, each of its width. The row is as long as all of them together.
fn cut<const N: usize>(row: &[bool], widths: [usize; N]) -> [u64; N] {
    let mut rest = row;
    widths.map(|width| {
        let (these, others) = rest.split_at(width);
        rest = others;
        bits::to_wide(these)
    })
}

fn join<const N: usize>(numbers: [u64; N], widths: [usize; N]) -> Vec<bool> {
    let both = numbers.iter().zip(widths);
    both.flat_map(|(&number, width)| bits::of_wide(number, width))
        .collect()
}
