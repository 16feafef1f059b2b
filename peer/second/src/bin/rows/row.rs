//! A row of text: a name, numbers, and behind `=` the numbers that are to come; `#` begins a comment. And what it does to bytes.

pub struct Row<'a> {
    /// All that stands before what is awaited.
    call: &'a str,
    pub name: &'a str,
    pub args: Vec<u64>,
    pub wants: Vec<u64>,
    comment: &'a str,
}

impl Row<'_> {
    /// A line's row; none where it is empty or only a comment. What is no row is not passed over.
    pub fn parse(line: &str) -> Option<Row<'_>> {
        let (text, comment) = line.split_at(line.find('#').unwrap_or(line.len()));
        let (call, wants) = text.split_once('=').unwrap_or((text, ""));
        let mut words = call.split(' ').filter(|word| !word.is_empty());
        let name = words.next()?;
        Some(Row {
            call: call.trim_end(),
            name,
            args: words.map(number).collect(),
            wants: wants.split(' ').filter(|word| !word.is_empty()).map(number).collect(),
            comment,
        })
    }

    /// The same row, with other numbers awaited.
    pub fn with(&self, wants: &[u64]) -> String {
        let numbers: String = wants.iter().map(|&n| format!(" {}", spelt(n))).collect();
        let space = if self.comment.is_empty() { "" } else { "   " };
        format!("{} ={numbers}{space}{}", self.call, self.comment)
    }
}

fn number(word: &str) -> u64 {
    let read = match word.strip_prefix("0x") {
        Some(digits) => u64::from_str_radix(digits, 16),
        None => word.parse(),
    };
    read.unwrap_or_else(|_| panic!("no number: {word}"))
}

/// Large numbers are digests, or structures.
fn spelt(n: u64) -> String {
    if n < 65536 {
        n.to_string()
    } else {
        format!("0x{n:08x}")
    }
}

pub fn digest(bytes: &[u8]) -> u64 {
    second::fnv::digest(bytes).into()
}

/// What rows set by hand.
pub fn put(bytes: &mut [u8], at: u64, values: &[u64]) -> Vec<u64> {
    for (place, &value) in (at as usize..).zip(values) {
        bytes[place] = byte(value);
    }
    vec![digest(bytes)]
}

pub fn fill(bytes: &mut [u8], from: u64, step: u64) -> Vec<u64> {
    let mut next = byte(from);
    for place in bytes.iter_mut() {
        *place = next;
        next = next.wrapping_add(byte(step));
    }
    vec![digest(bytes)]
}

pub fn turn(bytes: &mut [u8], from: u64, bits: &[u64]) -> Vec<u64> {
    for bit in bits.iter().map(|bit| (from + bit) as usize) {
        bytes[bit / 8] ^= 1 << (bit % 8);
    }
    vec![digest(bytes)]
}

pub fn byte(n: u64) -> u8 {
    n.try_into().expect("a number of 8 bits")
}

pub fn wide(n: u64) -> u32 {
    n.try_into().expect("a number of 32 bits")
}

/// The first bytes, or all where there are not so many.
pub fn front(bytes: &[u8], len: u64) -> &[u8] {
    &bytes[..bytes.len().min(len as usize)]
}
