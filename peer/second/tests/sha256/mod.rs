//! SHA-256 (FIPS 180-4), for comparing with digests made elsewhere.

const START: [u32; 8] = [
    0x6A09_E667,
    0xBB67_AE85,
    0x3C6E_F372,
    0xA54F_F53A,
    0x510E_527F,
    0x9B05_688C,
    0x1F83_D9AB,
    0x5BE0_CD19,
];

pub fn hex(bytes: &[u8]) -> String {
    let mut state = START;
    for block in padded(bytes).chunks(64) {
        let step = compress(&state, block);
        for (word, more) in state.iter_mut().zip(step) {
            *word = word.wrapping_add(more);
        }
    }
    state.iter().map(|word| format!("{word:08x}")).collect()
}

/// A bit 1, zeros, and the count of bits at the end of the last block.
fn padded(bytes: &[u8]) -> Vec<u8> {
    let mut all = bytes.to_vec();
    all.push(0x80);
    while all.len() % 64 != 56 {
        all.push(0);
    }
    all.extend((8 * bytes.len() as u64).to_be_bytes());
    all
}

fn compress(state: &[u32; 8], block: &[u8]) -> [u32; 8] {
    let [mut a, mut b, mut c, mut d, mut e, mut f, mut g, mut h] = *state;
    let schedule = schedule(block);
    for (constant, word) in constants().zip(schedule) {
        let sum = e.rotate_right(6) ^ e.rotate_right(11) ^ e.rotate_right(25);
        let choice = e & f ^ !e & g;
        let one = [sum, choice, constant, word]
            .iter()
            .fold(h, |total, &more| total.wrapping_add(more));
        let sum = a.rotate_right(2) ^ a.rotate_right(13) ^ a.rotate_right(22);
        let majority = a & b ^ a & c ^ b & c;
        let two = sum.wrapping_add(majority);
        (h, g, f, e) = (g, f, e, d.wrapping_add(one));
        (d, c, b, a) = (c, b, a, one.wrapping_add(two));
    }
    [a, b, c, d, e, f, g, h]
}

fn schedule(block: &[u8]) -> Vec<u32> {
    let four = |bytes: &[u8]| u32::from_be_bytes(bytes.try_into().expect("four bytes"));
    let mut words: Vec<u32> = block.chunks(4).map(four).collect();
    for t in 16..64 {
        let (x, y) = (words[t - 15], words[t - 2]);
        let low = x.rotate_right(7) ^ x.rotate_right(18) ^ x >> 3;
        let high = y.rotate_right(17) ^ y.rotate_right(19) ^ y >> 10;
        let sum = words[t - 16].wrapping_add(words[t - 7]);
        words.push(sum.wrapping_add(low).wrapping_add(high));
    }
    words
}

/// The first 32 bits of the fractions of the cube roots of the first 64 primes.
fn constants() -> impl Iterator<Item = u32> {
    let prime = |n: &u64| (2..*n).all(|d| !n.is_multiple_of(d));
    (2..).filter(prime).take(64).map(cube_root_fraction)
}

/// The whole part of 2^32 times the cube root, without its bits above 2^32.
fn cube_root_fraction(n: u64) -> u32 {
    let cube = u128::from(n) << 96;
    let (mut low, mut high) = (0u128, 1 << 36);
    while high - low > 1 {
        let middle = (low + high) / 2;
        if middle * middle * middle <= cube {
            low = middle;
        } else {
            high = middle;
        }
    }
    low as u32
}
