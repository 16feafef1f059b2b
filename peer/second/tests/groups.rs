//! Groups: the worked ones, section 4's table on every head with dirt in the rooms, and what is written comes back.

mod sha256;

use second::group::{packet, packet_detail, write_group, Detailed};
use second::image::{protect, write_image, TYPE_AT};
use second::samples::{difference, flip, flip_some, states, word_at};
use second::slot::SLOT as SIZE;
use second::table::{ask, follow, set_header_flips};
use second::types::DATA;
use second::xorshift::Xorshift;

/// Made by two other programs from the same text.
const PROTECTED_GROUP: &str = "a72de0907726530efe7b494c4eecc6ce8309a3f210dbcf266ac4d4530472f9dd";
const PLAIN_GROUP: &str = "3d95d0fbc8db258e393ff562f7780cb6205337bf5145934917bc4f04c5054aea";

/// Where the slot under test begins, its address, and where its fields are.
const SLOT: usize = 5 * SIZE;
const ADDRESS: u32 = 300;
const AGE: usize = 728;
const PROTECTION: usize = 732;
const AWAITED: usize = 733;
const WHOLE: usize = 734;
const GAP: usize = 735;

fn counting(length: usize) -> Vec<u8> {
    (0..length).map(|i| i as u8).collect()
}

#[test]
fn the_digest_is_right() {
    let empty = "e3b0c44298fc1c149afbf4c8996fb92427ae41e4649b934ca495991b7852b855";
    let abc = "ba7816bf8f01cfea414140de5dae2223b00361a396177a9cb410ff61f20015ad";
    assert_eq!([sha256::hex(b""), sha256::hex(b"abc")], [empty, abc]);
}

#[test]
fn worked_groups() {
    let mut output = [0xA5; 376];
    assert_eq!(write_group(17, 1, &counting(180), &mut output), 0);
    assert_eq!(sha256::hex(&output), PROTECTED_GROUP);
    assert_eq!(write_group(17, 0, &counting(360), &mut output), 0);
    assert_eq!(sha256::hex(&output), PLAIN_GROUP);
}

/// "A protected group of zeros must show 00 00 80": in an image each byte is moved by one bit.
#[test]
fn a_protected_group_of_zeros_shows_its_parity() {
    let mut output = [0; 376];
    assert_eq!(write_group(17, 1, &[0; 180], &mut output), 0);
    for image in output.chunks(94) {
        assert_eq!(image[4..], [0x00, 0x00, 0x40].repeat(30));
    }
}

#[test]
fn written_groups_come_back() {
    let mut random = Xorshift::new(61);
    for round in 0..40 {
        let (address, protection) = (1 + random.below(1022) as u32, round % 2);
        let length = if protection == 1 { 180 } else { 360 };
        let message = random.bytes::<360>()[..length].to_vec();
        let mut images = [0; 376];
        assert_eq!(write_group(address, protection, &message, &mut images), 0);
        let mut state = states::started();
        assert_eq!(follow(&mut state, address, protection, 1), 0);
        let answers: Vec<u8> = images.chunks(94).map(|i| packet(&mut state, i)).collect();
        assert_eq!(answers, [1, 2, 2, 3]);
        assert_eq!(ask(&state, address), (5, 360, length));
        assert_eq!(state[360..360 + length], message);
    }
}

/// The first row that holds, over every choice of right and wrong.
#[test]
fn refusals_of_the_writer() {
    for address in [0, 1, 1022, 1023, 65_536 + 17, u32::MAX] {
        for protection in [0, 1, 2, 256, u32::MAX] {
            for length in [0, 1, 179, 180, 181, 359, 360, 361, 720] {
                for room in [0, 1, 94, 375, 376, 377, 752] {
                    let mut output = vec![0xA5; room];
                    let number = write_group(address, protection, &counting(length), &mut output);
                    assert_eq!(number, row(address, protection, length, room));
                    assert!(number == 0 || output.iter().all(|&byte| byte == 0xA5));
                }
            }
        }
    }
}

fn row(address: u32, protection: u32, length: usize, room: usize) -> u8 {
    let right = match protection {
        _ if address == 0 || address > 1022 => return 22,
        0 => length == 360 && room == 376,
        1 => length == 180 && room == 376,
        _ => return 23,
    };
    if right {
        0
    } else {
        20
    }
}

/// A good state in which every room is full of dirt; the slot under test has this protection and awaits this index.
fn dirty(random: &mut Xorshift, protected: bool, awaited: u8) -> Vec<u8> {
    let mut state = states::started();
    for (place, bytes) in (0..).zip(state.chunks_exact_mut(SIZE)) {
        let mut slot = states::slot(random, ADDRESS - 5 + place);
        slot.unfinished = random.bytes();
        slot.group = random.bytes();
        bytes.copy_from_slice(&slot.encode());
    }
    state[SLOT + PROTECTION] = protected.into();
    state[SLOT + AWAITED] = awaited;
    state
}

fn image_of(protected: bool, index: u8, kind: u8, data: &[u8]) -> [u8; 94] {
    let useful = if protected {
        protect(data.try_into().expect("45 bytes"))
    } else {
        data.try_into().expect("90 bytes")
    };
    write_image(ADDRESS, index.into(), kind, &useful)
}

/// All heads: what is awaited, and what comes.
fn pairs() -> impl Iterator<Item = (u8, u8)> + Clone {
    (0..16).map(|n| (n / 4, n % 4))
}

/// All slots but one keep every byte; that one is told byte by byte in `taken`.
#[test]
fn the_table_of_section_4() {
    let mut random = Xorshift::new(62);
    for (awaited, index) in pairs().cycle().take(64) {
        for (protected, size) in [(false, 90), (true, 45)] {
            let data = random.bytes::<90>()[..size].to_vec();
            let mut state = dirty(&mut random, protected, awaited);
            let mut after = state.clone();
            let number = taken(&mut after[SLOT..SLOT + SIZE], index, &data);
            let image = image_of(protected, index, DATA, &data);
            let mut other = state.clone();
            let carried = if number == 32 {
                (awaited, index)
            } else {
                (0, 0)
            };
            assert_eq!(packet_detail(&mut state, &image), told(number, carried));
            assert_eq!(difference(&state, &after), None, "{awaited} {index}");
            // The call that tells only the number does the same.
            assert_eq!(packet(&mut other, &image), number);
            assert_eq!(difference(&other, &after), None, "{awaited} {index}");
        }
    }
}

fn told(number: u8, (awaited_or_place, came): (u8, u8)) -> Detailed {
    Detailed {
        number,
        awaited_or_place,
        came,
    }
}

/// What a readable packet does to a slot's bytes, in section 4's words.
fn taken(slot: &mut [u8], index: u8, data: &[u8]) -> u8 {
    let (awaited, size) = (slot[AWAITED], data.len());
    let at = usize::from(index) * size;
    if index == 0 {
        slot[..360].fill(0);
        slot[..size].copy_from_slice(data);
        slot[AWAITED] = 1;
        if awaited > 0 {
            slot[GAP] = 1;
        }
        return 1;
    }
    if index != awaited {
        dropped(slot);
        return 32;
    }
    slot[at..at + size].copy_from_slice(data);
    if index < 3 {
        slot[AWAITED] = index + 1;
        return 2;
    }
    slot.copy_within(..360, 360);
    slot[360 + 4 * size..720].fill(0);
    slot[..360].fill(0);
    slot[AGE..AGE + 4].fill(0);
    slot[AWAITED] = 0;
    slot[WHOLE] = 1;
    slot[GAP] = 0;
    3
}

fn dropped(slot: &mut [u8]) {
    slot[..360].fill(0);
    slot[AWAITED] = 0;
    slot[GAP] = 1;
}

/// 28, 47, 30 and 31 come before 32, and do the same, whatever is awaited and whatever comes. 29 comes before it too, and does
/// nothing, not even to dirt.
#[test]
fn what_cannot_be_read_ends_the_group() {
    let mut random = Xorshift::new(63);
    for (awaited, index) in pairs() {
        for (kind, number) in [(0x55, 28), (0x3F, 29), (0xC7, 47), (0xF8, 30), (DATA, 31)] {
            let mut state = dirty(&mut random, true, awaited);
            let mut after = state.clone();
            if number != 29 {
                dropped(&mut after[SLOT..SLOT + SIZE]);
            }
            let mut image = image_of(true, index, kind, &random.bytes::<45>());
            // Four flips in a word, also where the type is refused before.
            let place = random.below(30);
            flip_some(&mut random, &mut image, word_at(place), 4);
            let carried = if number == 31 { place as u8 } else { 0 };
            let answer = packet_detail(&mut state, &image);
            assert_eq!(answer, told(number, (carried, 0)));
            assert_eq!(difference(&state, &after), None, "{number}");
        }
    }
}

/// Packets of the slot under test that are out of step; each but the first has a word that cannot be read, too.
fn out_of_step() -> [[u8; 94]; 6] {
    let step = image_of(true, 1, DATA, &[7; 45]);
    let mut word = step;
    for bit in [0, 9, 18, 23] {
        flip(&mut word, word_at(29).start + bit);
    }
    // A type is one of four, or none: which of these refusals comes first cannot be seen.
    let [none, control, reserved, scrambled] = [0x15, 0x3F, 0xC7, 0xF8].map(|kind| {
        let mut image = word;
        (0..8).for_each(|bit| set(&mut image, TYPE_AT.start + bit, kind >> bit & 1 == 1));
        image
    });
    [step, word, none, control, reserved, scrambled]
}

/// Each of these has the faults of those below it too, so that only the order can decide.
#[test]
fn the_order_of_a_packet() {
    let mut good = dirty(&mut Xorshift::new(64), true, 0);
    assert_eq!(set_header_flips(&mut good, 2), 0);
    let mut bad = good.clone();
    bad[SLOT + GAP] = 2;
    let [step, word, none, control, reserved, scrambled] = out_of_step();
    let other = write_image(ADDRESS + 100, 1, 0x15, &[7; 90]);
    let mut far = other;
    for bit in [0, 9, 20] {
        flip(&mut far, bit);
    }
    let mut spare = far;
    spare[93] |= 128;
    let rows: [(&[u8], &[u8], u8, (u8, u8)); 13] = [
        (&bad[1..], &spare[1..], 20, (0, 0)),
        (&bad, &spare[1..], 20, (0, 0)),
        (&bad[1..], &spare, 20, (0, 0)),
        (&bad, &spare, 34, (0, 0)),
        (&good, &spare, 21, (0, 0)),
        (&good, &far, 49, (0, 0)),
        (&good, &other, 27, (0, 0)),
        (&good, &none, 28, (0, 0)),
        (&good, &control, 29, (0, 0)),
        (&good, &reserved, 47, (0, 0)),
        (&good, &scrambled, 30, (0, 0)),
        (&good, &word, 31, (29, 0)),
        (&good, &step, 32, (0, 1)),
    ];
    for (state, image, number, carried) in rows {
        let answer = packet_detail(&mut state.to_vec(), image);
        assert_eq!(answer, told(number, carried));
    }
}

fn set(bytes: &mut [u8], bit: usize, one: bool) {
    if (bytes[bit / 8] >> (bit % 8) & 1 == 1) != one {
        flip(bytes, bit);
    }
}
