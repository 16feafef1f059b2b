//! The multiplex's map: the library against the second implementation, every lent buffer compared byte for byte after
//! every call, refused ones too.

mod both;
mod numbers;
mod program;

use both::{Both, LAST};
use second::map::{pack, Field, COMPONENT, IDS, MAP, PANNING, STRUCTURE};
use second::samples::broadcast::Broadcast;
use second::samples::style::Style;
use second::samples::{maps, rounds};
use second::xorshift::Xorshift;

/// Counts about the changes and the wraps.
const COUNTS: [u8; 10] = [0, 1, 2, 3, 127, 128, 129, 130, 131, 255];

fn started() -> Both {
    let mut both = Both::new(&[0xA5; MAP]);
    assert_eq!(both.start(), 0);
    both
}

/// Heard from a configuration's first frame on, and from before there is a component: nothing stays open.
#[test]
fn lawful_broadcasts() {
    let mut random = Xorshift::new(401);
    for seed in 0..rounds(8) as u64 {
        let origin = [2, 130][random.below(2)];
        let mut broadcast = Broadcast::new(500 + 2 * seed, origin);
        let mut both = started();
        for _ in 0..3 * 256 {
            let frame = broadcast.frame();
            for _ in 0..[1, 5][random.below(2)] {
                assert_eq!(both.take(&frame.field), 0);
            }
            let behind = frame.count.wrapping_add(1);
            let ids = frame.present.keys().chain(frame.next.keys());
            for &id in ids.take(4).chain([&maps::id(&mut random)]) {
                assert_eq!(both.show(id, frame.count), 0);
                assert_eq!(both.show(id, behind), 0);
            }
            assert_eq!(both.list(behind, IDS), 0);
            assert_eq!(both.known(behind), 0);
        }
    }
}

/// The same with frames lost, so that lists stay open.
#[test]
fn broadcasts_with_frames_lost() {
    let mut random = Xorshift::new(402);
    let mut unfinished = 0;
    for seed in 0..rounds(8) as u64 {
        let mut broadcast = Broadcast::new(600 + 2 * seed, random.below(256) as u8);
        let mut both = started();
        let lost = 2 + random.below(30);
        for _ in 0..3 * 256 {
            let frame = broadcast.frame();
            if random.below(lost) == 0 {
                continue;
            }
            assert_eq!(both.take(&frame.field), 0);
            for &id in frame.present.keys() {
                unfinished += usize::from(both.show(id, frame.count) == 46);
            }
            both.list(COUNTS[random.below(10)], IDS);
            both.known(COUNTS[random.below(10)]);
        }
    }
    assert!(unfinished > 100, "{unfinished}");
}

/// From the middle on, in a multiplex that has components already, with up to 127 frames lost in a row.
#[test]
fn broadcasts_from_the_middle_on() {
    let mut random = Xorshift::new(411);
    let mut unfinished = 0;
    for seed in 0..rounds(12) as u64 {
        let style = Style::any(&mut random, [1, 3, 20, 128][seed as usize % 4]);
        let mut broadcast = Broadcast::with(700 + 2 * seed, random.below(256) as u8, style);
        let mut both = started();
        for _ in 0..128 + random.below(384) {
            broadcast.frame();
        }
        for _ in 0..200 {
            let gap = [0, 0, 0, 0, 0, 0, 1, 127, random.below(128)][random.below(9)];
            for _ in 0..gap {
                broadcast.frame();
            }
            let frame = broadcast.frame();
            assert_eq!(both.take(&frame.field), 0);
            let ids = frame.present.keys().chain(frame.next.keys());
            for &id in ids.step_by(1 + frame.present.len() / 8) {
                unfinished += usize::from(both.show(id, frame.count) == 46);
                both.show(id, frame.count.wrapping_add(1));
            }
            both.list(frame.count, IDS);
            both.known(frame.count);
        }
    }
    assert!(unfinished > 100, "{unfinished}");
}

/// A list that becomes known.
const KNOWN: [(u8, bool, u32); 4] = [
    (121, false, 11),
    (122, false, 21),
    (123, false, 31),
    (124, false, 11),
];

/// A part is not shown as the whole: each row is (count, flag, line) of component 7, heard one after the other, and what is shown in
/// the last frame. The frames that a row leaves out are of no matter where it says so, and otherwise missed.
#[test]
fn parts() {
    let cut_off: [&[(u8, bool, u32)]; 3] = [
        &[(0, true, 21), (1, true, 11), (2, false, 11)],
        &[(1, true, 11), (2, false, 11)],
        &[(1, false, 11), (2, false, 11)],
    ];
    for row in cut_off {
        assert_eq!(heard(row, 0..0).show(7, 2), 46, "{row:?}");
    }
    let missed = [(124, true, 11), (129, true, 11), (130, false, 11)];
    assert_eq!(heard(&missed, 2..124).show(7, 130), 46);
    assert_eq!(heard(&KNOWN, 0..0).show(7, 124), 0);
    let again = [
        (125, true, 21),
        (126, true, 31),
        (127, true, 11),
        (130, false, 31),
        (131, false, 11),
    ];
    assert_eq!(heard(&[&KNOWN[..], &again].concat(), 0..0).show(7, 131), 46);
    // 127 frames are missed, and the change is seen.
    for (last, next) in [(1, 129), (129, 1)] {
        assert_eq!(heard(&[(last, true, 11)], 0..0).show(7, next), 46);
        let mut both = heard(&[(last, true, 11), (next, true, 11)], 0..0);
        assert_eq!(both.show(7, next), 46);
    }
}

/// The same of announcements of which all frames are heard, and that do not begin with their first field at last.
#[test]
fn late_announcements() {
    // It begins in the middle.
    let middle = [(125, true, 21), (126, true, 31), (127, true, 11)];
    assert_eq!(heard(&middle, 2..125).show(7, 130), 46);
    // Nine fields go into a second repetition.
    let nine: Vec<_> = (2..20).map(|k| (k, true, u32::from(k - 2) % 9)).collect();
    for length in 9..18 {
        let mut both = heard(&nine[..length], 0..0);
        idle(&mut both, nine[length].0..131);
        assert_eq!(both.show(7, 130), 46, "{length}");
    }
}

/// A whole list that shrank unheard: the third beginning of a repetition shows it.
#[test]
fn a_list_that_shrank() {
    let mut both = heard(&KNOWN, 0..0);
    for (count, line, number) in [
        (132, 11, 0),
        (133, 31, 46),
        (134, 11, 46),
        (135, 31, 46),
        (136, 11, 0),
    ] {
        assert_eq!(both.take(&field(count, false, 7, line).encode()), 0);
        assert_eq!(both.show(7, count), number);
    }
}

/// When nothing heard is taken for none: behind 255 frames in a row, and until one is missed.
#[test]
fn unknown() {
    let mut both = started();
    for k in 0..300_u16 {
        let count = k as u8;
        both.take(&field(count, false, PANNING, 5).encode());
        assert_eq!((both.show(7, count), both.list(count, IDS)), (0, 0));
        assert_eq!(both.known(count), 0);
    }
    for count in 46..60 {
        both.take(&field(count, false, PANNING, 5).encode());
        assert_eq!((both.show(7, count), both.known(count)), (0, 0));
    }
}

/// 128 announced, a change, and 127 more: none is refused, and with one in force beside them another is.
#[test]
fn more_than_128() {
    let mut both = started();
    let others = (128..=255).filter(|&id| id != PANNING);
    for (count, id) in (2..130).zip(0..128) {
        assert_eq!(both.take(&field(count, true, id, 11).encode()), 0);
    }
    idle(&mut both, 130..131);
    for (count, id) in (131..=255).chain([0, 1]).zip(others) {
        assert_eq!(both.take(&field(count, true, id, 11).encode()), 0);
        both.known(count);
    }
    idle(&mut both, 2..3);
    assert_eq!((both.known(2), both.list(2, IDS)), (0, 0));
    for (count, id, number) in [(3, 5, 0), (4, 6, 45), (5, 5, 0), (6, 255, 0)] {
        assert_eq!(both.take(&field(count, false, id, 11).encode()), number);
    }
}

/// Frames of no matter.
fn idle(both: &mut Both, counts: std::ops::Range<u8>) {
    for count in counts {
        assert_eq!(both.take(&field(count, false, PANNING, 5).encode()), 0);
    }
}

/// A map that has heard frames of no matter, and then fields of component 7.
fn heard(row: &[(u8, bool, u32)], before: std::ops::Range<u8>) -> Both {
    let mut both = started();
    idle(&mut both, before);
    for &(count, flag, line) in row {
        assert_eq!(both.take(&field(count, flag, 7, line).encode()), 0);
    }
    both
}

fn field(count: u8, flag: bool, id: u8, line: u32) -> Field {
    let (number, tdms) = pack([line, line, 1023, 1023, 0, 99]);
    assert_eq!(number, 0);
    Field {
        count,
        flag,
        id,
        tdms,
        links: false,
    }
}

/// How often each number came of fields of any sort, in a row.
fn history(random: &mut Xorshift, map: &[u8], length: usize, counts: &mut [usize; 256]) {
    let mut both = Both::new(map);
    for _ in 0..length {
        let field = maps::field(random, both.last());
        counts[usize::from(both.take(&field))] += 1;
        let (id, count) = (maps::id(random), random.below(256) as u8);
        counts[usize::from(both.show(id, count))] += 1;
        counts[usize::from(both.show(id, both.last().wrapping_add(1)))] += 1;
        if random.below(4) == 0 {
            both.list(COUNTS[random.below(10)], IDS);
            both.known(COUNTS[random.below(10)]);
        }
    }
}

#[test]
fn fields_of_any_sort() {
    let mut random = Xorshift::new(403);
    let mut counts = [0; 256];
    history(&mut random, &[0; MAP], rounds(10_000), &mut counts);
    for number in [0, 44, 46] {
        assert!(counts[number] > 100, "{number}: {:?}", &counts[..50]);
    }
}

/// Good ones with any contents, and what comes of them.
#[test]
fn maps_made_by_hand() {
    let mut random = Xorshift::new(404);
    let mut counts = [0; 256];
    for _ in 0..rounds(500) {
        let map = maps::good(&mut random);
        let mut both = Both::new(&map);
        for count in [
            both.last(),
            random.below(256) as u8,
            COUNTS[random.below(10)],
        ] {
            both.list(count, IDS);
            both.known(count);
            both.show(random.below(256) as u8, count);
        }
        history(&mut random, &map, 12, &mut counts);
    }
    for number in [0, 44, 45, 46] {
        assert!(counts[number] > 100, "{number}: {:?}", &counts[..50]);
    }
}

/// Every component's place, in force and announced.
#[test]
fn every_component() {
    let mut random = Xorshift::new(405);
    for id in 0..=255 {
        let map = maps::good(&mut random);
        let mut both = Both::new(&map);
        let last = both.last();
        for count in [last, last.wrapping_add(1), 2] {
            both.show(id, count);
        }
        for flag in [false, true] {
            let field = Field {
                count: both.last().wrapping_add(1),
                flag,
                id,
                tdms: maps::tdms(&mut random),
                links: random.chance(),
            };
            both.take(&field.encode());
        }
    }
}

#[test]
fn bad_maps() {
    let mut random = Xorshift::new(406);
    for _ in 0..rounds(2_000) {
        let mut both = Both::new(&maps::bad(&mut random));
        // A bad pair too, often: the map is looked at before.
        let field = maps::field(&mut random, both.last());
        assert_eq!(both.take(&field), 34);
        assert_eq!(both.show(maps::id(&mut random), field[0]), 34);
        assert_eq!(both.list(field[0], IDS), 34);
        assert_eq!(both.known(field[0]), 34);
    }
}

/// Every value of every byte of some heads, of the byte behind each, and of the map's last four.
#[test]
fn every_byte_of_a_head() {
    let mut random = Xorshift::new(407);
    let mut map = maps::good(&mut random);
    let places = [0, 1, 2 * 0x81, 2 * 255, 2 * 255 + 1].map(|place| STRUCTURE * place);
    let heads = places.iter().flat_map(|&at| at..at + 8);
    for at in heads.chain(LAST..MAP) {
        let kept = map[at];
        for byte in 0..=255 {
            map[at] = byte;
            let mut both = Both::new(&map);
            both.show((at / COMPONENT) as u8, 2);
            both.known(2);
            both.take(&maps::field(&mut random, map[LAST]));
        }
        map[at] = kept;
    }
}

/// One less, one more, none, and much more, of every lent buffer; the map is good, bad, or anything.
#[test]
fn wrong_lengths() {
    let mut random = Xorshift::new(408);
    let contents = [maps::good(&mut random), maps::bad(&mut random)];
    let near = [MAP - COMPONENT, MAP - 1, MAP, MAP + 1];
    let far = [0, 1, 4, STRUCTURE, COMPONENT, 2 * MAP];
    for length in far.into_iter().chain(near) {
        for map in &contents {
            let map: Vec<u8> = map.iter().copied().cycle().take(length).collect();
            for room in [0, 1, 9, 10, 11, 20, 255, 256, 257, 512] {
                let mut both = Both::new(&map);
                both.take(&vec![7; room]);
                both.list(9, room);
            }
            let mut both = Both::new(&map);
            both.show(3, 9);
            both.known(9);
            both.start();
        }
    }
}
