//! The map's type for programs in Rust.

use against::feed::{Map, Reach, Refusal, Structure};
use against::map::{pack, write};
use second::map::{FIELD, MAP};
use second::samples::broadcast::Broadcast;
use second::samples::difference;

/// From annex C: a component that goes, and a structure that comes.
const DELETION: [u8; FIELD] = [0x75, 0x43, 0xFE, 0xFF, 0xFF, 0xFF, 0xFF, 0xFF, 0xFF, 0x7F];
const STRUCTURE: [u8; FIELD] = [0x76, 0x41, 0x16, 0xA8, 0xA0, 0xA8, 0xA6, 0xCA, 0xB1, 0x50];
const EXPECTED: Structure = Structure {
    first_lines: (11, 21),
    second_lines: (325, 333),
    clock_periods: (229, 1291),
};

fn annex_c_heard() -> Map {
    let mut map = Map::new();
    assert_eq!(map.take(&DELETION), Ok(()));
    assert_eq!(map.take(&STRUCTURE), Ok(()));
    map
}

fn reach(row: u8, unbroken: bool, components: usize) -> Reach {
    Reach {
        row,
        unbroken,
        components,
    }
}

#[test]
fn annex_c() {
    let mut map = annex_c_heard();
    assert_eq!(map.take(&STRUCTURE[1..]), Err(Refusal::Length));
    assert_eq!(map.change_in(0x20), Some(12));
    assert_eq!(map.change_in(0x22), None);
    // Of what is in force nothing was heard yet; of what comes, a part.
    assert_eq!(map.component(0x20, 118), Ok(None));
    assert_eq!(map.component(0x20, 130), Err(Refusal::Unfinished));
    assert_eq!(map.heard(0x20, 130), Ok((vec![EXPECTED], false)));
    assert_eq!(map.reach(118), reach(2, false, 0));
    assert_eq!(map.reach(130), reach(2, false, 1));
    assert_eq!(
        Refusal::Unfinished.to_string(),
        "the structure is not known to be whole (46)"
    );
}

/// In count 126 the structure comes again, and is known to be whole; the other frames are of no matter here.
#[test]
fn annex_c_to_the_change() {
    let mut map = annex_c_heard();
    let (_, tdms) = pack([11, 21, 325, 333, 229, 1291]);
    for count in 119..131 {
        let mut field = [0; FIELD];
        let written = match count {
            126 => write(count, 1, 0x20, tdms, 1, &mut field),
            _ => write(count, 0, 0x81, 5, 0, &mut field),
        };
        assert_eq!(written, 0);
        assert_eq!(map.take(&field), Ok(()));
    }
    assert_eq!(map.component(0x20, 130), Ok(Some(vec![EXPECTED])));
    assert_eq!(map.heard(0x20, 130), Ok((vec![EXPECTED], true)));
    assert_eq!(map.components(130), [0x20]);
    assert_eq!(map.reach(130), reach(14, true, 1));
    let mut kept = *map.bytes();
    assert!(Map::from_bytes(&kept).is_ok());
    kept[MAP - 2] = 2;
    assert_eq!(Map::from_bytes(&kept).err(), Some(Refusal::NotGood));
}

/// It says what the calls under it say.
#[test]
fn a_broadcast() {
    let mut broadcast = Broadcast::new(411, 130);
    let mut map = Map::default();
    let mut bytes = vec![0; MAP];
    for _ in 0..300 {
        let frame = broadcast.frame();
        assert_eq!(map.take(&frame.field), Ok(()));
        assert_eq!(second::map::take(&mut bytes, &frame.field), 0);
        assert_eq!(difference(map.bytes(), &bytes), None);
        let ids: Vec<u8> = frame.present.keys().copied().collect();
        assert_eq!(map.components(frame.count), ids);
        assert_eq!(map.reach(frame.count).components, ids.len());
        for (&id, list) in frame.present.iter() {
            let numbers = |it: Structure| {
                let [(a, b), (c, d)] = [it.first_lines, it.second_lines];
                let (e, f) = it.clock_periods;
                second::map::pack([a, b, c, d, e, f]).1
            };
            let shown = map.component(id, frame.count).expect("a whole list");
            let shown = shown.expect("a known one").into_iter().map(numbers);
            let shown: Vec<u64> = shown.collect();
            assert_eq!(&shown, list);
            let announced = frame.announced.contains(&id);
            assert_eq!(map.change_in(id), announced.then_some(frame.to_change));
        }
    }
}
