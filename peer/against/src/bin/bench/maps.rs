//! The map's calls beside the second program's: a multiplex of 64 components in one field each, as it comes round.

use crate::rounds::Row;
use second::map::{FIELD, IDS, MAP};
use std::hint::black_box;

/// As many frames as the count tells apart.
const FRAMES: usize = 256;

/// What a call of each kind looks like on both sides.
type Take = fn(&mut [u8], &[u8]) -> u8;
type Show = fn(&[u8], u8, u8) -> (u8, usize, usize, u8, u8, u8);
type List = fn(&[u8], u8, &mut [u8]) -> u8;

pub fn measure() {
    let fields = fields();
    let mut maps = [[0; MAP]; 2];
    let [mine, other] = &mut maps;
    let ours = || take_all(against::map::take, mine, &fields);
    let fast = || take_all(black_box(second::map::take), other, &fields);
    Row::measure(FRAMES, ours, fast).print("map take");
    let map = maps[0];
    assert!(map == maps[1], "both sides leave the same map");
    let ours = || show_all(against::map::show, &map);
    let fast = || show_all(black_box(second::map::show), &map);
    Row::measure(IDS, ours, fast).print("map show");
    let ours = || list_all(against::map::list, &map);
    let fast = || list_all(black_box(second::map::list), &map);
    Row::measure(FRAMES, ours, fast).print("map list");
}

/// A present field in every frame, component after component.
fn fields() -> Vec<[u8; FIELD]> {
    let field = |frame: usize| {
        let id = (frame % 64) as u8;
        let line = 10 * u32::from(id) + 1;
        let (number, tdms) = second::map::pack([line, line + 8, 1023, 1023, 9, 205]);
        assert_eq!(number, 0);
        let mut bytes = [0; FIELD];
        let links = (frame / 64 % 2) as u8;
        let number = second::map::write(frame as u8, 0, id, tdms, links, &mut bytes);
        assert_eq!(number, 0);
        bytes
    };
    (0..FRAMES).map(field).collect()
}

fn take_all(take: Take, map: &mut [u8; MAP], fields: &[[u8; FIELD]]) -> u64 {
    let mut sum = 0;
    for field in fields {
        sum += u64::from(take(map, field));
        black_box(&map);
    }
    sum
}

fn show_all(show: Show, map: &[u8; MAP]) -> u64 {
    let mut sum = 0;
    for id in 0..=u8::MAX {
        let (number, at, len, ..) = show(map, id, 255);
        sum += u64::from(number) + (at + len) as u64;
    }
    sum
}

fn list_all(list: List, map: &[u8; MAP]) -> u64 {
    let mut marks = [0; IDS];
    let mut sum = 0;
    for count in 0..=u8::MAX {
        sum += u64::from(list(map, count, &mut marks)) + u64::from(marks[7]);
        black_box(&marks);
    }
    sum
}
