//! Lawful broadcasts: in every frame, the map shows what is in force in it, and what will be in the next.

use second::map::{list, show, start, take, write, Map, FIELD, MAP, PANNING};
use second::numbers::DONE;
use second::samples::broadcast::{Broadcast, Configuration, Frame};
use second::samples::rounds;
use second::xorshift::Xorshift;

/// A little more than three wraps of the count.
const FRAMES: usize = 3 * 256 + 9;
const ORIGINS: [u8; 12] = [0, 1, 2, 3, 4, 64, 127, 128, 129, 130, 131, 255];

/// How often what a broadcast is for has happened.
#[derive(Debug, Default)]
struct Seen {
    changes: usize,
    announced: usize,
    early: usize,
    components: usize,
}

#[test]
fn what_is_in_force_is_shown() {
    let mut random = Xorshift::new(331);
    let mut seen = Seen::default();
    for round in 0..rounds(30) {
        let origin = match ORIGINS.get(round) {
            Some(&origin) => origin,
            None => random.below(256) as u8,
        };
        let map = listening(origin);
        follow(
            map,
            Broadcast::new(round as u64, origin),
            &mut random,
            &mut seen,
        );
    }
    assert!(seen.changes > 50, "{seen:?}");
    assert!(seen.announced > 10_000, "{seen:?}");
    assert!(seen.early > 10_000, "{seen:?}");
    assert!(seen.components > 50_000, "{seen:?}");
}

/// A map that has missed nothing of the configuration of this count's frame, which it hears next: one that is started with the
/// configuration's first frame, or that has heard nothing but panning vectors in all the frames before. What is announced to a late
/// listener it cannot know to be all.
fn listening(count: u8) -> Vec<u8> {
    let mut map = vec![0xA5; MAP];
    assert_eq!(start(&mut map), DONE);
    if count % 128 == 2 {
        return map;
    }
    let mut field = [0; FIELD];
    for before in (1..=128).rev() {
        assert_eq!(
            write(count.wrapping_sub(before), 0, PANNING, 0, 0, &mut field),
            DONE
        );
        assert_eq!(take(&mut map, &field), DONE);
    }
    map
}

fn follow(mut map: Vec<u8>, mut broadcast: Broadcast, random: &mut Xorshift, seen: &mut Seen) {
    for _ in 0..FRAMES {
        let frame = broadcast.frame();
        for _ in 0..1 + random.below(2) {
            assert_eq!(take(&mut map, &frame.field), DONE);
        }
        check(&map, &frame, random, seen);
        seen.changes += usize::from(frame.present != frame.following);
        seen.components += frame.present.len();
    }
}

fn check(map: &[u8], frame: &Frame, random: &mut Xorshift, seen: &mut Seen) {
    let behind = frame.count.wrapping_add(1);
    let values = Map::decode(map).expect("a good map");
    for id in 0..=255 {
        for (count, truth) in [(frame.count, &frame.present), (behind, &frame.following)] {
            let shown = values.show(id, count);
            assert_eq!(shown.number, DONE, "{id} {count}");
            assert_eq!(listed(map, shown.at, shown.length), fields(truth, id));
            let announced = frame.announced.contains(&id);
            assert_eq!(shown.announced, announced, "{id} {count}");
            let frames = if announced { frame.to_change } else { 0 };
            assert_eq!(shown.frames, frames, "{id} {count}");
            seen.announced += usize::from(announced);
        }
        // What is shown of a change before its time is what comes. All ones may still be followed by fields.
        let shown = values.show(id, 2);
        if frame.announced.contains(&id) && shown.length > 0 && frame.count % 128 != 2 {
            let list = listed(map, shown.at, shown.length);
            assert_eq!(list, fields(&frame.next, id), "{id} {}", frame.count);
            seen.early += 1;
        }
    }
    let enough = values.row == 255;
    check_list(map, frame.count, &frame.present, enough);
    check_list(map, behind, &frame.following, enough);
    // The call says what the values say.
    let id = random.below(256) as u8;
    assert_eq!(show(map, id, behind), values.show(id, behind).answers());
}

/// Every component that there is, and no other. Of others it may be that nothing is known, until enough was heard.
fn check_list(map: &[u8], count: u8, truth: &Configuration, enough: bool) {
    let mut out = [0xA5; 256];
    assert_eq!(list(map, count, &mut out), DONE);
    for (id, said) in (0..=255).zip(out) {
        let lawful: &[u8] = match (truth.contains_key(&id), enough) {
            (true, _) => &[1],
            (false, true) => &[0],
            (false, false) => &[0, 3],
        };
        assert!(lawful.contains(&said), "{id} {count} {said}");
    }
}

/// The fields in a part of a map.
fn listed(map: &[u8], at: usize, length: usize) -> Vec<u64> {
    let number = |bytes: &[u8]| u64::from_le_bytes(bytes.try_into().expect("eight bytes"));
    map[at..at + length].chunks(8).map(number).collect()
}

fn fields(configuration: &Configuration, id: u8) -> Vec<u64> {
    configuration.get(&id).cloned().unwrap_or_default()
}
