//! Every list of a few fields that a map can hold of a component, and every structure that may come round instead: when it is right, and
//! what is shown on the way.

use second::map::{pack, Structure};

/// What the fields of a structure can be: of four places in the order, and at one of these there are two of which a structure has one.
fn lists() -> Vec<Vec<u64>> {
    let field = |place: u32, last: u32| pack([place, last, 1023, 1023, 40, 50]).1;
    let mut lists = vec![vec![]];
    for fields in [
        vec![field(0, 9)],
        vec![field(1, 8), field(1, 9)],
        vec![field(2, 9)],
        vec![field(3, 9)],
    ] {
        for list in lists.clone() {
            lists.extend(fields.iter().map(|&it| [&list[..], &[it]].concat()));
        }
    }
    // The first is that of no fields.
    lists.split_off(1)
}

/// Each place in a list at which it may begin, with LINKS that changes and without.
fn ways(list: &[u64]) -> impl Iterator<Item = (usize, bool)> {
    (0..list.len()).flat_map(|place| [(place, false), (place, true)])
}

/// A list that is being gathered.
fn open(list: &[u64], links: bool) -> Structure {
    let mut structure = Structure {
        fields: list.len() as u8,
        links,
        ..Structure::default()
    };
    structure.rooms[..list.len()].copy_from_slice(list);
    structure
}

/// A list that is whole, and how far it has come round.
fn whole(list: &[u64], last: usize) -> Structure {
    Structure {
        whole: true,
        last: last as u8,
        ..open(list, false)
    }
}

/// What is shown while a structure comes round five times, from its field of some place on. From so many beginnings of a repetition on it
/// is right.
fn heals(
    from: &Structure,
    new: &[u64],
    place: usize,
    alternates: bool,
    enough: usize,
) -> Vec<Structure> {
    let mut structure = from.clone();
    let (mut beginnings, mut shown) = (0, vec![]);
    for k in place..5 * new.len() {
        let links = alternates && k / new.len() % 2 == 1;
        structure.take(new[k % new.len()], links);
        beginnings += usize::from(k % new.len() == 0);
        let right = structure.whole && structure.list() == new;
        assert!(right || beginnings < enough, "{from:?} {new:x?} {place}");
        shown.extend(structure.whole.then(|| structure.clone()));
    }
    shown
}

/// The same, and before that nothing is shown but what was.
fn comes_round(from: &Structure, new: &[u64], place: usize, alternates: bool, enough: usize) {
    for shown in heals(from, new, place, alternates, enough) {
        let was = from.whole && shown.list() == from.list();
        assert!(was || shown.list() == new, "{from:?} {new:x?} {place}");
    }
}

/// From a whole list, however far it has come round: with the third beginning.
#[test]
fn from_a_whole_list() {
    let lists = lists();
    assert_eq!(lists.len(), 23);
    for old in &lists {
        for last in 0..=old.len() {
            for new in &lists {
                for (place, alternates) in ways(new) {
                    comes_round(&whole(old, last), new, place, alternates, 3);
                }
            }
        }
    }
}

/// From nothing, from a list that was spoiled, and from one that is being gathered and is of the structure: with the second.
#[test]
fn from_a_list_that_is_not_whole() {
    let spoiled = open(&[(1 << 62) - 1], false);
    for new in &lists() {
        for (place, alternates) in ways(new) {
            comes_round(&Structure::default(), new, place, alternates, 2);
            comes_round(&spoiled, new, place, alternates, 2);
            for begun in 0..place {
                let part = open(&new[begun..place], false);
                comes_round(&part, new, place, alternates, 2);
            }
        }
    }
}

/// From any other list that is being gathered, too, though no lawful broadcast leads there: with the third.
#[test]
fn from_any_list_that_is_not_whole() {
    let lists = lists();
    for old in &lists {
        for new in &lists {
            for (place, alternates) in ways(new) {
                heals(&open(old, false), new, place, alternates, 3);
                heals(&open(old, true), new, place, alternates, 3);
            }
        }
    }
}
