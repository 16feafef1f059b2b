//! Broadcasts that are heard from the middle on, and not all of it: the laws, after every frame and for every component.

use crate::laws::{Laws, Seen};
use second::samples::broadcast::{Broadcast, Frame, Sent};
use second::samples::rounds;
use second::samples::style::{Order, Style};
use second::xorshift::Xorshift;

/// A little more than five wraps of the count, of which up to one passes before the listener is switched on.
const FRAMES: usize = 5 * 256 + 9;
/// Components at most: few come round often, and 128 are a full multiplex.
const MOST: [usize; 8] = [1, 1, 2, 3, 5, 20, 128, 128];

/// Who hears some of the frames.
struct Ear {
    random: Xorshift,
    habit: Habit,
    /// How many frames will not be heard, and how many were not since the last one.
    gap: usize,
    missed: usize,
}

#[derive(Clone, Copy, Debug)]
enum Habit {
    HearsAll,
    /// One frame in so many is missed.
    One(usize),
    /// In one of so many frames it begins to miss some, up to as many as may be.
    Some(usize),
    /// Frames about the changes are missed, here and there.
    About,
    /// Of the frames about a change one is missed: that of this count, modulo 128.
    OneAbout(u8),
    /// What is announced is missed, in this configuration or not.
    NoNews(bool),
}

impl Ear {
    fn new(seed: u64, habit: usize) -> Ear {
        let mut random = Xorshift::new(seed);
        let lost = [2, 8, 40, 150, 400][random.below(5)];
        let habit = match habit % 8 {
            0 | 1 => Habit::NoNews(true),
            2 => Habit::HearsAll,
            3 => Habit::About,
            4 => Habit::OneAbout(0),
            5 => Habit::One(lost),
            _ => Habit::Some(lost),
        };
        Ear {
            random,
            habit,
            gap: 0,
            missed: 0,
        }
    }

    fn hears(&mut self, frame: &Frame) -> bool {
        let (count, random) = (frame.count % 128, &mut self.random);
        let about = [126, 127, 0, 1, 2, 3, 4].contains(&count);
        self.gap = match &mut self.habit {
            Habit::HearsAll => 0,
            Habit::One(lost) => usize::from(random.below(*lost) == 0),
            Habit::Some(_) if self.gap > 0 => self.gap - 1,
            Habit::Some(lost) if random.below(*lost) > 0 => 0,
            Habit::Some(_) => [1, random.below(8), random.below(128), 127][random.below(4)],
            Habit::About => usize::from(about && random.below(4) == 0),
            Habit::OneAbout(missed) => {
                if count == 64 {
                    *missed = [126, 0, 1, 1, 2, 2, 3, 65][random.below(8)];
                }
                usize::from(count == *missed)
            }
            Habit::NoNews(deaf) => {
                if frame.first {
                    *deaf = random.below(4) > 0;
                }
                usize::from(*deaf && matches!(frame.sent, Sent::New(..) | Sent::Going(_)))
            }
        };
        // No more than 127 in a row are missed.
        let hears = self.gap == 0 || self.missed == 127;
        self.missed = if hears { 0 } else { self.missed + 1 };
        hears
    }
}

/// One broadcast, by its number.
fn follow(number: usize, seen: &mut Seen) -> String {
    let mut random = Xorshift::new(3320 + 2 * number as u64);
    let mut style = Style::any(&mut random, MOST[number % MOST.len()]);
    let (most, habit) = (number % MOST.len(), number / MOST.len());
    // The second full one comes round within a configuration or two, so that the map has all of it.
    if most == MOST.len() - 1 {
        style.short = true;
        style.cyclic = true;
    }
    // One that misses what is announced hears all before and behind it.
    if habit % 8 == 0 {
        style.order = Order::NewLast;
    }
    let mut broadcast = Broadcast::with(random.next(), random.below(256) as u8, style);
    let mut ear = Ear::new(random.next(), habit);
    // The listener is switched on before it hears anything.
    let on = random.below(256);
    let first = on + [0, random.below(200)][random.below(2)];
    for _ in 0..on {
        broadcast.frame();
    }
    let mut frame = broadcast.frame();
    let mut laws = Laws::new(style, &frame);
    for k in on..FRAMES {
        let broken = seen.broken.len();
        if k == first || k > first && ear.hears(&frame) {
            laws.hear(&frame, seen);
        } else {
            laws.miss(&frame);
        }
        for (_, _, text) in &mut seen.broken[broken..] {
            *text += &format!(", frame {k}, count {}", frame.count);
        }
        frame = broadcast.frame();
    }
    format!("{number} {style:?} {:?}", ear.habit)
}

#[test]
fn the_laws_hold() {
    let mut seen = Seen::default();
    for number in 0..rounds(64) {
        let told = follow(number, &mut seen);
        assert_eq!(seen.broken.first(), None, "{told}");
    }
    println!("{seen:?}");
    assert!(seen.shown > 1_000_000, "{seen:?}");
    assert!(seen.stale > 10_000, "{seen:?}");
    assert!(seen.unfinished > 1_000_000, "{seen:?}");
    assert!(seen.third > 10_000, "{seen:?}");
    assert!(seen.healed > 10, "{seen:?}");
    assert!(seen.second > 5_000, "{seen:?}");
    assert!(seen.kept > 100_000, "{seen:?}");
    assert!(seen.kept_over_change > 500, "{seen:?}");
    assert!(seen.announced > 10_000, "{seen:?}");
    assert!(seen.found > 100_000, "{seen:?}");
    assert!(seen.gone > 100_000, "{seen:?}");
    assert!(seen.unknown > 1_000_000, "{seen:?}");
    assert!(seen.parts > 100_000, "{seen:?}");
    assert!(seen.components > 128, "{seen:?}");
    assert!(seen.certain > 90, "{seen:?}");
}
