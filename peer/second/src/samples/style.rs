//! How a broadcaster goes about it. All of it is lawful, but for some of what LINKS does, which no listener may rest on.

use super::structures;
use crate::xorshift::Xorshift;

#[derive(Clone, Copy, Debug)]
pub struct Style {
    /// Components of a configuration at most.
    pub most: usize,
    /// Whether there are so many from the first frame on. Otherwise there are none.
    pub full: bool,
    /// Whether structures are made of few fields, so that they share them and come back.
    pub few: bool,
    /// Whether structures have one field, so that much is said in a configuration.
    pub short: bool,
    /// Whether some structures have more fields than a map has room for.
    pub long: bool,
    /// Whether the first repetition of a structure in force begins anywhere in it.
    pub middle: bool,
    /// Whether the components in force come one after the other.
    pub cyclic: bool,
    pub links: Links,
    pub order: Order,
}

/// When LINKS changes.
#[derive(Clone, Copy, Debug, PartialEq, Eq)]
pub enum Links {
    /// With each repetition of the announced fields, and of those in force, each by themselves.
    Each,
    /// With each repetition of either.
    Both,
    /// Not with each repetition, though never inside of one.
    Seldom,
    /// At any time, among the fields in force.
    Anyhow,
}

/// Where announcements stand among the other fields of a configuration.
#[derive(Clone, Copy, Debug, PartialEq, Eq)]
pub enum Order {
    Mixed,
    NewFirst,
    NewLast,
}

impl Default for Style {
    fn default() -> Style {
        Style {
            most: 20,
            full: false,
            few: false,
            short: false,
            long: false,
            middle: false,
            cyclic: false,
            links: Links::Each,
            order: Order::Mixed,
        }
    }
}

impl Style {
    /// Any style with so many components at most. Of many, the structures are often short, so that all come round.
    pub fn any(random: &mut Xorshift, most: usize) -> Style {
        let many = most > 100;
        Style {
            most,
            full: many || random.below(4) != 0,
            few: random.chance(),
            short: random.below(if many { 2 } else { 8 }) == 0,
            long: random.below(4) == 0,
            middle: random.chance(),
            cyclic: random.chance(),
            links: match random.below(7) {
                0..=2 => Links::Each,
                3 | 4 => Links::Both,
                5 => Links::Seldom,
                _ => Links::Anyhow,
            },
            order: [Order::Mixed, Order::NewFirst, Order::NewLast][random.below(3)],
        }
    }

    /// Whether a structure becomes another that differs a little.
    pub fn alters(&self) -> bool {
        !self.few && !self.short
    }

    /// A structure.
    pub fn list(&self, random: &mut Xorshift) -> Vec<u64> {
        let mut list = match random.below(4) {
            0 if self.long => structures::long(random),
            _ if self.few => structures::of_stock(random),
            _ => structures::list(random),
        };
        if self.short {
            list.truncate(1);
        }
        list
    }
}
