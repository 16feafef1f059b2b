//! One component's fields, announced or in force, sent over and over; and LINKS, which tells the repetitions apart.

use super::style::Links;
use crate::xorshift::Xorshift;

/// Who sends one component's fields.
pub struct Speaker {
    pub id: u8,
    /// No fields: all ones are sent.
    pub list: Vec<u64>,
    /// How many all ones come before the first field.
    ones: usize,
    /// How many of its fields were sent, and LINKS of this repetition.
    sent: usize,
    links: bool,
}

impl Speaker {
    /// One that announces a structure from its first field on, behind some all ones; or that there will be none.
    pub fn new(id: u8, ones: usize, list: Vec<u64>) -> Speaker {
        Speaker {
            id,
            list,
            ones,
            sent: 0,
            links: false,
        }
    }

    /// One that begins with the field of some place.
    pub fn from(id: u8, list: Vec<u64>, place: usize) -> Speaker {
        Speaker {
            sent: place,
            ..Speaker::new(id, 0, list)
        }
    }

    /// How many frames it takes to say all.
    pub fn needs(&self) -> usize {
        self.ones + self.list.len()
    }

    /// The next field's place, TDMS and LINKS; none for all ones.
    pub fn speak(
        &mut self,
        random: &mut Xorshift,
        switches: &mut Switches,
    ) -> Option<(usize, u64, u8)> {
        if self.ones > 0 {
            self.ones -= 1;
            return None;
        }
        let place = self.sent.checked_rem(self.list.len())?;
        if place == 0 {
            self.links = switches.turn(random, self.id, self.links);
        }
        self.sent += 1;
        Some((place, self.list[place], self.links.into()))
    }
}

/// LINKS, at each beginning of a repetition.
pub struct Switches {
    links: Links,
    /// Of each component the last one, announced or in force.
    last: [bool; 256],
}

impl Switches {
    pub fn new(links: Links) -> Switches {
        Switches {
            links,
            last: [false; 256],
        }
    }

    /// LINKS of a repetition that begins, where that of the one before was `own`.
    fn turn(&mut self, random: &mut Xorshift, id: u8, own: bool) -> bool {
        let last = &mut self.last[usize::from(id)];
        *last = match self.links {
            Links::Each | Links::Anyhow => !own,
            Links::Both => !*last,
            Links::Seldom => own ^ (random.below(4) == 0),
        };
        *last
    }
}
