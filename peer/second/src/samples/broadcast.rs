//! Lawful broadcasts of the multiplex's description: frames without end, one field in each. The broadcaster knows what
//! is in force and what it has announced. It knows nothing of the map that a listener keeps.
//!
//! The fields of a component go round in order, those in force and those announced each by themselves. A repetition is sent
//! whole, over a change too where the component stays as it is. An announcement begins with the first field, and all ones
//! come before it where a component is deleted and made anew by the same change.

use super::speaker::{Speaker, Switches};
use super::structures::{self, altered, reduced};
use super::style::{Links, Order, Style};
use crate::map::{self, FIELD, PANNING};
use crate::xorshift::Xorshift;
use std::collections::{BTreeMap, BTreeSet};
use std::rc::Rc;

/// The TDMS numbers of each component that there is, rising in (FLN1, FCP).
pub type Configuration = BTreeMap<u8, Vec<u64>>;

/// A frame, and what is true in it.
pub struct Frame {
    pub count: u8,
    pub field: [u8; FIELD],
    pub sent: Sent,
    /// Whether a configuration begins with it.
    pub first: bool,
    /// What is in force in this frame, in the one behind it, and from the next change on.
    pub present: Rc<Configuration>,
    pub following: Rc<Configuration>,
    pub next: Rc<Configuration>,
    /// The components of which something was announced since the last change.
    pub announced: BTreeSet<u8>,
    /// In how many frames the next change comes.
    pub to_change: u8,
}

/// What the field of a frame is.
#[derive(Clone, Copy, Debug, PartialEq, Eq)]
pub enum Sent {
    /// The so-and-so-many-th field, counted from 0, of a component's structure: the announced one, or the one in force.
    New(u8, usize),
    Old(u8, usize),
    /// All ones of a component, with the flag and without.
    Going(u8),
    Gone(u8),
    Panning,
}

pub struct Broadcast {
    random: Xorshift,
    style: Style,
    /// The count of the frame that comes next.
    count: u8,
    present: Rc<Configuration>,
    next: Rc<Configuration>,
    /// How far the fields of each component in force have come round, and those of each announcement.
    rounds: BTreeMap<u8, Speaker>,
    speakers: Vec<Speaker>,
    switches: Switches,
    announced: BTreeSet<u8>,
    /// The component in force that was spoken of last.
    last: u8,
    /// Whose turn it is in each frame up to the change, the next one last.
    turns: Vec<Turn>,
}

/// Of what a frame's field is.
#[derive(Clone, Copy, PartialEq, Eq)]
enum Turn {
    /// An announcement, by the place of its speaker.
    Announced(usize),
    /// A component that is in force.
    Present,
    /// One that is not.
    Absent,
    Panning,
}

impl Broadcast {
    /// A broadcast whose first frame has this count, and in which there is nothing yet.
    pub fn new(seed: u64, count: u8) -> Broadcast {
        Broadcast::with(seed, count, Style::default())
    }

    pub fn with(seed: u64, count: u8, style: Style) -> Broadcast {
        let mut random = Xorshift::new(seed);
        let mut next = Configuration::new();
        while style.full && next.len() < style.most {
            next.insert(anybody(&mut random), style.list(&mut random));
        }
        Broadcast {
            random,
            style,
            count,
            present: Rc::default(),
            next: Rc::new(next),
            rounds: BTreeMap::new(),
            speakers: Vec::new(),
            switches: Switches::new(style.links),
            announced: BTreeSet::new(),
            last: 0,
            turns: Vec::new(),
        }
    }

    /// The next frame.
    pub fn frame(&mut self) -> Frame {
        if self.turns.is_empty() {
            self.change();
        }
        let turn = self.turns.pop().unwrap_or(Turn::Panning);
        let count = self.count;
        let (sent, field) = self.field(turn);
        self.count = count.wrapping_add(1);
        let last = self.turns.is_empty();
        let following = if last { &self.next } else { &self.present };
        Frame {
            count,
            field,
            sent,
            first: count % 128 == 2,
            present: Rc::clone(&self.present),
            following: Rc::clone(following),
            next: Rc::clone(&self.next),
            announced: self.announced.clone(),
            to_change: self.turns.len() as u8 + 1,
        }
    }

    /// Puts in force what was announced, and thinks of what comes next.
    fn change(&mut self) {
        self.present = Rc::clone(&self.next);
        let present = Rc::clone(&self.present);
        self.rounds
            .retain(|id, speaker| present.get(id) == Some(&speaker.list));
        self.announced.clear();
        self.speakers.clear();
        let frames = to_change(self.count);
        let mut left = frames;
        for _ in 0..self.attempts() {
            if let Some(speaker) = self.speaker().filter(|speaker| speaker.needs() <= left) {
                left -= speaker.needs();
                self.plan(speaker);
            }
        }
        self.fill(frames);
    }

    /// How many announcements to think of. Often there are none, and what is in force stays so.
    fn attempts(&mut self) -> usize {
        match self.random.below(3) {
            0 => 0,
            _ => 1 + self.random.below(self.style.most),
        }
    }

    /// An announcement for a component that has none yet: it comes, changes, goes, stays as it is, or is made anew.
    fn speaker(&mut self) -> Option<Speaker> {
        let (random, style) = (&mut self.random, self.style);
        let old = choose(random, &self.present).unwrap_or(0);
        let id = match random.below(3) {
            0 => any_id(random),
            _ => old,
        };
        let full = self.next.len() >= style.most;
        let (id, ones, list) = match (self.present.get(&id), random.below(10)) {
            (_, 0) => (id, 1, vec![]),
            // There is no room for one that comes, so another goes.
            (None, _) if full => (old, 1, vec![]),
            (Some(list), 1) => (id, random.below(2), list.clone()),
            (Some(list), 2 | 3) if style.alters() => (id, 0, altered(random, list)),
            (Some(list), 4..=6) => (id, 0, reduced(random, list)),
            (_, 7) => (id, 1 + random.below(2), style.list(random)),
            _ => (id, 0, style.list(random)),
        };
        let taken = self.speakers.iter().any(|speaker| speaker.id == id);
        (!taken).then(|| Speaker::new(id, ones, list))
    }

    /// Takes an announcement up, with a turn for all that it has to say.
    fn plan(&mut self, speaker: Speaker) {
        let next = Rc::make_mut(&mut self.next);
        if speaker.list.is_empty() {
            next.remove(&speaker.id);
        } else {
            next.insert(speaker.id, speaker.list.clone());
        }
        let turn = Turn::Announced(self.speakers.len());
        self.turns.extend(vec![turn; speaker.needs()]);
        self.speakers.push(speaker);
    }

    /// Gives the other frames up to the change to somebody, and puts all in an order.
    fn fill(&mut self, frames: usize) {
        let busy = self.random.chance();
        while self.turns.len() < frames {
            let turn = self.other_turn(busy);
            self.turns.push(turn);
        }
        shuffle(&mut self.random, &mut self.turns);
        let announces = |turn: &Turn| matches!(turn, Turn::Announced(_));
        // The last turn of the row comes first.
        match self.style.order {
            Order::Mixed => {}
            Order::NewFirst => self.turns.sort_by_key(announces),
            Order::NewLast => self.turns.sort_by_key(|turn| !announces(turn)),
        }
    }

    /// A turn beyond those that have to be. If it is busy, most are announcements over again.
    fn other_turn(&mut self, busy: bool) -> Turn {
        let random = &mut self.random;
        let announces = if busy { 6 } else { 1 };
        match random.below(8) {
            turn if turn < announces && !self.speakers.is_empty() => {
                Turn::Announced(random.below(self.speakers.len()))
            }
            0..=5 => Turn::Present,
            6 => Turn::Absent,
            _ => Turn::Panning,
        }
    }

    /// What is sent in a turn, and the bytes of it.
    fn field(&mut self, turn: Turn) -> (Sent, [u8; FIELD]) {
        let (sent, tdms, links) = match turn {
            Turn::Announced(place) => self.announce(place),
            Turn::Present => self.describe(),
            Turn::Absent => self.deny(),
            Turn::Panning => self.pan(),
        };
        let (flag, id) = match sent {
            Sent::New(id, _) | Sent::Going(id) => (1, id),
            Sent::Old(id, _) | Sent::Gone(id) => (0, id),
            Sent::Panning => (self.random.below(2) as u8, PANNING),
        };
        let mut field = [0; FIELD];
        let number = map::write(self.count, flag, id, tdms, links, &mut field);
        assert_eq!(number, 0, "a lawful field");
        (sent, field)
    }

    /// The next field of an announcement.
    fn announce(&mut self, place: usize) -> (Sent, u64, u8) {
        let speaker = &mut self.speakers[place];
        let id = speaker.id;
        self.announced.insert(id);
        match speaker.speak(&mut self.random, &mut self.switches) {
            Some((place, tdms, links)) => (Sent::New(id, place), tdms, links),
            None => self.ones(Sent::Going(id)),
        }
    }

    /// The next field of a component in force.
    fn describe(&mut self) -> (Sent, u64, u8) {
        let next = self.present.keys().find(|&&id| id > self.last);
        let id = match self.style.cyclic {
            true => next.or(self.present.keys().next()).copied(),
            false => choose(&mut self.random, &self.present),
        };
        let Some(id) = id else { return self.pan() };
        self.last = id;
        let list = &self.present[&id];
        let random = &mut self.random;
        let begins = if self.style.middle {
            random.below(list.len())
        } else {
            0
        };
        let speaker = self
            .rounds
            .entry(id)
            .or_insert_with(|| Speaker::from(id, list.clone(), begins));
        match speaker.speak(random, &mut self.switches) {
            Some((place, tdms, links)) => {
                let any = self.style.links == Links::Anyhow && random.chance();
                (Sent::Old(id, place), tdms, links ^ u8::from(any))
            }
            None => self.pan(),
        }
    }

    /// All ones of a component that there is not.
    fn deny(&mut self) -> (Sent, u64, u8) {
        match any_id(&mut self.random) {
            id if self.present.contains_key(&id) => self.pan(),
            id => self.ones(Sent::Gone(id)),
        }
    }

    /// The lines decide. Annex C prints another number for the clock periods.
    fn ones(&mut self, sent: Sent) -> (Sent, u64, u8) {
        let clock = [[2047, 2047], [1023, 1023], [3, 5]][self.random.below(3)];
        let tdms = map::pack([1023, 1023, 1023, 1023, clock[0], clock[1]]).1;
        (sent, tdms, self.random.below(2) as u8)
    }

    /// Any bits at all.
    fn pan(&mut self) -> (Sent, u64, u8) {
        let tdms = self.random.next() & structures::DELETION;
        (Sent::Panning, tdms, self.random.below(2) as u8)
    }
}

/// How many frames from the one of a count, itself among them, up to the next change: at 2 modulo 128, and never now.
fn to_change(count: u8) -> usize {
    let behind = 1..=128;
    let changes = |&k: &usize| (usize::from(count) + k) % 128 == 2;
    behind.into_iter().find(changes).unwrap_or(128)
}

/// Any component but the panning vector. Those of a narrow range come often, so that components meet.
fn any_id(random: &mut Xorshift) -> u8 {
    match random.below(2) {
        0 => random.below(24) as u8,
        _ => anybody(random),
    }
}

fn anybody(random: &mut Xorshift) -> u8 {
    (usize::from(PANNING) + 1 + random.below(255)) as u8
}

fn choose(random: &mut Xorshift, from: &Configuration) -> Option<u8> {
    let place = random.below(from.len().max(1));
    from.keys().nth(place).copied()
}

fn shuffle<T>(random: &mut Xorshift, row: &mut [T]) {
    for end in (1..row.len()).rev() {
        row.swap(end, random.below(end + 1));
    }
}
