//! The whole map as values: 256 components, and what is known of the frames.

use super::field::Field;
use super::structure::{mark, Component, Structure, COMPONENT, HEAD, STRUCTURE};
use crate::numbers::{refuse_unless, DONE, LENGTH, NOT_GOOD, TOO_MANY, UNFINISHED};
use std::borrow::Cow;

/// Components that a map has room for, one for each TDMCID, and its bytes.
pub const IDS: usize = 256;
pub const MAP: usize = IDS * COMPONENT + 4;

/// What is announced comes into force with the frame that has this count, modulo so many.
const CHANGE: u8 = 2;
const CYCLE: i32 = 128;
/// So many components a multiplex has at most.
const MOST: usize = 128;
/// Behind so many frames in a row, a component of which nothing came is held to be absent. The standard bounds no repetition; this is a
/// rule of the house.
const ENOUGH: u8 = 255;

#[derive(Clone, Debug, PartialEq, Eq)]
pub struct Map {
    pub components: Vec<Component>,
    /// The count of the frame whose field was taken in last; `heard` says whether there was one.
    pub last: u8,
    pub heard: bool,
    /// Whether every frame of the running configuration was heard so far.
    pub unbroken: bool,
    /// How many frames were heard in a row, up to 255.
    pub row: u8,
}

/// What a map shows of a component: a number, a part of the map, what is to come, and whether nothing is known of it.
#[derive(Clone, Copy, Debug, PartialEq, Eq)]
pub struct Shown {
    pub number: u8,
    pub at: usize,
    pub length: usize,
    pub announced: bool,
    /// In how many frames behind the last one the change comes, if something is announced.
    pub frames: u8,
    /// There are no fields, and not enough was heard to hold that there is no such component.
    pub unknown: bool,
}

impl Shown {
    /// As the call answers it: (number, place, length, announced, frames, unknown).
    pub fn answers(self) -> (u8, usize, usize, u8, u8, u8) {
        (
            self.number,
            self.at,
            self.length,
            self.announced.into(),
            self.frames,
            self.unknown.into(),
        )
    }
}

/// The part of a map in which the fields stand that were heard of a component, and whether they are known to be all.
#[derive(Clone, Copy, Debug, PartialEq, Eq)]
pub struct Heard {
    pub at: usize,
    pub length: usize,
    pub whole: bool,
}

impl Map {
    /// The map that some bytes stand for; 20 and 34 are refused here, for every call.
    pub fn decode(bytes: &[u8]) -> Result<Map, u8> {
        refuse_unless(bytes.len() == MAP, LENGTH)?;
        let (components, &[last, heard, unbroken, row]) = bytes.split_last_chunk().ok_or(LENGTH)?;
        let components: Option<_> = components
            .chunks(COMPONENT)
            .map(Component::decode)
            .collect();
        Ok(Map {
            components: components.ok_or(NOT_GOOD)?,
            last,
            heard: mark(heard).ok_or(NOT_GOOD)?,
            unbroken: mark(unbroken).ok_or(NOT_GOOD)?,
            row,
        })
    }

    pub fn encode(&self) -> Vec<u8> {
        let mut bytes = Vec::with_capacity(MAP);
        for component in &self.components {
            component.encode(&mut bytes);
        }
        bytes.extend([self.last, self.heard.into(), self.unbroken.into(), self.row]);
        bytes
    }

    /// Takes a field in. Refused: 44 and 45.
    pub fn take(&mut self, field: &Field) -> Result<(), u8> {
        field.refuse_bad_pairs()?;
        if self.again(field.count) {
            return Ok(());
        }
        let mut next = self.up_to(field.count);
        next.refuse_one_too_many(field)?;
        next.learn(field);
        *self = next;
        Ok(())
    }

    /// The map in the frame of a count, before its field is taken in.
    fn up_to(&self, count: u8) -> Map {
        let skips = self.skips(count);
        let mut next = Map {
            last: count,
            heard: true,
            unbroken: begins(count) || self.unbroken && !skips,
            row: if skips { 1 } else { self.row.saturating_add(1) },
            ..self.clone()
        };
        // What was announced is in force before anything behind the change can be missed.
        if self.changing(count) {
            let components = next.components.iter_mut();
            components.for_each(|component| component.change(self.all_heard()));
        }
        if skips {
            next.components.iter_mut().for_each(Component::spoil);
        }
        next
    }

    /// The set that a field is about is looked at alone: components that go and others that come may be announced in
    /// any order. Of those in force only what is certain counts. Others may have been deleted unheard.
    fn refuse_one_too_many(&self, field: &Field) -> Result<(), u8> {
        let in_set = |component: &Component| match field.flag {
            true => component.announced.has_list(),
            false => component.in_force.is_certainly_there(),
        };
        let set: Vec<u8> = (0..=u8::MAX)
            .zip(&self.components)
            .filter(|(_, component)| in_set(component))
            .map(|(id, _)| id)
            .collect();
        let joins = !field.is_panning() && !field.is_deletion() && !set.contains(&field.id);
        refuse_unless(!joins || set.len() < MOST, TOO_MANY)
    }

    /// Works a field into the structure that it is about.
    fn learn(&mut self, field: &Field) {
        if field.is_panning() {
            return;
        }
        let component = &mut self.components[usize::from(field.id)];
        match (field.is_deletion(), field.flag) {
            (true, false) => component.in_force = Structure::absence(),
            (true, true) => component.announced = Structure::deletion(),
            (false, false) => component.in_force.take(field.tdms, field.links),
            (false, true) => component.announced.take(field.tdms, field.links),
        }
    }

    /// What is in force in the frame of a count, as far as is known.
    pub fn show(&self, id: u8, count: u8) -> Shown {
        let (structure, place) = self.then(id, count);
        let (number, at, length) = match structure.fields {
            0 => (DONE, 0, 0),
            fields if structure.whole => (DONE, place, 8 * usize::from(fields)),
            _ => (UNFINISHED, 0, 0),
        };
        let announced = self.components[usize::from(id)].is_announced();
        Shown {
            number,
            at,
            length,
            announced,
            frames: if announced { self.to_change() } else { 0 },
            unknown: !structure.has_list() && !structure.certain && self.row < ENOUGH,
        }
    }

    /// The fields that were heard of what is in force in the frame of a count, whether they are all or not.
    pub fn heard_of(&self, id: u8, count: u8) -> Heard {
        let (structure, place) = self.then(id, count);
        let fields = structure.heard().len();
        Heard {
            at: if fields > 0 { place } else { 0 },
            length: 8 * fields,
            whole: structure.whole,
        }
    }

    /// How many components are in force in the frame of a count, whole or not. More than 128 means that deletions were missed.
    pub fn components_then(&self, count: u8) -> usize {
        let there = |&id: &u8| self.then(id, count).0.has_list();
        (0..=u8::MAX).filter(there).count()
    }

    /// The structure of a component that is in force in the frame of a count, and where its fields stand.
    fn then(&self, id: u8, count: u8) -> (Cow<'_, Structure>, usize) {
        let component = &self.components[usize::from(id)];
        let place = COMPONENT * usize::from(id) + HEAD;
        if !component.is_announced() || !self.changing(count) {
            return (Cow::Borrowed(&component.in_force), place);
        }
        let structure = component.announced.behind_change(self.all_heard());
        (Cow::Owned(structure), place + STRUCTURE)
    }

    /// Whether nothing more can be announced before the next change: the last frame was the last before it, and none was missed.
    fn all_heard(&self) -> bool {
        self.unbroken && self.to_change() == 1
    }

    /// In how many frames behind the last one the next change comes.
    fn to_change(&self) -> u8 {
        ahead(self.last, CHANGE - 1) as u8 + 1
    }

    /// Whether a change falls behind the last frame, up to the frame of a count: one of these frames begins a configuration.
    fn changing(&self, count: u8) -> bool {
        let mut frames = 1..=self.frames_to(count);
        frames.any(|k| begins(self.last.wrapping_add(k)))
    }

    /// Whether a count is that of the last frame: a field is sent five times.
    fn again(&self, count: u8) -> bool {
        self.heard && self.last == count
    }

    fn skips(&self, count: u8) -> bool {
        self.frames_to(count) > 1
    }

    /// How many frames behind the last one the frame of a count is: none if it is that one, or if there was none; otherwise 1 to 128, as
    /// the counts are told apart modulo 128.
    fn frames_to(&self, count: u8) -> u8 {
        if !self.heard || self.last == count {
            return 0;
        }
        1 + ahead(self.last.wrapping_add(1), count) as u8
    }
}

/// Whether a configuration begins with the frame of a count.
fn begins(count: u8) -> bool {
    i32::from(count) % CYCLE == i32::from(CHANGE)
}

/// How many frames from one count to another, modulo 128.
fn ahead(from: u8, to: u8) -> i32 {
    (i32::from(to) - i32::from(from)).rem_euclid(CYCLE)
}
