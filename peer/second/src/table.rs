//! The state of followed addresses (sections 3 and 5 of the paper) and the setting for packets' headers (document 02,
//! Ask 7): each call takes all slots out of the lent bytes, works on them as values and puts them back.

use crate::golay::{MOST_FLIPS, SETTINGS};
use crate::numbers::{
    done, refuse_unless, ADDRESS, DONE, DOUBTFUL, FOLLOWED, FRESH, FULL, LENGTH, LIMIT, NOTHING,
    NOT_FOLLOWED, NOT_GOOD, PROTECTION, SETTING, STALE,
};
use crate::slot::{Slot, ADDRESSES, LIMITS, MOST_AGE, ROOM, SLOT};

/// Slots of a state, the place of the setting, which is one byte behind them, and a state's bytes.
pub const SLOTS: usize = 16;
pub const SETTING_AT: usize = SLOTS * SLOT;
pub const STATE: usize = SETTING_AT + 1;

/// Which of the lent buffers a part is a part of.
#[derive(Clone, Copy, Debug, PartialEq, Eq)]
pub enum Lent {
    State,
    Notice,
}

/// Nothing is followed, and headers are put right as far as their code goes, whatever was there.
pub fn start(state: &mut [u8]) -> u8 {
    if state.len() != STATE {
        return LENGTH;
    }
    state.copy_from_slice(&Table::new().encode());
    DONE
}

/// From now on so many flips are put right in a packet's header, at most.
pub fn set_header_flips(state: &mut [u8], most: u32) -> u8 {
    change(state, |table| done(table.set(most)))
}

pub fn follow(state: &mut [u8], address: u32, protection: u32, limit: u32) -> u8 {
    change(state, |table| {
        done(table.follow(address, protection, limit))
    })
}

pub fn leave(state: &mut [u8], address: u32) -> u8 {
    change(state, |table| done(table.leave(address)))
}

/// Every whole group grows older by one subframe.
pub fn subframe_end(state: &mut [u8]) -> u8 {
    change(state, |table| {
        table.age();
        DONE
    })
}

/// (number, place, length) of the part of the state that holds the group; an empty part at 0 where there is none.
pub fn ask(state: &[u8], address: u32) -> (u8, usize, usize) {
    match Table::decode(state).and_then(|table| table.ask(address)) {
        Ok(answer) => answer,
        Err(number) => (number, 0, 0),
    }
}

/// Ask's number, and where what may be shown stands: the group if it is fresh, otherwise the whole notice.
pub fn board_text(state: &[u8], address: u32, notice: &[u8]) -> (u8, Lent, usize, usize) {
    match ask(state, address) {
        (FRESH, at, length) => (FRESH, Lent::State, at, length),
        (number, _, _) => (number, Lent::Notice, 0, notice.len()),
    }
}

/// Lets a call work on the slots of a state and on its setting, if its length is right and it is good. What it leaves
/// alone goes back to the bytes that it came from. An answer is a number, or can be made of one.
pub(crate) fn change<A: From<u8>>(state: &mut [u8], call: impl FnOnce(&mut Table) -> A) -> A {
    let mut table = match Table::decode(state) {
        Ok(table) => table,
        Err(number) => return number.into(),
    };
    let answer = call(&mut table);
    state.copy_from_slice(&table.encode());
    answer
}

/// The slots of a good state, of which a free one holds nothing, and its setting.
pub struct Table {
    slots: Vec<Option<Slot>>,
    /// The greatest number of flips that is put right in a packet's header.
    pub setting: u32,
}

impl Table {
    /// As start makes it.
    fn new() -> Table {
        Table {
            slots: vec![None; SLOTS],
            setting: MOST_FLIPS,
        }
    }

    /// What some bytes stand for; 20 and 34 are refused here, for every call.
    pub fn decode(state: &[u8]) -> Result<Table, u8> {
        refuse_unless(state.len() == STATE, LENGTH)?;
        let slots = state[..SETTING_AT].chunks(SLOT).map(decode);
        let table = Table {
            slots: slots.collect::<Option<_>>().ok_or(NOT_GOOD)?,
            setting: state[SETTING_AT].into(),
        };
        refuse_unless(table.no_address_twice(), NOT_GOOD)?;
        refuse_unless(SETTINGS.contains(&table.setting), NOT_GOOD)?;
        Ok(table)
    }

    pub fn encode(&self) -> Vec<u8> {
        let bytes = |slot: &Option<Slot>| match slot {
            Some(slot) => slot.encode(),
            None => vec![0; SLOT],
        };
        let mut parts: Vec<_> = self.slots.iter().map(bytes).collect();
        parts.push(vec![self.setting as u8]);
        parts.concat()
    }

    /// The used slots, lowest first.
    pub fn used(&self) -> impl Iterator<Item = &Slot> {
        self.slots.iter().flatten()
    }

    /// The slot of an address that is followed. Free slots have no address here, not even 0.
    pub fn find(&mut self, address: u32) -> Option<&mut Slot> {
        let mut used = self.slots.iter_mut().flatten();
        used.find(|slot| slot.address == address)
    }

    fn no_address_twice(&self) -> bool {
        let mut addresses: Vec<u32> = self.used().map(|slot| slot.address).collect();
        addresses.sort_unstable();
        addresses.windows(2).all(|pair| pair[0] < pair[1])
    }

    fn follow(&mut self, address: u32, protection: u32, limit: u32) -> Result<(), u8> {
        refuse_unless(ADDRESSES.contains(&address), ADDRESS)?;
        refuse_unless(protection <= 1, PROTECTION)?;
        refuse_unless(LIMITS.contains(&limit), LIMIT)?;
        refuse_unless(self.place(address).is_none(), FOLLOWED)?;
        let lowest = self.slots.iter_mut().find(|slot| slot.is_none());
        *lowest.ok_or(FULL)? = Some(Slot::new(address, protection == 1, limit));
        Ok(())
    }

    fn leave(&mut self, address: u32) -> Result<(), u8> {
        refuse_unless(ADDRESSES.contains(&address), ADDRESS)?;
        let place = self.place(address).ok_or(NOT_FOLLOWED)?;
        self.slots[place] = None;
        Ok(())
    }

    fn set(&mut self, most: u32) -> Result<(), u8> {
        refuse_unless(SETTINGS.contains(&most), SETTING)?;
        self.setting = most;
        Ok(())
    }

    fn age(&mut self) {
        for slot in self.slots.iter_mut().flatten() {
            if slot.whole {
                slot.age = MOST_AGE.min(slot.age + 1);
            }
        }
    }

    fn ask(&self, address: u32) -> Result<(u8, usize, usize), u8> {
        refuse_unless(ADDRESSES.contains(&address), ADDRESS)?;
        let place = self.place(address).ok_or(NOT_FOLLOWED)?;
        let slot = self.slots[place].as_ref().expect("a used slot");
        Ok(match freshness(slot) {
            NOTHING => (NOTHING, 0, 0),
            number => (number, SLOT * place + ROOM, slot.group_length()),
        })
    }

    fn place(&self, address: u32) -> Option<usize> {
        let here = |slot: &Option<Slot>| slot.as_ref().is_some_and(|slot| slot.address == address);
        self.slots.iter().position(here)
    }
}

/// One slot's bytes: nothing if it is free, none at all if it is neither free nor within bounds.
fn decode(bytes: &[u8]) -> Option<Option<Slot>> {
    if bytes.iter().all(|&byte| byte == 0) {
        return Some(None);
    }
    Slot::decode(bytes).map(Some)
}

/// Section 5: what a slot's group is worth.
fn freshness(slot: &Slot) -> u8 {
    if !slot.whole {
        NOTHING
    } else if slot.age >= slot.limit {
        STALE
    } else if slot.gap {
        DOUBTFUL
    } else {
        FRESH
    }
}
