//! What is known of a component: the structure in force and the announced one, taken out of their bytes and put back,
//! and what a field, a missed frame and a change do to them.

use super::field::key;

/// Bytes of a structure, of what stands before its fields, and of a component.
pub const STRUCTURE: usize = HEAD + 8 * ROOMS;
pub const HEAD: usize = 7;
pub const COMPONENT: usize = 2 * STRUCTURE;
/// How many fields have room, and the number that stands for more.
const ROOMS: usize = 8;
const MORE: u8 = 9;
/// What no field of a structure is: it would be a deletion. None has a greater key.
const ALL_ONES: u64 = (1 << 62) - 1;

#[derive(Clone, Debug, Default, PartialEq, Eq)]
pub struct Structure {
    /// How many fields, 0 to 9.
    pub fields: u8,
    /// Whether these are known to be all.
    pub whole: bool,
    /// LINKS of the last field taken in.
    pub links: bool,
    /// Whether the component is to go. A structure that has fields never says so.
    pub deleted: bool,
    /// Whether it was begun over fields that were there. Those that came before may be missing.
    pub late: bool,
    /// How far a whole list has come round: up to its so-and-so-many-th field, and 0 where that is not known.
    pub last: u8,
    /// Whether it is so for certain in the running configuration: it was heard in it, or all was heard that announced it.
    pub certain: bool,
    /// All eight, so that every byte comes back. Only those that `list` gives mean something.
    pub rooms: [u64; ROOMS],
}

impl Structure {
    /// A structure of which one field was heard.
    fn begun(tdms: u64, links: bool, late: bool) -> Structure {
        let mut structure = Structure {
            fields: 1,
            links,
            late,
            certain: true,
            ..Structure::default()
        };
        structure.rooms[0] = tdms;
        structure
    }

    /// It was heard that there is no such component.
    pub fn absence() -> Structure {
        Structure {
            certain: true,
            ..Structure::default()
        }
    }

    /// An announcement that the component goes.
    pub fn deletion() -> Structure {
        Structure {
            deleted: true,
            ..Structure::absence()
        }
    }

    /// What 71 bytes hold, if they are good. The fields are not looked at, nor how far a list has come round.
    fn decode(bytes: &[u8]) -> Option<Structure> {
        let (&[fields, whole, links, deleted, late, last, certain], rest) =
            bytes.split_first_chunk::<HEAD>()?;
        let mut rooms = [0; ROOMS];
        for (room, bytes) in rooms.iter_mut().zip(rest.chunks(8)) {
            *room = u64::from_le_bytes(bytes.try_into().ok()?);
        }
        let structure = Structure {
            fields,
            whole: mark(whole)?,
            links: mark(links)?,
            deleted: mark(deleted)?,
            late: mark(late)?,
            last,
            certain: mark(certain)?,
            rooms,
        };
        structure.is_good().then_some(structure)
    }

    /// Puts its bytes behind others.
    fn encode(&self, bytes: &mut Vec<u8>) {
        bytes.push(self.fields);
        bytes.extend([self.whole, self.links, self.deleted, self.late].map(u8::from));
        bytes.extend([self.last, self.certain.into()]);
        for room in self.rooms {
            bytes.extend(room.to_le_bytes());
        }
    }

    fn is_good(&self) -> bool {
        let whole = !self.whole || self.has_list() && self.has_room();
        let deleted = !self.deleted || !self.has_list();
        self.fields <= MORE && whole && deleted
    }

    pub fn has_list(&self) -> bool {
        self.fields > 0
    }

    /// Whether all its fields have room.
    fn has_room(&self) -> bool {
        usize::from(self.fields) <= ROOMS
    }

    /// Whether the component is there for certain.
    pub fn is_certainly_there(&self) -> bool {
        self.certain && self.has_list()
    }

    /// The fields that are stored.
    pub fn list(&self) -> &[u64] {
        &self.rooms[..ROOMS.min(self.fields.into())]
    }

    /// Those of them that were heard: in a spoiled list stands one that was not.
    pub fn heard(&self) -> &[u64] {
        match self.list() {
            [ALL_ONES, ..] => &[],
            list => list,
        }
    }

    /// Takes a field in that is no deletion.
    pub fn take(&mut self, tdms: u64, links: bool) {
        let first_again = self.has_room() && self.list().first() == Some(&tdms);
        if self.whole && self.is_next(tdms) {
            self.come_round_to(tdms);
        } else if !self.whole && self.goes_on(tdms, links) {
            self.append(tdms);
        } else if !self.whole && first_again {
            self.whole = true;
            self.late = false;
            self.links = links;
            self.come_round_to(tdms);
        } else {
            *self = Structure::begun(tdms, links, self.has_list());
        }
    }

    /// Whether a field comes in turn in a whole list: behind the one that came last, and the first behind the last of the list. Where
    /// it is not known which came last, each of them may be next.
    fn is_next(&self, tdms: u64) -> bool {
        let list = self.list();
        match usize::from(self.last) {
            0 => list.contains(&tdms),
            behind => list.get(behind).or(list.first()) == Some(&tdms),
        }
    }

    /// Notes that a field of a whole list was heard.
    fn come_round_to(&mut self, tdms: u64) {
        let before = self.list().iter().take_while(|&&it| it != tdms).count();
        self.last = before as u8 + 1;
        self.certain = true;
    }

    /// Whether a field is of the same repetition as the last stored one, and behind it.
    fn goes_on(&self, tdms: u64, links: bool) -> bool {
        let behind = |&last: &u64| key(last) < key(tdms);
        self.links == links && self.list().last().is_some_and(behind)
    }

    fn append(&mut self, tdms: u64) {
        match self.rooms.get_mut(usize::from(self.fields)) {
            Some(room) => {
                *room = tdms;
                self.fields += 1;
            }
            None => self.fields = MORE,
        }
        self.last = 0;
        self.certain = true;
    }

    /// What is left of it where a field may be missing: of a list that is being gathered, one that is no field. No field goes on from
    /// there and none is found again, so that whatever comes begins it anew. Of a whole list, it is not known how far it has come.
    fn spoil(&mut self) {
        self.last = 0;
        if !self.whole && self.has_list() {
            *self = Structure {
                certain: self.certain,
                ..Structure::begun(ALL_ONES, false, true)
            };
        }
    }

    /// What an announced one says of the time behind the change. Of what was announced from its first field on in frames that were all
    /// heard, nothing is missing.
    pub fn behind_change(&self, all_heard: bool) -> Structure {
        let complete = self.has_list() && self.has_room() && !self.late;
        Structure {
            whole: self.whole || all_heard && complete,
            deleted: false,
            last: 0,
            certain: all_heard && self.certain,
            ..self.clone()
        }
    }
}

#[derive(Clone, Debug, Default, PartialEq, Eq)]
pub struct Component {
    pub in_force: Structure,
    pub announced: Structure,
}

impl Component {
    /// What 142 bytes hold, if both structures are good and the one in force is not deleted.
    pub fn decode(bytes: &[u8]) -> Option<Component> {
        let (in_force, announced) = bytes.split_at_checked(STRUCTURE)?;
        let component = Component {
            in_force: Structure::decode(in_force)?,
            announced: Structure::decode(announced)?,
        };
        (!component.in_force.deleted).then_some(component)
    }

    /// Puts its bytes behind others.
    pub fn encode(&self, bytes: &mut Vec<u8>) {
        self.in_force.encode(bytes);
        self.announced.encode(bytes);
    }

    pub fn is_announced(&self) -> bool {
        self.announced.has_list() || self.announced.deleted
    }

    /// A missed frame.
    pub fn spoil(&mut self) {
        self.in_force.spoil();
        self.announced.spoil();
    }

    /// A change. What is announced comes into force, and nothing is announced any more. Where nothing was, the structure stays, but
    /// nothing was heard of it yet in this configuration.
    pub fn change(&mut self, all_heard: bool) {
        if self.is_announced() {
            self.in_force = self.announced.behind_change(all_heard);
            self.in_force.spoil();
        } else {
            self.in_force.last = 0;
            self.in_force.certain = false;
        }
        self.announced = Structure::default();
        // The broadcaster may have cut a repetition off: a list that is not whole does not go on, wherever it came from.
        if !all_heard {
            self.in_force.spoil();
        }
    }
}

/// A byte that is 0 or 1.
pub fn mark(byte: u8) -> Option<bool> {
    [false, true].get(usize::from(byte)).copied()
}

#[cfg(test)]
mod tests {
    use super::*;

    /// Each value in its place.
    #[test]
    fn places() {
        let mut announced = Structure {
            fields: 9,
            links: true,
            late: true,
            ..Structure::default()
        };
        announced.rooms[7] = 0x0807_0605_0403_0201;
        let mut in_force = Structure::begun(0xA1, false, false);
        in_force.whole = true;
        in_force.last = 3;
        let component = Component {
            in_force,
            announced,
        };
        let mut bytes = Vec::new();
        component.encode(&mut bytes);
        assert_eq!(bytes.len(), COMPONENT);
        assert_eq!(bytes[..9], [1, 1, 0, 0, 0, 3, 1, 0xA1, 0]);
        assert_eq!(bytes[71..79], [9, 0, 1, 0, 1, 0, 0, 0]);
        assert_eq!(bytes[134..], [1, 2, 3, 4, 5, 6, 7, 8]);
        assert_eq!(Component::decode(&bytes), Some(component));
    }

    /// That there is none, and that there will be none, are heads alone.
    #[test]
    fn none_is_a_head_alone() {
        let mut bytes = Vec::new();
        Structure::deletion().encode(&mut bytes);
        Structure::absence().encode(&mut bytes);
        assert_eq!(bytes[..7], [0, 0, 0, 1, 0, 0, 1]);
        assert_eq!(bytes[7..71], [0; 64]);
        assert_eq!(bytes[71..78], [0, 0, 0, 0, 0, 0, 1]);
        assert_eq!(bytes[78..], [0; 64]);
    }
}
