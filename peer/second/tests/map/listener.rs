//! A listener for worked rows: a map, and frames that come one after the other unless a row says otherwise.

use second::map::{self, MAP, PANNING};

/// The TDMS of a deletion.
pub const GONE: [u32; 6] = [1023, 1023, 1023, 1023, 2047, 2047];
/// Where the last frame's count stands in a map.
pub const LAST: usize = 36_352;

pub struct Listener {
    pub map: Vec<u8>,
    /// The count of the frame that comes next.
    pub count: u8,
}

impl Listener {
    /// A map in which nothing was heard yet. The first frame has this count.
    pub fn late(count: u8) -> Listener {
        let mut map = vec![0xA5; MAP];
        assert_eq!(map::start(&mut map), 0);
        Listener { map, count }
    }

    /// One who has heard every frame of the running configuration, and of nothing that matters. The next frame has this count.
    pub fn new(count: u8) -> Listener {
        let mut listener = Listener::late(count.wrapping_sub(128));
        listener.idle_to(count);
        listener
    }

    /// Hears a field in the next frame, and gives take's number.
    pub fn hear(&mut self, flag: u8, id: u8, numbers: [u32; 6], links: u8) -> u8 {
        let field = field(self.count, flag, id, numbers, links);
        self.count = self.count.wrapping_add(1);
        map::take(&mut self.map, &field)
    }

    /// Hears structures of one letter each: `fields("ab")` are two, of which the first comes before the second.
    pub fn hears(&mut self, flag: u8, id: u8, letters: &str, links: u8) {
        for numbers in fields(letters) {
            assert_eq!(self.hear(flag, id, numbers, links), 0);
        }
    }

    /// Hears of nothing that matters, up to before the frame of a count.
    pub fn idle_to(&mut self, count: u8) {
        while self.count != count {
            assert_eq!(self.hear(0, PANNING, [9; 6], 0), 0);
        }
    }

    /// Hears nothing in the next frame.
    pub fn miss(&mut self) {
        self.count = self.count.wrapping_add(1);
    }

    /// What show says of a component in the last frame, and in the one behind it: a number and letters.
    pub fn now(&self, id: u8) -> (u8, String) {
        self.at(id, self.count.wrapping_sub(1))
    }

    pub fn next(&self, id: u8) -> (u8, String) {
        self.at(id, self.count)
    }

    pub fn at(&self, id: u8, count: u8) -> (u8, String) {
        let (number, at, length, ..) = map::show(&self.map, id, count);
        (number, self.letters(at, length))
    }

    /// What was heard of a component for the frame of a count: letters, and whether they are all.
    pub fn heard(&self, id: u8, count: u8) -> (String, u8) {
        let (number, at, length, whole) = map::heard(&self.map, id, count);
        assert_eq!(number, 0);
        (self.letters(at, length), whole)
    }

    /// The fields in a part of the map.
    fn letters(&self, at: usize, length: usize) -> String {
        let letter = |bytes: &[u8]| {
            let tdms = u64::from_le_bytes(bytes.try_into().expect("eight bytes"));
            char::from(b'a' + map::unpack(tdms).1[0] as u8)
        };
        let part = &self.map[at..at + length];
        part.chunks(8).map(letter).collect()
    }

    /// Whether something is announced of a component, and in how many frames it comes.
    pub fn announced(&self, id: u8) -> (u8, u8) {
        let (_, _, _, announced, frames, _) = map::show(&self.map, id, self.count);
        (announced, frames)
    }

    /// Whether nothing is known of a component in the last frame, or in that of a count.
    pub fn unknown(&self, id: u8) -> u8 {
        self.unknown_at(id, self.count.wrapping_sub(1))
    }

    pub fn unknown_at(&self, id: u8, count: u8) -> u8 {
        map::show(&self.map, id, count).5
    }

    /// The marks of a frame that was heard, and of all of the running configuration.
    pub fn marks(&self) -> [u8; 2] {
        [self.map[LAST + 1], self.map[LAST + 2]]
    }

    /// How many components are in force in the last frame.
    pub fn components(&self) -> usize {
        map::known(&self.map, self.count.wrapping_sub(1)).3
    }
}

/// The structures that letters stand for.
pub fn fields(letters: &str) -> Vec<[u32; 6]> {
    let number = |letter: u8| u32::from(letter - b'a');
    letters
        .bytes()
        .map(|letter| [number(letter), 100, 200, 300, 40, 50])
        .collect()
}

/// A field that may have bad pairs: the numbers are put in as bits.
pub fn field(count: u8, flag: u8, id: u8, numbers: [u32; 6], links: u8) -> Vec<u8> {
    let (number, tdms) = map::pack(numbers);
    assert_eq!(number, 0);
    let field = map::Field {
        count,
        flag: flag == 1,
        id,
        tdms,
        links: links == 1,
    };
    field.encode()
}

/// A number and letters, as `now` gives them.
pub fn said(number: u8, letters: &str) -> (u8, String) {
    (number, letters.into())
}
