//! Calls on the map. What each row means stands in the heads of `crates/mapcalls` and `crates/maprows`.

use crate::row::{byte, digest, fill, front, put, turn, wide};
use crate::Machine;
use second::map::{heard, known, list, pack, read, show, start, take, unpack, write, FIELD, IDS, MAP};

pub struct MapCalls {
    map: Vec<u8>,
    lent: usize,
    kept: Vec<u8>,
    field: Vec<u8>,
}

impl MapCalls {
    pub fn new() -> MapCalls {
        MapCalls {
            map: vec![0; MAP + 1],
            lent: MAP,
            kept: vec![0; MAP + 1],
            field: vec![0; FIELD + 1],
        }
    }

    fn map(&mut self) -> &mut [u8] {
        &mut self.map[..self.lent]
    }

    fn by_hand(&mut self, name: &str, args: &[u64]) -> Option<Vec<u64>> {
        Some(match (name, args) {
            ("lend", &[len]) => {
                self.lent = self.map.len().min(len as usize);
                vec![self.lent as u64]
            }
            ("map", [at, values @ ..]) => put(self.map(), *at, values),
            ("fill-map", &[from, step]) => fill(self.map(), from, step),
            ("keep", []) => {
                self.kept[..self.lent].copy_from_slice(&self.map[..self.lent]);
                vec![digest(&self.kept[..self.lent])]
            }
            ("back", []) => {
                self.map[..self.lent].copy_from_slice(&self.kept[..self.lent]);
                vec![digest(self.map())]
            }
            ("field", [at, values @ ..]) => put(&mut self.field, *at, values),
            ("turn", [from, bits @ ..]) => turn(&mut self.field, *from, bits),
            _ => return None,
        })
    }

    /// Calls that may change the map.
    fn changing(&mut self, name: &str, args: &[u64]) -> Option<Vec<u64>> {
        let number = match (name, args) {
            ("start", []) => start(self.map()).into(),
            ("take", &[count, flag, id, links, ref six @ ..]) => {
                let (_, tdms) = pack(numbers(six)?);
                self.sent(count, flag, id, tdms, links)
            }
            ("take-field", &[len]) => take(&mut self.map[..self.lent], front(&self.field, len)).into(),
            ("again", &[times]) => (0..times).filter(|_| self.taken() != 0).count() as u64,
            ("idle", &[first, times]) => {
                let counts = (0..times).map(|k| (first + k) % 256);
                counts.filter(|&count| self.sent(count, 1, 129, 5, 0) != 0).count() as u64
            }
            _ => return None,
        };
        Some(vec![number, digest(self.map())])
    }

    fn taken(&mut self) -> u8 {
        take(&mut self.map[..self.lent], &self.field[..FIELD])
    }

    /// A field written and taken in.
    fn sent(&mut self, count: u64, flag: u64, id: u64, tdms: u64, links: u64) -> u64 {
        match self.written(count, flag, id, tdms, links, FIELD as u64) {
            0 => self.taken().into(),
            number => number,
        }
    }

    fn written(&mut self, count: u64, flag: u64, id: u64, tdms: u64, links: u64, out: u64) -> u64 {
        let out = &mut self.field[..out as usize];
        write(byte(count), byte(flag), byte(id), tdms, byte(links), out).into()
    }

    fn asking(&mut self, name: &str, args: &[u64]) -> Option<Vec<u64>> {
        let map = &self.map[..self.lent];
        Some(match (name, args) {
            ("show", &[id, count]) => {
                let (number, at, len, announced, frames, unknown) = show(map, byte(id), byte(count));
                let values = [number.into(), at as u64, len as u64, announced.into(), frames.into(), unknown.into()];
                [&values[..], &[digest(&map[at..at + len])]].concat()
            }
            ("heard", &[id, count]) => {
                let (number, at, len, whole) = heard(map, byte(id), byte(count));
                vec![number.into(), at as u64, len as u64, whole.into(), digest(&map[at..at + len])]
            }
            ("known", &[count]) => {
                let (number, row, unbroken, components) = known(map, byte(count));
                vec![number.into(), row.into(), unbroken.into(), components as u64]
            }
            ("list", &[count, len]) => listed(map, count, len),
            ("all", &[count]) => vec![digest(&all(map, byte(count)))],
            _ => return None,
        })
    }

    fn on_fields(&mut self, name: &str, args: &[u64]) -> Option<Vec<u64>> {
        Some(match (name, args) {
            ("write", &[count, flag, id, tdms, links, out]) => {
                let number = self.written(count, flag, id, tdms, links, out);
                vec![number, digest(&self.field)]
            }
            ("read", &[len]) => {
                let (number, count, flag, id, tdms, links) = read(front(&self.field, len));
                vec![number.into(), count.into(), flag.into(), id.into(), tdms, links.into()]
            }
            ("pack", six) => {
                let (number, tdms) = pack(numbers(six)?);
                vec![number.into(), tdms]
            }
            ("unpack", &[tdms]) => {
                let (number, six) = unpack(tdms);
                [&[u64::from(number)], &six.map(u64::from)[..]].concat()
            }
            _ => return None,
        })
    }
}

impl Machine for MapCalls {
    fn answer(&mut self, name: &str, args: &[u64]) -> Option<Vec<u64>> {
        self.by_hand(name, args)
            .or_else(|| self.changing(name, args))
            .or_else(|| self.asking(name, args))
            .or_else(|| self.on_fields(name, args))
    }
}

fn numbers(six: &[u64]) -> Option<[u32; 6]> {
    let six: Vec<u32> = six.iter().map(|&n| wide(n)).collect();
    six.try_into().ok()
}

/// How many components have each mark, and the marks in a row of which so many bytes are lent.
fn listed(map: &[u8], count: u64, len: u64) -> Vec<u64> {
    let mut out = [9; IDS + 1];
    let number = list(map, byte(count), &mut out[..len as usize]);
    let marked = (0..4).map(|mark| out.iter().filter(|&&it| it == mark).count() as u64);
    [vec![number.into()], marked.collect(), vec![digest(&out)]].concat()
}

/// Every component's mark, and the fields of those that are whole.
fn all(map: &[u8], count: u8) -> Vec<u8> {
    let mut marks = vec![9; IDS];
    list(map, count, &mut marks);
    let whole = (0..=u8::MAX).filter(|&id| marks[usize::from(id)] == 1);
    let fields = whole.flat_map(|id| {
        let (_, at, len, ..) = show(map, id, count);
        map[at..at + len].to_vec()
    });
    let fields: Vec<u8> = fields.collect();
    [marks, fields].concat()
}
