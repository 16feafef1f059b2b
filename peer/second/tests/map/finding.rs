//! From when on a map must be right, as crates/multiplex/specs/Finding.antt states it (`Finds`), kept from frame to frame. It is asked for
//! broadcasts in which LINKS is the same within a repetition and every structure has room.

use second::samples::broadcast::{Frame, Sent};

/// What was heard last of a component's coming structure.
#[derive(Clone, Copy, Default, PartialEq, Eq)]
enum Word {
    #[default]
    Nothing,
    AllOnes,
    Field,
}

#[derive(Clone, Default)]
struct Progress {
    /// It must be right in the frame that comes.
    ready: bool,
    /// How often a repetition was heard to begin in this configuration, with no frame missed since: of the structure in force, and of the
    /// announced one.
    rounds: usize,
    new_rounds: usize,
    /// Whether something was announced in this configuration, heard or not; and what of it was heard last.
    news: bool,
    word: Word,
}

#[derive(Default)]
pub struct Finding {
    /// Whether any frame was heard, whether every one of this configuration was, and whether none was heard before this configuration and
    /// none missed since the first.
    any: bool,
    wholly: bool,
    alone: bool,
    components: Vec<Progress>,
}

impl Finding {
    /// Before the first frame, which is heard or not.
    pub fn new(frame: &Frame) -> Finding {
        let absent = |id: u8| Progress {
            ready: !frame.present.contains_key(&id),
            ..Progress::default()
        };
        Finding {
            any: false,
            wholly: frame.first,
            alone: true,
            components: (0..=255).map(absent).collect(),
        }
    }

    /// Whether a component must be right in the frame that comes.
    pub fn is_ready(&self, id: u8) -> bool {
        self.components[usize::from(id)].ready
    }

    /// A frame passes. What was said in it counts before it is asked what must be right in it.
    pub fn hear(&mut self, frame: &Frame) {
        for (id, it) in (0..=255).zip(&mut self.components) {
            it.news |= announces(frame.sent, id);
            it.word = word(frame.sent, id).unwrap_or(it.word);
            it.rounds += usize::from(frame.sent == Sent::Old(id, 0));
            it.new_rounds += usize::from(frame.sent == Sent::New(id, 0));
            it.ready |= it.rounds >= 3 || self.alone && it.rounds >= 2;
        }
    }

    /// Goes on from a frame that was heard to the next.
    pub fn behind_heard(&mut self, frame: &Frame) {
        let change = frame.to_change == 1;
        if change {
            for (id, it) in (0..=255).zip(&mut self.components) {
                it.ready = it.over_change(self.wholly, frame, id);
                *it = Progress {
                    ready: it.ready,
                    ..Progress::default()
                };
            }
        }
        self.wholly |= change;
        self.alone &= !change;
        self.any = true;
    }

    /// Goes on from a frame that was missed to the next.
    pub fn behind_missed(&mut self, frame: &Frame) {
        let change = frame.to_change == 1;
        for (id, it) in (0..=255).zip(&mut self.components) {
            it.news = !change && (it.news || announces(frame.sent, id));
            it.word = if change { Word::Nothing } else { it.word };
            it.rounds = 0;
            it.new_rounds = 0;
            it.ready = match self.any {
                true => it.ready && !change,
                false => !frame.following.contains_key(&id),
            };
        }
        self.wholly = change;
        self.alone = !self.any;
    }
}

impl Progress {
    fn over_change(&self, wholly: bool, frame: &Frame, id: u8) -> bool {
        if wholly {
            return self.ready || self.news;
        }
        let (here, there) = (frame.present.get(&id), frame.next.get(&id));
        match self.word {
            Word::Nothing => self.ready && here == there,
            Word::AllOnes => there.is_none(),
            Word::Field => self.new_rounds >= 2,
        }
    }
}

fn announces(sent: Sent, id: u8) -> bool {
    matches!(sent, Sent::New(it, _) | Sent::Going(it) if it == id)
}

fn word(sent: Sent, id: u8) -> Option<Word> {
    match sent {
        Sent::New(it, _) if it == id => Some(Word::Field),
        Sent::Going(it) if it == id => Some(Word::AllOnes),
        _ => None,
    }
}
