//! What holds of a map that hears a lawful broadcast, from any frame on and with frames missed: laws that are looked at after every
//! frame for every component, against what the broadcaster knows and what of it was heard.
//!
//! - A: fields that are shown are a structure that the component has or had, and nothing that was heard since speaks against it.
//! - B: it is right from the third beginning of a repetition on, within a configuration and with no frame missed since the first.
//! - C: it is right from the second on, if at the first one the map held no whole list.
//! - D: once it is right it stays so with each frame that is heard; over a change, if the configuration before was heard.
//! - E: it is right behind a change that announces it, if the configuration before was heard.
//! - F: no field is refused.
//! - G: that there is no such component is held only where all ones said so, or behind 255 frames in a row.
//!
//! B to E are of structures that have room in a map. B and C rest on LINKS, which is the same within a repetition; and C is of any two
//! beginnings, one behind the other. More is looked at: from when on it must be right by `finding.rs`; that there are no fields is shown
//! only if none came last, and 46 only if one did; what is said to be announced was, and when it comes; what was heard of a list that is
//! not whole is of the structure; and list and known say what show says.

use crate::finding::Finding;
use crate::story::{Past, Story};
use second::map::{known, list, start, take, Heard, Map, Shown, IDS, MAP, PANNING};
use second::numbers::{DONE, UNFINISHED};
use second::samples::broadcast::{Frame, Sent};
use second::samples::style::{Links, Style};

/// A law that does not hold, of which component, and what is wrong.
pub type Broken = (&'static str, u8, String);

/// How often each law was looked at where it says something, and where it did not hold.
#[derive(Debug, Default)]
pub struct Seen {
    pub frames: usize,
    pub shown: usize,
    pub stale: usize,
    pub unfinished: usize,
    pub third: usize,
    /// Of these, where a list that had been whole and wrong was begun anew.
    pub healed: usize,
    pub second: usize,
    pub kept: usize,
    pub kept_over_change: usize,
    pub announced: usize,
    pub found: usize,
    pub gone: usize,
    pub unknown: usize,
    pub parts: usize,
    /// The most components that the map had in force at a time, and for certain.
    pub components: usize,
    pub certain: usize,
    pub broken: Vec<Broken>,
}

/// A map, as bytes and as values, and all that is known of what it heard.
pub struct Laws {
    map: Vec<u8>,
    values: Map,
    style: Style,
    stories: Vec<Story>,
    past: Past,
    finding: Finding,
}

impl Laws {
    /// The listener is switched on before this frame, in the middle of a configuration or not.
    pub fn new(style: Style, frame: &Frame) -> Laws {
        let mut map = vec![0xA5; MAP];
        assert_eq!(start(&mut map), DONE);
        Laws {
            values: Map::decode(&map).expect("a good map"),
            map,
            style,
            stories: vec![Story::default(); IDS],
            past: Past::default(),
            finding: Finding::new(frame),
        }
    }

    /// A frame of the broadcast that is not heard.
    pub fn miss(&mut self, frame: &Frame) {
        self.change(frame);
        self.past.miss();
        self.stories.iter_mut().for_each(Story::miss);
        self.finding.behind_missed(frame);
        self.look_back(frame);
    }

    /// A frame that is heard.
    pub fn hear(&mut self, frame: &Frame, seen: &mut Seen) {
        self.change(frame);
        let about = about(frame.sent);
        let before = self.values.show(about, frame.count);
        let whole = before.length > 0;
        let wrong = whole && !self.is_right(&before, truth(frame, about, 0));
        let number = take(&mut self.map, &frame.field);
        self.values = Map::decode(&self.map).expect("a good map");
        if number != DONE {
            seen.broken.push(("F", about, number.to_string()));
        }
        if self.past.hear(frame) {
            for (id, story) in (0..=255).zip(&mut self.stories) {
                story.begin(frame.present.get(&id));
            }
        }
        self.stories[usize::from(about)].hear(frame, whole, wrong);
        seen.frames += 1;
        self.check(frame, seen);
        self.find(frame, seen);
        self.look_back(frame);
    }

    /// A configuration may begin with a frame.
    fn change(&mut self, frame: &Frame) {
        if frame.first {
            self.past.change();
            for (id, story) in (0..=255).zip(&mut self.stories) {
                story.change(frame.present.get(&id), &self.past);
            }
        }
    }

    /// From when on it must be right, in the frame that was heard and in the next.
    fn find(&mut self, frame: &Frame, seen: &mut Seen) {
        self.finding.hear(frame);
        self.check_found(frame, 0, seen);
        self.finding.behind_heard(frame);
        self.check_found(frame, 1, seen);
    }

    fn check_found(&self, frame: &Frame, ahead: u8, seen: &mut Seen) {
        // What it is stated of.
        if self.style.long || self.style.links == Links::Anyhow {
            return;
        }
        for id in (0..=255).filter(|&id| self.finding.is_ready(id)) {
            let (count, here) = (frame.count.wrapping_add(ahead), truth(frame, id, ahead));
            let shown = self.values.show(id, count);
            seen.found += usize::from(!here.is_empty());
            if !self.is_right(&shown, here) {
                seen.broken
                    .push(("Finds", id, format!("{shown:?} {ahead}")));
            }
        }
    }

    /// Notes what is shown rightly in a frame that has passed.
    fn look_back(&mut self, frame: &Frame) {
        for id in 0..=255 {
            let shown = self.values.show(id, frame.count);
            let right = self.is_right(&shown, truth(frame, id, 0));
            self.stories[usize::from(id)].right = right;
        }
    }

    fn check(&self, frame: &Frame, seen: &mut Seen) {
        for id in 0..=255 {
            self.check_now(frame, id, seen);
            let any = id.wrapping_mul(31).wrapping_add(frame.count) % 129;
            for ahead in [0, frame.to_change, 128, any] {
                self.check_ahead(frame, id, ahead, seen);
            }
        }
        let story = &self.stories[usize::from(about(frame.sent))];
        seen.healed += usize::from(story.healed(frame));
        for ahead in 0..=128 {
            self.check_ahead(frame, about(frame.sent), ahead, seen);
        }
        if frame.count % 4 == 0 {
            self.check_calls(frame, seen);
        }
        let there = self.values.components.iter().map(|it| &it.in_force);
        let certain = there.filter(|it| it.is_certainly_there()).count();
        seen.certain = seen.certain.max(certain);
    }

    /// B to E, in the frame that was heard; and E in the next.
    fn check_now(&self, frame: &Frame, id: u8, seen: &mut Seen) {
        let story = &self.stories[usize::from(id)];
        let (here, there) = (truth(frame, id, 0), truth(frame, id, 1));
        let next = self.values.show(id, frame.count.wrapping_add(1));
        let ends = frame.to_change == 1 && self.past.now.all();
        if ends && story.announced && there.len() <= 8 && !self.is_right(&next, there) {
            seen.broken.push(("E", id, format!("ahead, {next:?}")));
        }
        let kept = story.right && (!frame.first || self.past.before.all());
        let apart = self.style.links != Links::Anyhow;
        let laws = [
            ("B", apart && story.beginnings >= 3, &mut seen.third),
            ("C", apart && story.second, &mut seen.second),
            ("D", kept && !frame.first, &mut seen.kept),
            ("D", kept && frame.first, &mut seen.kept_over_change),
            ("E", story.told, &mut seen.announced),
        ];
        let last = self
            .values
            .show(id, frame.count.wrapping_add(frame.to_change - 1));
        let now = self.values.show(id, frame.count);
        let right = self.is_right(&now, here) && self.is_right(&last, here);
        for (law, holds, count) in laws {
            let holds = holds && here.len() <= 8;
            *count += usize::from(holds && !here.is_empty());
            if holds && !right {
                seen.broken.push((law, id, format!("{now:?}")));
            }
        }
    }

    /// A and G, in a frame so far ahead.
    fn check_ahead(&self, frame: &Frame, id: u8, ahead: u8, seen: &mut Seen) {
        let story = &self.stories[usize::from(id)];
        let behind = ahead >= frame.to_change;
        let (count, here) = (frame.count.wrapping_add(ahead), truth(frame, id, ahead));
        let it = self.values.show(id, count);
        let fields = self.listed(it.at, it.length);
        if it.length > 0 && !story.may_be(behind, here, &fields) {
            seen.broken.push(("A", id, format!("{fields:x?} {ahead}")));
        }
        let silent = it.number == DONE && it.length == 0;
        let ended = frame.to_change == 1 && self.past.now.all();
        let gone = story.is_gone(behind, ended);
        let held = silent && !it.unknown;
        if held && !gone && self.past.row < 255 {
            seen.broken.push(("G", id, format!("{it:?} {ahead}")));
        }
        // What all ones said is so, up to the next change, or behind it where it was announced.
        let wrong = held && gone && !here.is_empty() && (!behind || story.announced);
        let odd = it.unknown && (!silent || self.past.row >= 255);
        let blank = silent && story.is_there(behind);
        let doubt = it.number == UNFINISHED && !story.is_there(behind);
        let frames = if story.announced { frame.to_change } else { 0 };
        let announced = (it.announced, it.frames) == (story.announced, frames);
        if wrong || odd || blank || doubt || !announced {
            seen.broken.push(("marks", id, format!("{it:?} {ahead}")));
        }
        seen.shown += usize::from(it.length > 0);
        seen.stale += usize::from(it.length > 0 && fields != here);
        seen.unfinished += usize::from(it.number == UNFINISHED);
        seen.gone += usize::from(held && gone);
        seen.unknown += usize::from(it.unknown);
        let heard = self.values.heard_of(id, count);
        self.check_heard(frame, id, ahead, (it, heard), seen);
    }

    /// What was heard: of a whole list what is shown, and of another some fields of the structure.
    fn check_heard(
        &self,
        frame: &Frame,
        id: u8,
        ahead: u8,
        (shown, it): (Shown, Heard),
        seen: &mut Seen,
    ) {
        let announced = self.stories[usize::from(id)].announced;
        let fields = self.listed(it.at, it.length);
        let structure = truth(frame, id, if announced { ahead } else { 0 });
        let good = match it.whole {
            true => it.length > 0 && (it.at, it.length) == (shown.at, shown.length),
            false => shown.length == 0 && fields.iter().all(|it| structure.contains(it)),
        };
        seen.parts += usize::from(!it.whole && it.length > 0);
        if !good {
            let text = format!("{it:?} {fields:x?} {ahead}");
            seen.broken.push(("heard", id, text));
        }
    }

    /// List and known say what show says of all.
    fn check_calls(&self, frame: &Frame, seen: &mut Seen) {
        let count = frame.count.wrapping_add(frame.field[3] % 129);
        let mut marks = [0xA5; IDS];
        assert_eq!(list(&self.map, count, &mut marks), DONE);
        for (id, mark) in (0..=255).zip(marks) {
            let it = self.values.show(id, count);
            let expected = match (it.number, it.length, it.unknown) {
                (UNFINISHED, _, _) => 2,
                (_, 0, true) => 3,
                (_, 0, false) => 0,
                _ => 1,
            };
            if mark != expected {
                seen.broken.push(("list", id, format!("{mark} {it:?}")));
            }
        }
        let there = marks.iter().filter(|mark| [1, 2].contains(*mark)).count();
        let row = self.past.row.min(255) as u8;
        let it = known(&self.map, count);
        seen.components = seen.components.max(it.3);
        if it != (DONE, row, self.past.now.all().into(), there) {
            seen.broken.push(("known", 0, format!("{it:?}")));
        }
    }

    /// Whether a component is shown as it is.
    fn is_right(&self, shown: &Shown, truth: &[u64]) -> bool {
        let same = || self.listed(shown.at, shown.length) == truth;
        shown.number == DONE && shown.length == 8 * truth.len() && same()
    }

    /// The fields in a part of the map.
    fn listed(&self, at: usize, length: usize) -> Vec<u64> {
        let number = |bytes: &[u8]| u64::from_le_bytes(bytes.try_into().expect("eight bytes"));
        self.map[at..at + length].chunks(8).map(number).collect()
    }
}

/// The component that a field is about.
fn about(sent: Sent) -> u8 {
    match sent {
        Sent::New(id, _) | Sent::Old(id, _) | Sent::Going(id) | Sent::Gone(id) => id,
        Sent::Panning => PANNING,
    }
}

/// The structure in force so many frames ahead; no fields if there is none.
fn truth(frame: &Frame, id: u8, ahead: u8) -> &[u64] {
    let behind = ahead >= frame.to_change;
    let then = if behind { &frame.next } else { &frame.present };
    then.get(&id).map_or(&[], Vec::as_slice)
}
