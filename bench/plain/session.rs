// A session in place: places, couplings as a word of neighbours for each part, the live firings, the highest serial given, the tally.
// A set of parts is one machine word.

use crate::sheet::{Coupling, Entry, Net, Step};

pub const MAX_LIVE: usize = 256;

pub struct Firing {
    pub step: u8,
    pub serial: u16,
    pub moved: u64,
}

#[derive(Clone, Copy)]
pub enum Answer {
    Fired(u16),
    Undone(u16),
    Refused(u8),
}

#[derive(Default)]
pub struct Tally {
    pub fired: u16,
    pub undone: u16,
    pub refused: u16,
}

impl Tally {
    pub fn count(&mut self, answer: Answer) {
        let count = match answer {
            Answer::Fired(_) => &mut self.fired,
            Answer::Undone(_) => &mut self.undone,
            Answer::Refused(_) => &mut self.refused,
        };
        *count = count.saturating_add(1);
    }
}

#[derive(PartialEq)]
pub struct Marking {
    pub places: [u8; 64],
    pub neighbours: [u64; 64],
}

fn members(mut set: u64) -> impl Iterator<Item = usize> {
    std::iter::from_fn(move || {
        (set != 0).then(|| {
            let part = set.trailing_zeros() as usize;
            set &= set - 1;
            part
        })
    })
}

impl Marking {
    pub fn start(net: &Net) -> Self {
        let mut marking = Marking {
            places: [0; 64],
            neighbours: [0; 64],
        };
        marking.places[..net.start_places.len()].copy_from_slice(&net.start_places);
        net.start_couplings.iter().for_each(|&c| marking.couple(c));
        marking
    }

    pub fn coupled(&self, (p, q): Coupling) -> bool {
        self.neighbours[usize::from(p)] >> q & 1 == 1
    }

    fn couple(&mut self, (p, q): Coupling) {
        self.neighbours[usize::from(p)] |= 1 << q;
        self.neighbours[usize::from(q)] |= 1 << p;
    }

    fn uncouple(&mut self, (p, q): Coupling) {
        self.neighbours[usize::from(p)] &= !(1 << q);
        self.neighbours[usize::from(q)] &= !(1 << p);
    }

    /// Every part connected to this one, itself among them.
    fn group(&self, part: u8) -> u64 {
        let mut found = 1u64 << part;
        let mut new = found;
        while new != 0 {
            let reached = members(new).fold(0, |set, p| set | self.neighbours[p]);
            new = reached & !found;
            found |= reached;
        }
        found
    }

    /// Puts the group of each entry in the place that `place` gives; the first entry of a group decides.
    fn send(&mut self, entries: &[Entry], place: impl Fn(&Entry) -> u8) -> u64 {
        let mut sent = 0u64;
        for e in entries {
            if sent >> e.part & 1 == 0 {
                let group = self.group(e.part);
                members(group).for_each(|p| self.places[p] = place(e));
                sent |= group;
            }
        }
        sent
    }

    /// Entries that are connected and have different out-places.
    fn torn(&self, entries: &[Entry]) -> bool {
        let mut seen = 0u64;
        entries.iter().enumerate().any(|(i, e)| {
            if seen >> e.part & 1 == 1 {
                return false;
            }
            let group = self.group(e.part);
            seen |= group;
            entries[i + 1..]
                .iter()
                .any(|f| group >> f.part & 1 == 1 && f.to != e.to)
        })
    }

    /// 16, by the couplings after the firing. The added ones join entries with one out-place, so they play no part.
    fn torn_after(&mut self, step: &Step) -> bool {
        step.broken.iter().for_each(|&c| self.uncouple(c));
        let torn = self.torn(&step.entries);
        step.broken.iter().for_each(|&c| self.couple(c));
        torn
    }

    /// 13 to 16, or 0.
    pub fn blocked(&mut self, step: &Step) -> u8 {
        if step
            .entries
            .iter()
            .any(|e| self.places[usize::from(e.part)] != e.from)
        {
            13
        } else if step.needed.iter().any(|&c| !self.coupled(c)) {
            14
        } else if step.added.iter().any(|&c| self.coupled(c)) {
            15
        } else if step.entries.len() > 1 && self.torn_after(step) {
            16
        } else {
            0
        }
    }

    /// Fires a step that nothing blocks; the moved parts. Both parts of a broken coupling have entries, so what the entries reach
    /// with it removed is what they reached before.
    pub fn fire(&mut self, step: &Step) -> u64 {
        step.broken.iter().for_each(|&c| self.uncouple(c));
        let moved = self.send(&step.entries, |e| e.to);
        step.added.iter().for_each(|&c| self.couple(c));
        moved
    }

    fn take_back(&mut self, step: &Step) {
        step.added.iter().for_each(|&c| self.uncouple(c));
        step.broken.iter().for_each(|&c| self.couple(c));
        self.send(&step.entries, |e| e.from);
    }
}

pub struct Session {
    pub marking: Marking,
    pub live: Vec<Firing>,
    /// The highest serial given so far; a taking back leaves it.
    pub given: u16,
}

impl Session {
    pub fn start(net: &Net) -> Self {
        Session {
            marking: Marking::start(net),
            live: Vec::with_capacity(MAX_LIVE),
            given: 0,
        }
    }

    /// The highest live serial, or 0.
    fn highest(&self) -> u16 {
        self.live.last().map_or(0, |f| f.serial)
    }

    fn fire(&mut self, net: &Net, number: u16) -> Answer {
        let Some(step) = net.steps.get(usize::from(number)) else {
            return Answer::Refused(12);
        };
        let blocked = self.marking.blocked(step);
        if blocked != 0 {
            return Answer::Refused(blocked);
        }
        if self.live.len() == MAX_LIVE {
            return Answer::Refused(17);
        }
        let Some(serial) = self.given.checked_add(1) else {
            return Answer::Refused(18);
        };
        let moved = self.marking.fire(step);
        self.given = serial;
        self.live.push(Firing {
            step: number as u8,
            serial,
            moved,
        });
        Answer::Fired(serial)
    }

    fn undo(&mut self, net: &Net, serial: u16) -> Answer {
        let Ok(i) = self.live.binary_search_by_key(&serial, |f| f.serial) else {
            return Answer::Refused(19);
        };
        let moved = self.live[i].moved;
        if self.live[i + 1..].iter().any(|f| f.moved & moved != 0) {
            return Answer::Refused(20);
        }
        self.marking
            .take_back(&net.steps[usize::from(self.live[i].step)]);
        self.live.remove(i);
        Answer::Undone(serial)
    }

    /// One command: three bytes, or fewer where the input ends inside it.
    pub fn command(&mut self, net: &Net, bytes: &[u8]) -> Answer {
        let &[kind, low, high] = bytes else {
            return Answer::Refused(21);
        };
        match (kind, u16::from_le_bytes([low, high])) {
            (1, number) => self.fire(net, number),
            (2, 0) => self.undo(net, self.highest()),
            (3, serial) => self.undo(net, serial),
            _ => Answer::Refused(11),
        }
    }

    /// 10: whether the live firings, run forward alone from the start, give this very session, and none has a serial above
    /// the highest given.
    pub fn is_sound(&self, net: &Net) -> bool {
        let ascending = self.live.windows(2).all(|w| w[0].serial < w[1].serial);
        let from_one = self.live.first().is_none_or(|f| f.serial >= 1);
        if self.live.len() > MAX_LIVE || !ascending || !from_one || self.given < self.highest() {
            return false;
        }
        let mut marking = Marking::start(net);
        let each_fires = self.live.iter().all(|f| {
            net.steps
                .get(usize::from(f.step))
                .is_some_and(|step| marking.blocked(step) == 0 && marking.fire(step) == f.moved)
        });
        each_fires && marking == self.marking
    }
}
