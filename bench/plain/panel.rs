//! What stands at a panel, with the tasks that look at nothing else: Poll, Decide, Supply and Hold.
use crate::batches::{Batch, Lane, GROUPS, QUOTA};
use crate::markers::{Facts, Set};

pub const NO_ZONE: u8 = 32;

/// What a panel says to the others: a bit for each zone in alarm, and bit 32 for a fault.
#[derive(Clone, Copy, Default)]
pub struct Word {
    pub stamp: u64,
    pub said: u64,
}

impl Word {
    pub fn zones(self) -> u32 {
        self.said as u32
    }

    pub fn is_fault(self) -> bool {
        self.said >> 32 != 0
    }
}

/// What a panel shows.
#[derive(Clone, Default, PartialEq)]
pub struct Face {
    pub zones: [u32; 8],
    pub missing: [u32; GROUPS],
    pub mains: bool,
    pub outputs: u32,
    pub zones_off: u32,
    pub buzzer: u8,
    pub counter: u32,
}

/// The points that are asked in one tick, a bit for each.
#[derive(Clone, Default)]
pub struct Group {
    pub present: u32,
    pub size: u32,
    pub alarm: u32,
    pub gone: u32,
    /// The low and high bits of how often each was silent in a row, up to three times.
    silent_low: u32,
    silent_high: u32,
    pub blocked: u32,
    pub blocked_before: u32,
    missing: u32,
    /// The points whose zone is in alarm, so that their answers change nothing.
    released: u32,
    pub zones: [u8; 32],
}

#[derive(Clone, Copy)]
pub struct Asked {
    pub number: u64,
    pub zone: u16,
    pub is_off: bool,
    pub is_level_2: bool,
}

#[derive(Clone, Default)]
pub struct Panel {
    pub groups: [Group; GROUPS],
    answers: Lane,
    findings: Lane,
    pub blocked_since: u64,
    /// The points of each zone, by groups.
    pub points: [[u32; GROUPS]; 32],
    floors: [u64; 32],
    alarm: u32,
    is_missing: bool,
    pub own: Word,
    /// The words that are kept of panels 1 to 4, and of 5 to 8.
    pub kept: [[Word; 4]; 2],
    pub is_mains_bad: bool,
    is_mains_fault: bool,
    /// The alarms that aren't counted in the journal yet.
    pub entries: u32,
    /// The panels of which the kept word changed since the markers were solved.
    pub unsolved: u8,
    pub facts: Facts,
    pub values: Set,
    pub requested: u32,
    pub asked: Vec<Asked>,
    pub face: Face,
    pub shown: Face,
    /// Whether the face may differ from what was shown.
    pub is_changed: bool,
}

impl Group {
    fn count_silences(&mut self, taken: u32, silent: u32) {
        if silent | taken & (self.silent_low | self.silent_high) == 0 {
            return;
        }
        let (low, high) = (self.silent_low, self.silent_high);
        self.silent_low = low & !taken | silent & (!low | high);
        self.silent_high = high & !taken | silent & (low | high);
    }
}

impl Panel {
    pub fn poll(&mut self, now: u64, place: usize) {
        let group = &self.groups[place];
        let (alarm, silent) = (group.alarm, group.gone);
        self.answers.put(Batch { stamp: now, group: place as u32, size: group.size, left: group.present, alarm, silent });
    }

    pub fn decide(&mut self) {
        let mut room = QUOTA;
        while let Some(mut batch) = self.answers.take(&mut room) {
            let group = &mut self.groups[batch.group as usize];
            group.count_silences(batch.left, batch.silent & batch.left);
            let blocked = if batch.stamp >= self.blocked_since { group.blocked } else { group.blocked_before };
            batch.alarm &= batch.left & !blocked;
            batch.silent = group.silent_low & group.silent_high & batch.left;
            self.findings.put(batch);
        }
    }

    pub fn supply(&mut self) {
        self.is_mains_fault = self.is_mains_bad;
    }

    pub fn hold(&mut self, now: u64, own: usize) {
        let mut room = QUOTA;
        while let Some(batch) = self.findings.take(&mut room) {
            let group = &self.groups[batch.group as usize];
            let missing = group.missing & !batch.left | batch.silent;
            let is_other = missing != group.missing;
            if batch.alarm & !group.released != 0 {
                self.release(&batch);
            }
            if is_other {
                self.miss(batch.group as usize, missing);
            }
        }
        let is_fault = self.is_mains_fault | self.is_missing;
        let said = self.alarm as u64 | (is_fault as u64) << 32;
        if said != self.own.said || self.is_mains_fault != self.face.mains {
            self.face.zones[own] = self.alarm;
            self.face.buzzer = if self.alarm != 0 { 2 } else { is_fault as u8 };
            self.face.mains = self.is_mains_fault;
            self.is_changed = true;
        }
        self.own = Word { stamp: now, said };
    }

    /// Puts the zones into alarm of which a point is and that were in none.
    fn release(&mut self, batch: &Batch) {
        let (was, group) = (self.alarm, &self.groups[batch.group as usize]);
        let mut bits = batch.alarm & !group.released;
        while bits != 0 {
            let zone = group.zones[bits.trailing_zeros() as usize];
            if zone != NO_ZONE && batch.stamp > self.floors[zone as usize] {
                self.alarm |= 1 << zone;
            }
            bits &= bits - 1;
        }
        if was == 0 && self.alarm != 0 {
            self.entries += 1;
        }
        self.note_released();
    }

    fn note_released(&mut self) {
        for (place, group) in self.groups.iter_mut().enumerate() {
            group.released = (0..32).filter(|zone| self.alarm >> zone & 1 == 1).fold(0, |all, zone| all | self.points[zone][place]);
        }
    }

    fn miss(&mut self, place: usize, missing: u32) {
        self.groups[place].missing = missing;
        self.face.missing[place] = missing & !self.groups[place].blocked;
        self.is_missing = self.face.missing.iter().any(|mask| *mask != 0);
        self.is_changed = true;
    }

    /// Disables or enables a zone from this tick on.
    pub fn block(&mut self, now: u64, zone: usize, is_off: bool) {
        self.blocked_since = now;
        for (group, points) in self.groups.iter_mut().zip(&self.points[zone]) {
            group.blocked_before = group.blocked;
            group.blocked = group.blocked & !points | if is_off { *points } else { 0 };
        }
        if is_off {
            self.floors[zone] = now - 1;
            self.alarm &= !(1 << zone);
            self.note_released();
        }
        self.face.zones_off = self.face.zones_off & !(1 << zone) | (is_off as u32) << zone;
        self.is_changed = true;
    }
}
