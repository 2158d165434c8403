//! The panels in a ring, with the tasks that look at more than one panel or at what is asked of them, and the turns of a tick.
use crate::journal::Journal;
use crate::markers::{has, join, Markers};
use crate::panel::{Asked, Panel};

pub struct Zone {
    pub panel: usize,
    pub number: usize,
}

pub struct Output {
    pub number: usize,
    pub name: String,
    pub marker: usize,
}

pub struct System {
    pub panels: Vec<Panel>,
    pub zones: Vec<Zone>,
    pub markers: Markers,
    /// The outputs of each panel by their numbers.
    pub outputs: Vec<Vec<Output>>,
    /// The settings that Keep is to keep, and those that it kept in this tick, each with its panel.
    waiting: Vec<(usize, Asked)>,
    done: Vec<(usize, Asked)>,
    pub answers: Vec<(u64, &'static str)>,
    journal: Journal,
    cell: Vec<u8>,
}

/// A seat is a byte: its task by the letters of `TASKS`, and 16 times the place of its panel.
pub const TASKS: &[u8; 9] = b"pdsohlerk";
pub const KEEP: u8 = 8;

pub fn canonical(panels: usize) -> Vec<u8> {
    let mut seats: Vec<u8> = (0..panels as u8).flat_map(|place| (0..KEEP).map(move |task| task | place << 4)).collect();
    seats.push(KEEP);
    seats
}

impl System {
    pub fn new(panels: usize, journal: Journal) -> Self {
        System {
            panels: vec![Panel::default(); panels],
            zones: Vec::new(),
            markers: Markers::default(),
            outputs: (0..panels).map(|_| Vec::new()).collect(),
            waiting: Vec::new(),
            done: Vec::new(),
            answers: Vec::new(),
            journal,
            cell: Vec::new(),
        }
    }

    pub fn run(&mut self, now: u64, order: &[u8]) {
        if !self.done.is_empty() {
            self.apply(now);
        }
        let group = (now % crate::batches::GROUPS as u64) as usize;
        for seat in order {
            let place = (seat >> 4) as usize;
            let panel = &mut self.panels[place];
            match seat & 15 {
                0 => panel.poll(now, group),
                1 => panel.decide(),
                2 => panel.supply(),
                3 if panel.asked.is_empty() => {}
                3 => self.desk(place),
                4 => panel.hold(now, place),
                5 => self.link(place, now),
                6 if panel.unsolved == 0 => {}
                6 => self.effect(place),
                7 if panel.requested == panel.face.outputs => {}
                7 => {
                    panel.face.outputs = panel.requested;
                    panel.is_changed = true;
                }
                _ => self.keep(),
            }
        }
    }

    /// The settings that were kept in the tick before.
    fn apply(&mut self, now: u64) {
        for (place, asked) in self.done.drain(..) {
            self.panels[place].block(now, self.zones[asked.zone as usize].number, asked.is_off);
        }
    }

    fn desk(&mut self, place: usize) {
        for at in 0..self.panels[place].asked.len() {
            let asked = self.panels[place].asked[at];
            let is_off = self.panels[place].face.zones_off >> self.zones[asked.zone as usize].number & 1 == 1;
            if !asked.is_level_2 {
                self.answers.push((asked.number, "denied needs 2 has 1"));
            } else if self.waiting.iter().chain(&self.done).any(|other| other.1.zone == asked.zone) {
                self.answers.push((asked.number, "waiting"));
            } else if is_off == asked.is_off {
                self.answers.push((asked.number, "already"));
            } else {
                self.waiting.push((place, asked));
            }
        }
        self.panels[place].asked.clear();
    }

    /// Takes of both neighbours the later words of the panels that are carried in this tick.
    fn link(&mut self, place: usize, now: u64) {
        let (count, own) = (self.panels.len(), self.panels[place].own);
        let kept = &mut self.panels[place].kept[place / 4][place % 4];
        let is_other = kept.said != own.said;
        *kept = own;
        self.panels[place].unsolved |= (is_other as u8) << place;
        if count == 1 {
            return;
        }
        let half = (count > 4 && now % 2 == 0) as usize;
        let after = if place + 1 == count { 0 } else { place + 1 };
        let before = if place == 0 { count - 1 } else { place - 1 };
        for neighbour in [after, before] {
            let heard = self.panels[neighbour].kept[half];
            let panel = &mut self.panels[place];
            for (at, word) in heard.into_iter().enumerate() {
                let kept = &mut panel.kept[half][at];
                if word.stamp > kept.stamp {
                    if word.said != kept.said {
                        let source = 4 * half + at;
                        panel.unsolved |= 1 << source;
                        panel.face.zones[source] = word.zones();
                        panel.is_changed = true;
                    }
                    *kept = word;
                }
            }
        }
    }

    /// Solves the markers below what changed, and reads of those of the panel's outputs what is requested.
    fn effect(&mut self, place: usize) {
        let panel = &mut self.panels[place];
        let mut below = [0; 4];
        while panel.unsolved != 0 {
            let source = panel.unsolved.trailing_zeros() as usize;
            let word = panel.kept[source / 4][source % 4];
            if word.zones() != panel.facts.zones[source] {
                panel.facts.zones[source] = word.zones();
                join(&mut below, &self.markers.below_zones[source]);
            }
            if word.is_fault() != (panel.facts.faults >> source & 1 == 1) {
                panel.facts.faults ^= 1 << source;
                join(&mut below, &self.markers.below_faults[source]);
            }
            panel.unsolved &= panel.unsolved - 1;
        }
        self.markers.solve(&below, &panel.facts, &mut panel.values);
        let outputs = self.outputs[place].iter();
        panel.requested = outputs.fold(0, |all, output| all | (has(&panel.values, output.marker) as u32) << output.number);
    }

    /// Commits the alarms that aren't counted yet and the settings that wait.
    fn keep(&mut self) {
        self.cell.clear();
        for (place, panel) in self.panels.iter_mut().enumerate() {
            if panel.entries != 0 {
                self.cell.extend([1, place as u8, panel.entries as u8]);
                panel.face.counter = (panel.face.counter + panel.entries).min(999_999);
                panel.entries = 0;
                panel.is_changed = true;
            }
        }
        for (place, asked) in self.waiting.drain(..) {
            self.cell.extend([2, place as u8, asked.zone as u8, asked.is_off as u8]);
            self.answers.push((asked.number, "done"));
            self.done.push((place, asked));
        }
        if !self.cell.is_empty() {
            self.journal.commit(&self.cell);
        }
    }
}
