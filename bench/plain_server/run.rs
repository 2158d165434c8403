//! What a system tells: the opening lines, and the text of a tick.
use super::face::{Face, write_answers, write_changes};
use super::panel::System;
use super::record::Event;
use std::io::Write;

pub struct Run {
    pub system: System,
    shown: Vec<Face>,
}

impl Run {
    /// A run, and its opening lines.
    pub fn open(system: System) -> (Run, Vec<u8>) {
        let site = &system.site;
        let mut text = format!("site {} panels {}\n", site.name, site.panels).into_bytes();
        let shown: Vec<Face> = (0..site.panels).map(|at| system.face(at).clone()).collect();
        shown.iter().enumerate().for_each(|(at, face)| write_changes(site, at, face, &Face::default(), &mut text));
        (Run { system, shown }, text)
    }

    /// Makes the turns of a tick that has begun, and puts its text behind what stands there.
    pub fn turns(&mut self, order: Option<&[u8]>, text: &mut Vec<u8>) {
        self.system.turns(order);
        let before = text.len();
        writeln!(text, "tick {}", self.system.now).unwrap();
        let front = text.len();
        for (at, shown) in self.shown.iter_mut().enumerate() {
            let face = self.system.face(at);
            if face != shown {
                write_changes(&self.system.site, at, face, shown, text);
                shown.clone_from(face);
            }
        }
        write_answers(&self.system.answers, text);
        if text.len() == front {
            text.truncate(before);
        }
    }

    /// A whole tick.
    pub fn tick(&mut self, events: &[Event], order: Option<&[u8]>, text: &mut Vec<u8>) {
        self.system.begin();
        events.iter().for_each(|event| self.system.event(event));
        self.turns(order, text);
    }
}
