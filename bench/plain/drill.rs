//! `drill SEED TICKS`: a site of eight panels with 3,072 points and a record that the seed draws, run over a journal in memory.
use crate::batches::GROUPS;
use crate::journal::Journal;
use crate::site::{self, Place};
use crate::system::canonical;
use std::fmt::Write;

const PANELS: usize = 8;
const MULTIPLIER: u64 = 6364136223846793005;

/// The generator PCG XSH RR 64/32, seeded as `Pcg32::seed_from_u64` is.
struct Draws {
    state: u64,
    increment: u64,
}

fn output(state: u64) -> u32 {
    (((state >> 18 ^ state) >> 27) as u32).rotate_right((state >> 59) as u32)
}

impl Draws {
    fn new(mut seed: u64) -> Self {
        let mut word = || {
            seed = seed.wrapping_mul(MULTIPLIER).wrapping_add(11634580027462260723);
            output(seed) as u64
        };
        let (first, second) = (word() | word() << 32, (word() | word() << 32) | 1);
        let mut draws = Draws { state: first.wrapping_add(second), increment: second };
        draws.next();
        draws
    }

    fn next(&mut self) -> u32 {
        let word = output(self.state);
        self.state = self.state.wrapping_mul(MULTIPLIER).wrapping_add(self.increment);
        word
    }
}

fn site_text() -> String {
    let mut text = format!("panels {PANELS}\n");
    for panel in 1..=PANELS {
        (1..=32).for_each(|number| writeln!(text, "zone z{panel}-{number} {panel} {number}").unwrap());
        for (line, address) in (1..=4).flat_map(|line| (1..=96).map(move |address| (line, address))) {
            let zone = 8 * (line - 1) + (address - 1) / 12 + 1;
            writeln!(text, "point p{panel}-l{line}-a{address} {panel} {line} {address} z{panel}-{zone}").unwrap();
        }
        let terms: Vec<String> = (1..=32).map(|number| format!("zone:z{panel}-{number}")).collect();
        writeln!(text, "marker 1 {}\noutput bells-{panel} {panel} 1 {}", terms.join(" "), panel - 1).unwrap();
    }
    text
}

/// The point at a place of the list, which goes by panels, loops and addresses.
fn point(place: usize) -> Place {
    let (panel, line, address) = (place / 384, place / 96 % 4, place % 96);
    Place { panel: panel as u8, group: (address / 8) as u8, bit: (8 * line + address % 8) as u8 }
}

pub fn drill(seed: u64, ticks: u64) {
    let (mut system, _) = site::read(&site_text(), Journal::in_memory());
    let forwards = canonical(PANELS);
    let backwards: Vec<u8> = forwards.iter().rev().copied().collect();
    let mut draws = Draws::new(seed);
    for tick in 1..=ticks {
        let (first, second) = (draws.next() as usize, draws.next());
        if first % 4 == 0 {
            let place = point(first / 4 % (PANELS * 32 * GROUPS));
            let group = &mut system.panels[place.panel as usize].groups[place.group as usize];
            let (bit, state) = (1 << place.bit, first / 12288 % 3);
            group.alarm = group.alarm & !bit | if state == 1 { bit } else { 0 };
            group.gone = group.gone & !bit | if state == 2 { bit } else { 0 };
        }
        system.run(tick, if second % 2 == 1 { &backwards } else { &forwards });
    }
    let faces = system.panels.iter().map(|panel| &panel.face);
    let (mut zones, mut outputs, mut counter) = (0, 0, 0);
    for (place, face) in faces.enumerate() {
        zones += face.zones[place].count_ones();
        outputs += face.outputs.count_ones();
        counter += face.counter;
    }
    println!("drill seed {seed} ticks {ticks} zones {zones} outputs {outputs} counter {counter}");
}
