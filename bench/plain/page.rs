//! The text of a tick, of which a line is copied piece by piece into one page.
use crate::batches::GROUPS;
use crate::site::SiteNames;
use crate::system::System;
use std::io::Write;

fn state(is_on: bool) -> &'static [u8] {
    if is_on { b" on\n" } else { b" off\n" }
}

/// A line of a panel, without what stands at its end.
fn begin(page: &mut Vec<u8>, place: usize, kind: &[u8], name: &str) {
    page.push(b'1' + place as u8);
    page.extend_from_slice(kind);
    page.extend_from_slice(name.as_bytes());
}

/// A line for each bit in which two masks differ, by the names of the bits.
fn tell_bits(page: &mut Vec<u8>, place: usize, kind: &[u8], new: u32, old: u32, names: &[String]) {
    let mut bits = new ^ old;
    while bits != 0 {
        let at = bits.trailing_zeros() as usize;
        begin(page, place, kind, &names[at]);
        page.extend_from_slice(state(new >> at & 1 == 1));
        bits &= bits - 1;
    }
}

/// Whether there is anything to tell of the tick; if so, its text.
pub fn tell(system: &mut System, names: &SiteNames, now: u64, page: &mut Vec<u8>) {
    let mut is_told = !system.answers.is_empty();
    for panel in &mut system.panels {
        panel.is_changed = panel.is_changed && panel.face != panel.shown;
        is_told |= panel.is_changed;
    }
    if !is_told {
        return;
    }
    writeln!(page, "tick {now}").unwrap();
    for place in 0..system.panels.len() {
        if system.panels[place].is_changed {
            tell_panel(system, names, place, page);
            let panel = &mut system.panels[place];
            panel.shown = panel.face.clone();
            panel.is_changed = false;
        }
    }
    system.answers.sort_unstable();
    for (number, answer) in system.answers.drain(..) {
        writeln!(page, "op {number} {answer}").unwrap();
    }
}

fn tell_panel(system: &System, names: &SiteNames, place: usize, page: &mut Vec<u8>) {
    let (new, old) = (&system.panels[place].face, &system.panels[place].shown);
    for source in 0..system.panels.len() {
        tell_bits(page, place, b" zone ", new.zones[source], old.zones[source], &names.zone_names[source]);
    }
    if new.missing != old.missing {
        for line in 0..4 {
            let loop_mask = 255 << (8 * line);
            for group in 0..GROUPS {
                let (new, old) = (new.missing[group] & loop_mask, old.missing[group] & loop_mask);
                tell_bits(page, place, b" fault missing ", new, old, &names.point_names[place][group]);
            }
        }
    }
    if new.mains != old.mains {
        begin(page, place, b" fault ", "mains");
        page.extend_from_slice(state(new.mains));
    }
    let changed = new.outputs ^ old.outputs;
    for output in system.outputs[place].iter().filter(|output| changed >> output.number & 1 == 1) {
        begin(page, place, b" output ", &output.name);
        page.extend_from_slice(state(new.outputs >> output.number & 1 == 1));
    }
    tell_bits(page, place, b" disabled zone ", new.zones_off, old.zones_off, &names.zone_names[place]);
    if new.buzzer != old.buzzer {
        begin(page, place, b" buzzer ", ["off\n", "fault\n", "fire\n"][new.buzzer as usize]);
    }
    if new.counter != old.counter {
        writeln!(page, "{} counter {}", place + 1, new.counter).unwrap();
    }
}
