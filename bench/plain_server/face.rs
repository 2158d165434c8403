//! What a panel shows, as lines of text and as JSON.
use super::panel::Answers;
use super::site::Site;
use std::fmt::Arguments;
use std::io::Write;

#[derive(Clone, Copy, Default, PartialEq)]
pub struct Faults {
    pub missing: [[u128; 2]; 4],
    pub broken: u8,
    pub shorted: u8,
    pub supply: u8,
    pub silent: u8,
    pub links: u8,
    pub unconfirmed: u32,
}

#[derive(Clone, Default, PartialEq)]
pub struct Face {
    pub zones: [u32; 8],
    pub firsts: [u32; 8],
    pub faults: Faults,
    pub outputs: u32,
    pub confirmed: u32,
    pub points_off: [[u128; 2]; 4],
    pub zones_off: u32,
    pub outputs_off: u32,
    pub tests: u32,
    pub delays_off: bool,
    pub buzzer: u8,
    pub counter: u32,
}

#[derive(Clone, Copy, PartialEq)]
pub enum Group {
    Zones,
    Firsts,
    Faults,
    Outputs,
    Confirmed,
    Disabled,
    Tests,
}

const GROUPS: [(Group, &str); 7] = [
    (Group::Zones, "zone "),
    (Group::Firsts, "first "),
    (Group::Faults, "fault "),
    (Group::Outputs, "output "),
    (Group::Confirmed, "confirmed "),
    (Group::Disabled, "disabled "),
    (Group::Tests, "test "),
];
const BUZZER: [&str; 3] = ["off", "fault", "fire"];
const SUPPLIES: [&str; 4] = ["mains", "standby", "voltage", "charger"];

impl Faults {
    /// Whether something is here that isn't there.
    pub fn has_more(&self, other: &Faults) -> bool {
        let missing = self.missing.iter().flatten().zip(other.missing.iter().flatten()).any(|(new, old)| new & !old != 0);
        let masks = |it: &Faults| [it.broken as u32, it.shorted as u32, it.supply as u32, it.silent as u32, it.links as u32, it.unconfirmed];
        missing || masks(self).iter().zip(masks(other)).any(|(new, old)| new & !old != 0)
    }
}

impl Face {
    /// Takes away what is set of things that the site hasn't.
    pub fn mask(&mut self, site: &Site, at: usize) {
        let numbers = |places: &[Option<usize>; 32]| (0..32).filter(|number| places[*number].is_some()).fold(0u32, |mask, number| mask | 1 << number);
        self.zones_off &= numbers(&site.zone_at[at]);
        self.tests &= numbers(&site.zone_at[at]);
        self.outputs_off &= numbers(&site.output_at[at]);
        for (line, halves) in self.points_off.iter_mut().enumerate() {
            for (half, mask) in halves.iter_mut().enumerate() {
                let has_point = |bit: usize| site.point_at[at][line].get(96 * half + bit).is_some_and(|place| place.is_some());
                *mask &= (0..96).filter(|bit| has_point(*bit)).fold(0u128, |mask, bit| mask | 1 << bit);
            }
        }
    }
}

/// Tells each bit in which two masks differ, and whether the first has it.
fn each(new: u128, old: u128, mut tell: impl FnMut(usize, bool)) {
    let mut bits = new ^ old;
    while bits != 0 {
        let at = bits.trailing_zeros() as usize;
        tell(at, new >> at & 1 == 1);
        bits &= bits - 1;
    }
}

/// Tells the words of all of a group in which two faces of a panel differ.
fn differences(site: &Site, at: usize, group: Group, new: &Face, old: &Face, mut tell: impl FnMut(Arguments, bool)) {
    let zone = |panel: usize, number: usize| &site.zones[site.zone_at[panel][number].expect("a zone")].name;
    let output = |number: usize| &site.outputs[site.output_at[at][number].expect("an output")].name;
    let points = |new: &[[u128; 2]; 4], old: &[[u128; 2]; 4], word: &str, tell: &mut dyn FnMut(Arguments, bool)| {
        for (place, (new, old)) in new.iter().flatten().zip(old.iter().flatten()).enumerate().filter(|(_, (new, old))| new != old) {
            each(*new, *old, |bit, on| {
                let point = site.point_at[at][place / 2][96 * (place % 2) + bit].expect("a point");
                tell(format_args!("{word} {}", site.points[point].name), on);
            });
        }
    };
    match group {
        Group::Zones | Group::Firsts => {
            let (new, old) = if group == Group::Zones { (&new.zones, &old.zones) } else { (&new.firsts, &old.firsts) };
            for panel in 0..site.panels {
                each(new[panel].into(), old[panel].into(), |number, on| tell(format_args!("{}", zone(panel, number)), on));
            }
        }
        Group::Faults => {
            let (new, old) = (&new.faults, &old.faults);
            points(&new.missing, &old.missing, "missing", &mut tell);
            each(new.broken.into(), old.broken.into(), |line, on| tell(format_args!("broken {}", line + 1), on));
            each(new.shorted.into(), old.shorted.into(), |line, on| tell(format_args!("shorted {}", line + 1), on));
            each(new.supply.into(), old.supply.into(), |kind, on| tell(format_args!("{}", SUPPLIES[kind]), on));
            each(new.silent.into(), old.silent.into(), |panel, on| tell(format_args!("silent {}", panel + 1), on));
            each(new.links.into(), old.links.into(), |link, on| tell(format_args!("link {}", link + 1), on));
            each(new.unconfirmed.into(), old.unconfirmed.into(), |it, on| tell(format_args!("unconfirmed {}", output(it)), on));
        }
        Group::Outputs => each(new.outputs.into(), old.outputs.into(), |number, on| tell(format_args!("{}", output(number)), on)),
        Group::Confirmed => each(new.confirmed.into(), old.confirmed.into(), |number, on| tell(format_args!("{}", output(number)), on)),
        Group::Disabled => {
            points(&new.points_off, &old.points_off, "point", &mut tell);
            each(new.zones_off.into(), old.zones_off.into(), |number, on| tell(format_args!("zone {}", zone(at, number)), on));
            each(new.outputs_off.into(), old.outputs_off.into(), |number, on| tell(format_args!("output {}", output(number)), on));
        }
        Group::Tests => each(new.tests.into(), old.tests.into(), |number, on| tell(format_args!("{}", zone(at, number)), on)),
    }
}

/// The lines that lead from one face of a panel to another.
pub fn write_changes(site: &Site, at: usize, new: &Face, old: &Face, text: &mut Vec<u8>) {
    let panel = at + 1;
    for (group, word) in GROUPS {
        differences(site, at, group, new, old, |words, on| {
            writeln!(text, "{panel} {word}{words} {}", if on { "on" } else { "off" }).unwrap();
        });
    }
    if new.delays_off != old.delays_off {
        writeln!(text, "{panel} delays {}", if new.delays_off { "off" } else { "on" }).unwrap();
    }
    if new.buzzer != old.buzzer {
        writeln!(text, "{panel} buzzer {}", BUZZER[new.buzzer as usize]).unwrap();
    }
    if new.counter != old.counter {
        writeln!(text, "{panel} counter {}", new.counter).unwrap();
    }
}

pub fn write_answers(answers: &Answers, text: &mut Vec<u8>) {
    for (number, answer) in &answers.operations {
        writeln!(text, "op {number} {answer}").unwrap();
    }
    for (at, count) in answers.busy.iter().enumerate().filter(|(_, count)| **count != 0) {
        writeln!(text, "{} busy {count}", at + 1).unwrap();
    }
    if answers.is_failed {
        text.extend(b"store failed\n");
    }
}

/// The face as one JSON object.
pub fn write_json(site: &Site, at: usize, face: &Face, tick: u64, text: &mut Vec<u8>) {
    let nothing = Face::default();
    let list = |group: Group, text: &mut Vec<u8>| {
        text.push(b'[');
        let mut is_first = true;
        differences(site, at, group, face, &nothing, |words, _| {
            write!(text, "{}\"{words}\"", if is_first { "" } else { "," }).unwrap();
            is_first = false;
        });
        text.push(b']');
    };
    let has_points = face.points_off != [[0; 2]; 4];
    let conditions = [
        (face.zones[at] != 0, "\"fire\""),
        (face.faults != Faults::default(), "\"fault\""),
        (has_points || face.zones_off | face.outputs_off != 0 || face.delays_off, "\"disabled\""),
        (face.tests != 0, "\"test\""),
    ];
    let conditions: Vec<&str> = conditions.iter().filter(|(holds, _)| *holds).map(|(_, word)| *word).collect();
    let delays = if face.delays_off { "off" } else { "on" };
    let buzzer = BUZZER[face.buzzer as usize];
    write!(text, "{{\"buzzer\":\"{buzzer}\",\"conditions\":[{}],\"counter\":{},\"delays\":\"{delays}\",\"disabled\":", conditions.join(","), face.counter).unwrap();
    list(Group::Disabled, text);
    text.extend(b",\"faults\":");
    list(Group::Faults, text);
    text.extend(b",\"first\":");
    list(Group::Firsts, text);
    text.extend(b",\"outputs\":");
    list(Group::Outputs, text);
    write!(text, ",\"panel\":{},\"test\":", at + 1).unwrap();
    list(Group::Tests, text);
    write!(text, ",\"tick\":{tick},\"zones\":").unwrap();
    list(Group::Zones, text);
    text.extend(b"}\n");
}
