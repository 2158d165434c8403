//! Reading the short form of a site. Its lines are `panels N`, `code CODE`, `zone NAME PANEL NUMBER`, `point NAME PANEL LOOP ADDRESS ZONE`,
//! `marker NEEDED TERM..` with terms `zone:NAME`, `fault:PANEL` and `marker:PLACE` of an earlier one, `output NAME PANEL NUMBER MARKER`.
use crate::batches::GROUPS;
use crate::journal::Journal;
use crate::markers::Marker;
use crate::names::Names;
use crate::system::{Output, System, Zone};

/// A point's panel, the group in which it is asked, and its bit in that group.
#[derive(Clone, Copy)]
pub struct Place {
    pub panel: u8,
    pub group: u8,
    pub bit: u8,
}

/// What lines of a record and of a page name.
pub struct SiteNames {
    pub points: Names<Place>,
    pub zones: Names<u16>,
    pub codes: Vec<Vec<u8>>,
    /// The names of a panel's zones by their numbers, and of its points by group and bit.
    pub zone_names: Vec<[String; 32]>,
    pub point_names: Vec<[[String; 32]; GROUPS]>,
}

fn count(word: &str) -> usize {
    word.parse().expect("a number")
}

pub fn read(text: &str, journal: Journal) -> (System, SiteNames) {
    let (panels, lines) = text.strip_prefix("panels ").and_then(|text| text.split_once('\n')).expect("the number of panels");
    let mut system = System::new(count(panels), journal);
    let mut names = SiteNames {
        points: Names::new(lines.matches("point ").count()),
        zones: Names::new(256),
        codes: Vec::new(),
        zone_names: vec![Default::default(); count(panels)],
        point_names: vec![Default::default(); count(panels)],
    };
    for line in lines.lines() {
        let words: Vec<&str> = line.split(' ').collect();
        match words[..] {
            ["code", code] => names.codes.push(code.as_bytes().to_vec()),
            ["zone", name, panel, number] => {
                names.zones.put(name, system.zones.len() as u16);
                names.zone_names[count(panel) - 1][count(number) - 1] = name.to_string();
                system.zones.push(Zone { panel: count(panel) - 1, number: count(number) - 1 });
            }
            ["point", name, panel, line, address, zone] => put_point(&mut system, &mut names, name, [count(panel), count(line), count(address)], zone),
            ["marker", needed, ref terms @ ..] => put_marker(&mut system, &names, count(needed), terms),
            ["output", name, panel, number, marker] => {
                system.outputs[count(panel) - 1].push(Output { number: count(number) - 1, name: name.to_string(), marker: count(marker) });
            }
            _ => panic!("no line of a site: {line}"),
        }
    }
    (system, names)
}

fn put_point(system: &mut System, names: &mut SiteNames, name: &str, [panel, line, address]: [usize; 3], zone: &str) {
    let zone = system.zones[names.zones.get(zone.as_bytes()).expect("a zone") as usize].number;
    let (panel, group, bit) = (panel - 1, (address - 1) / 8, 8 * (line - 1) + (address - 1) % 8);
    let at = &mut system.panels[panel];
    at.groups[group].present |= 1 << bit;
    at.groups[group].size += 1;
    at.groups[group].zones[bit] = zone as u8;
    at.points[zone][group] |= 1 << bit;
    names.point_names[panel][group][bit] = name.to_string();
    names.points.put(name, Place { panel: panel as u8, group: group as u8, bit: bit as u8 });
}

fn put_marker(system: &mut System, names: &SiteNames, needed: usize, terms: &[&str]) {
    let markers = &mut system.markers;
    let place = markers.all.len();
    let mut marker = Marker { needed: needed as u32, ..Marker::default() };
    let (word, bit) = (place / 64, 1u64 << (place % 64));
    for term in terms {
        match term.split_once(':').expect("a term") {
            ("zone", name) => {
                let zone = &system.zones[names.zones.get(name.as_bytes()).expect("a zone") as usize];
                marker.zones[zone.panel] |= 1 << zone.number;
                markers.below_zones[zone.panel][word] |= bit;
            }
            ("fault", panel) => {
                marker.faults |= 1 << (count(panel) - 1);
                markers.below_faults[count(panel) - 1][word] |= bit;
            }
            (_, other) => {
                let (other_word, other_bit) = (count(other) / 64, 1u64 << (count(other) % 64));
                marker.markers[other_word] |= other_bit;
                for below in markers.below_zones.iter_mut().chain(&mut markers.below_faults) {
                    below[word] |= if below[other_word] & other_bit != 0 { bit } else { 0 };
                }
            }
        }
    }
    markers.all.push(marker);
}
