//! A site, of a site file that is valid: a yardstick needn't tell what is wrong with another.
use super::sha256::sha256;
use super::toml::{self, Table, Value};
use std::collections::HashMap;

pub struct Site {
    /// The ticks of a second over two: 1 or 2.
    pub format: u64,
    pub digest: [u8; 32],
    pub name: String,
    pub panels: usize,
    pub waits: [u64; 4],
    pub codes: [Vec<String>; 3],
    pub loops: Vec<Loop>,
    pub zones: Vec<Zone>,
    pub points: Vec<Point>,
    pub outputs: Vec<Output>,
    pub markers: Vec<Marker>,
    /// Markers in an order in which each comes after its terms.
    pub solving: Vec<usize>,
    pub names: HashMap<Vec<u8>, Named>,
    /// By panel and number.
    pub zone_at: Vec<[Option<usize>; 32]>,
    pub output_at: Vec<[Option<usize>; 32]>,
    /// By panel, loop and address less one.
    pub point_at: Vec<[Vec<Option<usize>>; 4]>,
}

#[derive(Clone, Copy, PartialEq)]
pub enum Named {
    Point(usize),
    Zone(usize),
    Output(usize),
    Marker(usize),
}

/// Panels, loops and numbers are counted from 0 here.
pub struct Loop {
    pub panel: usize,
    pub line: usize,
    pub last: usize,
    pub isolators: Vec<usize>,
}

#[derive(Clone, Copy, PartialEq)]
pub enum Rule {
    Plain,
    A { verify: u64, within: u64 },
    B { within: u64 },
    C,
}

pub struct Zone {
    pub name: String,
    pub panel: usize,
    pub number: usize,
    pub rule: Rule,
    pub partner: Option<usize>,
}

pub struct Point {
    pub name: String,
    pub panel: usize,
    pub line: usize,
    pub address: usize,
    pub zone: usize,
    pub is_manual: bool,
}

#[derive(Clone, Copy, PartialEq)]
pub enum Kind {
    Sounder,
    Confirmed,
    Relay,
}

pub struct Output {
    pub name: String,
    pub panel: usize,
    pub number: usize,
    pub kind: Kind,
    pub marker: usize,
    pub delay: u64,
}

pub enum Term {
    Zone(usize),
    Manual(usize),
    Fault(usize),
    Marker(usize),
}

pub struct Marker {
    pub needed: usize,
    pub terms: Vec<Term>,
}

struct Row<'a>(&'a Table);

impl Row<'_> {
    fn text(&self, key: &str) -> Option<&str> {
        match self.0.get(key)? {
            Value::Text(text) => Some(text),
            _ => None,
        }
    }

    fn number(&self, key: &str) -> Option<usize> {
        match self.0.get(key)? {
            Value::Number(number) => usize::try_from(*number).ok(),
            _ => None,
        }
    }

    /// A number from 1 on, as one from 0 on.
    fn place(&self, key: &str) -> Option<usize> {
        self.number(key)?.checked_sub(1)
    }

    fn list(&self, key: &str) -> &[Value] {
        match self.0.get(key) {
            Some(Value::List(list)) => list,
            _ => &[],
        }
    }

    fn rows(&self, key: &str) -> impl Iterator<Item = Row<'_>> {
        self.list(key).iter().filter_map(|value| match value {
            Value::Table(table) => Some(Row(table)),
            _ => None,
        })
    }

    fn texts(&self, key: &str) -> Vec<String> {
        self.list(key).iter().filter_map(|value| if let Value::Text(text) = value { Some(text.clone()) } else { None }).collect()
    }
}

pub fn read_site(bytes: &[u8]) -> Option<Site> {
    let table = toml::read(std::str::from_utf8(bytes).ok()?)?;
    let top = Row(&table);
    let panels = top.number("panels")?;
    let mut site = Site {
        format: top.number("format")? as u64,
        digest: sha256(bytes),
        name: top.text("site")?.to_string(),
        panels,
        waits: ["mains_wait", "standby_wait", "voltage_wait", "charger_wait"].map(|key| top.number(key).unwrap_or(0) as u64),
        codes: ["level2", "level3", "level4"].map(|key| top.texts(key)),
        loops: Vec::new(),
        zones: Vec::new(),
        points: Vec::new(),
        outputs: Vec::new(),
        markers: Vec::new(),
        solving: Vec::new(),
        names: HashMap::new(),
        zone_at: vec![[None; 32]; panels],
        output_at: vec![[None; 32]; panels],
        point_at: vec![[const { Vec::new() }; 4]; panels],
    };
    for (key, name) in [("zone", Named::Zone as fn(usize) -> Named), ("point", Named::Point), ("output", Named::Output), ("marker", Named::Marker)] {
        for (place, row) in top.rows(key).enumerate() {
            site.names.insert(row.text("name")?.as_bytes().to_vec(), name(place)).is_none().then_some(())?;
        }
    }
    for row in top.rows("loop") {
        let isolators = row.list("isolators").iter().filter_map(|value| if let Value::Number(at) = value { Some(*at as usize) } else { None }).collect();
        let plan = Loop { panel: row.place("panel")?, line: row.place("loop")?, last: row.number("last")?, isolators };
        site.point_at.get_mut(plan.panel)?.get_mut(plan.line)?.resize(plan.last, None);
        site.loops.push(plan);
    }
    top.rows("zone").try_for_each(|row| site.add_zone(&row))?;
    top.rows("point").try_for_each(|row| site.add_point(&row))?;
    top.rows("output").try_for_each(|row| site.add_output(&row))?;
    top.rows("marker").try_for_each(|row| site.add_marker(&row))?;
    site.order_markers()?;
    Some(site)
}

impl Site {
    pub fn zone(&self, name: &[u8]) -> Option<usize> {
        if let Named::Zone(place) = self.names.get(name)? { Some(*place) } else { None }
    }

    pub fn point(&self, name: &[u8]) -> Option<usize> {
        if let Named::Point(place) = self.names.get(name)? { Some(*place) } else { None }
    }

    pub fn output(&self, name: &[u8]) -> Option<usize> {
        if let Named::Output(place) = self.names.get(name)? { Some(*place) } else { None }
    }

    fn marker(&self, name: &[u8]) -> Option<usize> {
        if let Named::Marker(place) = self.names.get(name)? { Some(*place) } else { None }
    }

    /// The level that a code opens.
    pub fn level(&self, code: &[u8]) -> u8 {
        let digest = super::sha256::hex(&sha256(code));
        (2..=4).rev().find(|level| self.codes[level - 2].contains(&digest)).unwrap_or(1) as u8
    }

    fn add_zone(&mut self, row: &Row) -> Option<()> {
        let within = row.number("within").unwrap_or(0) as u64;
        let rule = match row.text("type").unwrap_or("none") {
            "a" => Rule::A { verify: row.number("verify")? as u64, within },
            "b" => Rule::B { within },
            "c" => Rule::C,
            _ => Rule::Plain,
        };
        let partner = match row.text("partner") {
            Some(name) => Some(self.zone(name.as_bytes())?),
            None => None,
        };
        let zone = Zone { name: row.text("name")?.to_string(), panel: row.place("panel")?, number: row.place("number")?, rule, partner };
        *self.zone_at.get_mut(zone.panel)?.get_mut(zone.number)? = Some(self.zones.len());
        self.zones.push(zone);
        Some(())
    }

    fn add_point(&mut self, row: &Row) -> Option<()> {
        let point = Point {
            name: row.text("name")?.to_string(),
            panel: row.place("panel")?,
            line: row.place("loop")?,
            address: row.number("address")?,
            zone: self.zone(row.text("zone")?.as_bytes())?,
            is_manual: row.text("kind") == Some("manual"),
        };
        *self.point_at.get_mut(point.panel)?.get_mut(point.line)?.get_mut(point.address - 1)? = Some(self.points.len());
        self.points.push(point);
        Some(())
    }

    fn add_output(&mut self, row: &Row) -> Option<()> {
        let kind = match row.text("kind")? {
            "sounder" => Kind::Sounder,
            "relay" => Kind::Relay,
            _ => Kind::Confirmed,
        };
        let output = Output {
            name: row.text("name")?.to_string(),
            panel: row.place("panel")?,
            number: row.place("number")?,
            kind,
            marker: self.marker(row.text("when")?.as_bytes())?,
            delay: row.number("delay").unwrap_or(0) as u64,
        };
        *self.output_at.get_mut(output.panel)?.get_mut(output.number)? = Some(self.outputs.len());
        self.outputs.push(output);
        Some(())
    }

    fn add_marker(&mut self, row: &Row) -> Option<()> {
        let mut terms = Vec::new();
        for text in row.texts("terms") {
            let (word, name) = text.split_once(':')?;
            terms.push(match word {
                "zone" => Term::Zone(self.zone(name.as_bytes())?),
                "manual" => Term::Manual(self.zone(name.as_bytes())?),
                "fault" => Term::Fault(name.parse::<usize>().ok()?.checked_sub(1)?),
                _ => Term::Marker(self.marker(name.as_bytes())?),
            });
        }
        let needed = match row.text("kind")? {
            "all" => terms.len(),
            "any" => 1,
            _ => row.number("count")?,
        };
        self.markers.push(Marker { needed, terms });
        Some(())
    }

    /// Puts the markers in an order in which they can be solved; there is none where one depends on itself.
    fn order_markers(&mut self) -> Option<()> {
        let mut is_solved = vec![false; self.markers.len()];
        while self.solving.len() < self.markers.len() {
            let before = self.solving.len();
            for (place, marker) in self.markers.iter().enumerate() {
                let is_ready = marker.terms.iter().all(|term| if let Term::Marker(other) = term { is_solved[*other] } else { true });
                if is_ready && !is_solved[place] {
                    is_solved[place] = true;
                    self.solving.push(place);
                }
            }
            (self.solving.len() > before).then_some(())?;
        }
        Some(())
    }
}
