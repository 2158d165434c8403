//! Lines of a record, and blocks of one tick.
use super::site::{Kind, Named, Site};

pub const MOST_TICKS: u64 = 1_000_000_000;
const MOST_LINE: usize = 512;
pub const TASKS: &[u8; 8] = b"pdsohler";
pub const KEEP: u8 = 8;

#[derive(Clone, Copy, PartialEq)]
pub enum Item {
    Point(usize),
    Zone(usize),
    Output(usize),
}

#[derive(Clone, Copy, PartialEq)]
pub enum Operation {
    Mute,
    Override,
    Silence,
    Resound,
    Reset,
    Clear,
    Delays(bool),
    Cancel(usize),
    Test(usize, bool),
    Off(Item, bool),
}

pub enum Event {
    Point { point: usize, is_alarm: bool, is_gone: bool },
    Cable { panel: usize, line: usize, piece: usize, state: u8 },
    Supply { panel: usize, kind: usize, is_bad: bool },
    Link { link: usize, is_up: bool },
    Confirmed { output: usize },
    Op { panel: usize, level: u8, operation: Operation },
}

pub enum Line {
    Tick(u64),
    Event(Event),
    Order(Vec<u8>),
    End,
}

/// Why a line is refused, by its number, and what is told beside it.
#[derive(Debug, PartialEq)]
pub struct Why(pub u8, pub String);

fn why<T>(number: u8) -> Result<T, Why> {
    Err(Why(number, String::new()))
}

pub fn number(word: &[u8]) -> Option<u64> {
    let is_number = word.iter().all(u8::is_ascii_digit) && (word.len() == 1 || word.first().is_some_and(|byte| *byte != b'0'));
    if is_number { std::str::from_utf8(word).ok()?.parse().ok() } else { None }
}

fn refused_number(word: &[u8]) -> Result<u64, Why> {
    number(word).map_or(why(2), Ok)
}

/// A number from 1 up to a greatest one, counted from 0.
fn place(word: &[u8], most: usize) -> Result<usize, Why> {
    match refused_number(word)? {
        found if found >= 1 && found <= most as u64 => Ok(found as usize - 1),
        _ => why(3),
    }
}

/// The first byte, if any, that no line may have.
pub fn refused_byte(line: &[u8]) -> Option<u8> {
    let strange = line.iter().take(MOST_LINE).any(|byte| !(32..=126).contains(byte));
    if strange { Some(7) } else { (line.len() > MOST_LINE).then_some(6) }
}

/// What a line says, its bytes and the number of its tick apart.
pub fn read_line(site: &Site, line: &[u8], is_begun: bool, has_order: bool) -> Result<Line, Why> {
    let words: Vec<&[u8]> = line.split(|byte| *byte == b' ').collect();
    let read = match words[..] {
        [b"tick", tick] => return Ok(Line::Tick(refused_number(tick)?)),
        [b"end"] => return Ok(Line::End),
        [b"order", ref seats @ ..] if !seats.is_empty() && seats.iter().all(|seat| has_seat_letters(seat)) => {
            read_order(site, seats, has_order).map(Line::Order)
        }
        _ => read_event(site, &words).map(Line::Event),
    };
    match read {
        Err(Why(1, _)) => why(1),
        _ if !is_begun => why(8),
        read => read,
    }
}

fn has_seat_letters(seat: &[u8]) -> bool {
    matches!(seat, b"k") || seat.first().is_some_and(|letter| TASKS.contains(letter)) && seat[1..].iter().all(u8::is_ascii_digit)
}

/// A seat is a byte: its task, and 16 times its panel's place.
fn read_order(site: &Site, words: &[&[u8]], has_order: bool) -> Result<Vec<u8>, Why> {
    let mut seats = Vec::with_capacity(8 * site.panels + 1);
    for word in words {
        if *word != b"k" {
            refused_number(&word[1..])?;
        }
    }
    let bad = |place: usize| Err(Why(5, format!(" {place}")));
    if has_order {
        return bad(0);
    }
    for (at, word) in words.iter().enumerate() {
        let task = TASKS.iter().position(|task| *task == word[0]).map_or(KEEP, |task| task as u8);
        let panel = if task == KEEP { Ok(0) } else { place(&word[1..], site.panels) };
        match panel {
            Ok(panel) if !seats.contains(&(task | (panel as u8) << 4)) => seats.push(task | (panel as u8) << 4),
            _ => return bad(at + 1),
        }
    }
    if seats.len() == 8 * site.panels + 1 { Ok(seats) } else { bad(words.len() + 1) }
}

pub fn canonical(panels: usize) -> Vec<u8> {
    let mut seats: Vec<u8> = (0..panels as u8).flat_map(|place| (0..8).map(move |task| task | place << 4)).collect();
    seats.push(KEEP);
    seats
}

fn read_event(site: &Site, words: &[&[u8]]) -> Result<Event, Why> {
    match *words {
        [b"point", name, state @ (b"quiet" | b"alarm" | b"gone")] => match site.point(name) {
            Some(point) => Ok(Event::Point { point, is_alarm: state == b"alarm", is_gone: state == b"gone" }),
            None => why(3),
        },
        [b"cable", panel, line, piece, state @ (b"sound" | b"open" | b"short")] => {
            for word in [panel, line, piece] {
                refused_number(word)?;
            }
            let (panel, line, piece) = (place(panel, site.panels)?, place(line, 4)?, refused_number(piece)?);
            let plan = site.loops.iter().find(|plan| plan.panel == panel && plan.line == line && piece <= plan.last as u64);
            let state = [&b"sound"[..], b"open", b"short"].iter().position(|word| *word == state).unwrap_or(0) as u8;
            plan.map_or(why(3), |_| Ok(Event::Cable { panel, line, piece: piece as usize, state }))
        }
        [b"supply", panel, kind @ (b"mains" | b"standby" | b"voltage" | b"charger"), state @ (b"ok" | b"bad")] => {
            let kind = [&b"mains"[..], b"standby", b"voltage", b"charger"].iter().position(|word| *word == kind).unwrap_or(0);
            Ok(Event::Supply { panel: place(panel, site.panels)?, kind, is_bad: state == b"bad" })
        }
        [b"link", link, state @ (b"up" | b"down")] => {
            let links = if site.panels == 1 { 0 } else { site.panels };
            Ok(Event::Link { link: place(link, links)?, is_up: state == b"up" })
        }
        [b"routing", name, b"confirmed"] => match site.output(name) {
            Some(output) if site.outputs[output].kind == Kind::Confirmed => Ok(Event::Confirmed { output }),
            _ => why(3),
        },
        [b"op", panel, code, ref action @ ..] if is_code(code) => {
            let read = read_action(site, action)?;
            let panel = place(panel, site.panels)?;
            let (operation, owner) = read.ok_or(()).or(why(3))?;
            if owner.is_some_and(|owner| owner != panel) {
                return why(3);
            }
            let level = if code == b"-" { 1 } else { site.level(code) };
            Ok(Event::Op { panel, level, operation })
        }
        _ => why(1),
    }
}

pub fn is_code(code: &[u8]) -> bool {
    code == b"-" || (1..=16).contains(&code.len()) && code.iter().all(|byte| byte.is_ascii_lowercase() || byte.is_ascii_digit())
}

/// An operation with the panel of what it names, and None where it names nothing of the site.
fn read_action(site: &Site, words: &[&[u8]]) -> Result<Option<(Operation, Option<usize>)>, Why> {
    let of_zone = |name: &[u8], made: fn(usize) -> Operation| Ok(site.zone(name).map(|zone| (made(zone), Some(site.zones[zone].panel))));
    let plain = |operation| Ok(Some((operation, None)));
    match *words {
        [b"mute"] => plain(Operation::Mute),
        [b"override"] => plain(Operation::Override),
        [b"silence"] => plain(Operation::Silence),
        [b"resound"] => plain(Operation::Resound),
        [b"reset"] => plain(Operation::Reset),
        [b"clear"] => plain(Operation::Clear),
        [b"delays", b"on"] => plain(Operation::Delays(true)),
        [b"delays", b"off"] => plain(Operation::Delays(false)),
        [b"cancel", zone] => of_zone(zone, Operation::Cancel),
        [b"test", zone] => of_zone(zone, |zone| Operation::Test(zone, true)),
        [b"untest", zone] => of_zone(zone, |zone| Operation::Test(zone, false)),
        [verb @ (b"disable" | b"enable"), kind @ (b"point" | b"zone" | b"output"), name] => {
            let off = verb == b"disable";
            Ok(match (kind, site.names.get(name)) {
                (b"point", Some(Named::Point(it))) => Some((Operation::Off(Item::Point(*it), off), Some(site.points[*it].panel))),
                (b"zone", Some(Named::Zone(it))) => Some((Operation::Off(Item::Zone(*it), off), Some(site.zones[*it].panel))),
                (b"output", Some(Named::Output(it))) => Some((Operation::Off(Item::Output(*it), off), Some(site.outputs[*it].panel))),
                _ => None,
            })
        }
        _ => why(1),
    }
}

/// The lines of a tick block.
pub struct Block {
    pub tick: u64,
    pub events: Vec<Event>,
    pub order: Option<Vec<u8>>,
}

/// A block, or the line that is refused, from 1, and why.
pub fn read_block(site: &Site, body: &[u8]) -> Result<Block, (u64, u8)> {
    let mut block = Block { tick: 0, events: Vec::new(), order: None };
    let mut lines = body.split(|byte| *byte == b'\n');
    let last = lines.next_back().unwrap_or(&[]);
    let mut count = 0;
    for line in lines {
        count += 1;
        let refuse = |number| Err((count, number));
        if let Some(number) = refused_byte(line) {
            return refuse(number);
        }
        match read_line(site, line, count > 1, block.order.is_some()) {
            Err(Why(number, _)) => return refuse(number),
            Ok(Line::Tick(tick)) if count == 1 => block.tick = tick,
            Ok(Line::Tick(_) | Line::End) => return refuse(1),
            Ok(Line::Order(seats)) => block.order = Some(seats),
            Ok(Line::Event(event)) => block.events.push(event),
        }
    }
    if count == 0 || !last.is_empty() {
        return Err((count + 1, refused_byte(last).unwrap_or(1)));
    }
    Ok(block)
}
