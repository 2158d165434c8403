//! Reading a record, line by line. A line's end is found eight bytes at a time, with the bytes that no line has.
use crate::page;
use crate::panel::Asked;
use crate::site::SiteNames;
use crate::system::{canonical, System, KEEP, TASKS};
use std::io::{Read, Write};

const ROOM: usize = 4096;
const LONGEST: usize = 512;

/// Each byte's place in `TASKS`, 255 for the others.
const TASK_OF: [u8; 256] = {
    let mut table = [255; 256];
    let mut task = 0;
    while task < TASKS.len() {
        table[TASKS[task] as usize] = task as u8;
        task += 1;
    }
    table
};

pub struct Reading {
    system: System,
    names: SiteNames,
    canonical: Vec<u8>,
    order: Vec<u8>,
    is_ordered: bool,
    tick: u64,
    /// The lines that were read, and the operations among them.
    lines: u64,
    operations: u64,
    page: Vec<u8>,
}

fn refuse(line: u64) -> ! {
    println!("refused line {line}");
    std::process::exit(4)
}

/// The place of the first byte from `at` on that isn't one of 32 to 126, or one behind the end.
fn line_end(bytes: &[u8], mut at: usize) -> usize {
    const ONES: u64 = u64::MAX / 255;
    while let Some(word) = bytes[at..].first_chunk::<8>() {
        let word = u64::from_le_bytes(*word);
        let strange = (word.wrapping_sub(32 * ONES) & !word | word.wrapping_add(ONES) | word) & 128 * ONES;
        if strange != 0 {
            return at + strange.trailing_zeros() as usize / 8;
        }
        at += 8;
    }
    at
}

fn number(digits: &[u8]) -> Option<u64> {
    digits.iter().try_fold(0u64, |sum, byte| byte.is_ascii_digit().then(|| sum * 10 + (byte - b'0') as u64))
}

impl Reading {
    pub fn new(system: System, names: SiteNames) -> Self {
        let canonical = canonical(system.panels.len());
        let page = Vec::with_capacity(65_536);
        Reading { order: canonical.clone(), canonical, system, names, is_ordered: false, tick: 0, lines: 0, operations: 0, page }
    }

    /// Reads to the line `end`. Behind the bytes that were read there are always eight more, so that a word can be read at each of them.
    pub fn run(&mut self, input: &mut impl Read, out: &mut impl Write) {
        let mut bytes = [0; ROOM + 8];
        let mut length = 0;
        loop {
            let read = input.read(&mut bytes[length..ROOM]).expect("the input gives bytes");
            if read == 0 {
                refuse(self.lines + 1);
            }
            length += read;
            let mut begin = 0;
            loop {
                let end = line_end(&bytes, begin);
                if end.min(length) - begin > LONGEST || end < length && bytes[end] != b'\n' {
                    refuse(self.lines + 1);
                }
                if end >= length {
                    break;
                }
                if self.take(&bytes[begin..end], out) {
                    return;
                }
                begin = end + 1;
            }
            bytes.copy_within(begin..length, 0);
            length -= begin;
        }
    }

    /// Whether the line is the last.
    fn take(&mut self, line: &[u8], out: &mut impl Write) -> bool {
        self.lines += 1;
        if let Some(digits) = line.strip_prefix(b"tick ") {
            if number(digits) != Some(self.tick + 1) {
                refuse(self.lines);
            }
            self.close(out);
            self.tick += 1;
        } else if let (Some(seats), false) = (line.strip_prefix(b"order "), self.is_ordered) {
            self.order(seats).unwrap_or_else(|| refuse(self.lines));
        } else if line == b"end" {
            self.close(out);
            writeln!(out, "end {}", self.tick).expect("the output takes text");
            out.flush().expect("the output takes text");
            return true;
        } else {
            self.event(line).unwrap_or_else(|| refuse(self.lines));
        }
        false
    }

    /// Runs the tick whose lines were read, and writes what it tells.
    fn close(&mut self, out: &mut impl Write) {
        if self.tick == 0 {
            return;
        }
        self.system.run(self.tick, if self.is_ordered { &self.order } else { &self.canonical });
        page::tell(&mut self.system, &self.names, self.tick, &mut self.page);
        if !self.page.is_empty() {
            out.write_all(&self.page).expect("the output takes text");
            self.page.clear();
        }
        self.is_ordered = false;
    }

    /// Takes all seats, each once: behind each stands a space, but for the last.
    fn order(&mut self, seats: &[u8]) -> Option<()> {
        let (panels, mut seen, mut at) = (self.system.panels.len(), [0u16; 16], 0);
        for seat in &mut self.order {
            let task = TASK_OF[*seats.get(at)? as usize];
            let panel = if task == KEEP { 0 } else { seats.get(at + 1)?.wrapping_sub(b'1') };
            at += if task == KEEP { 1 } else { 2 };
            if task > KEEP || panel as usize >= panels || seen[panel as usize] >> task & 1 == 1 || *seats.get(at).unwrap_or(&b' ') != b' ' {
                return None;
            }
            seen[panel as usize] |= 1 << task;
            *seat = task | panel << 4;
            at += 1;
        }
        self.is_ordered = true;
        (at == seats.len() + 1).then_some(())
    }

    fn event(&mut self, line: &[u8]) -> Option<()> {
        let mut words = line.split(|byte| *byte == b' ');
        match words.next()? {
            b"point" => {
                let place = self.names.points.get(words.next()?)?;
                let group = &mut self.system.panels[place.panel as usize].groups[place.group as usize];
                let bit = 1 << place.bit;
                let (alarm, gone) = match words.next()? {
                    b"quiet" => (0, 0),
                    b"alarm" => (bit, 0),
                    b"gone" => (0, bit),
                    _ => return None,
                };
                group.alarm = group.alarm & !bit | alarm;
                group.gone = group.gone & !bit | gone;
            }
            b"supply" => {
                let panel = number(words.next()?)?.checked_sub(1)? as usize;
                if words.next()? != b"mains" {
                    return None;
                }
                self.system.panels.get_mut(panel)?.is_mains_bad = match words.next()? {
                    b"bad" => true,
                    b"ok" => false,
                    _ => return None,
                };
            }
            b"op" => self.operation(&mut words)?,
            _ => return None,
        }
        words.next().is_none().then_some(())
    }

    fn operation<'a>(&mut self, words: &mut impl Iterator<Item = &'a [u8]>) -> Option<()> {
        let panel = number(words.next()?)?.checked_sub(1)? as usize;
        let code = words.next()?;
        let is_level_2 = self.names.codes.iter().any(|other| other == code);
        let is_off = match words.next()? {
            b"disable" => true,
            b"enable" => false,
            _ => return None,
        };
        if words.next()? != b"zone" {
            return None;
        }
        let zone = self.names.zones.get(words.next()?)?;
        if self.system.zones[zone as usize].panel != panel {
            return None;
        }
        self.operations += 1;
        self.system.panels[panel].asked.push(Asked { number: self.operations, zone, is_off, is_level_2 });
        Some(())
    }
}
