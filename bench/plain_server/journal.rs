//! The journal: two slots and 64 cells, each opened by a gate that is written and synced last.
use super::record::{Item, Operation};
use super::sha256::hex;
use super::site::Site;
use std::fs::{File, OpenOptions};
use std::io;
use std::os::unix::fs::FileExt;

const MARK: &[u8; 8] = b"FPANEL01";
const LOG_GATE: u64 = 40;
const SLOTS: [u64; 2] = [64, 1024];
const SLOT_BYTES: usize = 906;
const CELLS: u64 = 2048;
const CELL_BYTES: u64 = 592;
const CELL_COUNT: u64 = 64;
const WHOLE: u64 = CELLS + CELL_BYTES * CELL_COUNT + 1;
pub const MOST_COUNT: u32 = 999_999;

/// What outlives a power cut, by panels and numbers from 0. Addresses 1 to 96 are the first number of a loop.
#[derive(Clone, Default)]
pub struct Retained {
    pub points: [[[u128; 2]; 4]; 8],
    pub zones: [u32; 8],
    pub outputs: [u32; 8],
    pub delays_off: u8,
    pub counters: [u32; 8],
    pub tests: [u32; 8],
}

#[derive(Clone, Copy)]
pub enum Change {
    Count(usize, u32),
    Operation(usize, Operation),
}

pub struct Journal {
    file: File,
    pub kept: Retained,
    slot: usize,
    number: u64,
    cells: u64,
    is_log_open: bool,
    may_cell_be_open: bool,
    may_slot_be_open: [bool; 2],
    is_torn: bool,
}

impl Retained {
    pub fn apply(&mut self, site: &Site, change: Change) {
        match change {
            Change::Count(panel, entries) => self.counters[panel] = self.counters[panel].saturating_add(entries).min(MOST_COUNT),
            Change::Operation(panel, Operation::Clear) => self.counters[panel] = 0,
            Change::Operation(panel, Operation::Delays(on)) => self.delays_off = self.delays_off & !(1 << panel) | (!on as u8) << panel,
            Change::Operation(panel, Operation::Test(zone, on)) => set(&mut self.tests[panel], site.zones[zone].number, on),
            Change::Operation(panel, Operation::Off(Item::Zone(zone), off)) => set(&mut self.zones[panel], site.zones[zone].number, off),
            Change::Operation(panel, Operation::Off(Item::Output(output), off)) => set(&mut self.outputs[panel], site.outputs[output].number, off),
            Change::Operation(panel, Operation::Off(Item::Point(point), off)) => {
                let point = &site.points[point];
                self.set_point(panel, point.line, point.address - 1, off);
            }
            Change::Operation(..) => {}
        }
    }

    fn set_point(&mut self, panel: usize, line: usize, at: usize, off: bool) {
        let half = &mut self.points[panel][line][at / 96];
        *half = *half & !(1 << (at % 96)) | (off as u128) << (at % 96);
    }

    /// A change of a cell, and the first byte of it that is out of form.
    fn take(&mut self, bytes: &[u8], is_wide: bool) -> Result<(), usize> {
        let (kind, panel, third, fourth) = (bytes[0], bytes[1] as usize, bytes[2] as usize, bytes[3] as usize);
        let amount = u32::from_be_bytes(bytes[4..8].try_into().unwrap());
        let most = if kind == 1 { if is_wide { 192 } else { 96 } } else { 32 };
        let has_number = matches!(kind, 1 | 2 | 3 | 7);
        if !(1..=7).contains(&kind) {
            return Err(0);
        }
        if !(1..=8).contains(&panel) {
            return Err(1);
        }
        if (kind == 1) != (1..=4).contains(&third) || kind != 1 && third != 0 {
            return Err(2);
        }
        if has_number && !(1..=most).contains(&fourth) || !has_number && fourth != 0 {
            return Err(3);
        }
        if kind != 5 {
            if let Some(at) = bytes[4..7].iter().position(|byte| *byte != 0) {
                return Err(4 + at);
            }
            if bytes[7] > (kind != 6) as u8 {
                return Err(7);
            }
        }
        let (panel, on) = (panel - 1, amount == 1);
        match kind {
            1 => self.set_point(panel, third - 1, fourth - 1, on),
            2 => set(&mut self.zones[panel], fourth - 1, on),
            3 => set(&mut self.outputs[panel], fourth - 1, on),
            4 => self.delays_off = self.delays_off & !(1 << panel) | (on as u8) << panel,
            5 => self.counters[panel] = self.counters[panel].saturating_add(amount).min(MOST_COUNT),
            6 => self.counters[panel] = 0,
            _ => set(&mut self.tests[panel], fourth - 1, on),
        }
        Ok(())
    }

    /// A slot behind its gate.
    fn bytes(&self, number: u64) -> Vec<u8> {
        let mut bytes = number.to_be_bytes().to_vec();
        let half = |bytes: &mut Vec<u8>, which: usize| {
            self.points.iter().flatten().for_each(|halves| bytes.extend(&halves[which].to_le_bytes()[..12]));
        };
        half(&mut bytes, 0);
        let words = |bytes: &mut Vec<u8>, words: &[u32; 8]| words.iter().for_each(|word| bytes.extend(word.to_le_bytes()));
        words(&mut bytes, &self.zones);
        words(&mut bytes, &self.outputs);
        bytes.push(self.delays_off);
        self.counters.iter().for_each(|counter| bytes.extend(counter.to_be_bytes()));
        half(&mut bytes, 1);
        words(&mut bytes, &self.tests);
        bytes
    }

    fn of(slot: &[u8], is_wide: bool) -> Retained {
        let mut kept = Retained::default();
        let mut at = 9;
        let mut take = |count: usize| {
            at += count;
            &slot[at - count..at]
        };
        let half = |bytes: &[u8]| {
            let mut wide = [0; 16];
            wide[..12].copy_from_slice(bytes);
            u128::from_le_bytes(wide)
        };
        let points = take(384);
        let (zones, outputs) = (take(32), take(32));
        kept.delays_off = take(1)[0];
        let (counters, second, tests) = (take(32), take(384), take(32));
        for (place, halves) in kept.points.iter_mut().flatten().enumerate() {
            halves[0] = half(&points[12 * place..12 * place + 12]);
            halves[1] = if is_wide { half(&second[12 * place..12 * place + 12]) } else { 0 };
        }
        let four = |bytes: &[u8], place: usize| -> [u8; 4] { bytes[4 * place..4 * place + 4].try_into().unwrap() };
        for place in 0..8 {
            kept.zones[place] = u32::from_le_bytes(four(zones, place));
            kept.outputs[place] = u32::from_le_bytes(four(outputs, place));
            kept.counters[place] = u32::from_be_bytes(four(counters, place));
            kept.tests[place] = u32::from_le_bytes(four(tests, place));
        }
        kept
    }
}

fn set(mask: &mut u32, at: usize, on: bool) {
    *mask = *mask & !(1 << at) | (on as u32) << at;
}

/// The bytes of a change in a cell.
fn change_bytes(site: &Site, change: Change) -> [u8; 8] {
    let (kind, panel, third, fourth, amount) = match change {
        Change::Count(panel, entries) => (5, panel, 0, 0, entries),
        Change::Operation(panel, operation) => match operation {
            Operation::Off(Item::Point(it), off) => (1, panel, site.points[it].line + 1, site.points[it].address, off as u32),
            Operation::Off(Item::Zone(it), off) => (2, panel, 0, site.zones[it].number + 1, off as u32),
            Operation::Off(Item::Output(it), off) => (3, panel, 0, site.outputs[it].number + 1, off as u32),
            Operation::Delays(on) => (4, panel, 0, 0, !on as u32),
            Operation::Test(it, on) => (7, panel, 0, site.zones[it].number + 1, on as u32),
            _ => (6, panel, 0, 0, 0),
        },
    };
    let [a, b, c, d] = amount.to_be_bytes();
    [kind, panel as u8 + 1, third as u8, fourth as u8, a, b, c, d]
}

pub enum Refused {
    Disk,
    Journal(String),
}

impl From<io::Error> for Refused {
    fn from(_: io::Error) -> Refused {
        Refused::Disk
    }
}

fn damaged<T>(offset: u64, byte: u8) -> Result<T, Refused> {
    Err(Refused::Journal(format!("3 {offset} {byte}")))
}

impl Journal {
    pub fn open(path: &str, site: &Site) -> Result<Journal, Refused> {
        let file = OpenOptions::new().read(true).write(true).create(true).truncate(false).open(path)?;
        file.try_lock().map_err(|_| Refused::Disk)?;
        file.sync_data()?;
        if file.metadata()?.len() == 0 {
            let mut bytes = vec![0; CELLS as usize];
            bytes[..8].copy_from_slice(MARK);
            bytes[8..40].copy_from_slice(&site.digest);
            (bytes[64], bytes[72]) = (1, 1);
            file.write_all_at(&bytes, 0)?;
            file.sync_data()?;
        }
        let mut bytes = vec![0; file.metadata()?.len().min(WHOLE) as usize];
        file.read_exact_at(&mut bytes, 0)?;
        Journal::of(file, &bytes, site)
    }

    fn of(file: File, bytes: &[u8], site: &Site) -> Result<Journal, Refused> {
        let mut mark = [0; 8];
        let front = bytes.len().min(8);
        mark[..front].copy_from_slice(&bytes[..front]);
        if mark != *MARK {
            return Err(Refused::Journal(format!("1 {}", hex(&mark))));
        }
        let is_log_open = bytes.get(LOG_GATE as usize) == Some(&1);
        if (bytes.len() as u64) < if is_log_open { WHOLE } else { CELLS } {
            return damaged(bytes.len() as u64, 0);
        }
        if bytes[8..40] != site.digest {
            return Err(Refused::Journal(format!("2 {} {}", hex(&bytes[8..40]), hex(&site.digest))));
        }
        let slots = SLOTS.map(|at| &bytes[at as usize..at as usize + SLOT_BYTES]);
        let numbers = slots.map(|slot| u64::from_be_bytes(slot[1..9].try_into().unwrap()));
        let open = slots.map(|slot| slot[0] == 1);
        let slot = match open {
            [false, false] => return damaged(64, bytes[64]),
            [true, true] => (numbers[1] > numbers[0]) as usize,
            [first, _] => !first as usize,
        };
        if numbers[slot] > 1 << 63 {
            return damaged(SLOTS[slot] + 1, slots[slot][1]);
        }
        let is_wide = site.format == 2;
        let mut kept = Retained::of(slots[slot], is_wide);
        if let Some(panel) = kept.counters.iter().position(|counter| *counter > MOST_COUNT) {
            return damaged(SLOTS[slot] + 458 + 4 * panel as u64, slots[slot][458 + 4 * panel]);
        }
        let mut cells = 0;
        while is_log_open && cells < CELL_COUNT {
            let at = (CELLS + cells * CELL_BYTES) as usize;
            let cell = &bytes[at..at + CELL_BYTES as usize];
            if cell[0] != 1 || u64::from_be_bytes(cell[1..9].try_into().unwrap()) != numbers[slot] + 1 + cells {
                break;
            }
            if !(1..=72).contains(&cell[9]) {
                return damaged(at as u64 + 9, cell[9]);
            }
            for change in 0..cell[9] as usize {
                let from = 10 + 8 * change;
                if let Err(place) = kept.take(&cell[from..from + 8], is_wide) {
                    return damaged((at + from + place) as u64, cell[from + place]);
                }
            }
            cells += 1;
        }
        let may_cell_be_open = is_log_open && bytes[(CELLS + cells * CELL_BYTES) as usize] == 1 && cells < CELL_COUNT;
        let is_torn = !is_log_open || may_cell_be_open;
        Ok(Journal { file, kept, slot, number: numbers[slot], cells, is_log_open, may_cell_be_open, may_slot_be_open: open, is_torn })
    }

    fn write(&self, at: u64, bytes: &[u8]) -> io::Result<()> {
        self.file.write_all_at(bytes, at)
    }

    /// Writes some bytes and has them on the disk.
    fn put(&self, at: u64, bytes: &[u8]) -> io::Result<()> {
        self.write(at, bytes)?;
        self.file.sync_data()
    }

    fn cell(&self) -> u64 {
        CELLS + self.cells * CELL_BYTES
    }

    pub fn is_torn(&self) -> bool {
        self.is_torn
    }

    pub fn mend(&mut self) -> io::Result<()> {
        if !self.is_log_open {
            for at in (CELLS..WHOLE).step_by(CELL_BYTES as usize) {
                self.write(at, &[0; CELL_BYTES as usize][..CELL_BYTES.min(WHOLE - at) as usize])?;
            }
            self.file.sync_data()?;
            self.put(LOG_GATE, &[1])?;
            self.is_log_open = true;
        }
        if self.may_cell_be_open {
            self.put(self.cell(), &[0])?;
            self.may_cell_be_open = false;
        }
        self.is_torn = false;
        Ok(())
    }

    pub fn commit(&mut self, site: &Site, batch: &[Change]) -> io::Result<()> {
        if self.is_torn {
            self.mend()?;
        }
        self.is_torn = true;
        if self.cells == CELL_COUNT {
            self.move_slot()?;
        }
        let mut cell = (self.number + 1 + self.cells).to_be_bytes().to_vec();
        cell.push(batch.len() as u8);
        batch.iter().for_each(|change| cell.extend(change_bytes(site, *change)));
        cell.resize(CELL_BYTES as usize, 0);
        self.put(self.cell() + 1, &cell)?;
        self.may_cell_be_open = true;
        self.put(self.cell(), &[1])?;
        (self.may_cell_be_open, self.is_torn) = (false, false);
        self.cells += 1;
        batch.iter().for_each(|change| self.kept.apply(site, *change));
        Ok(())
    }

    /// Makes the state of all cells that of the other slot.
    fn move_slot(&mut self) -> io::Result<()> {
        let other = 1 - self.slot;
        if self.may_slot_be_open[other] {
            self.put(SLOTS[other], &[0])?;
            self.may_slot_be_open[other] = false;
        }
        let number = self.number + self.cells + 1;
        self.put(SLOTS[other] + 1, &self.kept.bytes(number))?;
        self.may_slot_be_open[other] = true;
        self.put(SLOTS[other], &[1])?;
        (self.slot, self.number, self.cells) = (other, number, 0);
        self.put(self.cell(), &[0])
    }
}
