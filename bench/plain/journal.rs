//! Where a commit is kept: 64 places of a file, or of memory in a drill. What a commit is stands behind a gate, and each is synced.
use std::fs::{File, OpenOptions};
use std::os::unix::fs::FileExt;

const CELLS: usize = 64;
const CELL: usize = 1024;

enum Disk {
    File(File),
    Memory(Vec<u8>),
}

pub struct Journal {
    disk: Disk,
    place: usize,
}

impl Journal {
    pub fn open(path: &str) -> Self {
        let file = OpenOptions::new().create(true).truncate(true).write(true).open(path).expect("a journal");
        file.set_len((CELLS * CELL) as u64).expect("a journal");
        Journal { disk: Disk::File(file), place: 0 }
    }

    pub fn in_memory() -> Self {
        Journal { disk: Disk::Memory(vec![0; CELLS * CELL]), place: 0 }
    }

    fn put(&mut self, at: usize, bytes: &[u8]) {
        match &mut self.disk {
            Disk::File(file) => {
                file.write_all_at(bytes, at as u64).expect("the journal is written");
                file.sync_data().expect("the journal is synced");
            }
            Disk::Memory(all) => all[at..at + bytes.len()].copy_from_slice(bytes),
        }
    }

    pub fn commit(&mut self, cell: &[u8]) {
        let at = self.place * CELL;
        self.put(at + 1, cell);
        self.put(at, &[1]);
        self.place = (self.place + 1) % CELLS;
    }
}
