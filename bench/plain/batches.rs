//! The answers and findings of a tick as masks, a bit for each of the 32 addresses that are asked in it, and the lanes in which they wait.

/// The groups of addresses of which one is asked in a tick.
pub const GROUPS: usize = 12;
/// How many items a task takes in a turn.
pub const QUOTA: u32 = 32;

#[derive(Clone, Copy, Default)]
pub struct Batch {
    pub stamp: u64,
    pub group: u32,
    /// How many bits `left` has.
    pub size: u32,
    pub left: u32,
    pub alarm: u32,
    pub silent: u32,
}

/// A lane never holds more than 64 items, so four places are enough.
#[derive(Clone, Default)]
pub struct Lane {
    batches: [Batch; 4],
    first: usize,
    count: usize,
}

impl Lane {
    pub fn put(&mut self, batch: Batch) {
        if batch.size != 0 {
            self.batches[(self.first + self.count) & 3] = batch;
            self.count += 1;
        }
    }

    /// The next items of one batch, at most `room`.
    pub fn take(&mut self, room: &mut u32) -> Option<Batch> {
        if self.count == 0 || *room == 0 {
            return None;
        }
        let front = &mut self.batches[self.first & 3];
        let mut taken = *front;
        if front.size > *room {
            for _ in 0..*room {
                front.left &= front.left - 1;
            }
            taken.left ^= front.left;
            taken.size = *room;
            front.size -= *room;
        } else {
            self.first += 1;
            self.count -= 1;
        }
        *room -= taken.size;
        Some(taken)
    }
}
