//! A table of names, each with what it stands for: the place is found by a product of the name's words.

const FACTOR: u64 = 0x9e37_79b9_7f4a_7c15;

pub struct Names<T> {
    slots: Vec<Option<(Vec<u8>, T)>>,
}

fn sum(name: &[u8]) -> u64 {
    let mut sum = name.len() as u64;
    let mut words = name.chunks_exact(8);
    for word in &mut words {
        sum = (sum.rotate_left(29) ^ u64::from_le_bytes(word.try_into().unwrap())).wrapping_mul(FACTOR);
    }
    let rest = words.remainder().iter().fold(0, |rest, byte| rest << 8 | *byte as u64);
    (sum.rotate_left(29) ^ rest).wrapping_mul(FACTOR)
}

impl<T: Copy> Names<T> {
    /// Room for so many names, of which at most half is used.
    pub fn new(count: usize) -> Self {
        Names { slots: (0..(2 * count + 1).next_power_of_two()).map(|_| None).collect() }
    }

    fn place(&self, name: &[u8]) -> usize {
        let mask = self.slots.len() - 1;
        let mut place = (sum(name) >> 32) as usize & mask;
        while self.slots[place].as_ref().is_some_and(|slot| slot.0 != name) {
            place = (place + 1) & mask;
        }
        place
    }

    pub fn put(&mut self, name: &str, value: T) {
        let place = self.place(name.as_bytes());
        self.slots[place] = Some((name.as_bytes().to_vec(), value));
    }

    pub fn get(&self, name: &[u8]) -> Option<T> {
        self.slots[self.place(name)].as_ref().map(|slot| slot.1)
    }
}
