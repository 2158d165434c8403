//! Cause and effect: markers over the zones and faults of all panels and over markers before them, solved by what changed.

/// A set of up to 256 markers.
pub type Set = [u64; 4];

/// What markers look at: the zones in alarm of each panel, and the panels with a fault.
#[derive(Clone, Default)]
pub struct Facts {
    pub zones: [u32; 8],
    pub faults: u8,
}

#[derive(Default)]
pub struct Marker {
    pub needed: u32,
    pub zones: [u32; 8],
    pub faults: u8,
    pub markers: Set,
}

#[derive(Default)]
pub struct Markers {
    pub all: Vec<Marker>,
    /// The markers below a zone of a panel, and below the fault of a panel, over others too.
    pub below_zones: [Set; 8],
    pub below_faults: [Set; 8],
}

pub fn join(set: &mut Set, other: &Set) {
    set.iter_mut().zip(other).for_each(|(word, more)| *word |= more);
}

pub fn has(set: &Set, place: usize) -> bool {
    set[place / 64] >> (place % 64) & 1 == 1
}

impl Marker {
    fn holds(&self, facts: &Facts, values: &Set) -> bool {
        if self.needed == 1 {
            let zones = self.zones.iter().zip(&facts.zones).fold(0, |any, (term, fact)| any | term & fact);
            let markers = self.markers.iter().zip(values).fold(0, |any, (term, value)| any | term & value);
            return (self.faults & facts.faults) as u64 | zones as u64 | markers != 0;
        }
        let zones: u32 = self.zones.iter().zip(&facts.zones).map(|(term, fact)| (term & fact).count_ones()).sum();
        let markers: u32 = self.markers.iter().zip(values).map(|(term, value)| (term & value).count_ones()).sum();
        (self.faults & facts.faults).count_ones() + zones + markers >= self.needed
    }
}

impl Markers {
    /// Reads of the markers of a set, each after those before it, whether they hold.
    pub fn solve(&self, below: &Set, facts: &Facts, values: &mut Set) {
        for word in 0..4 {
            let mut bits = below[word];
            while bits != 0 {
                let place = bits.trailing_zeros() as usize;
                let value = self.all[64 * word + place].holds(facts, values);
                values[word] = values[word] & !(1 << place) | (value as u64) << place;
                bits &= bits - 1;
            }
        }
    }
}
