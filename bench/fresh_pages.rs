//! Fills so many pages of memory that it has just been given, and does nothing else: what a program takes at least
//! that keeps as much.
use std::hint::black_box;

/// As much as lies in a page beside what the allocator keeps of it.
const PIECE: usize = 4_080;

fn main() {
    let pages: usize = std::env::args().nth(1).and_then(|word| word.parse().ok()).expect("a number of pages");
    let piece = [1_u8; PIECE];
    let mut kept: Vec<Box<[u8]>> = Vec::with_capacity(pages);
    for _ in 0..pages {
        kept.push(Box::from(black_box(&piece[..])));
    }
    black_box(&kept);
    std::process::exit(0);
}
