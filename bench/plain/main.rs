//! A yardstick: a plain Rust program, without contracts, of the job that `panel run` does over the inputs of `bench/panel_runs` and that
//! `panel drill` does, written to take few instructions. It knows all tasks, up to eight panels in a ring, zones of no type, detectors, the
//! mains, markers and outputs without delay, the disabling of zones with a code of level 2, the alarm counters, and a journal with two
//! synced writes a commit. It leaves out what those inputs don't have: call points, pieces of cable, links that go down, silences, delays,
//! confirmations, tests. Its site is a short form that `bench/panel_runs` writes; the text that it prints is that of the program.
//!
//! - `batches`: the answers of a tick as masks, and the lanes in which they wait
//! - `names`: finding a point or zone by its name
//! - `panel`: what stands at a panel, with Poll, Decide, Supply and Hold
//! - `markers`: cause and effect
//! - `journal`: where a commit is kept
//! - `system`: the panels with Desk, Link, Effect, Drive and Keep
//! - `site`: reading the short form of a site
//! - `page`: the text of a tick
//! - `record`: reading a record, line by line
//! - `drill`: a site and a record that a seed draws
mod batches;
mod drill;
mod journal;
mod markers;
mod names;
mod page;
mod panel;
mod record;
mod site;
mod system;

use journal::Journal;
use std::io::Write;

fn main() {
    let words: Vec<String> = std::env::args().skip(1).collect();
    let words: Vec<&str> = words.iter().map(|word| &word[..]).collect();
    match words[..] {
        ["run", path, journal] => run(path, journal),
        ["drill", seed, ticks] => drill::drill(seed.parse().expect("a seed"), ticks.parse().expect("a number of ticks")),
        _ => panic!("run SITE JOURNAL, or drill SEED TICKS"),
    }
}

fn run(path: &str, journal: &str) {
    let text = std::fs::read_to_string(path).expect("a site");
    let (name, text) = text.split_once('\n').expect("a name");
    let (system, names) = site::read(text, Journal::open(journal));
    let mut out = std::io::stdout().lock();
    writeln!(out, "site {name} panels {}", system.panels.len()).expect("the output takes text");
    record::Reading::new(system, names).run(&mut std::io::stdin().lock(), &mut out);
}
