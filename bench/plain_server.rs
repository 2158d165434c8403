//! A yardstick: a plain Rust program, without contracts, of the job that `panel serve` does: the same words, the same answers byte for
//! byte, one connection at a time with one request each. It is written to be fast, over the standard library alone, and knows the whole
//! panel, which `bench/plain` doesn't; its register stays in memory. `run SITE JOURNAL` reads a record, so that `.ci/cases` can compare
//! its panel. Of a site file it reads what a valid one has, and refuses another as `refused site 1`.
#[path = "plain_server/face.rs"]
mod face;
#[path = "plain_server/head.rs"]
mod head;
#[path = "plain_server/journal.rs"]
mod journal;
#[path = "plain_server/json.rs"]
mod json;
#[path = "plain_server/panel.rs"]
mod panel;
#[path = "plain_server/record.rs"]
mod record;
#[path = "plain_server/run.rs"]
mod run;
#[path = "plain_server/serve.rs"]
mod serve;
#[path = "plain_server/sha256.rs"]
mod sha256;
#[path = "plain_server/site.rs"]
mod site;
#[path = "plain_server/toml.rs"]
mod toml;

use journal::{Journal, Refused};
use panel::System;
use record::{Line, Why};
use run::Run;
use serve::Desk;
use std::io::{self, Read, Write};
use std::net::{Ipv4Addr, TcpListener};
use std::process::exit;

const MOST_CONNECTIONS: u64 = 1_000_000;
const USAGE: &str = "usage: panel check SITE, run SITE JOURNAL, matrix SITE, drill SEED TICKS, serve SITE JOURNAL PORT COUNT, \
    move OLD NEW JOURNAL TARGET, audit SITE RECORD TEXT, node SITE JOURNAL PANEL PORT COUNT, import SITE FILE REGISTER";

fn end(status: i32, line: String) -> ! {
    println!("{line}");
    exit(status)
}

fn open(site: &str, journal: &str) -> Run {
    let bytes = std::fs::read(site).unwrap_or_else(|_| end(3, "refused site 0".to_string()));
    let site = site::read_site(&bytes).unwrap_or_else(|| end(3, "refused site 1".to_string()));
    let journal = Journal::open(journal, &site).unwrap_or_else(|refused| match refused {
        Refused::Disk => end(8, "fault disk".to_string()),
        Refused::Journal(why) => end(5, format!("refused journal {why}")),
    });
    let (run, opening) = Run::open(System::open(site, journal));
    io::stdout().write_all(&opening).unwrap_or_else(|_| exit(7));
    run
}

fn run_record(run: &mut Run) {
    let mut input = Vec::new();
    let _ = io::stdin().read_to_end(&mut input);
    let (mut text, mut order, mut is_begun, mut count) = (Vec::new(), None, false, 0);
    let mut lines = input.split(|byte| *byte == b'\n').peekable();
    let (number, why) = loop {
        let line = lines.next().unwrap_or(&[]);
        count += 1;
        if let Some(number) = record::refused_byte(line) {
            break (count, Why(number, String::new()));
        }
        if lines.peek().is_none() {
            break (count, Why(9, String::new()));
        }
        let read = record::read_line(&run.system.site, line, is_begun, order.is_some());
        if let Ok(Line::Tick(_) | Line::End) = read {
            let expected = if is_begun { run.system.now + 1 } else { 1 };
            if let Ok(Line::Tick(found)) = read {
                if found != expected {
                    break (count, Why(4, format!(" expected {expected} found {found}")));
                }
            }
            if is_begun {
                run.turns(order.as_deref(), &mut text);
            }
        }
        match read {
            Ok(Line::Tick(_)) => {
                run.system.begin();
                (order, is_begun) = (None, true);
            }
            Ok(Line::End) => {
                writeln!(text, "end {}", run.system.now).unwrap();
                io::stdout().write_all(&text).unwrap_or_else(|_| exit(7));
                return;
            }
            Ok(Line::Event(event)) => run.system.event(&event),
            Ok(Line::Order(seats)) => order = Some(seats),
            Err(why) => break (count, why),
        }
    };
    io::stdout().write_all(&text).unwrap_or_else(|_| exit(7));
    end(4, format!("refused line {number} {}{}", why.0, why.1))
}

fn serve(run: Run, port: u16, count: u64) {
    let listener = TcpListener::bind((Ipv4Addr::LOCALHOST, port)).unwrap_or_else(|_| end(10, "fault door".to_string()));
    let mut desk = Desk::new(run);
    let mut served = 0;
    while served < count {
        let Ok((stream, _)) = listener.accept() else { end(10, "fault door".to_string()) };
        served += 1;
        if desk.serve(stream) {
            break;
        }
    }
    println!("served {served}");
}

/// A number of the command line: decimal, without sign or leading zero, from 1 up to a greatest one.
fn count(word: &str, most: u64) -> Option<u64> {
    record::number(word.as_bytes()).filter(|number| (1..=most).contains(number))
}

fn main() {
    let words: Vec<String> = std::env::args().skip(1).collect();
    match &words.iter().map(String::as_str).collect::<Vec<_>>()[..] {
        ["run", site, journal] => run_record(&mut open(site, journal)),
        ["serve", site, journal, port, most] => match (count(port, u16::MAX.into()), count(most, MOST_CONNECTIONS)) {
            (Some(port), Some(most)) => serve(open(site, journal), port as u16, most),
            _ => end(2, USAGE.to_string()),
        },
        _ => end(2, USAGE.to_string()),
    }
}
