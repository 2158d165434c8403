//! The desk: one connection at a time, one request each.
use super::face;
use super::head::{Look, MOST_BODY, MOST_HEAD, Route, look};
use super::json::{Visit, read_stop, read_visit};
use super::record::read_block;
use super::run::Run;
use std::collections::HashMap;
use std::fmt::Arguments;
use std::io::{self, Read, Write};
use std::net::{Shutdown, TcpStream};
use std::time::{Duration, Instant};

const CONNECTION_TIME: Duration = Duration::from_secs(10);
/// What a socket takes at once from a server that has written nothing else.
const SMALL_ANSWER: usize = 65_536;
const NEEDED_LEVEL: u8 = 3;
const JSON: &str = "application/json";

pub struct Desk {
    run: Run,
    visits: HashMap<u32, (u32, String)>,
    /// The last day on which each point was tested.
    tested: Vec<Option<u32>>,
    taken: Vec<u8>,
    body: Vec<u8>,
    answer: Vec<u8>,
}

fn phrase(status: u16) -> &'static str {
    match status {
        200 => "OK",
        400 => "Bad Request",
        403 => "Forbidden",
        404 => "Not Found",
        405 => "Method Not Allowed",
        409 => "Conflict",
        411 => "Length Required",
        413 => "Payload Too Large",
        _ => "Not Implemented",
    }
}

fn table(format: u64) -> String {
    let ticks = [
        ("charger", 3600), ("disablement", 4), ("fault", 200), ("indication", 20), ("mains", 3600), ("missing", 0), ("network", 40), ("output", 6),
        ("reset", 40), ("routing", 200), ("signal", 20), ("silent", 60), ("standby", 1800), ("verify", 12), ("voltage", 3600),
    ];
    let keys: Vec<String> = ticks.iter().map(|(key, ticks)| format!("\"{key}\":{}", if *key == "missing" { 3 } else { ticks * format })).collect();
    format!("{{{}}}\n", keys.join(","))
}

impl Desk {
    pub fn new(run: Run) -> Desk {
        let points = run.system.site.points.len();
        Desk {
            run,
            visits: HashMap::new(),
            tested: vec![None; points],
            taken: vec![0; MOST_HEAD + MOST_BODY],
            body: Vec::with_capacity(MOST_BODY),
            answer: Vec::with_capacity(MOST_BODY),
        }
    }

    /// Serves a connection, and says whether it stops the desk. A fault of the connection ends it alone.
    pub fn serve(&mut self, stream: TcpStream) -> bool {
        self.try_serve(stream).unwrap_or(false)
    }

    fn try_serve(&mut self, mut stream: TcpStream) -> io::Result<bool> {
        stream.set_read_timeout(Some(CONNECTION_TIME))?;
        let start = Instant::now();
        let mut filled = stream.read(&mut self.taken[..MOST_HEAD])?;
        let mut is_ended = filled == 0;
        loop {
            let needed = match look(&self.taken[..filled], self.run.system.site.panels) {
                Look::Refused(status) => {
                    self.write(status, JSON, format_args!("{{}}\n"));
                    return self.send(stream, start, true).map(|()| false);
                }
                Look::Whole { route, head, body } if filled >= head + body => {
                    let is_stopped = self.answer(route, head, body);
                    // A peer that sent more than was read, or may do so, could lose the answer to a reset.
                    let lingers = filled > head + body || body == 0 && has_body(&self.taken[..head]);
                    return self.send(stream, start, lingers).map(|()| is_stopped);
                }
                Look::Whole { head, body, .. } => head + body,
                Look::Begun => MOST_HEAD,
            };
            if is_ended {
                return Ok(false);
            }
            stream.set_read_timeout(Some(time_left(start)?))?;
            let count = stream.read(&mut self.taken[filled..needed])?;
            is_ended = count == 0;
            filled += count;
        }
    }

    fn send(&mut self, mut stream: TcpStream, start: Instant, lingers: bool) -> io::Result<()> {
        if self.answer.len() > SMALL_ANSWER {
            stream.set_write_timeout(Some(time_left(start)?))?;
        }
        stream.write_all(&self.answer)?;
        if lingers {
            // Whatever befalls here, the answer was given.
            let _ = self.drain(stream, start);
        }
        Ok(())
    }

    /// Says that no more is written, and throws away what still comes.
    fn drain(&mut self, mut stream: TcpStream, start: Instant) -> io::Result<()> {
        stream.shutdown(Shutdown::Write)?;
        loop {
            stream.set_read_timeout(Some(time_left(start)?))?;
            if stream.read(&mut self.taken)? == 0 {
                return Ok(());
            }
        }
    }

    /// Makes the answer of a short body.
    fn write(&mut self, status: u16, kind: &str, body: Arguments) {
        self.body.clear();
        self.body.write_fmt(body).unwrap();
        self.write_body(status, kind);
    }

    fn write_body(&mut self, status: u16, kind: &str) {
        self.answer.clear();
        write!(self.answer, "HTTP/1.1 {status} {}\r\nContent-Type: {kind}\r\nConnection: close\r\n\r\n", phrase(status)).unwrap();
        self.answer.extend_from_slice(&self.body);
    }

    /// Makes the answer to a request that came whole, and says whether it stops the desk.
    fn answer(&mut self, route: Route, head: usize, body: usize) -> bool {
        let site = &self.run.system.site;
        let bytes = &self.taken[head..head + body];
        match route {
            Route::Face(at) => {
                self.body.clear();
                face::write_json(site, at, self.run.system.face(at), self.run.system.now, &mut self.body);
                self.write_body(200, JSON);
            }
            Route::Ticks => self.tick(head, body),
            Route::Table => self.write(200, JSON, format_args!("{}", table(self.run.system.site.format))),
            Route::Untested(day) => self.untested(day),
            Route::Visits => match read_visit(site, bytes) {
                None => self.write(400, JSON, format_args!("{{}}\n")),
                Some(visit) => self.visit(visit),
            },
            Route::Stop => match read_stop(bytes) {
                None => self.write(400, JSON, format_args!("{{}}\n")),
                Some(code) if self.admits(&code) => {
                    self.write(200, JSON, format_args!("{{\"stopped\":true}}\n"));
                    return true;
                }
                Some(_) => {}
            },
        }
        false
    }

    fn tick(&mut self, head: usize, length: usize) {
        let block = match read_block(&self.run.system.site, &self.taken[head..head + length]) {
            Ok(block) => block,
            Err((line, number)) => return self.write(400, JSON, format_args!("{{\"line\":{line},\"refusal\":{number}}}\n")),
        };
        let expected = self.run.system.expected();
        if expected != Some(block.tick) {
            let expected = expected.unwrap_or(0);
            return self.write(409, JSON, format_args!("{{\"expected\":{expected},\"found\":{}}}\n", block.tick));
        }
        self.body.clear();
        self.run.tick(&block.events, block.order.as_deref(), &mut self.body);
        self.write_body(200, "text/plain");
    }

    /// Whether a code has the level that is needed; else the answer is made.
    fn admits(&mut self, code: &str) -> bool {
        let level = if code == "-" { 1 } else { self.run.system.site.level(code.as_bytes()) };
        if level < NEEDED_LEVEL {
            self.write(403, JSON, format_args!("{{\"has\":{level},\"needs\":{NEEDED_LEVEL}}}\n"));
        }
        level >= NEEDED_LEVEL
    }

    fn visit(&mut self, visit: Visit) {
        if !self.admits(&visit.code) {
            return;
        }
        let kept = self.visits.entry(visit.number).or_insert_with(|| (visit.day, visit.engineer.clone()));
        if *kept != (visit.day, visit.engineer) {
            let (day, engineer) = kept.clone();
            return self.write(409, JSON, format_args!("{{\"day\":{day},\"engineer\":\"{engineer}\",\"visit\":{}}}\n", visit.number));
        }
        for point in &visit.points {
            self.tested[*point] = self.tested[*point].max(Some(visit.day));
        }
        self.write(200, JSON, format_args!("{{\"tested\":{},\"visit\":{}}}\n", visit.points.len(), visit.number));
    }

    fn untested(&mut self, since: u32) {
        let site = &self.run.system.site;
        self.body.clear();
        self.body.extend(b"point,zone,last\n");
        for (point, day) in site.points.iter().zip(&self.tested).filter(|(_, day)| day.is_none_or(|day| day < since)) {
            let day = day.map_or(String::new(), |day| day.to_string());
            writeln!(self.body, "{},{},{day}", point.name, site.zones[point.zone].name).unwrap();
        }
        self.write_body(200, "text/csv");
    }
}

fn time_left(start: Instant) -> io::Result<Duration> {
    let left = CONNECTION_TIME.saturating_sub(start.elapsed());
    if left.is_zero() { Err(io::ErrorKind::TimedOut.into()) } else { Ok(left) }
}

/// Whether a head that is asked for without a body tells of one.
fn has_body(head: &[u8]) -> bool {
    head.windows(16).any(|name| name.eq_ignore_ascii_case(b"\ncontent-length:"))
}
