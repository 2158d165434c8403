//! The parts of the panels and their turns.
use super::face::{Face, Faults};
use super::journal::{Change, Journal, MOST_COUNT};
use super::record::{Event, Item, MOST_TICKS, Operation, canonical};
use super::site::{Kind, Rule, Site, Term};
use std::collections::VecDeque;

const QUOTA: usize = 32;
const MOST_OPERATIONS: usize = 4;

/// The latest tick of something, and the one before it: an answer may be looked at in the tick after its own.
#[derive(Clone, Copy, Default)]
struct LastDone {
    last: u64,
    previous: u64,
}

impl LastDone {
    fn raise(&mut self, at: u64) {
        if self.last != at {
            *self = LastDone { last: at, previous: self.last };
        }
    }

    /// The latest that came before a tick.
    fn before(self, tick: u64) -> u64 {
        if self.last < tick { self.last } else { self.previous }
    }
}

#[derive(Clone, Copy, Default)]
struct Switch {
    was: bool,
    now: bool,
    since: u64,
}

impl Switch {
    fn new(now: bool) -> Switch {
        Switch { was: now, now, since: 0 }
    }

    fn set(&mut self, now: bool, at: u64) {
        *self = Switch { was: self.now, now, since: at };
    }

    fn before(self, tick: u64) -> bool {
        if tick > self.since { self.now } else { self.was }
    }
}

#[derive(Clone, Copy)]
struct Answer {
    stamp: u64,
    point: usize,
    is_alarm: bool,
    is_silent: bool,
}

/// What an answer means: masks of the zones of its panel.
#[derive(Clone, Copy, Default)]
struct Finding {
    stamp: u64,
    point: usize,
    told: u32,
    confirmed: u32,
    manual: u32,
    released: u32,
    is_missing: bool,
}

#[derive(Clone, Default)]
struct PointWatch {
    is_alarm: bool,
    is_gone: bool,
    off: Switch,
    silent: u8,
    /// Where the unbroken run of its counted answers began.
    run: Option<u64>,
}

#[derive(Clone, Default)]
struct ZoneWatch {
    off: Switch,
    test: Switch,
    floor: LastDone,
    cancelled: LastDone,
    /// The latest counted answers of two points that may make a pair, with the points.
    recent: [Option<(usize, u64)>; 2],
    confirmed: u64,
    called: u64,
    released: u64,
    told: u64,
}

impl ZoneWatch {
    fn note(&mut self, point: usize, stamp: u64) {
        if self.recent[0].is_none_or(|(first, _)| first != point) {
            self.recent[1] = self.recent[0];
        }
        self.recent[0] = Some((point, stamp));
    }

    /// The latest such answer of another point that lies behind a bar.
    fn second(&self, point: usize, bar: u64) -> Option<u64> {
        let other = self.recent.iter().flatten().find(|(other, _)| *other != point)?;
        (other.1 > bar).then_some(other.1)
    }

    fn bar(&self, stamp: u64) -> u64 {
        self.floor.before(stamp).max(self.cancelled.before(stamp))
    }
}

#[derive(Clone, Copy, Default, PartialEq)]
struct Word {
    stamp: u64,
    alarm: u32,
    manual: u32,
    released: u32,
    first: u32,
    is_faulty: bool,
}

#[derive(Clone, Default, PartialEq)]
struct Facts {
    released: [u32; 8],
    manual: [u32; 8],
    faults: u8,
}

#[derive(Clone, Copy)]
struct Asked {
    number: u64,
    level: u8,
    operation: Operation,
}

#[derive(Default)]
struct Panel {
    /// The points that are asked in each tick of a round, by loop and address.
    asked: Vec<Vec<usize>>,
    pieces: [Vec<u8>; 4],
    is_reached: [Vec<bool>; 4],
    answers: VecDeque<Answer>,
    findings: VecDeque<Finding>,
    is_bad: [bool; 4],
    bad_since: [Option<u64>; 4],
    missing: [[u128; 2]; 4],
    has_missing: bool,
    muted: u64,
    newly_shown: u64,
    entries: u32,
    word: Word,
    kept: [Word; 8],
    facts: Facts,
    /// The zones that were released at the latest turn of Drive.
    driven_by: [u32; 8],
    /// What the other parts tell Hold: loops, supplies and outputs.
    outside: Faults,
    requested: u32,
    by_hand: u32,
    sounders: u32,
    silenced: Option<[u32; 8]>,
    overridden: u64,
    request_began: [u64; 32],
    was_requested: u32,
    on_since: [u64; 32],
    operations: Vec<Asked>,
    face: Face,
}

/// What is answered in a tick.
#[derive(Default)]
pub struct Answers {
    pub operations: Vec<(u64, String)>,
    pub busy: [u64; 8],
    pub is_failed: bool,
}

pub struct System {
    pub site: Site,
    pub journal: Journal,
    pub now: u64,
    pub answers: Answers,
    canonical: Vec<u8>,
    panels: Vec<Panel>,
    points: Vec<PointWatch>,
    zones: Vec<ZoneWatch>,
    links_down: u8,
    asked: u64,
    waiting: Vec<(usize, Asked)>,
    done: Vec<(usize, Operation)>,
    values: Vec<bool>,
}

fn has(mask: u32, at: usize) -> bool {
    mask >> at & 1 == 1
}

/// The two numbers that a setting goes by, if an operation is on one.
fn setting(panel: usize, operation: Operation) -> Option<(u8, usize)> {
    match operation {
        Operation::Off(Item::Point(it), _) => Some((0, it)),
        Operation::Off(Item::Zone(it), _) => Some((1, it)),
        Operation::Off(Item::Output(it), _) => Some((2, it)),
        Operation::Test(it, _) => Some((3, it)),
        Operation::Delays(_) => Some((4, panel)),
        Operation::Clear => Some((5, panel)),
        _ => None,
    }
}

fn needed_level(operation: Operation) -> u8 {
    match operation {
        Operation::Mute | Operation::Override => 1,
        Operation::Test(..) => 3,
        Operation::Clear => 4,
        _ => 2,
    }
}

impl System {
    pub fn open(site: Site, journal: Journal) -> System {
        let kept = journal.kept.clone();
        let round = 12 * site.format as usize;
        let mut panels: Vec<Panel> = (0..site.panels).map(|_| Panel { asked: vec![Vec::new(); round], ..Panel::default() }).collect();
        for plan in &site.loops {
            let panel = &mut panels[plan.panel];
            panel.pieces[plan.line] = vec![0; plan.last + 1];
            panel.is_reached[plan.line] = vec![true; plan.last];
        }
        for (at, panel) in panels.iter_mut().enumerate() {
            for place in site.point_at[at].iter().flatten().flatten() {
                panel.asked[(site.points[*place].address - 1) / 8].push(*place);
            }
            panel.face = Face {
                points_off: kept.points[at],
                zones_off: kept.zones[at],
                outputs_off: kept.outputs[at],
                tests: kept.tests[at],
                delays_off: kept.delays_off >> at & 1 == 1,
                counter: kept.counters[at],
                ..Face::default()
            };
            panel.face.mask(&site, at);
            for output in site.output_at[at].iter().flatten().map(|place| &site.outputs[*place]) {
                panel.sounders |= ((output.kind == Kind::Sounder) as u32) << output.number;
            }
        }
        let points = site.points.iter().map(|it| {
            let bit = kept.points[it.panel][it.line][(it.address - 1) / 96] >> ((it.address - 1) % 96);
            PointWatch { off: Switch::new(bit & 1 == 1), ..PointWatch::default() }
        });
        let zones = site.zones.iter().map(|it| ZoneWatch {
            off: Switch::new(has(kept.zones[it.panel], it.number)),
            test: Switch::new(has(kept.tests[it.panel], it.number)),
            ..ZoneWatch::default()
        });
        System {
            points: points.collect(),
            zones: zones.collect(),
            canonical: canonical(site.panels),
            values: vec![false; site.markers.len()],
            site,
            journal,
            now: 0,
            answers: Answers::default(),
            panels,
            links_down: 0,
            asked: 0,
            waiting: Vec::new(),
            done: Vec::new(),
        }
    }

    pub fn face(&self, panel: usize) -> &Face {
        &self.panels[panel].face
    }

    /// The next tick, if there is one.
    pub fn expected(&self) -> Option<u64> {
        (self.now < MOST_TICKS).then_some(self.now + 1)
    }

    /// A tick begins: what was done in the one before comes in force.
    pub fn begin(&mut self) {
        for (panel, operation) in std::mem::take(&mut self.done) {
            self.apply(panel, operation, self.now);
        }
        self.now += 1;
        self.answers.operations.clear();
        self.answers.busy = [0; 8];
        self.answers.is_failed = false;
    }

    fn apply(&mut self, at: usize, operation: Operation, tick: u64) {
        let (site, panel) = (&self.site, &mut self.panels[at]);
        let bit = |mask: u32, number: usize, on: bool| mask & !(1 << number) | (on as u32) << number;
        match operation {
            Operation::Mute => panel.muted = tick,
            Operation::Override => panel.overridden = tick,
            Operation::Silence => panel.silenced = Some(panel.driven_by),
            Operation::Resound => panel.silenced = None,
            Operation::Delays(on) => panel.face.delays_off = !on,
            Operation::Cancel(zone) => self.zones[zone].cancelled.raise(tick),
            Operation::Clear => {}
            Operation::Reset => {
                for (zone, watch) in site.zones.iter().zip(&mut self.zones) {
                    if zone.panel == at {
                        watch.floor.raise(tick);
                    }
                }
            }
            Operation::Test(zone, on) => {
                let (watch, number) = (&mut self.zones[zone], site.zones[zone].number);
                watch.test.set(on, tick);
                if on {
                    watch.floor.raise(tick);
                }
                panel.face.tests = bit(panel.face.tests, number, on);
            }
            Operation::Off(Item::Zone(zone), off) => {
                let (watch, number) = (&mut self.zones[zone], site.zones[zone].number);
                watch.off.set(off, tick);
                if off {
                    watch.floor.raise(tick);
                }
                panel.face.zones_off = bit(panel.face.zones_off, number, off);
            }
            Operation::Off(Item::Output(output), off) => panel.face.outputs_off = bit(panel.face.outputs_off, site.outputs[output].number, off),
            Operation::Off(Item::Point(place), off) => {
                let point = &site.points[place];
                self.points[place].off.set(off, tick);
                let half = &mut panel.face.points_off[point.line][(point.address - 1) / 96];
                *half = *half & !(1 << ((point.address - 1) % 96)) | (off as u128) << ((point.address - 1) % 96);
            }
        }
    }

    pub fn event(&mut self, event: &Event) {
        match *event {
            Event::Point { point, is_alarm, is_gone } => {
                self.points[point].is_alarm = is_alarm;
                self.points[point].is_gone = is_gone;
            }
            Event::Cable { panel, line, piece, state } => {
                self.panels[panel].pieces[line][piece] = state;
                self.reach(panel, line);
            }
            Event::Supply { panel, kind, is_bad } => self.panels[panel].is_bad[kind] = is_bad,
            Event::Link { link, is_up } => self.links_down = self.links_down & !(1 << link) | (!is_up as u8) << link,
            Event::Confirmed { output } => {
                let output = &self.site.outputs[output];
                let panel = &mut self.panels[output.panel];
                if has(panel.face.outputs, output.number) {
                    panel.face.confirmed |= 1 << output.number;
                    panel.outside.unconfirmed &= !(1 << output.number);
                }
            }
            Event::Op { panel, level, operation } => {
                self.asked += 1;
                let asked = Asked { number: self.asked, level, operation };
                if self.panels[panel].operations.len() < MOST_OPERATIONS {
                    self.panels[panel].operations.push(asked);
                } else {
                    self.answers.busy[panel] += 1;
                }
            }
        }
    }

    /// Which addresses of a loop are reached: no short in their own section, and from one end neither an open piece nor a section with a
    /// short on the way.
    fn reach(&mut self, at: usize, line: usize) {
        let plan = self.site.loops.iter().find(|plan| plan.panel == at && plan.line == line).expect("a listed loop");
        let panel = &mut self.panels[at];
        let pieces = &panel.pieces[line];
        // The section of each piece is the number of isolators up to it; an address is in that of the piece before it.
        let section = |piece: usize| plan.isolators.iter().filter(|place| **place <= piece.min(plan.last - 1)).count();
        let mut is_short = vec![false; plan.isolators.len() + 1];
        (0..=plan.last).filter(|piece| pieces[*piece] == 2).for_each(|piece| is_short[section(piece)] = true);
        let is_passed: Vec<bool> = (0..=plan.last).map(|piece| pieces[piece] != 1 && !is_short[section(piece)]).collect();
        for address in 1..=plan.last {
            panel.is_reached[line][address - 1] =
                !is_short[section(address - 1)] && (is_passed[..address].iter().all(|it| *it) || is_passed[address..].iter().all(|it| *it));
        }
        let bit = |mask: u8, state: u8| mask & !(1 << line) | (pieces.contains(&state) as u8) << line;
        panel.outside.broken = bit(panel.outside.broken, 1);
        panel.outside.shorted = bit(panel.outside.shorted, 2);
    }

    /// Makes the turns of the tick, in the canonical order where none is given.
    pub fn turns(&mut self, order: Option<&[u8]>) {
        let count = order.map_or(self.canonical.len(), <[u8]>::len);
        for at in 0..count {
            let seat = order.map_or(self.canonical[at], |order| order[at]);
            self.turn(seat & 15, (seat >> 4) as usize);
        }
        self.answers.operations.sort_unstable_by_key(|(number, _)| *number);
        for at in 0..self.site.panels {
            let panel = &mut self.panels[at];
            panel.face.counter = self.journal.kept.counters[at];
            for source in 0..self.site.panels {
                let word = if source == at { &panel.word } else { &panel.kept[source] };
                (panel.face.zones[source], panel.face.firsts[source]) = (word.alarm, word.first);
            }
        }
    }

    fn turn(&mut self, task: u8, at: usize) {
        match task {
            0 => self.poll(at),
            1 => self.decide(at),
            2 => self.supply(at),
            3 => self.desk(at),
            4 => self.hold(at),
            5 => self.link(at),
            6 => self.effect(at),
            7 => self.drive(at),
            _ => self.keep(),
        }
    }

    fn poll(&mut self, at: usize) {
        let panel = &mut self.panels[at];
        let phase = (self.now % panel.asked.len() as u64) as usize;
        for place in &panel.asked[phase] {
            let (point, watch) = (&self.site.points[*place], &self.points[*place]);
            let is_silent = watch.is_gone || !panel.is_reached[point.line][point.address - 1];
            panel.answers.push_back(Answer { stamp: self.now, point: *place, is_alarm: watch.is_alarm && !is_silent, is_silent });
        }
    }

    fn decide(&mut self, at: usize) {
        for _ in 0..QUOTA {
            let Some(answer) = self.panels[at].answers.pop_front() else { return };
            let finding = self.judge(answer);
            self.panels[at].findings.push_back(finding);
        }
    }

    fn judge(&mut self, answer: Answer) -> Finding {
        let watch = &mut self.points[answer.point];
        watch.silent = if answer.is_silent { (watch.silent + 1).min(3) } else { 0 };
        let mut finding = Finding { stamp: answer.stamp, point: answer.point, is_missing: watch.silent == 3, ..Finding::default() };
        let (point, x) = (&self.site.points[answer.point], answer.stamp);
        let zone = &self.site.zones[point.zone];
        let zone_watch = &mut self.zones[point.zone];
        if !answer.is_alarm || watch.off.before(x) || zone_watch.off.before(x) || zone_watch.test.before(x) {
            watch.run = None;
            return finding;
        }
        let run = *watch.run.get_or_insert(x);
        if zone.rule == Rule::C || !point.is_manual {
            zone_watch.note(answer.point, x);
        }
        let own = 1 << zone.number;
        if point.is_manual {
            (finding.confirmed, finding.manual, finding.released) = (own, own, own);
        } else {
            finding.told = own;
        }
        let partner = zone.partner.map(|place| (&self.site.zones[place], &self.zones[place]));
        let others = partner.and_then(|(other, watch)| Some((other, watch.second(answer.point, if zone.rule == Rule::C { watch.floor.before(x) } else { watch.bar(x) })?)));
        let zone_watch = &self.zones[point.zone];
        let floor = zone_watch.floor.before(x);
        match zone.rule {
            _ if point.is_manual && zone.rule != Rule::C => {}
            Rule::Plain => (finding.confirmed, finding.released) = (own, own),
            Rule::A { verify, within } => {
                let round = 12 * self.site.format;
                let first = if run > floor { run } else { run + (floor + 1 - run).div_ceil(round) * round };
                if first + verify <= x || zone_watch.second(answer.point, floor).is_some_and(|y| x - y <= within) {
                    (finding.confirmed, finding.released) = (own, own);
                }
            }
            Rule::B { within } => {
                if zone_watch.second(answer.point, zone_watch.bar(x)).is_some_and(|y| x - y <= within) {
                    finding.confirmed |= own;
                }
                if let Some((other, y)) = others {
                    if x - y <= within {
                        finding.confirmed |= own;
                    }
                    if matches!(other.rule, Rule::B { within } if x - y <= within) {
                        finding.confirmed |= 1 << other.number;
                    }
                }
                finding.released = finding.confirmed;
            }
            Rule::C => {
                finding.confirmed |= own;
                if zone_watch.second(answer.point, floor).is_some() {
                    finding.released |= own;
                }
                if let Some((other, _)) = others {
                    finding.released |= own | 1 << other.number;
                }
            }
        }
        finding
    }

    fn supply(&mut self, at: usize) {
        let panel = &mut self.panels[at];
        panel.outside.supply = 0;
        for kind in 0..4 {
            panel.bad_since[kind] = if panel.is_bad[kind] { panel.bad_since[kind].or(Some(self.now)) } else { None };
            if panel.bad_since[kind].is_some_and(|since| self.now - since >= self.site.waits[kind]) {
                panel.outside.supply |= 1 << kind;
            }
        }
    }

    fn desk(&mut self, at: usize) {
        for place in 0..self.panels[at].operations.len() {
            let asked = self.panels[at].operations[place];
            let (needs, wanted) = (needed_level(asked.operation), setting(at, asked.operation));
            let is_same = |panel: usize, operation: Operation| wanted.is_some() && setting(panel, operation) == wanted;
            let answer = if asked.level < needs {
                format!("denied needs {needs} has {}", asked.level)
            } else if self.waiting.iter().any(|(panel, it)| is_same(*panel, it.operation)) || self.done.iter().any(|(panel, it)| is_same(*panel, *it)) {
                "waiting".to_string()
            } else if self.stands(at, asked.operation) {
                "already".to_string()
            } else if wanted.is_some() {
                self.waiting.push((at, asked));
                continue;
            } else {
                self.done.push((at, asked.operation));
                "done".to_string()
            };
            self.answers.operations.push((asked.number, answer));
        }
        self.panels[at].operations.clear();
    }

    /// Whether a setting stands so.
    fn stands(&self, at: usize, operation: Operation) -> bool {
        match operation {
            Operation::Off(Item::Point(it), off) => self.points[it].off.now == off,
            Operation::Off(Item::Zone(it), off) => self.zones[it].off.now == off,
            Operation::Off(Item::Output(it), off) => has(self.panels[at].face.outputs_off, self.site.outputs[it].number) == off,
            Operation::Test(it, on) => self.zones[it].test.now == on,
            Operation::Delays(on) => self.panels[at].face.delays_off != on,
            _ => false,
        }
    }

    fn hold(&mut self, at: usize) {
        for _ in 0..QUOTA {
            let Some(finding) = self.panels[at].findings.pop_front() else { break };
            self.take(at, finding);
        }
        let word = self.draw(at);
        let faults = self.faults(at);
        let panel = &mut self.panels[at];
        let is_more = word.alarm & !panel.word.alarm != 0 || word.first & !panel.word.first != 0;
        if is_more || faults != panel.face.faults && faults.has_more(&panel.face.faults) {
            panel.newly_shown = self.now;
        }
        if word.alarm != 0 && panel.word.alarm == 0 {
            panel.entries = (panel.entries + 1).min(MOST_COUNT);
        }
        let is_faulty = faults != Faults::default();
        panel.face.faults = faults;
        panel.word = Word { is_faulty, ..word };
        panel.face.buzzer = if panel.newly_shown <= panel.muted {
            0
        } else if word.alarm | word.first != 0 {
            2
        } else {
            is_faulty as u8
        };
    }

    /// The faults that a panel shows in the present tick.
    fn faults(&self, at: usize) -> Faults {
        let (site, panel) = (&self.site, &self.panels[at]);
        let mut faults = panel.outside;
        for other in (0..site.panels).filter(|other| *other != at) {
            faults.silent |= ((self.now - panel.kept[other].stamp > 60 * site.format) as u8) << other;
        }
        if self.links_down != 0 {
            faults.links = self.links_down & (1 << at | 1 << ((at + site.panels - 1) % site.panels));
        }
        if !panel.has_missing {
            return faults;
        }
        for (line, halves) in panel.missing.iter().enumerate() {
            for (half, mask) in halves.iter().enumerate().filter(|(_, mask)| **mask != 0) {
                for bit in (0..96).filter(|bit| mask >> bit & 1 == 1) {
                    let place = site.point_at[at][line][96 * half + bit].expect("a point");
                    let is_off = self.points[place].off.now || self.zones[site.points[place].zone].off.now;
                    faults.missing[line][half] |= (!is_off as u128) << bit;
                }
            }
        }
        faults
    }

    fn take(&mut self, at: usize, finding: Finding) {
        let mut bits = finding.told | finding.confirmed | finding.released | finding.manual;
        while bits != 0 {
            let number = bits.trailing_zeros() as usize;
            bits &= bits - 1;
            let zone = &mut self.zones[self.site.zone_at[at][number].expect("a zone")];
            let later = |mask: u32, stamp: &mut u64| *stamp = if has(mask, number) { finding.stamp.max(*stamp) } else { *stamp };
            later(finding.told, &mut zone.told);
            later(finding.confirmed, &mut zone.confirmed);
            later(finding.manual, &mut zone.called);
            later(finding.released, &mut zone.released);
        }
        let point = &self.site.points[finding.point];
        let panel = &mut self.panels[at];
        let half = &mut panel.missing[point.line][(point.address - 1) / 96];
        let bit = 1 << ((point.address - 1) % 96);
        if (*half & bit != 0) != finding.is_missing {
            *half ^= bit;
            panel.has_missing = panel.missing.iter().flatten().any(|mask| *mask != 0);
        }
    }

    /// What the zones of a panel show in the present tick.
    fn draw(&self, at: usize) -> Word {
        let mut word = Word { stamp: self.now, ..Word::default() };
        for (number, place) in self.site.zone_at[at].iter().enumerate() {
            let Some(place) = place else { continue };
            let (watch, bit) = (&self.zones[*place], 1 << number);
            let floor = watch.floor.last;
            if floor < watch.confirmed {
                word.alarm |= bit;
            } else if let Rule::B { within } = self.site.zones[*place].rule {
                if watch.told > floor.max(watch.cancelled.last) && self.now - watch.told <= within {
                    word.first |= bit;
                }
            }
            if floor < watch.called {
                word.manual |= bit;
            }
            if floor < watch.released {
                word.released |= bit;
            }
        }
        word
    }

    fn link(&mut self, at: usize) {
        let count = self.site.panels;
        self.panels[at].kept[at] = self.panels[at].word;
        let carried = if count <= 4 { 0..count } else if self.now % 2 == 1 { 0..4 } else { 4..count };
        for (link, neighbour) in [(at, (at + 1) % count), ((at + count - 1) % count, (at + count - 1) % count)] {
            if count == 1 || self.links_down >> link & 1 == 1 {
                continue;
            }
            for source in carried.clone() {
                if self.panels[neighbour].kept[source].stamp > self.panels[at].kept[source].stamp {
                    self.panels[at].kept[source] = self.panels[neighbour].kept[source];
                }
            }
        }
    }

    fn effect(&mut self, at: usize) {
        let mut facts = Facts::default();
        for (source, word) in self.panels[at].kept[..self.site.panels].iter().enumerate() {
            (facts.released[source], facts.manual[source]) = (word.released, word.manual);
            facts.faults |= (word.is_faulty as u8) << source;
        }
        if facts == self.panels[at].facts {
            return;
        }
        let by_hand = Facts { released: facts.manual, manual: facts.manual, faults: 0 };
        self.panels[at].by_hand = self.solve(at, &by_hand);
        self.panels[at].requested = self.solve(at, &facts);
        self.panels[at].facts = facts;
    }

    /// The outputs of a panel whose markers are true.
    fn solve(&mut self, at: usize, facts: &Facts) -> u32 {
        let site = &self.site;
        let of = |masks: &[u32; 8], zone: usize| has(masks[site.zones[zone].panel], site.zones[zone].number);
        for place in &site.solving {
            let marker = &site.markers[*place];
            let true_terms = marker.terms.iter().filter(|term| match **term {
                Term::Zone(zone) => of(&facts.released, zone),
                Term::Manual(zone) => of(&facts.manual, zone),
                Term::Fault(panel) => facts.faults >> panel & 1 == 1,
                Term::Marker(other) => self.values[other],
            });
            self.values[*place] = true_terms.count() >= marker.needed;
        }
        let outputs = site.output_at[at].iter().flatten().map(|place| &site.outputs[*place]);
        outputs.filter(|output| self.values[output.marker]).fold(0, |mask, output| mask | 1 << output.number)
    }

    fn drive(&mut self, at: usize) {
        let (now, panel) = (self.now, &mut self.panels[at]);
        panel.driven_by = panel.facts.released;
        let has_released = panel.driven_by != [0; 8];
        if let Some(silenced) = &panel.silenced {
            let is_kept = has_released && panel.facts.released.iter().zip(silenced).all(|(released, silenced)| released & !silenced == 0);
            if !is_kept {
                panel.silenced = None;
            }
        }
        if panel.requested | panel.was_requested | panel.face.outputs == 0 {
            return;
        }
        let mut on = 0;
        for output in self.site.output_at[at].iter().flatten().map(|place| &self.site.outputs[*place]) {
            let (number, bit) = (output.number, 1 << output.number);
            if panel.requested & bit == 0 {
                continue;
            }
            if panel.was_requested & bit == 0 {
                panel.request_began[number] = now;
            }
            let began = panel.request_began[number];
            let is_through = panel.by_hand & bit != 0
                || panel.face.delays_off
                || now - began >= output.delay
                || panel.overridden >= began && panel.overridden > 0;
            let is_quiet = output.kind == Kind::Sounder && panel.silenced.is_some();
            if is_through && !is_quiet && panel.face.outputs_off & bit == 0 {
                on |= bit;
            }
            if output.kind == Kind::Confirmed && on & bit != 0 {
                if panel.face.outputs & bit == 0 {
                    panel.on_since[number] = now;
                }
                if now - panel.on_since[number] >= 200 * self.site.format && panel.face.confirmed & bit == 0 {
                    panel.outside.unconfirmed |= bit;
                }
            }
        }
        panel.was_requested = panel.requested;
        panel.face.outputs = on;
        panel.face.confirmed &= on;
        panel.outside.unconfirmed &= on;
    }

    fn keep(&mut self) {
        let entries = self.panels.iter().enumerate().filter(|(_, panel)| panel.entries != 0).map(|(at, panel)| Change::Count(at, panel.entries));
        let operations = self.waiting.iter().map(|(at, asked)| Change::Operation(*at, asked.operation));
        let batch: Vec<Change> = entries.chain(operations).collect();
        let kept = match batch.is_empty() {
            true if !self.journal.is_torn() => return,
            true => self.journal.mend(),
            false => self.journal.commit(&self.site, &batch),
        };
        self.answers.is_failed = kept.is_err();
        let answer = if kept.is_ok() { "done" } else { "store" };
        if kept.is_ok() {
            self.panels.iter_mut().for_each(|panel| panel.entries = 0);
        }
        for (at, asked) in std::mem::take(&mut self.waiting) {
            self.answers.operations.push((asked.number, answer.to_string()));
            if kept.is_ok() {
                self.done.push((at, asked.operation));
            }
        }
    }
}
