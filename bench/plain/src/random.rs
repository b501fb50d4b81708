//! Random sheets, good and damaged, and random traces. The same seed gives the same ones.

use crate::close::test;
use crate::refusal::{Fault, Place, Refusal};
use crate::sheet::{Names, pack};
use crate::sites::{SiteSet, site};
use crate::step::{Machine, Memory, Message, State, Step};
use crate::table::*;

/// Numbers by xorshift64*.
pub struct Random(u64);

impl Random {
    pub fn new(seed: u64) -> Random {
        // Seeds that differ in one bit begin far apart, and none is 0.
        Random(seed.wrapping_add(1).wrapping_mul(0x9E37_79B9_7F4A_7C15) | 1)
    }

    pub fn word(&mut self) -> u64 {
        self.0 ^= self.0 >> 12;
        self.0 ^= self.0 << 25;
        self.0 ^= self.0 >> 27;
        self.0.wrapping_mul(0x2545_F491_4F6C_DD1D)
    }

    /// A number below a limit, which is not 0.
    pub fn below(&mut self, limit: usize) -> usize {
        ((u128::from(self.word()) * limit as u128) >> 64) as usize
    }

    pub fn between(&mut self, least: usize, most: usize) -> usize {
        least + self.below(most - least + 1)
    }

    pub fn chance(&mut self, percent: usize) -> bool {
        self.below(100) < percent
    }

    pub fn pick<'a, T>(&mut self, items: &'a [T]) -> &'a T {
        &items[self.below(items.len())]
    }

    /// A value: often a small one or one at the limits.
    pub fn value(&mut self) -> i16 {
        match self.below(6) {
            0..=2 => self.below(6) as i16 - 2,
            3 => *self.pick(&[i16::MIN, i16::MIN + 1, i16::MAX - 1, i16::MAX]),
            _ => self.word() as i16,
        }
    }

    fn timer(&mut self) -> Timer {
        match self.below(7) {
            0 | 1 => None,
            2..=4 => Some(self.below(4) as u16),
            5 => Some(self.below(1 << 15) as u16),
            _ => Some(*self.pick(&[i16::MAX as u16 - 1, i16::MAX as u16])),
        }
    }
}

/// What a table is to be like.
struct Shape {
    edges: usize,
    processes: usize,
    locations: usize,
    variables: usize,
    timers: usize,
    signals: usize,
    /// In percent: how often an edge takes no heed whether its location acts or waits.
    mixed: usize,
    /// Whether acting locations may lack an unguarded and an else edge.
    stuck: bool,
    /// Whether the table has as much of everything as it may.
    full: bool,
}

impl Shape {
    fn any(random: &mut Random) -> Shape {
        if random.chance(2) {
            return Shape::crowded(random);
        }
        let edges = match random.below(20) {
            0 => random.below(4),
            1..=5 => random.between(2, 12),
            6..=16 => random.between(8, 80),
            17 | 18 => random.between(80, 600),
            _ => random.between(1500, MAX_EDGES),
        };
        let few =
            |random: &mut Random, most| if random.chance(50) { random.between(2, most) } else { *random.pick(&[0, 1, 1, 2]) };
        Shape {
            edges,
            locations: *random.pick(&[1, 2, 3, 4, 5, 8, 16]),
            variables: few(random, MAX_VARIABLES),
            timers: few(random, MAX_TIMERS),
            processes: *random.pick(&[1, 2, 3, 5, MAX_PROCESSES]),
            signals: *random.pick(&[0, 3, 5, 8, 8, 12, 30, MAX_SIGNALS]),
            mixed: if random.chance(8) { 10 } else { 0 },
            stuck: random.chance(12),
            full: false,
        }
    }

    /// Near the limit of edges, with room for many that closing adds.
    fn crowded(random: &mut Random) -> Shape {
        Shape {
            edges: random.between(1700, MAX_EDGES),
            processes: MAX_PROCESSES,
            locations: random.between(8, 16),
            variables: random.between(2, 8),
            timers: random.between(3, 7),
            signals: MAX_SIGNALS,
            mixed: 0,
            stuck: false,
            full: true,
        }
    }
}

/// A table in the making.
struct Maker<'r> {
    random: &'r mut Random,
    table: Table,
    shape: Shape,
    acting: SiteSet,
    /// Expressions there are, each with the variables it needs.
    expressions: Vec<(usize, Span)>,
}

/// A random table that breaks none of 3 and 7 to 10, and 11 or 12 only at times.
pub fn table(random: &mut Random) -> Table {
    let shape = Shape::any(random);
    let mut maker = Maker { random, table: Table::default(), shape, acting: SiteSet::default(), expressions: Vec::new() };
    maker.add_processes();
    maker.add_signals();
    maker.add_spare_terms();
    for _ in 0..maker.shape.edges {
        maker.add_edge();
    }
    if !maker.shape.stuck {
        maker.free_acting_locations();
        maker.trim();
        maker.free_acting_locations();
    }
    maker.add_spare_terms();
    maker.table
}

impl Maker<'_> {
    fn add_processes(&mut self) {
        let count = self.count(1, self.shape.processes);
        for p in 0..count {
            let locations = self.count(1, self.shape.locations);
            let variables = self.count(self.shape.variables.div_ceil(2), self.shape.variables);
            let timers = self.count(self.shape.timers.div_ceil(2), self.shape.timers);
            self.table.processes.push(Process {
                locations: locations as u8,
                first: self.random.below(locations) as u8,
                variables: (0..variables).map(|_| self.random.value()).collect(),
                timers: (0..timers).map(|_| self.random.timer()).collect(),
            });
            let acting = (0..locations).filter_map(|l| site(p as u8, l as u8)).filter(|_| self.random.chance(35));
            self.acting.extend(acting);
        }
    }

    fn count(&mut self, least: usize, most: usize) -> usize {
        if self.shape.full { most } else { self.random.between(least, most) }
    }

    fn add_signals(&mut self) {
        for _ in 0..self.count(self.shape.signals / 2, self.shape.signals) {
            let class = *self.random.pick(&[0, 0, 0, 1, 1, 1, 2, 3]);
            let destination = if class < 2 { self.random.below(self.table.processes.len()) as u8 } else { 0 };
            self.table.signals.push(Signal { class, destination });
        }
    }

    /// Terms that no edge uses.
    fn add_spare_terms(&mut self) {
        for _ in 0..*self.random.pick(&[0, 0, 1, 5]) {
            let term = Term { operation: self.random.below(16) as u8, argument: self.random.value() };
            if self.table.terms.len() < MAX_TERMS {
                self.table.terms.push(term);
            }
        }
    }

    fn add_edge(&mut self) {
        let p = self.random.below(self.table.processes.len());
        let locations = usize::from(self.table.processes[p].locations);
        let from = self.random.below(locations);
        let to = self.random.below(locations);
        let acts =
            site(p as u8, from as u8).is_some_and(|here| self.acting.contains(here)) != self.random.chance(self.shape.mixed);
        let kinds: &[Kind] = if acts {
            &[Kind::Output, Kind::Output, Kind::Assignment, Kind::Assignment, Kind::Set, Kind::Set, Kind::Reset, Kind::Skip]
        } else {
            &[Kind::Input, Kind::Input, Kind::Timeout, Kind::Rearm]
        };
        let choices = (0..4).map(|_| *self.random.pick(kinds)).collect::<Vec<_>>();
        let Some((kind, (first, second))) = choices.into_iter().find_map(|kind| Some((kind, self.operands(kind, p)?))) else {
            return;
        };
        let mut edge =
            Edge { process: p as u8, from: from as u8, to: to as u8, kind: kind as u8, first, second, ..Edge::default() };
        self.guard(&mut edge, kind);
        if kind.takes_value() && self.random.chance(80) {
            edge.value = self.expression(p).unwrap_or_default();
        }
        self.table.edges.push(edge);
    }

    /// First and second of an edge of a kind; none where the process has nothing for it.
    fn operands(&mut self, kind: Kind, p: usize) -> Option<(u8, u8)> {
        let Process { variables, timers, .. } = &self.table.processes[p];
        let (variables, timers) = (variables.len(), timers.len());
        Some(match kind {
            Kind::Input => {
                let signal = self.signal(|signal| signal.class < 2 && usize::from(signal.destination) == p)?;
                let drop = variables == 0 || self.random.chance(25);
                (signal, if drop { DROP } else { self.random.below(variables) as u8 })
            }
            Kind::Output => (self.signal(|signal| signal.class == 0 || signal.class == 2)?, 0),
            Kind::Assignment => (self.number(variables)?, 0),
            Kind::Rearm => (self.number(timers)?, self.random.below(16) as u8),
            Kind::Set | Kind::Reset | Kind::Timeout => (self.number(timers)?, 0),
            Kind::Skip => (0, 0),
        })
    }

    fn number(&mut self, limit: usize) -> Option<u8> {
        (limit > 0).then(|| self.random.below(limit) as u8)
    }

    fn signal(&mut self, fits: impl Fn(&Signal) -> bool) -> Option<u8> {
        let signals = &self.table.signals;
        let fitting: Vec<u8> = (0..).zip(signals).filter(|(_, signal)| fits(signal)).map(|(number, _)| number).collect();
        (!fitting.is_empty()).then(|| *self.random.pick(&fitting))
    }

    fn guard(&mut self, edge: &mut Edge, kind: Kind) {
        if !kind.takes_guard() {
            return;
        }
        match self.random.below(4) {
            0 => edge.mode = Mode::Else as u8,
            1 | 2 => {
                if let Some(span) = self.expression(edge.process.into()) {
                    edge.mode = Mode::Expression as u8;
                    edge.guard = span;
                }
            }
            _ => {}
        }
    }

    /// A new expression over the variables of a process, or one there is; none where the term list has no room.
    fn expression(&mut self, p: usize) -> Option<Span> {
        let variables = self.table.processes[p].variables.len();
        let room = MAX_TERMS - self.table.terms.len();
        if !self.expressions.is_empty() && (room < MAX_EXPRESSION || self.random.chance(40)) {
            let (needed, span) = *self.random.pick(&self.expressions);
            if needed <= variables {
                return Some(span);
            }
        }
        if room < MAX_EXPRESSION {
            return None;
        }
        let count = if self.random.chance(60) { self.random.between(1, 4) } else { self.random.between(1, MAX_EXPRESSION) };
        let span = Span { start: self.table.terms.len() as u16, count: count as u8 };
        let mut depth = 0;
        for left in (1..=count).rev() {
            let term = self.term(&mut depth, left, variables);
            self.table.terms.push(term);
        }
        self.expressions.push((variables, span));
        Some(span)
    }

    /// A term where so many values are on the stack, so that with those left to come one value remains.
    fn term(&mut self, depth: &mut usize, left: usize, variables: usize) -> Term {
        let may_leave = *depth < left;
        let may_negate = *depth >= 1 && *depth <= left;
        let may_join = *depth >= 2;
        loop {
            match self.random.below(5) {
                0 | 1 if may_leave => {
                    *depth += 1;
                    return if variables > 0 && self.random.chance(60) {
                        Term { operation: 1, argument: self.random.below(variables) as i16 }
                    } else {
                        Term { operation: 0, argument: self.random.value() }
                    };
                }
                2 if may_negate => return Term { operation: 7, argument: 0 },
                3 | 4 if may_join => {
                    *depth -= 1;
                    return Term { operation: self.random.between(2, 6) as u8, argument: 0 };
                }
                _ => {}
            }
        }
    }

    /// Takes edges out until the closed table has about as many as are allowed.
    fn trim(&mut self) {
        let over = self.random.below(4);
        while let Err(Refusal { fault: Fault::TooManyEdges, place: Place::Test(count) }) = test(&self.table) {
            if count <= MAX_EDGES + over {
                return;
            }
            for _ in MAX_EDGES + over..count {
                let number = self.random.below(self.table.edges.len());
                self.table.edges.swap_remove(number);
            }
        }
    }

    /// Gives each acting location an edge that may be taken when no other may.
    fn free_acting_locations(&mut self) {
        let acting = self.table.edges.iter().filter(|edge| edge.kind().is_some_and(Kind::is_acting));
        let free = |edge: &&Edge| edge.mode() != Some(Mode::Expression);
        let mut stuck: SiteSet = acting.filter_map(Edge::source).collect();
        stuck = stuck.without(self.table.edges.iter().filter(free).filter_map(Edge::source).collect());
        while let Some(here) = stuck.pop() {
            if self.table.edges.len() == MAX_EDGES {
                return;
            }
            let process = (here / MAX_LOCATIONS) as u8;
            let to = self.random.below(self.table.processes[usize::from(process)].locations.into()) as u8;
            let from = (here % MAX_LOCATIONS) as u8;
            self.table.edges.push(Edge { process, from, to, kind: Kind::Skip as u8, mode: Mode::Else as u8, ..Edge::default() });
        }
    }
}

/// A name area for a table.
pub fn names(random: &mut Random, table: &Table) -> Vec<u8> {
    let mut area = Vec::new();
    for _ in 0..table.processes.len() + table.signals.len() {
        let length = random.between(1, 15);
        area.push(length as u8);
        area.extend((0..length).map(|_| random.between(33, 126) as u8));
    }
    area
}

/// The sheet of a random table.
pub fn sheet(random: &mut Random) -> Vec<u8> {
    let table = table(random);
    let names = names(random, &table);
    pack(&table, Names::new(&names))
}

/// A sheet with one fault, or a few. Some still open.
pub fn damaged_sheet(random: &mut Random) -> Vec<u8> {
    let mut table = table(random);
    let names = names(random, &table);
    if random.chance(50) {
        for _ in 0..random.between(1, 3) {
            damage_record(random, &mut table);
        }
        return pack(&table, Names::new(&names));
    }
    let mut bytes = pack(&table, Names::new(&names));
    for _ in 0..*random.pick(&[1, 1, 1, 2, 4]) {
        damage_bytes(random, &mut bytes, names.len());
    }
    bytes
}

/// Alters a field of an edge or a term, within what a sheet can hold.
fn damage_record(random: &mut Random, table: &mut Table) {
    let numbers = (table.edges.len(), table.terms.len());
    if numbers.0 > 0 && (numbers.1 == 0 || random.chance(75)) {
        let edge = &mut table.edges[random.below(numbers.0)];
        match random.below(11) {
            0 => edge.process = random.below(8) as u8,
            1 => edge.from = random.below(16) as u8,
            2 => edge.to = random.below(16) as u8,
            3 => edge.kind = random.below(8) as u8,
            4 => edge.first = random.below(64) as u8,
            5 => edge.second = random.below(16) as u8,
            6 => edge.mode = random.below(4) as u8,
            7 => edge.guard.start = random.below(numbers.1 + 3).min(4095) as u16,
            8 => edge.guard.count = random.below(32) as u8,
            9 => edge.value.start = random.below(numbers.1 + 3).min(4095) as u16,
            _ => edge.value.count = random.below(32) as u8,
        }
    } else if numbers.1 > 0 {
        let term = &mut table.terms[random.below(numbers.1)];
        if random.chance(60) {
            term.operation = random.below(16) as u8;
        } else {
            term.argument = random.value();
        }
    }
}

fn damage_bytes(random: &mut Random, bytes: &mut Vec<u8>, names: usize) {
    let length = bytes.len();
    match random.below(7) {
        0 => bytes.truncate(random.below(length + 1)),
        1 => bytes.truncate(length - random.below(length.min(names + 2) + 1)),
        2 => bytes.extend((0..random.between(1, 3)).map(|_| random.word() as u8)),
        _ if length == 0 => {}
        3 => flip(random, bytes, 0, 16),
        4 => flip(random, bytes, 5, 60),
        5 => flip(random, bytes, length.saturating_sub(names + 1), length),
        _ => flip(random, bytes, 0, length),
    }
}

/// Flips a bit of one of the bytes from a start on to an end.
fn flip(random: &mut Random, bytes: &mut [u8], start: usize, end: usize) {
    let end = end.min(bytes.len());
    if start < end {
        bytes[random.between(start, end - 1)] ^= 1 << random.below(8);
    }
}

/// Alters fields of a table's records, also beyond what a sheet can hold.
pub fn disturb(random: &mut Random, table: &mut Table) {
    let small = |random: &mut Random| if random.chance(80) { random.below(17) as u8 } else { random.word() as u8 };
    match random.below(8) {
        0 if !table.signals.is_empty() => {
            let count = table.signals.len();
            let signal = &mut table.signals[random.below(count)];
            if random.chance(50) { signal.class = random.below(5) as u8 } else { signal.destination = random.below(9) as u8 }
        }
        1 if !table.processes.is_empty() => {
            let count = table.processes.len();
            let process = &mut table.processes[random.below(count)];
            match random.below(4) {
                0 => process.locations = random.below(18) as u8,
                1 => process.first = random.below(17) as u8,
                2 => process.variables.resize(random.below(10), 0),
                _ => process.timers.resize(random.below(10), Some(random.word() as u16)),
            }
        }
        _ if !table.edges.is_empty() && random.chance(70) => {
            let count = table.edges.len();
            let edge = &mut table.edges[random.below(count)];
            let field = match random.below(9) {
                0 => &mut edge.process,
                1 => &mut edge.from,
                2 => &mut edge.to,
                3 => &mut edge.kind,
                4 => &mut edge.first,
                5 => &mut edge.second,
                6 => &mut edge.mode,
                7 => &mut edge.guard.count,
                _ => &mut edge.value.count,
            };
            *field = small(random);
        }
        _ => damage_record(random, table),
    }
}

/// A trace of so many steps, most of them accepted where the table starts.
pub fn trace(random: &mut Random, table: &Table, length: usize) -> Vec<Step> {
    let machine = Machine::new(table);
    let mut memory: Memory = [Message::default(); _];
    let Ok(mut state) = machine.start(&memory) else {
        return (0..length).map(|_| any_step(random)).collect();
    };
    let offers = *random.pick(&[5, 20, 70]);
    let mut steps = Vec::with_capacity(length);
    for _ in 0..length {
        let mut step = likely_step(random, &machine, &state, offers);
        for _ in 0..*random.pick(&[0, 8, 8, 16]) {
            if machine.step(&mut state.clone(), &mut memory.clone(), step).is_ok() {
                break;
            }
            step = likely_step(random, &machine, &state, offers);
        }
        steps.push(step);
        // A refused step is as much a part of the trace as an accepted one.
        let _ = machine.step(&mut state, &mut memory, step);
    }
    steps
}

/// A step with numbers that need not be there.
pub fn any_step(random: &mut Random) -> Step {
    match random.below(5) {
        0 => Step::Offer { signal: random.below(MAX_SIGNALS + 1), value: random.value() },
        1 => {
            let limit = *random.pick(&[8, 64, MAX_EDGES + 1]);
            Step::Move(random.below(limit))
        }
        2 => Step::Discard(random.below(MAX_PROCESSES + 1)),
        3 => Step::Expire { process: random.below(MAX_PROCESSES + 1), timer: random.below(MAX_TIMERS + 1) },
        _ => Step::Tick,
    }
}

/// A step that may well be accepted; an offer that often, in percent.
fn likely_step(random: &mut Random, machine: &Machine, state: &State, offers: usize) -> Step {
    let table = machine.table();
    let p = random.below(table.processes.len().max(1));
    if random.chance(offers) && !table.signals.is_empty() {
        let inbound = |signal: &usize| table.signals[*signal].class() == Some(Class::Inbound);
        let signal = (0..4).map(|_| random.below(table.signals.len())).find(inbound).unwrap_or(0);
        return Step::Offer { signal, value: random.value() };
    }
    let here = machine.edges_here(state, p);
    match random.below(20) {
        0..=11 if !here.is_empty() => Step::Move(*random.pick(here) as usize),
        12 | 13 => Step::Discard(p),
        14 | 15 => Step::Expire { process: p, timer: random.below(MAX_TIMERS) },
        16 | 17 => Step::Tick,
        18 => any_step(random),
        _ => Step::Move(random.below(table.edges.len() + 1)),
    }
}
