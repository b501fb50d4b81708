//! Tables of a given size. The same size gives the same table.

use plain::sheet::{Names, pack};
use plain::table::*;
use plain::test;

pub struct Shape {
    pub processes: usize,
    pub locations: usize,
    pub variables: usize,
    pub timers: usize,
    pub signals: usize,
    pub terms: usize,
    pub edges: usize,
}

/// The terms of one expression.
const EXPRESSION: usize = 8;

impl Shape {
    /// As large as a table may be, but for its edges.
    pub const fn full(edges: usize) -> Shape {
        Shape {
            processes: MAX_PROCESSES,
            locations: MAX_LOCATIONS,
            variables: MAX_VARIABLES,
            timers: MAX_TIMERS,
            signals: MAX_SIGNALS,
            terms: MAX_TERMS,
            edges,
        }
    }

    /// As large, with a place left for the chaos timers.
    pub const fn closable(edges: usize) -> Shape {
        Shape { timers: MAX_TIMERS - 1, ..Shape::full(edges) }
    }

    pub const fn middling() -> Shape {
        Shape { processes: 4, locations: 8, variables: 4, timers: 4, signals: 16, terms: 400, edges: 200 }
    }

    /// Half of the locations wait. Each has its first edge before any has its second; the first at an acting one skips
    /// unguarded, so that no process waits for another's queue.
    pub fn table(&self) -> Table {
        let processes = (0..self.processes).map(|p| self.process(p)).collect();
        let signals = (0..self.signals).map(|s| self.signal(s)).collect();
        let terms = (0..self.terms / EXPRESSION).flat_map(|number| self.expression(number)).collect();
        let edges = (0..self.edges).map(|k| self.edge(k)).collect();
        Table { processes, signals, edges, terms }
    }

    fn process(&self, p: usize) -> Process {
        Process {
            locations: self.locations as u8,
            first: 0,
            variables: (0..self.variables).map(|n| (3 * n + p) as i16).collect(),
            timers: (0..self.timers).map(|n| (n % 2 == 1).then_some(n as u16)).collect(),
        }
    }

    /// Each process has its share of the signals; a quarter of that is inbound, and a quarter outbound.
    fn signal(&self, s: usize) -> Signal {
        let destination = (s % self.processes) as u8;
        match s / self.processes % 4 {
            0 => Signal { class: Class::Inbound as u8, destination },
            3 => Signal { class: Class::Outbound as u8, destination: 0 },
            _ => Signal { class: Class::Internal as u8, destination },
        }
    }

    /// not (x + n - y < m)
    fn expression(&self, number: usize) -> [Term; EXPRESSION] {
        let variable = |n: usize| Term { operation: 1, argument: (n % self.variables) as i16 };
        let constant = |n: usize| Term { operation: 0, argument: (n % 50) as i16 - 10 };
        let operation = |operation| Term { operation, argument: 0 };
        [
            variable(number),
            constant(number),
            operation(2),
            variable(5 * number + 1),
            operation(3),
            constant(7 * number),
            operation(5),
            operation(7),
        ]
    }

    fn edge(&self, k: usize) -> Edge {
        let sites = self.processes * self.locations;
        let (site, round) = (k % sites, k / sites);
        let (p, from) = (site % self.processes, site / self.processes);
        let to = (from + 1 + 2 * round) % self.locations;
        let edge = Edge { process: p as u8, from: from as u8, to: to as u8, ..Edge::default() };
        if (p + from).is_multiple_of(2) { self.waiting(edge, round) } else { self.acting(edge, k, round) }
    }

    fn waiting(&self, edge: Edge, round: usize) -> Edge {
        let n = round + usize::from(edge.from);
        let timer = (n % self.timers) as u8;
        match round % 4 {
            1 => Edge { kind: Kind::Timeout as u8, first: timer, ..edge },
            3 => Edge { kind: Kind::Rearm as u8, first: timer, second: (n % 16) as u8, ..edge },
            _ => self.input(edge, n),
        }
    }

    /// An input of a signal that is inbound or internal.
    fn input(&self, edge: Edge, n: usize) -> Edge {
        let share = self.signals / self.processes;
        let own = (0..share).filter(|group| group % 4 != 3).nth(n % (share - share / 4)).unwrap_or(0);
        let signal = own * self.processes + usize::from(edge.process);
        Edge { kind: Kind::Input as u8, first: signal as u8, second: (n % self.variables) as u8, ..edge }
    }

    fn acting(&self, edge: Edge, k: usize, round: usize) -> Edge {
        let timer = (round % self.timers) as u8;
        let variable = (round % self.variables) as u8;
        if round == 0 {
            return Edge { kind: Kind::Skip as u8, ..edge };
        }
        let edge = match round % 5 {
            0 | 4 => Edge { kind: Kind::Output as u8, first: self.sent(k), value: self.span(k), ..edge },
            1 => Edge { kind: Kind::Assignment as u8, first: variable, value: self.span(k), ..edge },
            2 => Edge { kind: Kind::Set as u8, first: timer, value: self.span(k), ..edge },
            _ => Edge { kind: Kind::Reset as u8, first: timer, ..edge },
        };
        match round % 6 {
            5 => Edge { mode: Mode::Else as u8, ..edge },
            _ => Edge { mode: Mode::Expression as u8, guard: self.span(3 * k + 1), ..edge },
        }
    }

    /// A signal that is internal or outbound.
    fn sent(&self, k: usize) -> u8 {
        let share = self.signals / self.processes;
        let groups: Vec<usize> = (0..share).filter(|group| group % 4 != 0).collect();
        (groups[k % groups.len()] * self.processes + k % 7 % self.processes) as u8
    }

    fn span(&self, k: usize) -> Span {
        let start = EXPRESSION * (k % (self.terms / EXPRESSION));
        Span { start: start as u16, count: EXPRESSION as u8 }
    }
}

/// The sheet of a table, with names of fifteen characters.
pub fn sheet(table: &Table) -> Vec<u8> {
    let count = table.processes.len() + table.signals.len();
    let names: Vec<u8> = (0..count).flat_map(name).collect();
    pack(table, Names::new(&names))
}

fn name(number: usize) -> Vec<u8> {
    let mut name = vec![15];
    name.extend(format!("name-{number:010}").bytes());
    name
}

/// The table that closes to so many edges, or to as many less as can be.
pub fn closing_to(edges: usize) -> Table {
    let fits = |table: &Table| test(table).is_ok_and(|count| count <= edges);
    let tables = (0..=edges).rev().map(|open| Shape::closable(open).table());
    tables.into_iter().find(fits).expect("a table of no edge closes to no more than its loops")
}

/// The worked example of the documents.
pub fn worked() -> Vec<u8> {
    include_bytes!("../../../crates/cases/data/gate.sheet").to_vec()
}
