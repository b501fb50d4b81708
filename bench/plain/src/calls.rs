//! Random lists of calls on a book. The same seed gives the same ones.

use crate::book::{Book, Call, Room};
use crate::random::{self, Random};
use crate::table::*;

/// The memories that the calls of a list are lent, and the calls.
#[derive(Clone, Debug)]
pub struct List {
    pub room: Room,
    pub calls: Vec<Call>,
}

/// The calls that build up a random table, not all of them in place, with others between.
pub fn list(random: &mut Random) -> List {
    let table = random::table(random);
    let room = room(random, &table);
    // In a large table each other call takes long.
    let others = if table.edges.len() < 600 { *random.pick(&[0, 4, 15, 40]) } else { random.below(3) };
    let mut maker = Maker { book: Book::new(room), calls: Vec::new(), others, random };
    for call in building(maker.random, table) {
        maker.add(call);
        while maker.random.chance(maker.others) {
            let call = maker.other();
            maker.add(call);
        }
    }
    maker.overfill();
    maker.end();
    List { room, calls: maker.calls }
}

/// Ample memories, or such that hold just the table or somewhat less.
fn room(random: &mut Random, table: &Table) -> Room {
    let mut length = |count: usize, most: usize| match random.below(8) {
        0 => count,
        1 => count.saturating_sub(random.between(1, 3)),
        2 => random.below(count + 1),
        3 => most,
        4 => most + random.below(32),
        5 => count + random.below(4),
        _ => u16::MAX.into(),
    };
    Room { edges: length(table.edges.len(), MAX_EDGES), terms: length(table.terms.len(), MAX_TERMS) }
}

/// What builds a table up: processes, signals, terms and edges, with some calls exchanged.
fn building(random: &mut Random, table: Table) -> Vec<Call> {
    let Table { processes, signals, edges, terms } = table;
    let mut calls: Vec<Call> = processes.into_iter().map(Call::DeclareProcess).collect();
    calls.extend(signals.into_iter().map(Call::DeclareSignal));
    let mut left = &terms[..];
    while !left.is_empty() {
        let (front, behind) = left.split_at(random.between(1, MAX_EXPRESSION.min(left.len())));
        calls.push(Call::EnterExpression(front.to_vec()));
        left = behind;
    }
    calls.extend(edges.into_iter().map(Call::EnterEdge));
    if random.chance(25) && !calls.is_empty() {
        for _ in 0..random.between(1, 6) {
            let (one, other) = (random.below(calls.len()), random.below(calls.len()));
            calls.swap(one, other);
        }
    }
    calls
}

struct Maker<'r> {
    random: &'r mut Random,
    /// The book after the calls so far.
    book: Book,
    calls: Vec<Call>,
    /// In percent: how often another call follows one.
    others: usize,
}

impl Maker<'_> {
    fn add(&mut self, call: Call) {
        // A refused call is as much a part of the list as an accepted one.
        let _ = self.book.make(&call);
        self.calls.push(call);
    }

    fn other(&mut self) -> Call {
        match self.random.below(14) {
            0 => self.process(),
            1 => self.signal(),
            2 | 3 => Call::EnterExpression(self.expression()),
            4 => Call::EnterEdge(self.edge()),
            5..=7 => Call::ChangeEdge(self.number(), self.edge()),
            8 => Call::StrikeEdge(self.number()),
            9..=11 => Call::Mark,
            12 => Call::Ready,
            _ => Call::Close,
        }
    }

    /// The number of an edge, or one somewhat above.
    fn number(&mut self) -> usize {
        match self.random.below(10) {
            0 => self.random.below(1 << 16),
            1 => self.book.table().edges.len(),
            _ => self.random.below(self.book.table().edges.len() + 1),
        }
    }

    fn process(&mut self) -> Call {
        let small = |random: &mut Random, most| if random.chance(90) { random.below(most) } else { random.below(256) };
        let random = &mut *self.random;
        let variables = small(random, MAX_VARIABLES + 2);
        let timers = small(random, MAX_TIMERS + 2);
        Call::DeclareProcess(Process {
            locations: small(random, MAX_LOCATIONS + 2) as u8,
            first: small(random, 4) as u8,
            variables: (0..variables).map(|_| random.value()).collect(),
            timers: (0..timers).map(|_| timer(random)).collect(),
        })
    }

    fn signal(&mut self) -> Call {
        let class = if self.random.chance(90) { self.random.below(5) } else { self.random.below(256) };
        let destination = if self.random.chance(50) { 0 } else { self.random.below(10) };
        Call::DeclareSignal(Signal { class: class as u8, destination: destination as u8 })
    }

    fn expression(&mut self) -> Vec<Term> {
        let count = self.random.below(MAX_EXPRESSION + 2);
        let most = if self.random.chance(90) { 16 } else { 18 };
        (0..count).map(|_| Term { operation: self.random.below(most) as u8, argument: self.random.value() }).collect()
    }

    /// An edge of the book, mostly with some field altered, or one of any fields.
    fn edge(&mut self) -> Edge {
        let mut table = self.book.table().clone();
        if table.edges.is_empty() || self.random.chance(5) {
            return self.any_edge();
        }
        let edge = *self.random.pick(&table.edges);
        table.edges = vec![edge];
        for _ in 0..*self.random.pick(&[0, 1, 1, 2]) {
            random::disturb(self.random, &mut table);
        }
        table.edges[0]
    }

    fn any_edge(&mut self) -> Edge {
        let mut small = |most| if self.random.chance(80) { self.random.below(most) as u8 } else { self.random.word() as u8 };
        Edge {
            process: small(2),
            from: small(3),
            to: small(3),
            kind: small(9),
            first: small(3),
            second: small(3),
            mode: small(4),
            guard: Span { start: small(4).into(), count: small(3) },
            value: Span { start: small(4).into(), count: small(3) },
        }
    }

    /// At times, goes on entering until a list or its memory is full.
    fn overfill(&mut self) {
        const PERCENT: usize = 3;
        if self.random.chance(PERCENT) {
            let last = self.book.table().edges.last().copied();
            self.repeat(last.map(Call::EnterEdge));
        }
        if self.random.chance(PERCENT) {
            let count = self.random.between(1, MAX_EXPRESSION);
            self.repeat(Some(Call::EnterExpression(vec![Term { operation: 0, argument: 1 }; count])));
        }
        if self.random.chance(PERCENT) {
            let process = self.book.table().processes.first().cloned();
            self.repeat(process.map(Call::DeclareProcess));
        }
        if self.random.chance(PERCENT) {
            self.repeat(Some(Call::DeclareSignal(Signal::ABSENT)));
        }
    }

    /// Makes an edit until it is refused, and once more.
    fn repeat(&mut self, edit: Option<Call>) {
        let Some(edit) = edit else {
            return;
        };
        while self.book.make(&edit).is_ok() {
            self.calls.push(edit.clone());
        }
        self.calls.extend([edit.clone(), edit]);
    }

    /// Mostly a mark at the end, and at times a call behind it.
    fn end(&mut self) {
        if self.random.chance(80) {
            self.add(Call::Mark);
        }
        for _ in 0..self.random.below(3) {
            let call = self.other();
            self.add(call);
        }
        self.add(Call::Ready);
    }
}

/// A timer, at times with a number above its limit.
fn timer(random: &mut Random) -> Timer {
    let most = if random.chance(95) { 1 << 15 } else { 1 << 16 };
    random.chance(60).then(|| random.below(most) as u16)
}
