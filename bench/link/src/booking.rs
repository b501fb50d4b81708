//! Lists of calls on a book as bytes, and tables as words, in the form of crates/bridge/specs.

use crate::packing;
use plain::calls::List;
use plain::random::Random;
use plain::table::*;
use plain::{Call, Room};

/// The bytes ahead of the calls: how many edges and terms the memories hold.
pub const HEAD: usize = 4;

/// The bytes of a call.
pub const CALL: usize = 64;

/// The most calls of a list that are made.
pub const CALLS: usize = 4096;

/// The places that there are for edges and terms.
const PLACES: Room = Room { edges: 2080, terms: 4128 };

/// Terms that are read of an expression.
const TERMS: usize = 17;

/// The words of a process: its head, its variables and its timers.
const WORDS: usize = 1 + MAX_VARIABLES + MAX_TIMERS;

/// The bytes of a list. What no call looks at is anything.
pub fn packed(random: &mut Random, list: &List) -> Vec<u8> {
    let mut bytes = Vec::with_capacity(HEAD + CALL * list.calls.len());
    for length in [list.room.edges, list.room.terms] {
        bytes.extend((length as u16).to_be_bytes());
    }
    for call in &list.calls {
        let fields = fields(random, call);
        bytes.extend(&fields);
        bytes.extend((fields.len()..CALL).map(|_| random.word() as u8));
    }
    bytes
}

/// The code of a call, and its fields.
fn fields(random: &mut Random, call: &Call) -> Vec<u8> {
    let mut fields = Vec::with_capacity(CALL);
    match call {
        Call::DeclareProcess(process) => {
            fields.push(0);
            push_process(random, process, &mut fields);
        }
        Call::DeclareSignal(signal) => fields.extend([1, signal.class, signal.destination]),
        Call::EnterExpression(terms) => {
            fields.extend([2, if terms.len() == TERMS { random.between(TERMS, 255) as u8 } else { terms.len() as u8 }]);
            for term in terms {
                fields.push(term.operation);
                fields.extend(term.argument.to_be_bytes());
            }
        }
        Call::EnterEdge(edge) => {
            fields.push(3);
            push_edge(edge, &mut fields);
        }
        Call::ChangeEdge(number, edge) => {
            fields.push(4);
            fields.extend((*number as u16).to_be_bytes());
            push_edge(edge, &mut fields);
        }
        Call::StrikeEdge(number) => {
            fields.push(5);
            fields.extend((*number as u16).to_be_bytes());
        }
        Call::Mark => fields.push(6),
        Call::Ready => fields.push(7),
        Call::Close => fields.push(random.between(8, 255) as u8),
    }
    fields
}

fn push_process(random: &mut Random, process: &Process, fields: &mut Vec<u8>) {
    let Process { locations, first, variables, timers } = process;
    fields.extend([*locations, *first, variables.len() as u8, timers.len() as u8]);
    for n in 0..MAX_VARIABLES {
        fields.extend(variables.get(n).copied().unwrap_or_else(|| random.value()).to_be_bytes());
    }
    for n in 0..MAX_TIMERS {
        let on = timers.get(n).copied().unwrap_or(None);
        fields.push(if on.is_some() { random.between(1, 255) as u8 } else { 0 });
        fields.extend(on.unwrap_or_else(|| random.word() as u16).to_be_bytes());
    }
}

fn push_edge(edge: &Edge, fields: &mut Vec<u8>) {
    fields.extend([edge.process, edge.from, edge.to, edge.kind, edge.first, edge.second, edge.mode]);
    for span in [edge.guard, edge.value] {
        fields.extend(span.start.to_be_bytes());
        fields.push(span.count);
    }
}

/// Bytes that are read from the front; past the end there are zeros.
struct Fields<'a>(&'a [u8]);

impl Fields<'_> {
    fn byte(&mut self) -> u8 {
        self.0.split_off_first().copied().unwrap_or(0)
    }

    fn pair(&mut self) -> u16 {
        u16::from_be_bytes([self.byte(), self.byte()])
    }

    fn value(&mut self) -> i16 {
        self.pair() as i16
    }

    fn call(&mut self) -> Call {
        match self.byte() {
            0 => Call::DeclareProcess(self.process()),
            1 => Call::DeclareSignal(Signal { class: self.byte(), destination: self.byte() }),
            2 => Call::EnterExpression(self.expression()),
            3 => Call::EnterEdge(self.edge()),
            4 => Call::ChangeEdge(self.pair().into(), self.edge()),
            5 => Call::StrikeEdge(self.pair().into()),
            6 => Call::Mark,
            7 => Call::Ready,
            _ => Call::Close,
        }
    }

    /// A process of more variables or timers than it has places for is one all the same, and is refused.
    fn process(&mut self) -> Process {
        let (locations, first) = (self.byte(), self.byte());
        let (variables, timers) = (self.byte(), self.byte());
        let mut values: Vec<i16> = (0..MAX_VARIABLES).map(|_| self.value()).collect();
        let mut settings: Vec<Timer> = (0..MAX_TIMERS).map(|_| self.timer()).collect();
        values.resize(variables.into(), 0);
        settings.resize(timers.into(), None);
        Process { locations, first, variables: values, timers: settings }
    }

    fn timer(&mut self) -> Timer {
        let on = self.byte() != 0;
        let number = self.pair();
        on.then_some(number)
    }

    fn expression(&mut self) -> Vec<Term> {
        let count = TERMS.min(self.byte().into());
        (0..count).map(|_| Term { operation: self.byte(), argument: self.value() }).collect()
    }

    fn edge(&mut self) -> Edge {
        Edge {
            process: self.byte(),
            from: self.byte(),
            to: self.byte(),
            kind: self.byte(),
            first: self.byte(),
            second: self.byte(),
            mode: self.byte(),
            guard: self.span(),
            value: self.span(),
        }
    }

    fn span(&mut self) -> Span {
        Span { start: self.pair(), count: self.byte() }
    }
}

/// The memories that the calls of a list are lent.
pub fn room(bytes: &[u8]) -> Room {
    let mut fields = Fields(bytes);
    let (edges, terms) = (fields.pair().into(), fields.pair().into());
    Room { edges: PLACES.edges.min(edges), terms: PLACES.terms.min(terms) }
}

/// The calls of a list that are made.
pub fn calls(bytes: &[u8]) -> impl Iterator<Item = Call> {
    let calls = bytes.get(HEAD..).unwrap_or(&[]);
    calls.chunks_exact(CALL).take(CALLS).map(|bytes| Fields(bytes).call())
}

/// The four lists, each as its length and the words of its records.
pub fn push_table(table: &Table, words: &mut Vec<u64>) {
    words.push(table.processes.len() as u64);
    for process in &table.processes {
        push_words(process, words);
    }
    words.push(table.signals.len() as u64);
    words.extend(table.signals.iter().map(|signal| u64::from(signal.class) << 8 | u64::from(signal.destination)));
    words.push(table.edges.len() as u64);
    words.extend(table.edges.iter().flat_map(|edge| [packing::front(edge), packing::back(edge)]));
    words.push(table.terms.len() as u64);
    words.extend(table.terms.iter().map(|term| u64::from(term.operation) << 16 | u64::from(term.argument as u16)));
}

fn push_words(process: &Process, words: &mut Vec<u64>) {
    let Process { locations, first, variables, timers } = process;
    let end = words.len() + WORDS;
    words.push(u32::from_be_bytes([*locations, *first, variables.len() as u8, timers.len() as u8]).into());
    words.extend(variables.iter().map(|&value| u64::from(value as u16)));
    words.resize(end - MAX_TIMERS, 0);
    words.extend(timers.iter().map(|&timer| packing::timer(timer)));
    words.resize(end, 0);
}

/// How many of the words belong to the table at their front.
pub fn table_size(words: &[u64]) -> usize {
    [WORDS, 1, 2, 1].iter().fold(0, |end, width| end + 1 + width * words[end] as usize)
}
