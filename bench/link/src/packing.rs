//! Refusals, steps, answers and states as numbers, in the form of crates/bridge/specs.

use plain::refusal::Place;
use plain::step::Memory;
use plain::table::{Edge, MAX_PROCESSES, MAX_TIMERS, MAX_VARIABLES, Span, Timer};
use plain::trace::Answer;
use plain::{Message, Refusal, State, Step};

/// There was no memory.
pub const FAILED: u64 = u64::MAX;

/// The bytes of a step: its kind, and two numbers of 16 bits.
pub const STEP: usize = 5;

/// The bytes of an answer, and of each word of a state.
pub const WORD: usize = 8;

/// The location, 8 variables, 8 timers and 16 messages of each of 8 processes.
pub const STATE_WORDS: usize = 264;

const QUEUE: usize = 16;

const REFUSED: u64 = 1 << 63;
const PAIR: u64 = 1 << 25;
const MESSAGE: u64 = 1 << 24;
const ON: u64 = 1 << 16;

pub fn refusal(refusal: Refusal) -> u64 {
    let (layer, place, inside) = match refusal.place {
        Place::Sheet(bit) => (0, at(bit), None),
        Place::Edge(edge) => (1, at(edge), None),
        Place::EdgeAt { edge, bit } => (1, at(edge), Some(bit)),
        Place::Table(number) => (2, at(number), None),
        Place::Location { process, location } => (2, PAIR + 256 * process as u64 + location as u64, None),
        Place::Test(number) => (3, at(number), None),
        Place::Book(number) => (4, at(number), None),
        Place::State(number) => (5, at(number), None),
    };
    let inside = inside.map_or(0, |bit| 1 + bit as u64);
    REFUSED | (refusal.fault as u64) << 55 | layer << 52 | place << 26 | inside
}

fn at(number: usize) -> u64 {
    (number as u64).min(PAIR - 1)
}

/// The number of a refusal, if an answer is one.
pub fn refused(answer: u64) -> Option<u8> {
    (answer & REFUSED != 0).then_some((answer >> 55) as u8)
}

/// An answer that counts bytes, or the refusal that it is.
pub fn size(answer: u64) -> Result<usize, u64> {
    if answer & REFUSED == 0 { Ok(answer as usize) } else { Err(answer) }
}

pub fn step(step: Step) -> [u8; STEP] {
    let (kind, first, second) = match step {
        Step::Offer { signal, value } => (0, signal, value as u16),
        Step::Move(edge) => (1, edge, 0),
        Step::Discard(process) => (2, process, 0),
        Step::Expire { process, timer } => (3, process, timer as u16),
        Step::Tick => (4, 0, 0),
    };
    let ([a, b], [c, d]) = ((first as u16).to_be_bytes(), second.to_be_bytes());
    [kind, a, b, c, d]
}

pub fn step_of([kind, a, b, c, d]: [u8; STEP]) -> Step {
    let (first, second) = (u16::from_be_bytes([a, b]), u16::from_be_bytes([c, d]));
    let number = usize::from(first);
    match kind {
        0 => Step::Offer { signal: number, value: second as i16 },
        1 => Step::Move(number),
        2 => Step::Discard(number),
        3 => Step::Expire { process: number, timer: second.into() },
        _ => Step::Tick,
    }
}

pub fn steps(steps: &[Step]) -> Vec<u8> {
    steps.iter().flat_map(|&one| step(one)).collect()
}

pub fn answer(answer: Answer) -> u64 {
    match answer {
        Answer::Done => 0,
        Answer::Sent(sent) => message(sent),
        Answer::Refused(why) => refusal(why),
    }
}

fn message(message: Message) -> u64 {
    MESSAGE | u64::from(message.signal) << 16 | u64::from(message.value as u16)
}

pub(crate) fn timer(timer: Timer) -> u64 {
    timer.map_or(0, |ticks| ON + u64::from(ticks))
}

pub fn state(state: &State, memory: &Memory) -> impl Iterator<Item = u64> {
    (0..MAX_PROCESSES).flat_map(move |p| {
        let location = std::iter::once(state.location(p).map_or(0, u64::from));
        let variables = (0..MAX_VARIABLES).map(move |n| state.variable(p, n).map_or(0, |value| u64::from(value as u16)));
        let timers = (0..MAX_TIMERS).map(move |n| state.timer(p, n).map_or(0, timer));
        let queue = (0..QUEUE).map(move |i| state.message(memory, p, i).map_or(0, message));
        location.chain(variables).chain(timers).chain(queue)
    })
}

/// A prime below 2^57.
const PRIME: u64 = (1 << 57) - 13;

pub fn checksum(edges: &[Edge]) -> u64 {
    edges.iter().fold(0, |sum, edge| mixed(mixed(sum, front(edge)), back(edge)))
}

fn mixed(sum: u64, word: u64) -> u64 {
    31 * (sum + word) % PRIME
}

pub(crate) fn front(edge: &Edge) -> u64 {
    u64::from_be_bytes([0, edge.process, edge.from, edge.to, edge.kind, edge.first, edge.second, edge.mode])
}

pub(crate) fn back(edge: &Edge) -> u64 {
    span(edge.guard) << 24 | span(edge.value)
}

fn span(span: Span) -> u64 {
    u64::from(span.start) << 8 | u64::from(span.count)
}
