//! Traces: lists of steps as text, and what running one answers.

use std::fmt;
use std::str::FromStr;

use crate::refusal::Refusal;
use crate::step::{Machine, Memory, Message, State, Step};
use crate::table::{MAX_PROCESSES, Table, Timer};

/// What a step answered.
#[derive(Clone, Copy, Debug, PartialEq, Eq)]
pub enum Answer {
    Done,
    Sent(Message),
    Refused(Refusal),
}

/// What a state is like, with the variables and timers its table has.
#[derive(Clone, Debug, PartialEq, Eq)]
pub struct Snapshot {
    pub processes: Vec<ProcessSnapshot>,
}

#[derive(Clone, Debug, PartialEq, Eq)]
pub struct ProcessSnapshot {
    pub location: u8,
    pub variables: Vec<i16>,
    pub timers: Vec<Timer>,
    pub queue: Vec<Message>,
}

pub struct Run {
    pub answers: Vec<Answer>,
    pub end: Snapshot,
}

/// Runs a trace from the table's start.
pub fn run(table: &Table, steps: &[Step]) -> Result<Run, Refusal> {
    let machine = Machine::new(table);
    let mut memory: Memory = [Message::default(); _];
    let mut state = machine.start(&memory)?;
    let answers = steps.iter().map(|&step| machine.step(&mut state, &mut memory, step).into()).collect();
    Ok(Run { answers, end: Snapshot::of(table, &state, &memory) })
}

impl From<Result<Option<Message>, Refusal>> for Answer {
    fn from(answer: Result<Option<Message>, Refusal>) -> Answer {
        match answer {
            Ok(None) => Answer::Done,
            Ok(Some(message)) => Answer::Sent(message),
            Err(refusal) => Answer::Refused(refusal),
        }
    }
}

impl Snapshot {
    pub fn of(table: &Table, state: &State, memory: &[Message]) -> Snapshot {
        let processes = table.processes.iter().enumerate().take(MAX_PROCESSES).filter_map(|(p, process)| {
            Some(ProcessSnapshot {
                location: state.location(p)?,
                variables: (0..process.variables.len()).filter_map(|n| state.variable(p, n)).collect(),
                timers: (0..process.timers.len()).filter_map(|n| state.timer(p, n)).collect(),
                queue: (0..state.message_count(p)?).filter_map(|i| state.message(memory, p, i)).collect(),
            })
        });
        Snapshot { processes: processes.collect() }
    }

    /// The state in one number: FNV-1a of its text, in 64 bits.
    pub fn digest(&self) -> u64 {
        self.to_string().bytes().fold(0xcbf2_9ce4_8422_2325, |hash, byte| (hash ^ u64::from(byte)).wrapping_mul(0x100_0000_01b3))
    }
}

impl fmt::Display for Answer {
    fn fmt(&self, f: &mut fmt::Formatter) -> fmt::Result {
        match self {
            Answer::Done => write!(f, "ok"),
            Answer::Sent(message) => write!(f, "sent {} {}", message.signal, message.value),
            Answer::Refused(refusal) => refusal.fmt(f),
        }
    }
}

impl fmt::Display for ProcessSnapshot {
    fn fmt(&self, f: &mut fmt::Formatter) -> fmt::Result {
        write!(f, "at {}", self.location)?;
        for (n, value) in self.variables.iter().enumerate() {
            write!(f, ", x{n} {value}")?;
        }
        for (n, timer) in self.timers.iter().enumerate() {
            match timer {
                Some(number) => write!(f, ", t{n} on({number})")?,
                None => write!(f, ", t{n} off")?,
            }
        }
        write!(f, ", queue")?;
        self.queue.iter().try_for_each(|message| write!(f, " {}({})", message.signal, message.value))
    }
}

impl fmt::Display for Snapshot {
    fn fmt(&self, f: &mut fmt::Formatter) -> fmt::Result {
        self.processes.iter().enumerate().try_for_each(|(p, process)| writeln!(f, "{p} {process}"))
    }
}

impl fmt::Display for Step {
    fn fmt(&self, f: &mut fmt::Formatter) -> fmt::Result {
        match self {
            Step::Offer { signal, value } => write!(f, "E {signal} {value}"),
            Step::Move(edge) => write!(f, "M {edge}"),
            Step::Discard(process) => write!(f, "D {process}"),
            Step::Expire { process, timer } => write!(f, "X {process} {timer}"),
            Step::Tick => write!(f, "K"),
        }
    }
}

/// A line that is not a step.
#[derive(Clone, Debug, PartialEq, Eq)]
pub struct NoStep(String);

impl fmt::Display for NoStep {
    fn fmt(&self, f: &mut fmt::Formatter) -> fmt::Result {
        write!(f, "not a step: {:?}", self.0)
    }
}

impl std::error::Error for NoStep {}

impl FromStr for Step {
    type Err = NoStep;

    fn from_str(line: &str) -> Result<Step, NoStep> {
        let words: Vec<&str> = line.split_whitespace().collect();
        read_step(&words).ok_or_else(|| NoStep(line.to_owned()))
    }
}

fn read_step(words: &[&str]) -> Option<Step> {
    let number = |word: &str| word.parse().ok();
    match *words {
        ["E", signal, value] => Some(Step::Offer { signal: number(signal)?, value: value.parse().ok()? }),
        ["M", edge] => number(edge).map(Step::Move),
        ["D", process] => number(process).map(Step::Discard),
        ["X", process, timer] => Some(Step::Expire { process: number(process)?, timer: number(timer)? }),
        ["K"] => Some(Step::Tick),
        _ => None,
    }
}
