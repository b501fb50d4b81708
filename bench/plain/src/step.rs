//! Running a table, one step at a time.

use crate::examine::{check_edge, examine, limits};
use crate::expression;
use crate::groups::Groups;
use crate::refusal::{Fault, Place, Refusal};
use crate::sites::{SITES, SiteSet, site};
use crate::table::*;

pub const QUEUE: usize = 16;

/// Memory for the queues of any table.
pub type Memory = [Message; QUEUE * MAX_PROCESSES];

#[derive(Clone, Copy, Debug, Default, PartialEq, Eq)]
pub struct Message {
    pub signal: u8,
    pub value: i16,
}

#[derive(Clone, Copy, Debug, PartialEq, Eq)]
pub enum Step {
    /// E: the surroundings send.
    Offer { signal: usize, value: i16 },
    /// M: an edge's process moves along it.
    Move(usize),
    /// D: a process drops the head of its queue.
    Discard(usize),
    /// X: a timer that nobody awaits runs out.
    Expire { process: usize, timer: usize },
    /// K: the tick.
    Tick,
}

/// A state. Each call is lent the memory of its messages: sixteen places for each process, in the order of the processes.
#[derive(Clone, Copy, Debug, Default)]
pub struct State {
    count: usize,
    processes: [Running; MAX_PROCESSES],
}

#[derive(Clone, Copy, Debug, Default)]
struct Running {
    location: u8,
    variables: [i16; MAX_VARIABLES],
    timers: [Timer; MAX_TIMERS],
    head: u8,
    waiting: u8,
}

impl Running {
    fn of(process: &Process) -> Running {
        let mut running = Running { location: process.first, ..Running::default() };
        running.variables[..process.variables.len()].copy_from_slice(&process.variables);
        running.timers[..process.timers.len()].copy_from_slice(&process.timers);
        running
    }
}

impl State {
    pub fn process_count(&self) -> usize {
        self.count
    }

    fn process(&self, p: usize) -> Option<&Running> {
        self.processes[..self.count].get(p)
    }

    pub fn location(&self, p: usize) -> Option<u8> {
        Some(self.process(p)?.location)
    }

    pub fn variable(&self, p: usize, n: usize) -> Option<i16> {
        self.process(p)?.variables.get(n).copied()
    }

    pub fn timer(&self, p: usize, n: usize) -> Option<Timer> {
        self.process(p)?.timers.get(n).copied()
    }

    pub fn message_count(&self, p: usize) -> Option<usize> {
        Some(self.process(p)?.waiting.into())
    }

    /// Message i of the queue of process p, the oldest being number 0.
    pub fn message(&self, memory: &[Message], p: usize, i: usize) -> Option<Message> {
        let running = self.process(p)?;
        let queue = memory.get(QUEUE * p..QUEUE * (p + 1))?;
        (i < running.waiting.into()).then(|| queue[(usize::from(running.head) + i) % QUEUE])
    }

    /// Appends to a queue, or says that it is full.
    fn push(&mut self, memory: &mut [Message], p: usize, message: Message) -> Result<(), Refusal> {
        let running = &mut self.processes[p];
        if usize::from(running.waiting) == QUEUE {
            return Err(Fault::QueueFull.at(Place::State(p)));
        }
        let place = usize::from(running.head + running.waiting) % QUEUE;
        memory[QUEUE * p + place] = message;
        running.waiting += 1;
        Ok(())
    }

    /// For a queue that holds a message.
    fn pop(&mut self, p: usize) {
        let running = &mut self.processes[p];
        running.head = (running.head + 1) % QUEUE as u8;
        running.waiting -= 1;
    }
}

/// A table made ready for running: its edges by the location they leave.
pub struct Machine<'t> {
    table: &'t Table,
    examined: Result<(), Refusal>,
    /// Whether the table breaks no refusal 3. Nothing runs if it does.
    within_limits: bool,
    leaving: Groups<u32>,
    acting: SiteSet,
}

impl<'t> Machine<'t> {
    pub fn new(table: &'t Table) -> Machine<'t> {
        let acting = |edge: &&Edge| edge.kind().is_some_and(Kind::is_acting);
        Machine {
            table,
            examined: examine(table),
            within_limits: limits(table).is_ok(),
            leaving: Groups::of(SITES, table.edges.iter().map(Edge::source)),
            acting: table.edges.iter().filter(acting).filter_map(Edge::source).collect(),
        }
    }

    pub fn table(&self) -> &'t Table {
        self.table
    }

    /// The state to begin with. The memory is only asked how long it is.
    pub fn start(&self, memory: &[Message]) -> Result<State, Refusal> {
        self.examined?;
        let count = self.table.processes.len();
        if let Some(p) = (0..count).find(|&p| memory.len() < QUEUE * (p + 1)) {
            return Err(Fault::OtherState.at(Place::State(p)));
        }
        let mut state = State { count, ..State::default() };
        for (running, process) in state.processes.iter_mut().zip(&self.table.processes) {
            *running = Running::of(process);
        }
        Ok(state)
    }

    /// Makes a step, and answers the message that leaves, if one does. A refused step changes nothing.
    pub fn step(&self, state: &mut State, memory: &mut [Message], step: Step) -> Result<Option<Message>, Refusal> {
        self.fits(state, memory)?;
        match step {
            Step::Offer { signal, value } => self.offer(state, memory, signal, value).map(|()| None),
            Step::Move(number) => self.make_move(state, memory, number),
            Step::Discard(p) => self.discard(state, memory, p).map(|()| None),
            Step::Expire { process, timer } => self.expire(state, process, timer).map(|()| None),
            Step::Tick => self.tick(state).map(|()| None),
        }
    }

    /// The numbers of the edges that leave where a process is.
    pub fn edges_here(&self, state: &State, p: usize) -> &[u32] {
        let here = state.location(p).and_then(|location| site(p as u8, location));
        here.map_or(&[], |here| self.leaving.get(here))
    }

    pub fn is_acting(&self, state: &State, p: usize) -> bool {
        let here = state.location(p).and_then(|location| site(p as u8, location));
        here.is_some_and(|here| self.acting.contains(here))
    }

    fn fits(&self, state: &State, memory: &[Message]) -> Result<(), Refusal> {
        let refuse = |place| Err(Fault::OtherState.at(Place::State(place)));
        if !self.within_limits || state.count != self.table.processes.len() {
            return refuse(0);
        }
        for (p, (running, process)) in state.processes.iter().zip(&self.table.processes).enumerate() {
            if running.location >= process.locations || memory.len() < QUEUE * (p + 1) {
                return refuse(p);
            }
        }
        Ok(())
    }

    fn offer(&self, state: &mut State, memory: &mut [Message], number: usize, value: i16) -> Result<(), Refusal> {
        match self.table.signals.get(number) {
            Some(signal) if signal.class() == Some(Class::Inbound) => {
                state.push(memory, signal.destination.into(), Message { signal: number as u8, value })
            }
            _ => Err(Fault::Unknown.at(Place::State(number))),
        }
    }

    fn make_move(&self, state: &mut State, memory: &mut [Message], number: usize) -> Result<Option<Message>, Refusal> {
        let edge = self.table.edges.get(number).ok_or(Fault::Unknown.at(Place::State(number)))?;
        let p = usize::from(edge.process);
        let not_ready = Fault::NotReady.at(Place::State(p));
        if !self.edge_is_good(edge) || state.processes[p].location != edge.from {
            return Err(not_ready);
        }
        let kind = edge.kind().expect("a good edge has a kind");
        let first = usize::from(edge.first);
        let head = state.message(memory, p, 0);
        let ready = match kind {
            Kind::Input => head.is_some_and(|message| message.signal == edge.first),
            Kind::Timeout | Kind::Rearm => state.processes[p].timers[first] == Some(0),
            _ => self.guard_holds(edge, state),
        };
        if !ready {
            return Err(not_ready);
        }
        let value = self.value(edge, state);
        let mut left = None;
        match (kind, head) {
            (Kind::Input, Some(message)) => {
                state.pop(p);
                if edge.second != DROP {
                    state.processes[p].variables[usize::from(edge.second)] = message.value;
                }
            }
            (Kind::Output, _) => left = self.send(state, memory, Message { signal: edge.first, value })?,
            (Kind::Assignment, _) => state.processes[p].variables[first] = value,
            (Kind::Set, _) => state.processes[p].timers[first] = Some(value.max(0) as u16),
            (Kind::Reset | Kind::Timeout, _) => state.processes[p].timers[first] = None,
            (Kind::Rearm, _) => state.processes[p].timers[first] = Some(edge.second.into()),
            (Kind::Skip | Kind::Input, _) => {}
        }
        state.processes[p].location = edge.to;
        Ok(left)
    }

    /// For a message of an internal or outbound signal. The latter is answered.
    fn send(&self, state: &mut State, memory: &mut [Message], message: Message) -> Result<Option<Message>, Refusal> {
        let signal = self.table.signals[usize::from(message.signal)];
        if signal.class() == Some(Class::Outbound) {
            return Ok(Some(message));
        }
        state.push(memory, signal.destination.into(), message).map(|()| None)
    }

    fn discard(&self, state: &mut State, memory: &[Message], p: usize) -> Result<(), Refusal> {
        if p >= state.count {
            return Err(Fault::Unknown.at(Place::State(p)));
        }
        let taken = |message: Message| {
            self.leaving(state, p).any(|edge| edge.kind() == Some(Kind::Input) && edge.first == message.signal)
        };
        match state.message(memory, p, 0) {
            Some(message) if !self.is_acting(state, p) && !taken(message) => {
                state.pop(p);
                Ok(())
            }
            _ => Err(Fault::NotReady.at(Place::State(p))),
        }
    }

    fn expire(&self, state: &mut State, p: usize, timer: usize) -> Result<(), Refusal> {
        let process = self.table.processes.get(p).ok_or(Fault::Unknown.at(Place::State(p)))?;
        if timer >= process.timers.len() {
            return Err(Fault::Unknown.at(Place::State(timer)));
        }
        let awaited = || self.leaving(state, p).any(|edge| edge.awaits_timer() && usize::from(edge.first) == timer);
        if self.is_acting(state, p) || state.processes[p].timers[timer] != Some(0) || awaited() {
            return Err(Fault::NotReady.at(Place::State(p)));
        }
        state.processes[p].timers[timer] = None;
        Ok(())
    }

    fn tick(&self, state: &mut State) -> Result<(), Refusal> {
        if let Some(p) = (0..state.count).find(|&p| !self.rests(state, p)) {
            return Err(Fault::NotReady.at(Place::State(p)));
        }
        for (running, process) in state.processes.iter_mut().zip(&self.table.processes) {
            for n in running.timers[..process.timers.len()].iter_mut().flatten() {
                *n -= 1;
            }
        }
        Ok(())
    }

    fn rests(&self, state: &State, p: usize) -> bool {
        let running = &state.processes[p];
        let timers = &running.timers[..self.table.processes[p].timers.len()];
        !self.is_acting(state, p) && running.waiting == 0 && !timers.contains(&Some(0))
    }

    fn leaving(&self, state: &State, p: usize) -> impl Iterator<Item = &'t Edge> {
        let table = self.table;
        self.edges_here(state, p).iter().map(|&number| &table.edges[number as usize])
    }

    /// Whether an edge breaks none of 7 to 10.
    fn edge_is_good(&self, edge: &Edge) -> bool {
        self.examined.is_ok() || check_edge(self.table, edge).is_ok()
    }

    /// For a good edge whose process is at its from.
    fn guard_holds(&self, edge: &Edge, state: &State) -> bool {
        match edge.mode() {
            Some(Mode::Unguarded) => true,
            Some(Mode::Expression) => self.expression_holds(edge, state),
            Some(Mode::Else) => self.leaving(state, edge.process.into()).all(|other| match other.mode() {
                Some(Mode::Unguarded) => false,
                Some(Mode::Expression) => !self.expression_holds(other, state),
                Some(Mode::Else) | None => true,
            }),
            None => false,
        }
    }

    /// Whether the guard of an edge is a good expression and not 0.
    fn expression_holds(&self, edge: &Edge, state: &State) -> bool {
        let p = usize::from(edge.process);
        let terms = if self.examined.is_ok() {
            edge.guard.of(&self.table.terms)
        } else {
            expression::check(&self.table.terms, edge.guard, self.table.processes[p].variables.len())
        };
        terms.is_some_and(|terms| expression::evaluate(terms, &state.processes[p].variables) != 0)
    }

    /// The value of a good edge; 0 where it has none.
    fn value(&self, edge: &Edge, state: &State) -> i16 {
        match edge.value.of(&self.table.terms) {
            Some(terms) if !terms.is_empty() => {
                expression::evaluate(terms, &state.processes[usize::from(edge.process)].variables)
            }
            _ => 0,
        }
    }
}
