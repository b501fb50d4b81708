//! The book: a table that is built up and altered call by call.

use crate::close::Plan;
use crate::examine::{check_edge, process_is_good, signal_is_good};
use crate::refusal::{Fault, Place, Refusal};
use crate::table::*;

/// How many edges and terms the memories hold that a book is lent.
#[derive(Clone, Copy, Debug, PartialEq, Eq)]
pub struct Room {
    pub edges: usize,
    pub terms: usize,
}

#[derive(Clone, Debug, PartialEq, Eq)]
pub enum Call {
    DeclareProcess(Process),
    DeclareSignal(Signal),
    EnterExpression(Vec<Term>),
    EnterEdge(Edge),
    ChangeEdge(usize, Edge),
    StrikeEdge(usize),
    Mark,
    Ready,
    Close,
}

/// A book whose memories stay as long as they are.
#[derive(Clone, Debug)]
pub struct Book {
    room: Room,
    table: Table,
    /// Whether the marks of the table as it is were kept.
    marked: bool,
}

impl Book {
    pub fn new(room: Room) -> Book {
        Book { room, table: Table::default(), marked: false }
    }

    pub fn table(&self) -> &Table {
        &self.table
    }

    /// The number that a call answers; 0 for one that answers none.
    pub fn make(&mut self, call: &Call) -> Result<usize, Refusal> {
        match call {
            Call::DeclareProcess(process) => self.declare_process(process.clone()),
            Call::DeclareSignal(signal) => self.declare_signal(*signal),
            Call::EnterExpression(terms) => self.enter_expression(terms),
            Call::EnterEdge(edge) => self.enter_edge(*edge),
            Call::ChangeEdge(number, edge) => self.change_edge(*number, *edge).map(|()| 0),
            Call::StrikeEdge(number) => self.strike_edge(*number).map(|()| 0),
            Call::Mark => self.mark(),
            Call::Ready => self.ready().map(|()| 0),
            Call::Close => Ok(0),
        }
    }

    fn declare_process(&mut self, process: Process) -> Result<usize, Refusal> {
        let number = self.table.processes.len();
        if !process_is_good(&process) {
            return Err(Fault::Limit.at(Place::Table(number)));
        }
        has_room(number, 1, MAX_PROCESSES)?;
        self.table.processes.push(process);
        Ok(self.edited(number))
    }

    fn declare_signal(&mut self, signal: Signal) -> Result<usize, Refusal> {
        let number = self.table.signals.len();
        if !signal_is_good(&signal, self.table.processes.len()) {
            return Err(Fault::Limit.at(Place::Table(number)));
        }
        has_room(number, 1, MAX_SIGNALS)?;
        self.table.signals.push(signal);
        Ok(self.edited(number))
    }

    fn enter_expression(&mut self, terms: &[Term]) -> Result<usize, Refusal> {
        let number = self.table.terms.len();
        if !(1..=MAX_EXPRESSION).contains(&terms.len()) || terms.iter().any(|term| term.operation > 15) {
            return Err(Fault::Expression.at(Place::Book(number)));
        }
        has_room(number, terms.len(), MAX_TERMS.min(self.room.terms))?;
        self.table.terms.extend_from_slice(terms);
        Ok(self.edited(number))
    }

    fn enter_edge(&mut self, edge: Edge) -> Result<usize, Refusal> {
        let number = self.table.edges.len();
        self.check(number, &edge)?;
        has_room(number, 1, MAX_EDGES.min(self.room.edges))?;
        self.table.edges.push(edge);
        Ok(self.edited(number))
    }

    fn change_edge(&mut self, number: usize, edge: Edge) -> Result<(), Refusal> {
        self.check(number, &edge)?;
        *self.table.edges.get_mut(number).ok_or(Fault::NoEdge.at(Place::Book(number)))? = edge;
        self.marked = false;
        Ok(())
    }

    fn strike_edge(&mut self, number: usize) -> Result<(), Refusal> {
        if number >= self.table.edges.len() {
            return Err(Fault::NoEdge.at(Place::Book(number)));
        }
        self.table.edges.remove(number);
        self.marked = false;
        Ok(())
    }

    fn mark(&mut self) -> Result<usize, Refusal> {
        let count = Plan::new(&self.table)?.marks().count();
        self.marked = true;
        Ok(count as usize)
    }

    fn ready(&self) -> Result<(), Refusal> {
        if self.marked { Ok(()) } else { Err(Fault::Unmarked.at(Place::Book(0))) }
    }

    /// What closing means: the closed table where marks are kept, else the book as it is.
    pub fn close(&self) -> Table {
        match Plan::new(&self.table) {
            Ok(plan) if self.marked => plan.close(),
            _ => self.table.clone(),
        }
    }

    fn check(&self, number: usize, edge: &Edge) -> Result<(), Refusal> {
        check_edge(&self.table, edge).map_err(|fault| fault.at(Place::Edge(number)))
    }

    /// Drops the marks after an edit that answers a number.
    fn edited(&mut self, number: usize) -> usize {
        self.marked = false;
        number
    }
}

/// Whether so many items more find room behind those there are.
fn has_room(number: usize, more: usize, limit: usize) -> Result<(), Refusal> {
    if number + more <= limit { Ok(()) } else { Err(Fault::Full.at(Place::Book(number))) }
}
