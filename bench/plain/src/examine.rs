//! The examination of tables: refusals 3 and 7 to 12.

use crate::expression;
use crate::refusal::{Fault, Place, Refusal};
use crate::sites::SiteSet;
use crate::table::*;

/// 3, then 7, 8, 10 and 9 edge by edge, then 11 everywhere, then 12 everywhere.
pub fn examine(table: &Table) -> Result<(), Refusal> {
    limits(table)?;
    edges(table)?;
    locations(table)
}

/// Refusal 3 of layer table.
pub fn limits(table: &Table) -> Result<(), Refusal> {
    let Table { processes, signals, edges, terms } = table;
    if processes.len() > MAX_PROCESSES || signals.len() > MAX_SIGNALS || edges.len() > MAX_EDGES || terms.len() > MAX_TERMS {
        return Err(Fault::Limit.at(Place::Table(0)));
    }
    let bad = processes
        .iter()
        .position(|process| !process_is_good(process))
        .or_else(|| signals.iter().position(|signal| !signal_is_good(signal, processes.len())));
    bad.map_or(Ok(()), |number| Err(Fault::Limit.at(Place::Table(number))))
}

pub fn process_is_good(process: &Process) -> bool {
    (1..=MAX_LOCATIONS).contains(&process.locations.into())
        && process.first < process.locations
        && process.variables.len() <= MAX_VARIABLES
        && process.timers.len() <= MAX_TIMERS
        && process.timers.iter().flatten().all(|&n| n <= i16::MAX as u16)
}

pub fn signal_is_good(signal: &Signal, processes: usize) -> bool {
    match signal.class() {
        Some(Class::Internal | Class::Inbound) => usize::from(signal.destination) < processes,
        Some(Class::Outbound | Class::Absent) => signal.destination == 0,
        None => false,
    }
}

/// Refusals 7, 8, 10 and 9 of the first faulty edge.
pub fn edges(table: &Table) -> Result<(), Refusal> {
    for (number, edge) in table.edges.iter().enumerate() {
        check_edge(table, edge).map_err(|fault| fault.at(Place::Edge(number)))?;
    }
    Ok(())
}

/// The first of 7, 8, 10 and 9 that an edge breaks.
pub fn check_edge(table: &Table, edge: &Edge) -> Result<(), Fault> {
    let process = table.processes.get(usize::from(edge.process)).ok_or(Fault::Missing)?;
    check_names(table, process, edge)?;
    check_signal(table, edge)?;
    if !form_is_good(edge) {
        return Err(Fault::Form);
    }
    check_expressions(table, process, edge)
}

fn check_names(table: &Table, process: &Process, edge: &Edge) -> Result<(), Fault> {
    let first = usize::from(edge.first);
    let variable = |number: u8| usize::from(number) < process.variables.len();
    let there = edge.from < process.locations
        && edge.to < process.locations
        && match edge.kind() {
            Some(Kind::Input) => first < table.signals.len() && (edge.second == DROP || variable(edge.second)),
            Some(Kind::Output) => first < table.signals.len(),
            Some(Kind::Assignment) => variable(edge.first),
            Some(Kind::Set | Kind::Reset | Kind::Timeout | Kind::Rearm) => first < process.timers.len(),
            Some(Kind::Skip) | None => true,
        };
    there.then_some(()).ok_or(Fault::Missing)
}

/// For an edge whose signal is there.
fn check_signal(table: &Table, edge: &Edge) -> Result<(), Fault> {
    let signal = || table.signals[usize::from(edge.first)];
    let right = match edge.kind() {
        Some(Kind::Input) => {
            matches!(signal().class(), Some(Class::Internal | Class::Inbound)) && signal().destination == edge.process
        }
        Some(Kind::Output) => matches!(signal().class(), Some(Class::Internal | Class::Outbound)),
        _ => true,
    };
    right.then_some(()).ok_or(Fault::WrongSignal)
}

fn form_is_good(edge: &Edge) -> bool {
    let (Some(kind), Some(mode)) = (edge.kind(), edge.mode()) else {
        return false;
    };
    let second = match kind {
        Kind::Input => true,
        Kind::Rearm => edge.second <= 15,
        _ => edge.second == 0,
    };
    second
        && (kind != Kind::Skip || edge.first == 0)
        && (kind.takes_guard() || mode == Mode::Unguarded)
        && (mode == Mode::Expression || edge.guard == Span::EMPTY)
        && (kind.takes_value() && edge.value.count > 0 || edge.value == Span::EMPTY)
}

/// For an edge of good form.
fn check_expressions(table: &Table, process: &Process, edge: &Edge) -> Result<(), Fault> {
    let good = |span| expression::check(&table.terms, span, process.variables.len()).is_some();
    let guard = edge.mode() != Some(Mode::Expression) || good(edge.guard);
    let value = edge.value.count == 0 || good(edge.value);
    (guard && value).then_some(()).ok_or(Fault::Expression)
}

/// Refusals 11 and 12, for a table that breaks none before them.
fn locations(table: &Table) -> Result<(), Refusal> {
    let mut acting = SiteSet::default();
    let mut waiting = SiteSet::default();
    let mut free = SiteSet::default();
    for edge in &table.edges {
        let here = edge.source();
        match edge.kind() {
            Some(kind) if kind.is_acting() => acting.extend(here),
            _ => waiting.extend(here),
        }
        if edge.mode() != Some(Mode::Expression) {
            free.extend(here);
        }
    }
    none_of(acting.and(waiting), Fault::Mixed)?;
    none_of(acting.without(free), Fault::NoWayOn)
}

fn none_of(sites: SiteSet, fault: Fault) -> Result<(), Refusal> {
    sites.first().map_or(Ok(()), |site| {
        let place = Place::Location { process: site / MAX_LOCATIONS, location: site % MAX_LOCATIONS };
        Err(fault.at(place))
    })
}
