//! The test and closing.

use std::fmt::{self, Write};

use crate::examine::examine;
use crate::mark::{Marks, instances, is_inbound_input, mark};
use crate::refusal::{Fault, Place, Refusal};
use crate::sheet::Names;
use crate::sites::{SITES, SiteSet, site};
use crate::table::*;

/// How many edges the closed table has.
pub fn test(table: &Table) -> Result<usize, Refusal> {
    Plan::new(table).map(|plan| plan.edge_count())
}

/// The closed table, or the table itself where the test refuses it.
pub fn close(table: &Table) -> Table {
    match Plan::new(table) {
        Ok(plan) => plan.close(),
        Err(_) => table.clone(),
    }
}

/// All that is needed to close a table which passes the test.
pub struct Plan<'t> {
    table: &'t Table,
    marks: Marks,
    chaos: [Option<u8>; MAX_PROCESSES],
    /// The locations that some marked guard leaves.
    unsure: SiteSet,
    added: Vec<Edge>,
}

impl<'t> Plan<'t> {
    pub fn new(table: &'t Table) -> Result<Plan<'t>, Refusal> {
        examine(table)?;
        let chaos = chaos_timers(table)?;
        let marks = mark(table);
        let added = added_edges(table, &marks, &chaos);
        let unsure = table
            .edges
            .iter()
            .filter(|edge| edge.mode() == Some(Mode::Expression) && marks.mark_span(&table.terms, edge, edge.guard))
            .filter_map(Edge::source)
            .collect();
        let plan = Plan { table, marks, chaos, unsure, added };
        match plan.edge_count() {
            count if count > MAX_EDGES => Err(Fault::TooManyEdges.at(Place::Test(count))),
            _ => Ok(plan),
        }
    }

    pub fn marks(&self) -> &Marks {
        &self.marks
    }

    pub fn edge_count(&self) -> usize {
        self.table.edges.len() + self.added.len()
    }

    pub fn close(&self) -> Table {
        let mut processes = self.table.processes.clone();
        for (process, chaos) in processes.iter_mut().zip(self.chaos) {
            process.timers.extend(chaos.map(|_| Some(0)));
        }
        let close_signal = |signal: &Signal| match signal.class() {
            Some(Class::Inbound | Class::Outbound) => Signal::ABSENT,
            _ => *signal,
        };
        let mut edges = Vec::with_capacity(self.edge_count());
        edges.extend(self.closed_edges());
        edges.extend_from_slice(&self.added);
        Table {
            processes,
            signals: self.table.signals.iter().map(close_signal).collect(),
            edges,
            terms: self.table.terms.clone(),
        }
    }

    /// What becomes of the edges of the open table.
    fn closed_edges(&self) -> impl Iterator<Item = Edge> {
        self.table.edges.iter().map(|edge| self.close_guard(edge, self.close_move(edge)))
    }

    fn close_move(&self, edge: &Edge) -> Edge {
        let marked = || self.marks.mark_span(&self.table.terms, edge, edge.value);
        let skip = Edge { kind: Kind::Skip as u8, first: 0, second: 0, value: Span::EMPTY, ..*edge };
        let emptied = Edge { value: Span::EMPTY, ..*edge };
        let class = || self.table.class_of(edge.first);
        match edge.kind() {
            Some(Kind::Input) if class() == Some(Class::Inbound) => self.await_chaos(edge),
            Some(Kind::Output) if class() == Some(Class::Outbound) => skip,
            Some(Kind::Assignment) if marked() => skip,
            Some(Kind::Output | Kind::Set) if marked() => emptied,
            _ => *edge,
        }
    }

    fn await_chaos(&self, input: &Edge) -> Edge {
        let chaos = self.chaos[usize::from(input.process)].expect("a process with an inbound input has a chaos timer");
        Edge { kind: Kind::Rearm as u8, first: chaos, second: 0, ..*input }
    }

    /// The edge with the guard that closing leaves it.
    fn close_guard(&self, open: &Edge, closed: Edge) -> Edge {
        let gone = match open.mode() {
            Some(Mode::Expression) => self.marks.mark_span(&self.table.terms, open, open.guard),
            Some(Mode::Else) => open.source().is_some_and(|site| self.unsure.contains(site)),
            _ => false,
        };
        if gone { Edge { mode: Mode::Unguarded as u8, guard: Span::EMPTY, ..closed } } else { closed }
    }

    /// What closing did, in lines.
    pub fn summary(&self, names: Names) -> String {
        let mut text = String::new();
        self.write_summary(names, &mut text).expect("a string takes any text");
        text
    }

    fn write_summary(&self, names: Names, text: &mut String) -> fmt::Result {
        let Table { processes, signals, edges, .. } = self.table;
        writeln!(text, "{} processes, {} signals", processes.len(), signals.len())?;
        writeln!(text, "{} edges, closed {}", edges.len(), self.edge_count())?;
        writeln!(text, "{} of {} instances marked", self.marks.count(), instances(self.table))?;
        write!(text, "chaos timers:")?;
        for (name, chaos) in names.iter().zip(self.chaos) {
            if let Some(chaos) = chaos {
                write!(text, " {} t{chaos}", String::from_utf8_lossy(name))?;
            }
        }
        writeln!(text)?;
        let rearm = Kind::Rearm as u8;
        let skip = Kind::Skip as u8;
        self.write_edges(text, "awaiting chaos", |open, closed| open.kind != rearm && closed.kind == rearm)?;
        self.write_edges(text, "skipped", |open, closed| open.kind != skip && closed.kind == skip)?;
        self.write_edges(text, "emptied", |open, closed| open.kind == closed.kind && open.value != closed.value)?;
        self.write_edges(text, "opened", |open, closed| open.mode != closed.mode)
    }

    fn write_edges(&self, text: &mut String, word: &str, listed: impl Fn(&Edge, &Edge) -> bool) -> fmt::Result {
        write!(text, "{word}:")?;
        for (number, (open, closed)) in self.table.edges.iter().zip(self.closed_edges()).enumerate() {
            if listed(open, &closed) {
                write!(text, " {number}")?;
            }
        }
        writeln!(text)
    }
}

/// The chaos timer of each process that takes an inbound signal.
fn chaos_timers(table: &Table) -> Result<[Option<u8>; MAX_PROCESSES], Refusal> {
    let mut chaos = [None; MAX_PROCESSES];
    for edge in table.edges.iter().filter(|edge| is_inbound_input(table, edge)) {
        let process = usize::from(edge.process);
        chaos[process] = Some(table.processes[process].timers.len() as u8);
    }
    match chaos.iter().position(|&timer| timer == Some(MAX_TIMERS as u8)) {
        Some(process) => Err(Fault::NinthTimer.at(Place::Test(process))),
        None => Ok(chaos),
    }
}

/// The loops that let time pass at waiting locations.
fn added_edges(table: &Table, marks: &Marks, chaos: &[Option<u8>; MAX_PROCESSES]) -> Vec<Edge> {
    let mut acting = SiteSet::default();
    // The timers that an edge of each site awaits, a bit each.
    let mut awaited = [0_u8; SITES];
    for edge in &table.edges {
        let here = edge.source().expect("an examined edge leaves a site");
        if edge.awaits_timer() {
            awaited[here] |= 1 << edge.first;
        } else if edge.kind().is_some_and(Kind::is_acting) {
            acting.insert(here);
        }
    }
    let mut added = Vec::new();
    for (p, process) in (0..).zip(&table.processes) {
        for l in 0..process.locations {
            let here = site(p, l).expect("an examined process has sites");
            if acting.contains(here) {
                continue;
            }
            let lone = |kind: Kind, timer, second| Edge {
                process: p,
                from: l,
                to: l,
                kind: kind as u8,
                first: timer,
                second,
                ..Edge::default()
            };
            added.extend(chaos[usize::from(p)].map(|timer| lone(Kind::Rearm, timer, 1)));
            for timer in (0..8).filter(|timer| marks.timers(p, l) >> timer & 1 == 1) {
                if awaited[here] >> timer & 1 == 0 {
                    added.push(lone(Kind::Timeout, timer, 0));
                }
                added.push(lone(Kind::Rearm, timer, 1));
            }
        }
    }
    added
}
