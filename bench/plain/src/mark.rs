//! The least marks, by a worklist of locations.

use std::fmt::{self, Write};

use crate::expression;
use crate::groups::Groups;
use crate::sites::{SITES, SiteSet, site};
use crate::table::*;

/// A word for each site: bit n for variable n, bit 8 + n for timer n.
#[derive(Clone, Debug, PartialEq, Eq)]
pub struct Marks {
    words: [u16; SITES],
}

impl Marks {
    pub fn word(&self, process: u8, location: u8) -> u16 {
        site(process, location).map_or(0, |site| self.words[site])
    }

    pub fn variables(&self, process: u8, location: u8) -> u8 {
        self.word(process, location) as u8
    }

    pub fn timers(&self, process: u8, location: u8) -> u8 {
        (self.word(process, location) >> 8) as u8
    }

    pub fn count(&self) -> u32 {
        self.words.iter().map(|word| word.count_ones()).sum()
    }

    /// Whether a span of an edge mentions a variable that is marked where the edge leaves.
    pub fn mark_span(&self, terms: &[Term], edge: &Edge, span: Span) -> bool {
        expression::mentions(terms, span) & self.variables(edge.process, edge.from) != 0
    }

    /// The lines of the marked instances, and their count.
    pub fn listing(&self, table: &Table) -> String {
        let mut text = String::with_capacity(8 * self.count() as usize + 16);
        self.write_listing(table, &mut text).expect("a string takes any text");
        text
    }

    fn write_listing(&self, table: &Table, text: &mut String) -> fmt::Result {
        for (p, process) in (0..).zip(&table.processes) {
            for l in 0..process.locations {
                let word = self.word(p, l);
                for bit in (0..16).filter(|bit| word >> bit & 1 == 1) {
                    let letter = if bit < 8 { 'x' } else { 't' };
                    writeln!(text, "{p} {l} {letter}{}", bit % 8)?;
                }
            }
        }
        writeln!(text, "{} of {}", self.count(), instances(table))
    }
}

/// How many instances a table has.
pub fn instances(table: &Table) -> usize {
    let of = |process: &Process| usize::from(process.locations) * (process.variables.len() + process.timers.len());
    table.processes.iter().take(MAX_PROCESSES).map(of).sum()
}

/// What an edge does to marks at the location it leaves.
#[derive(Clone, Copy)]
struct Flow {
    /// The site it enters.
    to: u8,
    /// The instances it carries over: all but the one it writes.
    carried: u16,
    /// The variables its value mentions.
    mentioned: u8,
    /// What a marked value marks.
    effect: Effect,
}

#[derive(Clone, Copy)]
enum Effect {
    Nothing,
    /// Instances at the site it enters.
    Store(u16),
    Signal(u8),
}

/// An instance that an input marks, once its signal is marked.
#[derive(Clone, Copy)]
struct Receipt {
    to: u8,
    stored: u16,
}

struct Marking {
    marks: Marks,
    /// The marks of each site that have not been followed up, and the sites that have some.
    fresh: [u16; SITES],
    waiting: SiteSet,
    /// The signals found marked, a bit each.
    signals: u64,
}

/// The least marks of a table that passes its examination. Of any other, edges that lead outside the limits are passed over.
pub fn mark(table: &Table) -> Marks {
    let flows = Groups::of(SITES, table.edges.iter().map(|edge| edge.target().and(edge.source())))
        .map(|number| flow(table, &table.edges[number as usize]));
    let receipts = Groups::of(MAX_SIGNALS, table.edges.iter().map(|edge| internal_input(table, edge)))
        .map(|number| receipt(&table.edges[number as usize]));
    let mut marking = Marking::new();
    for edge in &table.edges {
        if is_inbound_input(table, edge) && edge.target().is_some() {
            marking.receive(receipt(edge));
        }
    }
    while let Some(site) = marking.waiting.pop() {
        let fresh = std::mem::take(&mut marking.fresh[site]);
        for flow in flows.get(site) {
            marking.follow(*flow, fresh, &receipts);
        }
    }
    marking.marks
}

impl Marking {
    fn new() -> Marking {
        Marking { marks: Marks { words: [0; SITES] }, fresh: [0; SITES], waiting: SiteSet::default(), signals: 0 }
    }

    fn add(&mut self, site: u8, instances: u16) {
        let site = usize::from(site);
        let new = instances & !self.marks.words[site];
        if new != 0 {
            self.marks.words[site] |= new;
            self.fresh[site] |= new;
            self.waiting.insert(site);
        }
    }

    fn receive(&mut self, receipt: Receipt) {
        self.add(receipt.to, receipt.stored);
    }

    fn follow(&mut self, flow: Flow, fresh: u16, receipts: &Groups<Receipt>) {
        let mut gained = fresh & flow.carried;
        if fresh as u8 & flow.mentioned != 0 {
            match flow.effect {
                Effect::Nothing => {}
                Effect::Store(instances) => gained |= instances,
                Effect::Signal(signal) => self.mark_signal(signal, receipts),
            }
        }
        self.add(flow.to, gained);
    }

    fn mark_signal(&mut self, signal: u8, receipts: &Groups<Receipt>) {
        if self.signals >> signal & 1 == 0 {
            self.signals |= 1 << signal;
            for receipt in receipts.get(signal.into()) {
                self.receive(*receipt);
            }
        }
    }
}

/// Whether an edge is an input of an inbound signal.
pub fn is_inbound_input(table: &Table, edge: &Edge) -> bool {
    edge.kind() == Some(Kind::Input) && table.class_of(edge.first) == Some(Class::Inbound)
}

/// The signal of an input of an internal signal.
fn internal_input(table: &Table, edge: &Edge) -> Option<usize> {
    let internal = edge.kind() == Some(Kind::Input) && table.class_of(edge.first) == Some(Class::Internal);
    let signal = usize::from(edge.first);
    (internal && signal < MAX_SIGNALS && edge.target().is_some()).then_some(signal)
}

/// For an input that enters a site.
fn receipt(input: &Edge) -> Receipt {
    Receipt { to: input.target().expect("a site") as u8, stored: variable(input.second) }
}

fn variable(number: u8) -> u16 {
    if number < 8 { 1 << number } else { 0 }
}

fn timer(number: u8) -> u16 {
    if number < 8 { 1 << (8 + number) } else { 0 }
}

/// For an edge that enters a site.
fn flow(table: &Table, edge: &Edge) -> Flow {
    let (written, effect) = match edge.kind() {
        Some(Kind::Input) => (variable(edge.second), Effect::Nothing),
        Some(Kind::Output) if usize::from(edge.first) < MAX_SIGNALS => (0, Effect::Signal(edge.first)),
        Some(Kind::Assignment) => (variable(edge.first), Effect::Store(variable(edge.first))),
        Some(Kind::Set) => (timer(edge.first), Effect::Store(timer(edge.first))),
        Some(Kind::Reset | Kind::Timeout | Kind::Rearm) => (timer(edge.first), Effect::Nothing),
        Some(Kind::Output | Kind::Skip) | None => (0, Effect::Nothing),
    };
    Flow {
        to: edge.target().expect("a site") as u8,
        carried: !written,
        mentioned: expression::mentions(&table.terms, edge.value),
        effect,
    }
}
