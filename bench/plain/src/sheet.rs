//! Sheets: tables with names, packed into bytes.

use crate::bits::{Reader, Writer};
use crate::examine;
use crate::refusal::{Fault, Place, Refusal};
use crate::table::*;

const VERSION: u16 = 1;
const EDGE_BITS: usize = 60;

/// The widths of an edge's fields.
const EDGE: [u32; 11] = [3, 4, 4, 3, 6, 4, 2, 12, 5, 12, 5];

/// An opened sheet. Its names stay in the bytes it was opened from.
#[derive(Clone, Debug, PartialEq, Eq)]
pub struct Sheet<'a> {
    pub table: Table,
    pub names: Names<'a>,
}

/// A name area: a length byte and that many characters for each process and then each signal.
#[derive(Clone, Copy, Debug, PartialEq, Eq)]
pub struct Names<'a> {
    area: &'a [u8],
}

/// The counts of a header.
struct Header {
    processes: usize,
    signals: usize,
    edges: usize,
    terms: usize,
}

pub fn open(bytes: &[u8]) -> Result<Sheet<'_>, Refusal> {
    let mut reader = Reader::new(bytes);
    let header = read_header(&mut reader)?;
    let processes = collect(header.processes, || read_process(&mut reader))?;
    let signals = collect(header.signals, || read_signal(&mut reader, header.processes))?;
    let edges_bit = reader.bit();
    let edges = collect(header.edges, || read_edge(&mut reader))?;
    let terms = collect(header.terms, || read_term(&mut reader))?;
    read_fill(&mut reader)?;
    let start = reader.bit() / 8;
    let names = Names { area: &bytes[start..] };
    names.check(header.processes + header.signals).map_err(|fault| fault.in_sheet(start))?;
    let table = Table { processes, signals, edges, terms };
    examine::edges(&table).map_err(|refusal| at_record(refusal, edges_bit))?;
    Ok(Sheet { table, names })
}

fn collect<T>(count: usize, mut read: impl FnMut() -> Result<T, Refusal>) -> Result<Vec<T>, Refusal> {
    let mut items = Vec::with_capacity(count);
    for _ in 0..count {
        items.push(read()?);
    }
    Ok(items)
}

/// A field of a width, refused with a fault unless it is accepted.
fn accept(reader: &mut Reader, width: u32, fault: Fault, accepted: impl Fn(u16) -> bool) -> Result<u16, Refusal> {
    let bit = reader.bit();
    let field = reader.field(width)?;
    accepted(field).then_some(field).ok_or(fault.at_bit(bit))
}

fn read_header(reader: &mut Reader) -> Result<Header, Refusal> {
    accept(reader, 8, Fault::Version, |version| version == VERSION)?;
    let mut count = |width, least, most| {
        accept(reader, width, Fault::Limit, |count| (least..=most).contains(&usize::from(count))).map(usize::from)
    };
    Ok(Header {
        processes: count(4, 1, MAX_PROCESSES)?,
        signals: count(7, 0, MAX_SIGNALS)?,
        edges: count(12, 0, MAX_EDGES)?,
        terms: count(13, 0, MAX_TERMS)?,
    })
}

fn read_process(reader: &mut Reader) -> Result<Process, Refusal> {
    let locations = reader.field(4)? + 1;
    let variables = accept(reader, 4, Fault::Limit, |count| usize::from(count) <= MAX_VARIABLES)?;
    let timers = accept(reader, 4, Fault::Limit, |count| usize::from(count) <= MAX_TIMERS)?;
    let first = accept(reader, 4, Fault::Limit, |first| first < locations)?;
    Ok(Process {
        locations: locations as u8,
        first: first as u8,
        variables: collect(variables.into(), || Ok(reader.field(16)? as i16))?,
        timers: collect(timers.into(), || read_timer(reader))?,
    })
}

fn read_timer(reader: &mut Reader) -> Result<Timer, Refusal> {
    let on = reader.field(1)? == 1;
    let n = accept(reader, 15, Fault::NotZero, |n| on || n == 0)?;
    Ok(on.then_some(n))
}

fn read_signal(reader: &mut Reader, processes: usize) -> Result<Signal, Refusal> {
    let class = accept(reader, 3, Fault::Limit, |class| class <= Class::Absent as u16)?;
    let destination = if class <= Class::Inbound as u16 {
        accept(reader, 3, Fault::Limit, |process| usize::from(process) < processes)?
    } else {
        accept(reader, 3, Fault::NotZero, |destination| destination == 0)?
    };
    Ok(Signal { class: class as u8, destination: destination as u8 })
}

fn read_edge(reader: &mut Reader) -> Result<Edge, Refusal> {
    let [process, from, to, kind, first, second, mode, guard, guard_count, value, value_count] = reader.record(EDGE)?;
    Ok(Edge {
        process: process as u8,
        from: from as u8,
        to: to as u8,
        kind: kind as u8,
        first: first as u8,
        second: second as u8,
        mode: mode as u8,
        guard: Span { start: guard, count: guard_count as u8 },
        value: Span { start: value, count: value_count as u8 },
    })
}

fn read_term(reader: &mut Reader) -> Result<Term, Refusal> {
    let [operation, argument] = reader.record([4, 16])?;
    Ok(Term { operation: operation as u8, argument: argument as i16 })
}

fn read_fill(reader: &mut Reader) -> Result<(), Refusal> {
    match reader.bit() % 8 {
        0 => Ok(()),
        past => accept(reader, 8 - past as u32, Fault::NotZero, |fill| fill == 0).map(drop),
    }
}

/// An edge's refusal, with the place of its record.
fn at_record(refusal: Refusal, edges_bit: usize) -> Refusal {
    match refusal.place {
        Place::Edge(edge) => refusal.fault.at(Place::EdgeAt { edge, bit: edges_bit + EDGE_BITS * edge }),
        _ => refusal,
    }
}

/// What is wrong with a name area, at a byte of it.
enum NameFault {
    Bad(usize),
    Short(usize),
    Long(usize),
}

impl NameFault {
    fn in_sheet(self, start: usize) -> Refusal {
        match self {
            NameFault::Bad(byte) => Fault::Name.at_bit((start + byte) * 8),
            NameFault::Short(byte) => Fault::Cut.at_bit((start + byte) * 8),
            NameFault::Long(byte) => Fault::Surplus.at_bit((start + byte) * 8),
        }
    }

    fn in_area(self) -> Refusal {
        let (NameFault::Bad(byte) | NameFault::Short(byte) | NameFault::Long(byte)) = self;
        Fault::Name.at_bit(byte * 8)
    }
}

impl<'a> Names<'a> {
    /// A name area that is still to be checked, as writing does.
    pub fn new(area: &'a [u8]) -> Names<'a> {
        Names { area }
    }

    /// The name of each process and then each signal.
    pub fn iter(self) -> impl Iterator<Item = &'a [u8]> {
        let mut rest = self.area;
        std::iter::from_fn(move || {
            let (&length, after) = rest.split_first()?;
            let (name, after) = after.split_at_checked(length.into())?;
            rest = after;
            Some(name)
        })
    }

    pub fn area(self) -> &'a [u8] {
        self.area
    }

    /// Whether these are that many names and no more.
    fn check(self, count: usize) -> Result<(), NameFault> {
        let mut at = 0;
        for _ in 0..count {
            let &length = self.area.get(at).ok_or(NameFault::Short(at))?;
            if !(1..=15).contains(&length) {
                return Err(NameFault::Bad(at));
            }
            let rest = &self.area[at + 1..];
            let name = &rest[..rest.len().min(length.into())];
            if let Some(bad) = name.iter().position(|character| !(33..=126).contains(character)) {
                return Err(NameFault::Bad(at + 1 + bad));
            }
            at += 1 + name.len();
            if name.len() < length.into() {
                return Err(NameFault::Short(at));
            }
        }
        if at < self.area.len() { Err(NameFault::Long(at)) } else { Ok(()) }
    }
}

/// The sheet of a table and its names.
pub fn write(table: &Table, names: Names) -> Result<Vec<u8>, Refusal> {
    if !(1..=MAX_PROCESSES).contains(&table.processes.len()) {
        return Err(Fault::Limit.at_bit(8));
    }
    examine::limits(table)?;
    examine::edges(table)?;
    names.check(table.processes.len() + table.signals.len()).map_err(NameFault::in_area)?;
    Ok(pack(table, names))
}

/// Lays a table out without any check. Every number has to fit its field.
pub fn pack(table: &Table, names: Names) -> Vec<u8> {
    let bits = 44 + 6 * table.signals.len() + EDGE_BITS * table.edges.len() + 20 * table.terms.len();
    let mut writer = Writer::with_capacity(bits / 8 + 34 * table.processes.len() + 1 + names.area.len());
    let count = |length: usize| length as u16;
    writer.record([
        (8, VERSION),
        (4, count(table.processes.len())),
        (7, count(table.signals.len())),
        (12, count(table.edges.len())),
        (13, count(table.terms.len())),
    ]);
    table.processes.iter().for_each(|process| pack_process(&mut writer, process));
    for signal in &table.signals {
        writer.record([(3, signal.class.into()), (3, signal.destination.into())]);
    }
    table.edges.iter().for_each(|edge| pack_edge(&mut writer, edge));
    for term in &table.terms {
        writer.record([(4, term.operation.into()), (16, term.argument as u16)]);
    }
    let mut bytes = writer.finish();
    bytes.extend_from_slice(names.area);
    bytes
}

fn pack_process(writer: &mut Writer, process: &Process) {
    writer.record([
        (4, u16::from(process.locations) - 1),
        (4, process.variables.len() as u16),
        (4, process.timers.len() as u16),
        (4, process.first.into()),
    ]);
    for &value in &process.variables {
        writer.record([(16, value as u16)]);
    }
    for timer in &process.timers {
        writer.record([(1, timer.is_some().into()), (15, timer.unwrap_or(0))]);
    }
}

fn pack_edge(writer: &mut Writer, edge: &Edge) {
    let fields = [
        edge.process.into(),
        edge.from.into(),
        edge.to.into(),
        edge.kind.into(),
        edge.first.into(),
        edge.second.into(),
        edge.mode.into(),
        edge.guard.start,
        edge.guard.count.into(),
        edge.value.start,
        edge.value.count.into(),
    ];
    let mut widths = EDGE.into_iter();
    writer.record(fields.map(|field: u16| (widths.next().expect("a width for each field"), field)));
}
