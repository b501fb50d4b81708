//! What holds of any table, looked at on random ones.

use std::collections::BTreeSet;

use plain::expression::mentions;
use plain::mark::Marks;
use plain::random::{self, Random};
use plain::sheet::Names;
use plain::step::{Machine, Memory, Message, State, Step};
use plain::table::*;
use plain::trace::Snapshot;
use plain::{Plan, Sheet, Table, close, examine, mark, open, test, write};

const TABLES: u64 = 1500;

fn tables() -> impl Iterator<Item = (Random, Table)> {
    (0..TABLES).map(|seed| {
        let mut random = Random::new(seed);
        let table = random::table(&mut random);
        (random, table)
    })
}

#[test]
fn writing_and_opening_are_inverse() {
    for (mut random, table) in tables() {
        let names = random::names(&mut random, &table);
        let bytes = write(&table, Names::new(&names)).unwrap();
        assert_eq!(open(&bytes).unwrap(), Sheet { table, names: Names::new(&names) });
    }
    let mut opened = 0;
    for seed in 0..4 * TABLES {
        let bytes = random::damaged_sheet(&mut Random::new(seed));
        if let Ok(Sheet { table, names }) = open(&bytes) {
            assert_eq!(write(&table, names).unwrap(), bytes);
            opened += 1;
        }
    }
    assert!(opened > 100);
}

/// An instance: process, location, and bit in a word of marks.
type Instance = (u8, u8, u8);

/// The marks by going over all edges until nothing new comes.
fn slow_marks(table: &Table) -> BTreeSet<Instance> {
    let mut marks = BTreeSet::new();
    loop {
        let before = marks.len();
        for edge in &table.edges {
            marks.extend(obliged(table, &marks, edge));
        }
        if marks.len() == before {
            return marks;
        }
    }
}

fn has_marked_value(table: &Table, marks: &BTreeSet<Instance>, edge: &Edge) -> bool {
    (0..8).any(|x| mentions(&table.terms, edge.value) >> x & 1 == 1 && marks.contains(&(edge.process, edge.from, x)))
}

/// What an edge obliges, by the four rules one by one.
fn obliged(table: &Table, marks: &BTreeSet<Instance>, edge: &Edge) -> Vec<Instance> {
    let written = match edge.kind().unwrap() {
        Kind::Input if edge.second != DROP => Some(edge.second),
        Kind::Assignment => Some(edge.first),
        Kind::Set | Kind::Reset | Kind::Timeout | Kind::Rearm => Some(8 + edge.first),
        Kind::Input | Kind::Output | Kind::Skip => None,
    };
    let signal_is_marked =
        || table.edges.iter().any(|other| other.kind == 1 && other.first == edge.first && has_marked_value(table, marks, other));
    let gained = match edge.kind().unwrap() {
        Kind::Input => table.class_of(edge.first) == Some(Class::Inbound) || signal_is_marked(),
        Kind::Assignment | Kind::Set => has_marked_value(table, marks, edge),
        _ => false,
    };
    let carried = marks.iter().filter(|&&(p, l, bit)| (p, l) == (edge.process, edge.from) && Some(bit) != written);
    let stored = written.filter(|_| gained);
    carried.map(|&(_, _, bit)| bit).chain(stored).map(|bit| (edge.process, edge.to, bit)).collect()
}

#[test]
fn marks_are_the_least() {
    for (_, table) in tables().filter(|(_, table)| table.edges.len() < 100) {
        let marks = mark(&table);
        let marked: BTreeSet<Instance> =
            instances(&table).into_iter().filter(|&(p, l, bit)| marks.word(p, l) >> bit & 1 == 1).collect();
        assert_eq!(marked, slow_marks(&table));
        assert_eq!(marks.count() as usize, marked.len());
    }
}

fn instances(table: &Table) -> Vec<Instance> {
    let mut all = Vec::new();
    for (p, process) in (0..).zip(&table.processes) {
        for l in 0..process.locations {
            all.extend((0..process.variables.len() as u8).chain((8..).take(process.timers.len())).map(|bit| (p, l, bit)));
        }
    }
    all
}

#[test]
fn what_is_closed_passes() {
    let mut closed_tables = 0;
    for (_, table) in tables() {
        let closed = close(&table);
        match test(&table) {
            Ok(count) => {
                assert_eq!(closed.edges.len(), count);
                assert_eq!(examine(&closed), Ok(()));
                closed_tables += 1;
            }
            Err(_) => assert_eq!(closed, table),
        }
    }
    assert!(closed_tables > TABLES / 2);
}

/// A machine with its state.
struct Running<'t> {
    machine: Machine<'t>,
    state: State,
    memory: Memory,
}

impl<'t> Running<'t> {
    fn start(table: &'t Table) -> Running<'t> {
        let machine = Machine::new(table);
        let memory = [Message::default(); _];
        let state = machine.start(&memory).unwrap();
        Running { machine, state, memory }
    }

    fn step(&mut self, step: Step) -> bool {
        self.machine.step(&mut self.state, &mut self.memory, step).is_ok()
    }

    fn snapshot(&self) -> Snapshot {
        Snapshot::of(self.machine.table(), &self.state, &self.memory)
    }
}

/// A table, its marks, and its closed table.
struct Pair<'t> {
    table: &'t Table,
    closed: &'t Table,
    marks: Marks,
}

impl Pair<'_> {
    /// The added edge at a process's location, of a kind, for a timer.
    fn added(&self, p: usize, location: u8, kind: Kind, timer: usize) -> Step {
        let wanted = |edge: &Edge| {
            (usize::from(edge.process), edge.from, edge.kind, usize::from(edge.first)) == (p, location, kind as u8, timer)
                && edge.second == u8::from(kind == Kind::Rearm)
        };
        let open = self.table.edges.len();
        Step::Move(open + self.closed.edges[open..].iter().position(wanted).expect("an added edge"))
    }

    /// The closed steps that match an accepted open step.
    fn matching(&self, step: Step, open: &Running, closed: &Running) -> Vec<Step> {
        match step {
            Step::Offer { .. } => vec![],
            Step::Move(_) => vec![step],
            Step::Discard(p) => {
                let head = open.state.message(&open.memory, p, 0).unwrap();
                if self.table.class_of(head.signal) == Some(Class::Internal) { vec![step] } else { vec![] }
            }
            Step::Expire { process, timer } => {
                let location = open.state.location(process).unwrap();
                let marked = self.marks.timers(process as u8, location) >> timer & 1 == 1;
                vec![if marked { self.added(process, location, Kind::Timeout, timer) } else { step }]
            }
            Step::Tick => {
                let mut steps = Vec::new();
                for (p, process) in self.closed.processes.iter().enumerate() {
                    let location = open.state.location(p).unwrap();
                    let due = (0..process.timers.len()).filter(|&t| closed.state.timer(p, t) == Some(Some(0)));
                    steps.extend(due.map(|t| self.added(p, location, Kind::Rearm, t)));
                }
                steps.push(Step::Tick);
                steps
            }
        }
    }

    /// A state of the open table without what closing takes out.
    fn compared(&self, mut snapshot: Snapshot) -> Snapshot {
        let internal = |signal| self.table.class_of(signal) == Some(Class::Internal);
        let marked_signal = |signal| {
            let edges = self.table.edges.iter().filter(|edge| edge.kind == 1 && edge.first == signal);
            edges.into_iter().any(|edge| self.marks.mark_span(&self.table.terms, edge, edge.value))
        };
        for (p, process) in snapshot.processes.iter_mut().enumerate() {
            let word = self.marks.word(p as u8, process.location);
            process.timers.truncate(self.table.processes[p].timers.len());
            process.variables.iter_mut().enumerate().filter(|(n, _)| word >> n & 1 == 1).for_each(|(_, value)| *value = 0);
            process.timers.iter_mut().enumerate().filter(|(n, _)| word >> (8 + n) & 1 == 1).for_each(|(_, timer)| *timer = None);
            process.queue.retain(|message| internal(message.signal));
            process.queue.iter_mut().filter(|message| marked_signal(message.signal)).for_each(|message| message.value = 0);
        }
        snapshot
    }
}

#[test]
fn open_runs_have_closed_ones_that_match() {
    let (mut accepted, mut ticks) = (0, 0);
    for (mut random, table) in tables() {
        let Ok(plan) = Plan::new(&table) else { continue };
        let closed_table = plan.close();
        let pair = Pair { table: &table, closed: &closed_table, marks: mark(&table) };
        let mut open = Running::start(&table);
        let mut closed = Running::start(&closed_table);
        for step in random::trace(&mut random, &table, 60) {
            let before = open.snapshot();
            let mut next = Running { machine: Machine::new(&table), ..open };
            if next.step(step) {
                for closed_step in pair.matching(step, &open, &closed) {
                    assert!(closed.step(closed_step), "{step} by {closed_step}");
                }
                accepted += 1;
                ticks += u32::from(step == Step::Tick);
            } else {
                assert_eq!(next.snapshot(), before);
            }
            open = next;
            assert_eq!(pair.compared(open.snapshot()), pair.compared(closed.snapshot()), "{step}");
        }
    }
    assert!(accepted > 10_000 && ticks > 1000, "{accepted} {ticks}");
}

#[test]
fn nothing_panics_on_tables_that_are_not_good() {
    for (mut random, table) in tables().filter(|(_, table)| table.edges.len() < 100) {
        let mut other = table.clone();
        for _ in 0..random.between(1, 4) {
            random::disturb(&mut random, &mut other);
        }
        let _ = (examine(&other), test(&other), close(&other), mark(&other).listing(&other));
        let Ok(mut state) = Machine::new(&table).start(&[Message::default(); 128]) else { continue };
        let machine = Machine::new(&other);
        let mut memory = [Message::default(); 128];
        for _ in 0..60 {
            let _ = machine.step(&mut state, &mut memory, random::any_step(&mut random));
        }
    }
}
