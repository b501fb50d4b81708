//! Times both sides in one run, and makes one call over and over for counting instructions.

use link::packing::{self, STATE_WORDS, WORD};
use link::plainly::Plain;
use link::proved::Proved;
use link::sheets::{self, Shape, sheet};
use link::timing::medians;
use link::{Side, runs};
use plain::random::Random;
use plain::trace::{self, Answer};
use plain::{open, test};
use std::hint::black_box;
use std::process::ExitCode;

const USAGE: &str = "usage:
    measure                          times the calls on four sheets, and prints ratios
    measure series                   times marking, closing and a step on tables of 205, 410, .. 2,048 edges
    measure once SIDE CALL SHEET N   makes one call N times and prints nothing, to count its instructions
    measure sheet SHEET              writes a sheet to standard output

SIDE: plain, proved. CALL: open, mark, close, start (a trace of no step), trace (a trace of 1,000 steps).
SHEET: worked, middling, largest, closing (the largest that closes, to 2,048 edges), or a number of edges.";

/// The steps of a trace that is timed. Opening takes a small part of the time of so many.
const STEPS: usize = 20_000;

/// The steps of a trace whose instructions are counted.
const COUNTED: usize = 1000;

fn main() -> ExitCode {
    let arguments: Vec<String> = std::env::args().skip(1).collect();
    let arguments: Vec<&str> = arguments.iter().map(String::as_str).collect();
    let done = match *arguments {
        [] => {
            measure_all();
            Some(())
        }
        ["series"] => {
            measure_series();
            Some(())
        }
        ["once", side, call, sheet, count] => make_calls(side, call, sheet, count),
        ["sheet", name] => write_sheet(name),
        _ => None,
    };
    match done {
        Some(()) => ExitCode::SUCCESS,
        None => {
            eprintln!("{USAGE}");
            ExitCode::FAILURE
        }
    }
}

/// What is called.
#[derive(Clone, Copy)]
enum Call {
    Open,
    Mark,
    Close,
    Start,
    Trace,
}

/// A sheet, with steps that it can make and room for what a trace of them writes.
struct Subject {
    sheet: Vec<u8>,
    steps: Vec<u8>,
    accepted: usize,
    out: Vec<u8>,
}

impl Subject {
    fn new(sheet: Vec<u8>, count: usize) -> Subject {
        let table = open(&sheet).expect("a sheet that is measured opens").table;
        let steps = runs::lively(&mut Random::new(1), &table, count);
        let answers = trace::run(&table, &steps).expect("a table that is measured starts").answers;
        let accepted = answers.iter().filter(|answer| !matches!(answer, Answer::Refused(_))).count();
        Subject { sheet, steps: packing::steps(&steps), accepted, out: vec![0; WORD * (count + STATE_WORDS)] }
    }

    fn make(&mut self, side: &dyn Side, call: Call) -> u64 {
        match call {
            Call::Open => side.open(&self.sheet),
            Call::Mark => side.mark_count(&self.sheet),
            Call::Close => side.closed_edges(&self.sheet),
            Call::Start => side.trace(&self.sheet, &[], &mut self.out),
            Call::Trace => side.trace(&self.sheet, &self.steps, &mut self.out),
        }
    }

    /// The seconds of a call: plain and proved.
    fn time(&self, call: Call) -> [f64; 2] {
        let (mut one, mut other) = (self.again(), self.again());
        medians(
            || {
                black_box(one.make(&Plain, call));
            },
            || {
                black_box(other.make(&Proved, call));
            },
        )
    }

    fn again(&self) -> Subject {
        Subject { sheet: self.sheet.clone(), steps: self.steps.clone(), accepted: self.accepted, out: self.out.clone() }
    }

    /// The seconds of a step: a trace without what a trace of no step takes, for each of its steps.
    fn time_step(&self) -> [f64; 2] {
        let (all, none) = (self.time(Call::Trace), self.time(Call::Start));
        [0, 1].map(|side| (all[side] - none[side]) / STEPS as f64)
    }
}

fn named(name: &str) -> Option<Vec<u8>> {
    Some(match name {
        "worked" => sheets::worked(),
        "middling" => sheet(&Shape::middling().table()),
        "largest" => sheet(&Shape::full(plain::table::MAX_EDGES).table()),
        "closing" => sheet(&sheets::closing_to(plain::table::MAX_EDGES)),
        edges => sheet(&Shape::full(edges.parse().ok()?).table()),
    })
}

fn print_times(what: &str, name: &str, [plain, proved]: [f64; 2]) {
    println!("{what:24} {name:10} {:>12} {:>12}   1 : {:.2}", microseconds(plain), microseconds(proved), proved / plain);
}

fn microseconds(seconds: f64) -> String {
    format!("{:.3}", seconds * 1e6)
}

fn measure_all() {
    println!("{:24} {:10} {:>12} {:>12}   plain : proved", "microseconds", "", "plain", "proved");
    let names = ["worked", "middling", "largest", "closing"];
    let subjects = names.map(|name| (name, Subject::new(named(name).expect("a name of a sheet"), STEPS)));
    for (what, call) in [("opening and examining", Call::Open), ("marking", Call::Mark)] {
        for (name, subject) in &subjects {
            print_times(what, name, subject.time(call));
        }
    }
    for (name, subject) in subjects.iter().filter(|(name, _)| *name != "largest") {
        print_times("closing, reading edges", name, subject.time(Call::Close));
    }
    for (name, subject) in &subjects {
        let times = subject.time_step();
        print_times("a step", name, times);
        println!("{:24} {name:10} {:>12.0} {:>12.0}", "steps a second", 1.0 / times[0], 1.0 / times[1]);
    }
    println!();
    for (name, subject) in &subjects {
        let table = open(&subject.sheet).expect("it opened").table;
        let closed = test(&table).map_or_else(|refusal| refusal.to_string(), |count| format!("closes to {count}"));
        let (bytes, edges) = (subject.sheet.len(), table.edges.len());
        println!("{name}: {bytes} bytes, {edges} edges, {closed}; {} of {STEPS} steps accepted", subject.accepted);
    }
}

/// Each table of the series has as many edges as it says; those that are closed are closed to so many.
fn measure_series() {
    println!("{:24} {:10} {:>12} {:>12}   plain : proved", "microseconds", "edges", "plain", "proved");
    let sizes = (1..=10).map(|tenth| (plain::table::MAX_EDGES * tenth).div_ceil(10));
    for edges in sizes.clone() {
        let subject = Subject::new(sheet(&Shape::full(edges).table()), STEPS);
        let name = edges.to_string();
        print_times("opening and examining", &name, subject.time(Call::Open));
        print_times("marking", &name, subject.time(Call::Mark));
        print_times("a step", &name, subject.time_step());
    }
    for edges in sizes {
        let subject = Subject::new(sheet(&sheets::closing_to(edges)), 0);
        print_times("closing, reading edges", &edges.to_string(), subject.time(Call::Close));
    }
}

fn make_calls(side: &str, call: &str, name: &str, count: &str) -> Option<()> {
    let side: &dyn Side = match side {
        "plain" => &Plain,
        "proved" => &Proved,
        _ => return None,
    };
    let call = match call {
        "open" => Call::Open,
        "mark" => Call::Mark,
        "close" => Call::Close,
        "start" => Call::Start,
        "trace" => Call::Trace,
        _ => return None,
    };
    let mut subject = Subject::new(named(name)?, COUNTED);
    for _ in 0..count.parse::<u64>().ok()? {
        black_box(subject.make(side, call));
    }
    Some(())
}

fn write_sheet(name: &str) -> Option<()> {
    use std::io::Write;
    std::io::stdout().write_all(&named(name)?).ok()
}
