//! The programs of the repository, in one: `plain marks`, `plain close` and `plain resheet` are like `marklist`, `closer` and
//! `resheet`. `plain trace` runs a sheet's table, `plain random` makes sheets and traces.

use std::error::Error;
use std::fmt::Write as _;
use std::fs;
use std::io::{self, Read, Write};
use std::path::Path;
use std::process::ExitCode;

use plain::random::{self, Random};
use plain::trace::{self, Answer};
use plain::{Plan, Refusal, Sheet, Step, examine, mark, open, write};

const USAGE: &str = "usage:
    plain marks [SHEET]               lists the marks
    plain close [SHEET] > CLOSED      closes, with a summary on standard error
    plain resheet [SHEET]..           writes each sheet again, and says whether it is the same
    plain trace SHEET < STEPS         runs from the start; an answer for each step, then the end
    plain random SEED COUNT FOLDER    writes sheets, and a trace for each that opens

steps, one a line: E signal value, M edge, D process, X process timer, K";

/// The bytes of the largest sheet, and one more.
const ROOM: u64 = 27_079;

/// How a run ends: with everything done, or with a refusal that has been told.
#[derive(Clone, Copy, PartialEq, Eq)]
enum End {
    Done,
    Refused,
}

type Outcome = Result<End, Box<dyn Error>>;

fn main() -> ExitCode {
    let arguments: Vec<String> = std::env::args().skip(1).collect();
    let arguments: Vec<&str> = arguments.iter().map(String::as_str).collect();
    let outcome = match *arguments {
        ["marks", ref file @ ..] if file.len() < 2 => marks(file.first().copied()),
        ["close", ref file @ ..] if file.len() < 2 => close(file.first().copied()),
        ["resheet", ref files @ ..] => resheet(files),
        ["trace", sheet] => run_trace(sheet),
        ["random", seed, count, folder] => make_random(seed, count, folder),
        _ => Err(USAGE.into()),
    };
    match outcome {
        Ok(End::Done) => ExitCode::SUCCESS,
        Ok(End::Refused) => ExitCode::FAILURE,
        Err(error) => {
            eprintln!("{error}");
            ExitCode::FAILURE
        }
    }
}

/// What standard input holds, up to what a sheet can have.
fn read_input() -> io::Result<Vec<u8>> {
    read_sheet(io::stdin().lock())
}

fn read_sheet(from: impl Read) -> io::Result<Vec<u8>> {
    let mut bytes = Vec::new();
    from.take(ROOM).read_to_end(&mut bytes)?;
    Ok(bytes)
}

/// The file that is named, or standard input.
fn read_named(file: Option<&str>) -> Result<Vec<u8>, Box<dyn Error>> {
    let read = match file {
        None | Some("-") => read_input(),
        Some(name) => fs::File::open(name).and_then(read_sheet),
    };
    read.map_err(|error| format!("{}: {error}", file.unwrap_or("standard input")).into())
}

/// Writes bytes to standard output, or the line of a refusal to where it belongs.
fn answer(bytes: Result<impl AsRef<[u8]>, Refusal>, mut refusals: impl Write) -> Outcome {
    match bytes {
        Ok(bytes) => {
            let mut output = io::stdout().lock();
            output.write_all(bytes.as_ref())?;
            output.flush()?;
            Ok(End::Done)
        }
        Err(refusal) => {
            writeln!(refusals, "{refusal}")?;
            Ok(End::Refused)
        }
    }
}

fn marks(file: Option<&str>) -> Outcome {
    answer(list_marks(&read_named(file)?), io::stdout())
}

fn list_marks(bytes: &[u8]) -> Result<String, Refusal> {
    let Sheet { table, .. } = open(bytes)?;
    examine(&table)?;
    Ok(mark(&table).listing(&table))
}

fn close(file: Option<&str>) -> Outcome {
    let closed = close_sheet(&read_named(file)?);
    if let Ok((_, summary)) = &closed {
        eprint!("{summary}");
    }
    answer(closed.map(|(sheet, _)| sheet), io::stderr())
}

fn close_sheet(bytes: &[u8]) -> Result<(Vec<u8>, String), Refusal> {
    let Sheet { table, names } = open(bytes)?;
    let plan = Plan::new(&table)?;
    Ok((write(&plan.close(), names)?, plan.summary(names)))
}

fn resheet(files: &[&str]) -> Outcome {
    if files.is_empty() {
        return tell_again("", None);
    }
    let mut end = End::Done;
    for file in files {
        let told = tell_again(&format!("{file}: "), Some(file)).unwrap_or_else(|error| {
            eprintln!("{error}");
            End::Refused
        });
        if told == End::Refused {
            end = End::Refused;
        }
    }
    Ok(end)
}

/// A line about one sheet, which begins with `name`.
fn tell_again(name: &str, file: Option<&str>) -> Outcome {
    let bytes = read_named(file)?;
    print!("{name}");
    answer(compare(&bytes), io::stdout())
}

fn compare(bytes: &[u8]) -> Result<String, Refusal> {
    let Sheet { table, names } = open(bytes)?;
    let again = write(&table, names)?;
    let verdict = match bytes.iter().zip(&again).position(|(one, other)| one != other) {
        None if bytes.len() == again.len() => "the same again".to_owned(),
        from => format!("different from byte {} on", from.unwrap_or(bytes.len().min(again.len()))),
    };
    Ok(format!(
        "{} processes, {} signals, {} edges, {} terms, {} names; {} bytes, {verdict}\n",
        table.processes.len(),
        table.signals.len(),
        table.edges.len(),
        table.terms.len(),
        names.iter().count(),
        bytes.len(),
    ))
}

fn run_trace(file: &str) -> Outcome {
    let bytes = fs::read(file)?;
    let text = String::from_utf8(read_input()?)?;
    let steps = text.lines().map(str::parse).collect::<Result<Vec<Step>, _>>()?;
    let run = open(&bytes).and_then(|sheet| trace::run(&sheet.table, &steps)).map(|run| {
        let mut lines = String::with_capacity(4 * run.answers.len());
        let mut line = |answer: &Answer| writeln!(lines, "{answer}").expect("a string takes any text");
        run.answers.iter().for_each(&mut line);
        lines + &run.end.to_string() + &format!("digest {:016x}\n", run.end.digest())
    });
    answer(run, io::stdout())
}

fn make_random(seed: &str, count: &str, folder: &str) -> Outcome {
    let (seed, count): (u64, u64) = (seed.parse()?, count.parse()?);
    let folder = Path::new(folder);
    fs::create_dir_all(folder)?;
    for number in seed..seed + count {
        let mut random = Random::new(number);
        let sheet = if random.chance(65) { random::sheet(&mut random) } else { random::damaged_sheet(&mut random) };
        fs::write(folder.join(format!("{number}.sheet")), &sheet)?;
        if let Ok(Sheet { table, .. }) = open(&sheet) {
            let length = *random.pick(&[10, 40, 200]);
            let steps = random::trace(&mut random, &table, length);
            let lines: String = steps.iter().map(|step| format!("{step}\n")).collect();
            fs::write(folder.join(format!("{number}.trace")), lines)?;
        }
    }
    Ok(End::Done)
}
