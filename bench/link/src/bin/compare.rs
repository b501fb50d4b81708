//! Compares both sides on random sheets, traces and lists of calls on a book, and stops at the first difference.

use link::booking;
use link::packing::{self, STATE_WORDS, STEP, WORD};
use link::plainly::Plain;
use link::proved::Proved;
use link::{Side, runs};
use plain::random::{self, Random};
use plain::{Call, Sheet, Step, calls};
use std::collections::BTreeMap;
use std::error::Error;
use std::fs;
use std::process::ExitCode;

const USAGE: &str = "usage: compare COUNT SEED

Makes COUNT sheets, good and damaged, from the numbers SEED on, and compares what both sides answer: the refusal, the listing of the
marks and their number, the closed sheet, the sum over its edges; and traces of steps on the sheet and on the closed sheet, with all
answers and the end. Makes as many lists of calls on a book, and compares all answers, the book, and what closing it means. At the
first difference it stops, and leaves the sheet in difference.sheet and the steps in difference.steps, or the list in
difference.calls.";

/// Room for what any call writes, but for a trace and a list of calls.
const ROOM: usize = 1 << 16;

/// Room for what a list of calls writes.
const BOOK_ROOM: usize = 1 << 18;

fn main() -> ExitCode {
    let arguments: Vec<String> = std::env::args().skip(1).collect();
    match arguments.iter().map(|word| word.parse()).collect::<Result<Vec<u64>, _>>().as_deref() {
        Ok(&[count, seed]) => compare_all(count, seed),
        _ => {
            eprintln!("{USAGE}");
            ExitCode::FAILURE
        }
    }
}

fn compare_all(count: u64, seed: u64) -> ExitCode {
    let mut tally = Tally::default();
    for number in seed..seed + count {
        let compared = compare_sheet(number, &mut tally).and_then(|()| compare_calls(number, &mut tally));
        if let Err(difference) = compared {
            eprintln!("number {number}: {difference}");
            return ExitCode::FAILURE;
        }
    }
    tally.print();
    ExitCode::SUCCESS
}

/// What was met, by what it was.
#[derive(Default)]
struct Tally {
    sheets: BTreeMap<String, u64>,
    traces: BTreeMap<String, u64>,
    steps: BTreeMap<String, u64>,
    lists: BTreeMap<String, u64>,
    calls: BTreeMap<String, u64>,
}

impl Tally {
    fn sheet(&mut self, what: String) {
        *self.sheets.entry(what).or_default() += 1;
    }

    fn trace(&mut self, table: &str, answer: u64) {
        let what = packing::refused(answer).map_or("run".to_owned(), |number| format!("refused {number}"));
        *self.traces.entry(format!("{table} {what}")).or_default() += 1;
    }

    fn step(&mut self, table: &str, step: Step, answer: u64) {
        let kind = match step {
            Step::Offer { .. } => "offer",
            Step::Move(_) => "move",
            Step::Discard(_) => "discard",
            Step::Expire { .. } => "expire",
            Step::Tick => "tick",
        };
        let what = match (packing::refused(answer), answer) {
            (Some(number), _) => format!("refused {number}"),
            (None, 0) => "accepted".to_owned(),
            (None, _) => "accepted, a message left".to_owned(),
        };
        *self.steps.entry(format!("{table} {kind} {what}")).or_default() += 1;
    }

    fn list(&mut self, what: &str) {
        *self.lists.entry(what.to_owned()).or_default() += 1;
    }

    fn call(&mut self, call: &Call, answer: u64) {
        let kind = match call {
            Call::DeclareProcess(_) => "declare process",
            Call::DeclareSignal(_) => "declare signal",
            Call::EnterExpression(_) => "enter expression",
            Call::EnterEdge(_) => "enter edge",
            Call::ChangeEdge(..) => "change edge",
            Call::StrikeEdge(_) => "strike edge",
            Call::Mark => "mark",
            Call::Ready => "ready",
            Call::Close => "close",
        };
        let what = packing::refused(answer).map_or("accepted".to_owned(), |number| format!("refused {number:2}"));
        *self.calls.entry(format!("{kind} {what}")).or_default() += 1;
    }

    fn print(&self) {
        let counted = [
            ("sheets", &self.sheets),
            ("traces", &self.traces),
            ("steps", &self.steps),
            ("lists of calls", &self.lists),
            ("calls", &self.calls),
        ];
        for (title, counts) in counted {
            println!("{title}");
            counts.iter().for_each(|(what, count)| println!("  {what}: {count}"));
        }
        println!("no difference");
    }
}

type Outcome = Result<(), Box<dyn Error>>;

fn compare_sheet(number: u64, tally: &mut Tally) -> Outcome {
    let mut random = Random::new(number);
    let sheet = if random.chance(65) { random::sheet(&mut random) } else { random::damaged_sheet(&mut random) };
    let opened = agree("open", "sheet", &sheet, |side| bare(side.open(&sheet)))?.answer;
    tally.sheet(refusal_or("opened", "not opened", opened));
    agree("mark_count", "sheet", &sheet, |side| bare(side.mark_count(&sheet)))?;
    agree("marks", "sheet", &sheet, |side| written(ROOM, |out| side.marks(&sheet, out)))?;
    let closed = agree("close", "sheet", &sheet, |side| written(ROOM, |out| side.close(&sheet, out)))?;
    agree("closed_edges", "sheet", &sheet, |side| bare(side.closed_edges(&sheet)))?;
    compare_trace(&mut random, &sheet, "open", tally)?;
    if opened == 0 {
        tally.sheet(refusal_or("closed", "not closed", closed.answer));
    }
    if packing::refused(closed.answer).is_none() {
        compare_trace(&mut random, &closed.bytes, "closed", tally)?;
    }
    Ok(())
}

fn refusal_or(good: &str, bad: &str, answer: u64) -> String {
    packing::refused(answer).map_or(good.to_owned(), |number| format!("{bad}, refused {number}"))
}

fn compare_trace(random: &mut Random, sheet: &[u8], table: &str, tally: &mut Tally) -> Outcome {
    let steps = trace_for(random, sheet);
    let packed = packed(random, &steps);
    let room = WORD * (steps.len() + STATE_WORDS);
    let traced = agree("trace", "sheet", sheet, |side| written(room, |out| side.trace(sheet, &packed, out)));
    let traced = traced.inspect_err(|_| {
        let _ = fs::write("difference.steps", &packed);
    })?;
    tally.trace(table, traced.answer);
    if packing::refused(traced.answer).is_none() {
        let (answers, _) = traced.bytes.as_chunks();
        steps.iter().zip(answers).for_each(|(&step, &answer)| tally.step(table, step, u64::from_be_bytes(answer)));
    }
    Ok(())
}

/// Steps as the plain generator makes them, or such as mostly are accepted.
fn trace_for(random: &mut Random, sheet: &[u8]) -> Vec<Step> {
    let length = *random.pick(&[10, 40, 100]);
    match plain::open(sheet) {
        Ok(Sheet { table, .. }) if random.chance(50) => random::trace(random, &table, length),
        Ok(Sheet { table, .. }) => runs::lively(random, &table, length),
        Err(_) => (0..length).map(|_| random::any_step(random)).collect(),
    }
}

/// The steps, ticks by any number that means one, and some bytes behind that are no step.
fn packed(random: &mut Random, steps: &[Step]) -> Vec<u8> {
    let mut bytes = packing::steps(steps);
    for (place, step) in bytes.chunks_exact_mut(STEP).zip(steps) {
        if *step == Step::Tick {
            place[0] = random.between(4, 255) as u8;
        }
    }
    bytes.extend((0..random.below(STEP)).map(|_| 0));
    bytes
}

fn compare_calls(number: u64, tally: &mut Tally) -> Outcome {
    let mut random = Random::new(number ^ 1 << 63);
    let bytes = list(&mut random);
    let told = agree("book", "calls", &bytes, |side| written(BOOK_ROOM, |out| side.book(&bytes, out)))?;
    let words: Vec<u64> = told.bytes.as_chunks().0.iter().map(|&word| u64::from_be_bytes(word)).collect();
    let calls: Vec<Call> = booking::calls(&bytes).collect();
    let (answers, tables) = words.split_at(calls.len());
    calls.iter().zip(answers).for_each(|(call, &answer)| tally.call(call, answer));
    let (book, closed) = tables.split_at(booking::table_size(tables));
    tally.list(if book == closed { "closing means the book as it is" } else { "closing alters the table" });
    Ok(())
}

/// The bytes of a list of calls, at times cut or altered.
fn list(random: &mut Random) -> Vec<u8> {
    let list = calls::list(random);
    let mut bytes = booking::packed(random, &list);
    if random.chance(10) {
        for _ in 0..random.between(1, 8) {
            let place = random.below(bytes.len());
            bytes[place] = random.word() as u8;
        }
    }
    if random.chance(10) {
        bytes.truncate(random.below(bytes.len() + 1));
    }
    bytes
}

/// What a call answered, and the bytes that it wrote.
#[derive(PartialEq)]
struct Told {
    answer: u64,
    bytes: Vec<u8>,
}

fn bare(answer: u64) -> Told {
    Told { answer, bytes: Vec::new() }
}

/// Makes a call with so much room, and with too little. It may write nothing behind its bytes, and nothing without room.
fn written(room: usize, call: impl Fn(&mut [u8]) -> u64) -> Told {
    const FRESH: u8 = 0xA5;
    let mut bytes = vec![FRESH; room + 1];
    let answer = call(&mut bytes);
    let size = packing::size(answer).unwrap_or(0);
    let behind = &bytes[size.min(room)..];
    assert!(behind.iter().all(|&byte| byte == FRESH), "bytes behind the answer were written");
    let mut short = vec![FRESH; size.saturating_sub(1)];
    assert_eq!(call(&mut short), answer, "the answer depends on the room");
    assert!(short.iter().all(|&byte| byte == FRESH), "bytes were written without room");
    bytes.truncate(size);
    Told { answer, bytes }
}

/// What both sides answer, if it is the same.
fn agree(call: &str, kind: &str, given: &[u8], ask: impl Fn(&dyn Side) -> Told) -> Result<Told, Box<dyn Error>> {
    let (proved, plain) = (ask(&Proved), ask(&Plain));
    if proved == plain {
        return Ok(proved);
    }
    fs::write(format!("difference.{kind}"), given)?;
    let answers = format!("proved {:#x}, plain {:#x}", proved.answer, plain.answer);
    let place = proved.bytes.iter().zip(&plain.bytes).position(|(one, other)| one != other);
    let place = place.map_or(String::new(), |place| format!(", and what is written from byte {place} on"));
    Err(format!("{call} differs: {answers}{place}; what was given is in difference.{kind}").into())
}
