//! The plain implementation, asked in the same form.

use crate::booking;
use crate::packing::{self, STATE_WORDS, STEP, WORD};
use crate::side::Side;
use plain::step::Memory;
use plain::{Book, Machine, Message, Plan, Refusal, Sheet, State, examine, mark, open, write};

pub struct Plain;

impl Side for Plain {
    fn name(&self) -> &'static str {
        "plain"
    }

    fn open(&self, sheet: &[u8]) -> u64 {
        number(examined(sheet).map(|_| 0))
    }

    fn mark_count(&self, sheet: &[u8]) -> u64 {
        number(examined(sheet).map(|sheet| mark(&sheet.table).count().into()))
    }

    fn marks(&self, sheet: &[u8], out: &mut [u8]) -> u64 {
        let text = match examined(sheet) {
            Ok(Sheet { table, .. }) => mark(&table).listing(&table),
            Err(refusal) => format!("{refusal}\n"),
        };
        fit(text.as_bytes(), out)
    }

    fn close(&self, sheet: &[u8], out: &mut [u8]) -> u64 {
        number(closed(sheet).map(|closed| fit(&closed, out)))
    }

    fn closed_edges(&self, sheet: &[u8]) -> u64 {
        number(sum_of_closed(sheet))
    }

    fn trace(&self, sheet: &[u8], steps: &[u8], out: &mut [u8]) -> u64 {
        number(traced(sheet, steps, out))
    }

    fn book(&self, calls: &[u8], out: &mut [u8]) -> u64 {
        fit(&made(calls), out)
    }
}

fn number(answer: Result<u64, Refusal>) -> u64 {
    answer.unwrap_or_else(packing::refusal)
}

fn fit(bytes: &[u8], out: &mut [u8]) -> u64 {
    if let Some(place) = out.get_mut(..bytes.len()) {
        place.copy_from_slice(bytes);
    }
    bytes.len() as u64
}

fn examined(bytes: &[u8]) -> Result<Sheet<'_>, Refusal> {
    let sheet = open(bytes)?;
    examine(&sheet.table)?;
    Ok(sheet)
}

fn closed(bytes: &[u8]) -> Result<Vec<u8>, Refusal> {
    let Sheet { table, names } = open(bytes)?;
    write(&Plan::new(&table)?.close(), names)
}

fn sum_of_closed(bytes: &[u8]) -> Result<u64, Refusal> {
    let Sheet { table, .. } = open(bytes)?;
    Ok(packing::checksum(&Plan::new(&table)?.close().edges))
}

/// What a list of calls answers, and the book and its closing in the end.
fn made(bytes: &[u8]) -> Vec<u8> {
    let mut book = Book::new(booking::room(bytes));
    let mut words: Vec<u64> =
        booking::calls(bytes).map(|call| book.make(&call).map_or_else(packing::refusal, |number| number as u64)).collect();
    booking::push_table(book.table(), &mut words);
    booking::push_table(&book.close(), &mut words);
    words.iter().flat_map(|word| word.to_be_bytes()).collect()
}

fn traced(bytes: &[u8], steps: &[u8], out: &mut [u8]) -> Result<u64, Refusal> {
    let Sheet { table, .. } = open(bytes)?;
    let machine = Machine::new(&table);
    let memory: Memory = [Message::default(); _];
    let state = machine.start(&memory)?;
    let (steps, _) = steps.as_chunks();
    let size = WORD * (steps.len() + STATE_WORDS);
    if let Some(place) = out.get_mut(..size) {
        make(&machine, state, memory, steps, place);
    }
    Ok(size as u64)
}

/// Makes the steps, and fills a place with the answers and the end.
fn make(machine: &Machine, mut state: State, mut memory: Memory, steps: &[[u8; STEP]], place: &mut [u8]) {
    let (words, _) = place.as_chunks_mut();
    let (answers, end) = words.split_at_mut(steps.len());
    for (&step, answer) in steps.iter().zip(answers) {
        let told = machine.step(&mut state, &mut memory, packing::step_of(step));
        *answer = packing::answer(told.into()).to_be_bytes();
    }
    for (word, place) in packing::state(&state, &memory).zip(end) {
        *place = word.to_be_bytes();
    }
}
