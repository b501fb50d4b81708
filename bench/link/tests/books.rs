//! Both sides on lists of calls that are known, and the form of lists.

use link::Side;
use link::booking::{self, CALL, CALLS, HEAD};
use link::plainly::Plain;
use link::proved::Proved;
use plain::calls::{self, List};
use plain::random::Random;
use plain::sheet::Sheet;
use plain::table::*;
use plain::{Call, Room, Table, close, open};

/// The words that both sides answer.
fn words(bytes: &[u8]) -> Vec<u64> {
    let answered = |side: &dyn Side| {
        let mut out = vec![0; 1 << 18];
        let size = side.book(bytes, &mut out) as usize;
        out.truncate(size);
        out
    };
    let told = answered(&Proved);
    assert_eq!(told, answered(&Plain));
    told.as_chunks().0.iter().map(|&word| u64::from_be_bytes(word)).collect()
}

fn packed(room: Room, calls: Vec<Call>) -> Vec<u8> {
    booking::packed(&mut Random::new(1), &List { room, calls })
}

const AMPLE: Room = Room { edges: MAX_EDGES, terms: MAX_TERMS };

/// The worked example, and the calls that enter it.
fn gate() -> (Table, Vec<Call>) {
    let sheet = link::sheets::worked();
    let Sheet { table, .. } = open(&sheet).unwrap();
    let mut calls: Vec<Call> = table.processes.iter().cloned().map(Call::DeclareProcess).collect();
    calls.extend(table.signals.iter().copied().map(Call::DeclareSignal));
    calls.push(Call::EnterExpression(table.terms.clone()));
    calls.extend(table.edges.iter().copied().map(Call::EnterEdge));
    (table, calls)
}

fn table_words(table: &Table) -> Vec<u64> {
    let mut words = Vec::new();
    booking::push_table(table, &mut words);
    words
}

/// The refusal of this number, layer and place.
fn refused(number: u64, layer: u64, place: u64) -> u64 {
    1 << 63 | number << 55 | layer << 52 | place << 26
}

#[test]
fn both_enter_the_worked_example() {
    let (table, mut calls) = gate();
    calls.extend([Call::Ready, Call::Mark, Call::Ready, Call::Close, Call::StrikeEdge(7), Call::Ready]);
    let words = words(&packed(AMPLE, calls));
    let (answers, tables) = words.split_at(19);
    // Two processes, three signals, all terms, seven edges; then the calls behind them.
    assert_eq!(answers[..13], [0, 1, 0, 1, 2, 0, 0, 1, 2, 3, 4, 5, 6]);
    assert_eq!(answers[13..], [refused(17, 4, 0), 7, 0, 0, refused(16, 4, 7), 0]);
    let (book, closed) = tables.split_at(booking::table_size(tables));
    assert_eq!(book, table_words(&table));
    assert_eq!(closed, table_words(&close(&table)));
}

#[test]
fn both_close_to_the_book_without_marks() {
    let (table, mut calls) = gate();
    calls.extend([Call::Mark, Call::ChangeEdge(2, table.edges[2])]);
    let words = words(&packed(AMPLE, calls));
    let tables = &words[15..];
    assert_eq!(tables, [table_words(&table), table_words(&table)].concat());
}

#[test]
fn both_are_full_where_the_memories_end() {
    let (table, calls) = gate();
    let mut more = calls.clone();
    more.extend([Call::EnterEdge(table.edges[0]), Call::EnterExpression(table.terms.clone())]);
    let exact = Room { edges: 7, terms: 9 };
    assert_eq!(words(&packed(exact, more.clone()))[13..15], [refused(15, 4, 7), refused(15, 4, 5)]);
    assert_eq!(words(&packed(Room { edges: 8, terms: 10 }, more))[13..15], [7, 5]);
    let none = words(&packed(Room { edges: 0, terms: 0 }, calls));
    assert_eq!(none[5..7], [refused(15, 4, 0), refused(15, 4, 0)]);
}

#[test]
fn both_are_full_at_the_limits() {
    let (table, calls) = gate();
    let mut more = calls.clone();
    more.extend((7..=MAX_EDGES).map(|_| Call::EnterEdge(table.edges[0])));
    more.extend((0..=(MAX_TERMS - 5) / 16).map(|_| Call::EnterExpression(vec![Term { operation: 0, argument: 0 }; 16])));
    let ample = Room { edges: usize::from(u16::MAX), terms: usize::from(u16::MAX) };
    let words = words(&packed(ample, more.clone()));
    assert_eq!(words[13 + 2041 - 1..13 + 2042], [2047, refused(15, 4, 2048)]);
    assert_eq!(words[more.len() - 2..more.len()], [4069, refused(15, 4, 4085)]);
}

#[test]
fn bytes_that_are_no_list_are_one() {
    // No call at all: two empty books.
    for bytes in [&[][..], &[1], &[0; HEAD], &[0; HEAD + CALL - 1]] {
        assert_eq!(words(bytes), [0; 8]);
    }
    // Zeros declare a process without locations.
    assert_eq!(words(&[0; HEAD + CALL])[0], refused(3, 2, 0));
    // No more calls are made than there may be.
    let ready = packed(AMPLE, vec![Call::Ready; CALLS + 1]);
    assert_eq!(words(&ready).len(), CALLS + 8);
}

#[test]
fn nothing_is_written_without_room() {
    let bytes = packed(AMPLE, gate().1);
    let needed = 8 * words(&bytes).len();
    for side in [&Proved as &dyn Side, &Plain] {
        let mut out = vec![7; needed - 1];
        assert_eq!(side.book(&bytes, &mut out), needed as u64);
        assert!(out.iter().all(|&byte| byte == 7));
    }
}

#[test]
fn lists_are_packed_and_read_again() {
    for seed in 0..300 {
        let mut random = Random::new(seed);
        let list = calls::list(&mut random);
        let bytes = booking::packed(&mut random, &list);
        let read: Vec<Call> = booking::calls(&bytes).collect();
        assert_eq!(read.len(), list.calls.len().min(CALLS));
        for (read, call) in read.iter().zip(&list.calls) {
            // A process with more than it has places for is not read as it was, but refused all the same.
            match (read, call) {
                (Call::DeclareProcess(read), Call::DeclareProcess(process)) => {
                    assert_eq!((read.locations, read.first), (process.locations, process.first));
                    assert_eq!((read.variables.len(), read.timers.len()), (process.variables.len(), process.timers.len()));
                }
                _ => assert_eq!(read, call),
            }
        }
    }
}
