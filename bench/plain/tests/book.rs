//! The book: what its calls answer and refuse, on the worked example and on random lists.

use plain::book::{Book, Call, Room};
use plain::calls;
use plain::random::Random;
use plain::table::*;
use plain::{close, test};

const AMPLE: Room = Room { edges: MAX_EDGES, terms: MAX_TERMS };

fn process(locations: u8, variables: Vec<i16>, timers: Vec<Timer>) -> Call {
    Call::DeclareProcess(Process { locations, first: 0, variables, timers })
}

fn signal(class: u8, destination: u8) -> Call {
    Call::DeclareSignal(Signal { class, destination })
}

fn expression(terms: &[(u8, i16)]) -> Call {
    Call::EnterExpression(terms.iter().map(|&(operation, argument)| Term { operation, argument }).collect())
}

/// An edge without guard and value.
fn edge(process: u8, from: u8, to: u8, kind: Kind, first: u8, second: u8) -> Edge {
    Edge { process, from, to, kind: kind as u8, first, second, ..Edge::default() }
}

fn span(start: u16, count: u8) -> Span {
    Span { start, count }
}

/// The worked example's processes, signals and terms, and then its edges.
fn gate() -> (Vec<Call>, Vec<Edge>) {
    let calls = vec![
        process(3, vec![0, 7], vec![None]),
        process(2, vec![0], vec![None]),
        signal(1, 0),
        signal(0, 1),
        signal(2, 0),
        expression(&[(1, 0)]),
        expression(&[(1, 1)]),
        expression(&[(0, 0), (1, 0), (5, 0)]),
    ];
    let x0 = span(0, 1);
    let edges = vec![
        edge(0, 0, 1, Kind::Input, 0, 0),
        Edge { value: x0, ..edge(0, 1, 2, Kind::Output, 1, 0) },
        Edge { value: span(1, 1), ..edge(0, 2, 0, Kind::Set, 0, 0) },
        edge(0, 0, 0, Kind::Timeout, 0, 0),
        edge(1, 0, 1, Kind::Input, 1, 0),
        Edge { mode: 1, guard: span(2, 3), value: x0, ..edge(1, 1, 0, Kind::Set, 0, 0) },
        Edge { mode: 2, value: x0, ..edge(1, 1, 0, Kind::Output, 2, 0) },
    ];
    (calls, edges)
}

/// The worked example in memories of these lengths.
fn entered(room: Room) -> Book {
    let mut book = Book::new(room);
    let (calls, edges) = gate();
    for call in calls.into_iter().chain(edges.into_iter().map(Call::EnterEdge)) {
        book.make(&call).unwrap();
    }
    book
}

/// The number that a call answers, or the line of its refusal.
fn told(book: &mut Book, call: Call) -> String {
    book.make(&call).map_or_else(|refusal| refusal.to_string(), |number| number.to_string())
}

#[test]
fn entries_answer_their_numbers() {
    let mut book = Book::new(AMPLE);
    let (calls, edges) = gate();
    let answers: Vec<usize> = calls.iter().map(|call| book.make(call).unwrap()).collect();
    assert_eq!(answers, [0, 1, 0, 1, 2, 0, 1, 2]);
    let answers: Vec<usize> = edges.into_iter().map(|edge| book.make(&Call::EnterEdge(edge)).unwrap()).collect();
    assert_eq!(answers, [0, 1, 2, 3, 4, 5, 6]);
    let Table { processes, signals, edges, terms } = book.table();
    assert_eq!((processes.len(), signals.len(), edges.len(), terms.len()), (2, 3, 7, 5));
}

#[test]
fn marks_are_kept_until_an_edit() {
    let mut book = entered(AMPLE);
    assert_eq!(told(&mut book, Call::Ready), "refused 17 book 0");
    assert_eq!(book.close(), *book.table());
    assert_eq!(told(&mut book, Call::Mark), "7");
    assert_eq!(told(&mut book, Call::Ready), "0");
    assert_eq!(book.close(), close(book.table()));
    assert_eq!(book.close().edges.len(), 10);
    // A refused edit keeps them; an accepted one drops them, even if it changes nothing.
    assert_eq!(told(&mut book, Call::StrikeEdge(7)), "refused 16 book 7");
    assert_eq!(told(&mut book, Call::Ready), "0");
    let same = book.table().edges[2];
    assert_eq!(told(&mut book, Call::ChangeEdge(2, same)), "0");
    assert_eq!(told(&mut book, Call::Ready), "refused 17 book 0");
    assert_eq!(book.close(), *book.table());
}

#[test]
fn a_refused_mark_keeps_what_was_kept() {
    let mut book = entered(AMPLE);
    assert_eq!(told(&mut book, Call::StrikeEdge(6)), "0");
    assert_eq!(told(&mut book, Call::Mark), "refused 12 table 1 1");
    assert_eq!(told(&mut book, Call::Ready), "refused 17 book 0");
}

#[test]
fn later_edges_move_down() {
    let mut book = entered(AMPLE);
    let edges = book.table().edges.clone();
    assert_eq!(told(&mut book, Call::StrikeEdge(2)), "0");
    assert_eq!(book.table().edges, [&edges[..2], &edges[3..]].concat());
}

#[test]
fn wrong_records_are_refused_first() {
    let mut book = entered(AMPLE);
    assert_eq!(told(&mut book, process(0, vec![], vec![])), "refused 3 table 2");
    assert_eq!(told(&mut book, signal(0, 2)), "refused 3 table 3");
    assert_eq!(told(&mut book, expression(&[])), "refused 9 book 5");
    assert_eq!(told(&mut book, expression(&[(0, 0); 17])), "refused 9 book 5");
    assert_eq!(told(&mut book, expression(&[(16, 0)])), "refused 9 book 5");
    let missing = edge(2, 0, 0, Kind::Skip, 0, 0);
    assert_eq!(told(&mut book, Call::EnterEdge(missing)), "refused 7 edge 7");
    assert_eq!(told(&mut book, Call::ChangeEdge(9, missing)), "refused 7 edge 9");
    let wrong = edge(0, 0, 0, Kind::Input, 2, 0);
    assert_eq!(told(&mut book, Call::ChangeEdge(1, wrong)), "refused 8 edge 1");
    assert_eq!(told(&mut book, Call::ChangeEdge(9, edge(0, 0, 0, Kind::Skip, 0, 0))), "refused 16 book 9");
}

#[test]
fn lists_and_memories_are_full() {
    let mut book = entered(Room { edges: 7, terms: 6 });
    let skip = edge(0, 0, 0, Kind::Skip, 0, 0);
    assert_eq!(told(&mut book, Call::EnterEdge(skip)), "refused 15 book 7");
    assert_eq!(told(&mut book, expression(&[(0, 0), (0, 1)])), "refused 15 book 5");
    assert_eq!(told(&mut book, expression(&[(0, 0)])), "5");
    assert_eq!(told(&mut book, expression(&[(0, 0)])), "refused 15 book 6");
    assert_eq!(told(&mut book, Call::StrikeEdge(0)), "0");
    assert_eq!(told(&mut book, Call::EnterEdge(skip)), "6");
    for _ in 2..MAX_PROCESSES {
        book.make(&process(1, vec![], vec![])).unwrap();
    }
    assert_eq!(told(&mut book, process(1, vec![], vec![])), "refused 15 book 8");
    for _ in 3..MAX_SIGNALS {
        book.make(&signal(3, 0)).unwrap();
    }
    assert_eq!(told(&mut book, signal(3, 0)), "refused 15 book 64");
    assert_eq!(told(&mut book, signal(3, 1)), "refused 3 table 64");
}

#[test]
fn no_memory_is_longer_than_its_list() {
    let mut book = entered(Room { edges: MAX_EDGES + 9, terms: MAX_TERMS + 9 });
    let skip = Call::EnterEdge(edge(0, 0, 0, Kind::Skip, 0, 0));
    let entered = (0..).find(|_| book.make(&skip).is_err()).unwrap();
    assert_eq!(entered + 7, MAX_EDGES);
    let term = expression(&[(0, 0)]);
    let entered = (0..).find(|_| book.make(&term).is_err()).unwrap();
    assert_eq!(entered + 5, MAX_TERMS);
}

#[test]
fn refused_calls_change_nothing_in_random_lists() {
    let (mut accepted, mut refused, mut closed) = (0, 0, 0);
    for seed in 0..400 {
        let list = calls::list(&mut Random::new(seed));
        let mut book = Book::new(list.room);
        let mut marked = false;
        for call in &list.calls {
            let before = book.table().clone();
            let answer = book.make(call);
            match (call, answer) {
                (Call::Ready, answer) => assert_eq!(answer.is_ok(), marked),
                (Call::Mark, Ok(_)) => marked = true,
                (Call::Mark | Call::Close, _) => assert_eq!(*book.table(), before),
                (_, Ok(_)) => marked = false,
                (_, Err(_)) => assert_eq!(*book.table(), before),
            }
            if answer.is_ok() { accepted += 1 } else { refused += 1 }
        }
        let expected = if marked { close(book.table()) } else { book.table().clone() };
        assert_eq!(book.close(), expected);
        assert!(!marked || test(book.table()).is_ok());
        closed += u32::from(marked);
    }
    assert!(accepted > 10_000 && refused > 1000 && closed > 100, "{accepted} {refused} {closed}");
}
