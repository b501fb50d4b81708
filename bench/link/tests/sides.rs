//! Both sides on sheets that are known, and what the sheets and steps to be measured are like.

use link::packing::{self, STATE_WORDS, WORD};
use link::plainly::Plain;
use link::proved::Proved;
use link::sheets::{self, Shape, sheet};
use link::{Side, runs};
use plain::random::Random;
use plain::trace::{Answer, run};
use plain::{Step, examine, mark, open, test};

/// The refusal of this number, layer, place and bit of the sheet.
fn packed(number: u64, layer: u64, place: u64, inside: u64) -> u64 {
    1 << 63 | number << 55 | layer << 52 | place << 26 | inside
}

fn both(ask: impl Fn(&dyn Side) -> u64) -> [u64; 2] {
    [ask(&Proved), ask(&Plain)]
}

#[test]
fn the_worked_example_opens_on_both() {
    let gate = sheets::worked();
    assert_eq!(both(|side| side.open(&gate)), [0; 2]);
    assert_eq!(both(|side| side.mark_count(&gate)), [7; 2]);
}

#[test]
fn both_pack_refusals_alike() {
    let gate = sheets::worked();
    assert_eq!(both(|side| side.open(&gate[..103])), [packed(1, 0, 824, 0); 2]);
    let mut missing = gate.clone();
    missing[46] = 4;
    assert_eq!(both(|side| side.open(&missing)), [packed(7, 1, 3, 355); 2]);
    assert_eq!(both(|side| side.closed_edges(&missing)), [packed(7, 1, 3, 355); 2]);
}

#[test]
fn both_list_the_marks() {
    let gate = sheets::worked();
    let listing = |side: &dyn Side| {
        let mut out = [0; 200];
        let size = side.marks(&gate, &mut out) as usize;
        String::from_utf8(out[..size].to_vec()).unwrap()
    };
    assert_eq!(listing(&Proved), "0 0 x0\n0 1 x0\n0 2 x0\n1 0 x0\n1 0 t0\n1 1 x0\n1 1 t0\n7 of 13\n");
    assert_eq!(listing(&Proved), listing(&Plain));
}

#[test]
fn nothing_is_written_without_room() {
    let gate = sheets::worked();
    let needed = both(|side| side.close(&gate, &mut []));
    for (side, needed) in [&Proved as &dyn Side, &Plain].into_iter().zip(needed) {
        let mut out = vec![7; needed as usize - 1];
        assert_eq!(side.close(&gate, &mut out), needed);
        assert!(out.iter().all(|&byte| byte == 7));
    }
    assert_eq!(needed[0], needed[1]);
}

#[test]
fn both_run_the_worked_example() {
    let gate = sheets::worked();
    let steps = [Step::Offer { signal: 0, value: -4 }, Step::Move(0), Step::Move(1), Step::Tick, Step::Discard(9)];
    let traced = |side: &dyn Side| {
        let mut out = vec![0; WORD * (steps.len() + STATE_WORDS)];
        let size = side.trace(&gate, &packing::steps(&steps), &mut out);
        assert_eq!(size, out.len() as u64);
        out
    };
    let words: Vec<u64> = traced(&Proved).as_chunks().0.iter().map(|&word| u64::from_be_bytes(word)).collect();
    // Offered, taken, passed on as `go`, no tick while its message waits, no ninth process.
    assert_eq!(words[..5], [0, 0, 0, packed(20, 5, 0, 0), packed(19, 5, 9, 0)]);
    // The receiver is at its third location, with the value in its first variable; the transmitter's queue holds the message.
    assert_eq!(words[5..8], [2, 0xFFFC, 7]);
    assert_eq!(words[5 + 33 + 17], 1 << 24 | 1 << 16 | 0xFFFC);
    assert_eq!(traced(&Proved), traced(&Plain));
}

#[test]
fn steps_are_packed_and_read_again() {
    let mut random = Random::new(3);
    for _ in 0..1000 {
        let step = plain::random::any_step(&mut random);
        assert_eq!(packing::step_of(packing::step(step)), step);
    }
}

#[test]
fn the_largest_sheet_is_as_large_as_any() {
    let bytes = sheet(&Shape::full(2048).table());
    assert_eq!(bytes.len(), 27_078);
    let table = open(&bytes).unwrap().table;
    assert_eq!(examine(&table), Ok(()));
    assert!(mark(&table).count() > 1000);
}

#[test]
fn the_closing_sheet_closes_to_the_limit() {
    let table = sheets::closing_to(2048);
    assert_eq!((table.edges.len(), test(&table)), (1792, Ok(2048)));
}

#[test]
fn tables_of_each_size_pass_the_examination() {
    for edges in (205..=2048).step_by(205) {
        assert_eq!(examine(&Shape::full(edges).table()), Ok(()), "{edges} edges");
    }
    assert_eq!(test(&Shape::middling().table()).map(|count| count > 200), Ok(true));
}

#[test]
fn most_steps_are_accepted() {
    for shape in [Shape::middling(), Shape::full(2048)] {
        let table = shape.table();
        let steps = runs::lively(&mut Random::new(1), &table, 20_000);
        let answers = run(&table, &steps).unwrap().answers;
        let refused = answers.iter().filter(|answer| matches!(answer, Answer::Refused(_))).count();
        assert!(refused < 1000, "{refused} of 20000 are refused");
    }
}
