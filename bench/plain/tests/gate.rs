//! The worked example of the documents: its bytes, its marks, its refusals, its closed table, and its runs.

use plain::bits::Writer;
use plain::mark::instances;
use plain::sheet::Names;
use plain::step::{Machine, Memory, Message, State, Step};
use plain::trace::{Snapshot, run};
use plain::{Plan, Refusal, Sheet, close, examine, mark, open, test, write};

const BYTES: &str = "
    01 20 60 0E 00 52 21 00 00 00 00 70 00 01 11 00
    00 00 00 02 01 40 00 80 00 00 00 00 00 00 91 04
    00 00 00 00 04 10 30 00 00 00 00 08 40 05 00 00
    00 00 00 00 80 80 40 00 00 00 00 08 83 00 10 02
    18 00 04 88 10 82 00 00 00 00 44 00 00 40 00 40
    00 00 40 00 14 00 00 02 72 78 02 74 78 03 72 65
    71 02 67 6F 03 61 63 6B";

const EDGES: [[u16; 11]; 7] = [
    [0, 0, 1, 0, 0, 0, 0, 0, 0, 0, 0],
    [0, 1, 2, 1, 1, 0, 0, 0, 0, 0, 1],
    [0, 2, 0, 3, 0, 0, 0, 0, 0, 1, 1],
    [0, 0, 0, 5, 0, 0, 0, 0, 0, 0, 0],
    [1, 0, 1, 0, 1, 0, 0, 0, 0, 0, 0],
    [1, 1, 0, 3, 0, 0, 1, 2, 3, 0, 1],
    [1, 1, 0, 1, 2, 0, 2, 0, 0, 0, 1],
];

/// The worked example's sheet, from the documents' fields.
fn gate() -> Vec<u8> {
    let mut writer = Writer::default();
    writer.record([(8, 1), (4, 2), (7, 3), (12, 7), (13, 5)]);
    writer.record([(4, 2), (4, 2), (4, 1), (4, 0)]);
    writer.record([(16, 0), (16, 7), (1, 0), (15, 0)]);
    writer.record([(4, 1), (4, 1), (4, 1), (4, 0)]);
    writer.record([(16, 0), (1, 0), (15, 0)]);
    for (class, destination) in [(1, 0), (0, 1), (2, 0)] {
        writer.record([(3, class), (3, destination)]);
    }
    for [process, from, to, kind, first, second, mode, guard, guards, value, values] in EDGES {
        writer.record([(3, process), (4, from), (4, to), (3, kind), (6, first), (4, second), (2, mode)]);
        writer.record([(12, guard), (5, guards), (12, value), (5, values)]);
    }
    for (operation, argument) in [(1, 0), (1, 1), (0, 0), (1, 0), (5, 0)] {
        writer.record([(4, operation), (16, argument)]);
    }
    let mut bytes = writer.finish();
    for name in ["rx", "tx", "req", "go", "ack"] {
        bytes.push(name.len() as u8);
        bytes.extend(name.bytes());
    }
    bytes
}

#[test]
fn the_fields_give_the_bytes() {
    let bytes: Vec<u8> = BYTES.split_whitespace().map(|byte| u8::from_str_radix(byte, 16).unwrap()).collect();
    assert_eq!(gate(), bytes);
}

#[test]
fn it_opens_and_is_written_the_same() {
    let bytes = gate();
    let Sheet { table, names } = open(&bytes).unwrap();
    assert_eq!((table.processes.len(), table.signals.len(), table.edges.len(), table.terms.len()), (2, 3, 7, 5));
    assert_eq!(names.iter().collect::<Vec<_>>(), [&b"rx"[..], b"tx", b"req", b"go", b"ack"]);
    assert_eq!(write(&table, names).unwrap(), bytes);
}

#[test]
fn seven_of_thirteen_are_marked() {
    let bytes = gate();
    let table = open(&bytes).unwrap().table;
    let marks = mark(&table);
    assert_eq!(marks.listing(&table), "0 0 x0\n0 1 x0\n0 2 x0\n1 0 x0\n1 0 t0\n1 1 x0\n1 1 t0\n7 of 13\n");
    assert_eq!((marks.count(), instances(&table)), (7, 13));
}

#[test]
fn it_closes_to_ten_edges_and_129_bytes() {
    let bytes = gate();
    let Sheet { table, names } = open(&bytes).unwrap();
    let closed = close(&table);
    assert_eq!(test(&table), Ok(10));
    assert_eq!(examine(&closed), Ok(()));
    let edges: Vec<String> = closed
        .edges
        .iter()
        .map(|e| {
            format!(
                "{} {}-{} {} {} {} {} {:?} {:?}",
                e.process,
                e.from,
                e.to,
                e.kind,
                e.first,
                e.second,
                e.mode,
                (e.guard.start, e.guard.count),
                (e.value.start, e.value.count)
            )
        })
        .collect();
    let expected = [
        "0 0-1 6 1 0 0 (0, 0) (0, 0)",
        "0 1-2 1 1 0 0 (0, 0) (0, 0)",
        "0 2-0 3 0 0 0 (0, 0) (1, 1)",
        "0 0-0 5 0 0 0 (0, 0) (0, 0)",
        "1 0-1 0 1 0 0 (0, 0) (0, 0)",
        "1 1-0 3 0 0 0 (0, 0) (0, 0)",
        "1 1-0 7 0 0 0 (0, 0) (0, 0)",
        "0 0-0 6 1 1 0 (0, 0) (0, 0)",
        "1 0-0 5 0 0 0 (0, 0) (0, 0)",
        "1 0-0 6 0 1 0 (0, 0) (0, 0)",
    ];
    assert_eq!(edges, expected);
    let sheet = write(&closed, names).unwrap();
    assert_eq!(sheet.len(), 129);
    assert_eq!(open(&sheet).unwrap(), Sheet { table: closed, names });
    let summary = "2 processes, 3 signals\n7 edges, closed 10\n7 of 13 instances marked\nchaos timers: rx t1\n\
                   awaiting chaos: 0\nskipped: 6\nemptied: 1 5\nopened: 5 6\n";
    assert_eq!(Plan::new(&table).unwrap().summary(names), summary);
}

/// What listing the marks of a sheet prints for a refusal.
fn refusal(bytes: &[u8]) -> String {
    let outcome = open(bytes).and_then(|sheet| examine(&sheet.table));
    outcome.expect_err("a refusal").to_string()
}

#[test]
fn altered_bytes_are_refused() {
    let altered = |changes: &[(usize, u8)]| {
        let mut bytes = gate();
        for &(at, byte) in changes {
            bytes[at] = byte;
        }
        refusal(&bytes)
    };
    let cases: [(&[(usize, u8)], &str); 19] = [
        (&[(0, 0x02)], "refused 2 sheet 0"),
        (&[(1, 0x00)], "refused 3 sheet 8"),
        (&[(7, 0x30)], "refused 3 sheet 56"),
        (&[(19, 0x08)], "refused 3 sheet 156"),
        (&[(20, 0x81)], "refused 3 sheet 159"),
        (&[(13, 0x11)], "refused 4 sheet 93"),
        (&[(21, 0x44)], "refused 4 sheet 171"),
        (&[(86, 0x01)], "refused 4 sheet 694"),
        (&[(87, 0x00)], "refused 6 sheet 696"),
        (&[(88, 0x20)], "refused 6 sheet 704"),
        (&[(46, 0x04)], "refused 7 edge 3 sheet 354"),
        (&[(24, 0x80)], "refused 8 edge 0 sheet 174"),
        (&[(24, 0x40)], "refused 8 edge 0 sheet 174"),
        (&[(64, 0x10)], "refused 9 edge 5 sheet 474"),
        (&[(43, 0x28)], "refused 9 edge 2 sheet 294"),
        (&[(47, 0x10)], "refused 10 edge 3 sheet 354"),
        (&[(67, 0x80)], "refused 11 table 1 0"),
        (&[(69, 0x81), (71, 0x21), (72, 0x80)], "refused 12 table 1 1"),
        (&[(1, 0x90)], "refused 3 sheet 8"),
    ];
    for (changes, expected) in cases {
        assert_eq!(altered(changes), expected, "{changes:?}");
    }
}

#[test]
fn other_lengths_are_refused() {
    let mut longer = gate();
    longer.push(0);
    assert_eq!(refusal(&longer), "refused 5 sheet 832");
    assert_eq!(refusal(&gate()[..103]), "refused 1 sheet 824");
    assert_eq!(refusal(&[0x01, 0x20]), "refused 1 sheet 12");
    assert_eq!(refusal(&[0x01, 0x00]), "refused 3 sheet 8");
    assert_eq!(refusal(&[]), "refused 1 sheet 0");
}

#[test]
fn a_bad_name_area_is_refused_at_its_own_bit() {
    let bytes = gate();
    let Sheet { table, names } = open(&bytes).unwrap();
    let written = |area: &[u8]| write(&table, Names::new(area)).expect_err("a refusal").to_string();
    let area = names.area();
    assert_eq!(written(&area[..16]), "refused 6 sheet 128");
    assert_eq!(written(&area[..13]), "refused 6 sheet 104");
    assert_eq!(written(&[area, b"!"].concat()), "refused 6 sheet 136");
    assert_eq!(written(b"\x02r "), "refused 6 sheet 16");
    assert_eq!(written(b"\x10"), "refused 6 sheet 0");
    assert_eq!(write(&plain::Table::default(), names).unwrap_err().to_string(), "refused 3 sheet 8");
}

fn steps(lines: &str) -> Vec<Step> {
    lines.split(", ").map(|line| line.parse().unwrap()).collect()
}

/// The end of a run in which every step is accepted.
fn end(table: &plain::Table, lines: &str) -> String {
    let run = run(table, &steps(lines)).unwrap();
    assert!(run.answers.iter().all(|answer| answer.to_string() == "ok"), "{:?}", run.answers);
    run.end.to_string()
}

#[test]
fn open_and_closed_runs_match() {
    let bytes = gate();
    let table = open(&bytes).unwrap().table;
    let closed = close(&table);
    let open_calls = [
        ("E 0 5", "at 0, x0 0, x1 7, t0 off, queue 0(5)", "at 0, x0 0, t0 off, queue"),
        ("M 0", "at 1, x0 5, x1 7, t0 off, queue", "at 0, x0 0, t0 off, queue"),
        ("M 1", "at 2, x0 5, x1 7, t0 off, queue", "at 0, x0 0, t0 off, queue 1(5)"),
        ("M 2", "at 0, x0 5, x1 7, t0 on(7), queue", "at 0, x0 0, t0 off, queue 1(5)"),
        ("M 4", "at 0, x0 5, x1 7, t0 on(7), queue", "at 1, x0 5, t0 off, queue"),
        ("M 5", "at 0, x0 5, x1 7, t0 on(7), queue", "at 0, x0 5, t0 on(5), queue"),
        ("K", "at 0, x0 5, x1 7, t0 on(6), queue", "at 0, x0 5, t0 on(4), queue"),
    ];
    for (number, (_, rx, tx)) in open_calls.iter().enumerate() {
        let calls: Vec<&str> = open_calls[..=number].iter().map(|(call, ..)| *call).collect();
        assert_eq!(end(&table, &calls.join(", ")), format!("0 {rx}\n1 {tx}\n"));
    }
    assert_eq!(
        end(&closed, "M 0, M 1, M 2, M 4, M 5"),
        "0 at 0, x0 0, x1 7, t0 on(7), t1 on(0), queue\n1 at 0, x0 0, t0 on(0), queue\n"
    );
    assert_eq!(
        end(&closed, "M 0, M 1, M 2, M 4, M 5, M 7, M 9, K"),
        "0 at 0, x0 0, x1 7, t0 on(6), t1 on(0), queue\n1 at 0, x0 0, t0 on(0), queue\n"
    );
}

fn answers(table: &plain::Table, lines: &str) -> Vec<String> {
    run(table, &steps(lines)).unwrap().answers.iter().map(ToString::to_string).collect()
}

#[test]
fn steps_are_refused() {
    let bytes = gate();
    let table = open(&bytes).unwrap().table;
    let expected =
        ["20 state 0", "19 state 7", "19 state 1", "20 state 1", "20 state 0", "19 state 1", "19 state 2", "19 state 2"];
    let lines = "M 0, M 7, E 1 5, D 1, X 0 0, X 0 1, D 2, X 2 5";
    assert_eq!(answers(&table, lines), expected.map(|rest| format!("refused {rest}")));

    let offers = ["E 0 5"; 17].join(", ");
    assert_eq!(answers(&table, &offers)[15..], ["ok", "refused 21 state 0"]);
    assert_eq!(
        answers(&table, "E 0 -4, M 0, M 1, M 4, M 5, M 6, M 2, K").join(", "),
        "ok, ok, ok, ok, refused 20 state 1, sent 2 -4, ok, ok"
    );
}

#[test]
fn a_negative_setting_is_zero_and_bars_the_tick() {
    let bytes = gate();
    let mut table = open(&bytes).unwrap().table;
    table.processes[0].variables[1] = -4;
    let answers = answers(&table, "E 0 5, M 0, M 1, M 2, M 4, M 5, K, X 0 0, M 3, K");
    assert_eq!(answers[6..], ["refused 20 state 0", "refused 20 state 0", "ok", "ok"]);
}

#[test]
fn a_state_of_another_table_is_refused() {
    let bytes = gate();
    let table = open(&bytes).unwrap().table;
    let mut memory: Memory = [Message::default(); _];
    let start = |table, memory: &[Message]| Machine::new(table).start(memory);
    let step = |table, state: &mut State, memory: &mut [Message]| Machine::new(table).step(state, memory, Step::Tick);
    let refused = |outcome: Result<Option<Message>, Refusal>| outcome.unwrap_err().to_string();

    assert_eq!(start(&table, &memory[..31]).unwrap_err().to_string(), "refused 18 state 1");
    let mut state = start(&table, &memory[..32]).unwrap();
    assert_eq!(refused(step(&table, &mut state, &mut memory[..15])), "refused 18 state 0");

    let mut fewer = table.clone();
    fewer.processes.pop();
    assert_eq!(refused(step(&fewer, &mut state, &mut memory)), "refused 18 state 0");
    let mut broken = table.clone();
    broken.signals[2].destination = 1;
    assert_eq!(refused(step(&broken, &mut state, &mut memory)), "refused 18 state 0");
    let mut narrow = table.clone();
    narrow.processes[1].first = 1;
    let mut elsewhere = start(&narrow, &memory).unwrap();
    narrow.processes[1] = plain::table::Process { locations: 1, first: 0, ..narrow.processes[1].clone() };
    assert_eq!(refused(step(&narrow, &mut elsewhere, &mut memory)), "refused 18 state 1");
    assert_eq!(
        Snapshot::of(&table, &state, &memory).to_string(),
        "0 at 0, x0 0, x1 7, t0 off, queue\n1 at 0, x0 0, t0 off, queue\n"
    );
}
