//! Lists of steps that mostly are accepted.

use plain::random::{Random, any_step};
use plain::step::Memory;
use plain::table::{Class, MAX_TIMERS, Table};
use plain::{Machine, Message, State, Step};

/// So many steps from a table's start, most of them accepted. Where none is found that can be made, the step is one that is refused.
pub fn lively(random: &mut Random, table: &Table, length: usize) -> Vec<Step> {
    let machine = Machine::new(table);
    let mut memory: Memory = [Message::default(); _];
    let Ok(mut state) = machine.start(&memory) else {
        return (0..length).map(|_| any_step(random)).collect();
    };
    (0..length).map(|_| make_one(random, &machine, &mut state, &mut memory)).collect()
}

fn make_one(random: &mut Random, machine: &Machine, state: &mut State, memory: &mut Memory) -> Step {
    const TRIES: usize = 64;
    for _ in 0..TRIES {
        let step = promising(random, machine, state);
        if machine.step(state, memory, step).is_ok() {
            return step;
        }
    }
    Step::Tick
}

fn promising(random: &mut Random, machine: &Machine, state: &State) -> Step {
    let table = machine.table();
    let p = random.below(table.processes.len().max(1));
    match random.below(16) {
        0 => offer(random, table),
        1 => Step::Discard(p),
        2 => Step::Expire { process: p, timer: random.below(MAX_TIMERS) },
        3 => Step::Tick,
        _ => {
            let here = machine.edges_here(state, p);
            if here.is_empty() { Step::Tick } else { Step::Move(*random.pick(here) as usize) }
        }
    }
}

fn offer(random: &mut Random, table: &Table) -> Step {
    let inbound: Vec<usize> =
        (0..table.signals.len()).filter(|&signal| table.signals[signal].class() == Some(Class::Inbound)).collect();
    if inbound.is_empty() {
        return Step::Tick;
    }
    Step::Offer { signal: *random.pick(&inbound), value: random.value() }
}
