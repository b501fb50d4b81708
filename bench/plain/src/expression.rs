//! Expressions: runs of terms in postfix order.

use crate::table::{MAX_EXPRESSION, MAX_VARIABLES, Span, Term};

#[derive(Clone, Copy)]
enum Operation {
    Number,
    Variable,
    Sum,
    Difference,
    Equal,
    Less,
    Both,
    Not,
}

impl Operation {
    fn of(number: u8) -> Option<Operation> {
        Some(match number {
            0 => Operation::Number,
            1 => Operation::Variable,
            2 => Operation::Sum,
            3 => Operation::Difference,
            4 => Operation::Equal,
            5 => Operation::Less,
            6 => Operation::Both,
            7 => Operation::Not,
            _ => return None,
        })
    }

    /// How many operands it takes.
    fn operands(self) -> usize {
        match self {
            Operation::Number | Operation::Variable => 0,
            Operation::Not => 1,
            _ => 2,
        }
    }
}

/// The terms of a good expression over that many variables, or nothing.
pub fn check(terms: &[Term], span: Span, variables: usize) -> Option<&[Term]> {
    if span.count == 0 || usize::from(span.count) > MAX_EXPRESSION {
        return None;
    }
    let terms = span.of(terms)?;
    let mut depth = 0;
    for term in terms {
        let operation = Operation::of(term.operation)?;
        let good = match operation {
            Operation::Number => true,
            Operation::Variable => usize::try_from(term.argument).is_ok_and(|number| number < variables),
            _ => term.argument == 0,
        };
        if !good || depth < operation.operands() {
            return None;
        }
        depth = depth - operation.operands() + 1;
    }
    (depth == 1).then_some(terms)
}

/// The value of an expression that `check` has answered.
pub fn evaluate(terms: &[Term], variables: &[i16; MAX_VARIABLES]) -> i16 {
    let mut stack = [0; MAX_EXPRESSION];
    let mut depth = 0;
    for term in terms {
        let operation = Operation::of(term.operation).expect("checked");
        depth -= operation.operands();
        let (a, b) = (stack[depth], stack.get(depth + 1).copied().unwrap_or(0));
        stack[depth] = match operation {
            Operation::Number => term.argument,
            Operation::Variable => variables[term.argument as usize],
            Operation::Sum => i16::wrapping_add(a, b),
            Operation::Difference => i16::wrapping_sub(a, b),
            Operation::Equal => (a == b).into(),
            Operation::Less => (a < b).into(),
            Operation::Both => (a != 0 && b != 0).into(),
            Operation::Not => (a == 0).into(),
        };
        depth += 1;
    }
    stack[0]
}

/// The variables that the terms of a span mention, a bit each.
pub fn mentions(terms: &[Term], span: Span) -> u8 {
    span.of(terms)
        .unwrap_or_default()
        .iter()
        .filter(|term| term.operation == Operation::Variable as u8 && (0..MAX_VARIABLES as i16).contains(&term.argument))
        .fold(0, |mask, term| mask | 1 << term.argument)
}
