//! Tables: four lists of plain records.
//!
//! Kinds, classes, modes and operations are held as numbers, since a table that has not been examined may hold any; `Edge::kind` and
//! the like decode them.

pub const MAX_PROCESSES: usize = 8;
pub const MAX_SIGNALS: usize = 64;
pub const MAX_EDGES: usize = 2048;
pub const MAX_TERMS: usize = 4096;
pub const MAX_LOCATIONS: usize = 16;
pub const MAX_VARIABLES: usize = 8;
pub const MAX_TIMERS: usize = 8;
pub const MAX_EXPRESSION: usize = 16;

/// The second field of an input that drops its value.
pub const DROP: u8 = 15;

/// Off, or on with a number.
pub type Timer = Option<u16>;

#[derive(Clone, Debug, Default, PartialEq, Eq)]
pub struct Table {
    pub processes: Vec<Process>,
    pub signals: Vec<Signal>,
    pub edges: Vec<Edge>,
    pub terms: Vec<Term>,
}

#[derive(Clone, Debug, Default, PartialEq, Eq)]
pub struct Process {
    pub locations: u8,
    pub first: u8,
    pub variables: Vec<i16>,
    pub timers: Vec<Timer>,
}

#[derive(Clone, Copy, Debug, PartialEq, Eq)]
pub struct Signal {
    pub class: u8,
    pub destination: u8,
}

#[derive(Clone, Copy, Debug, PartialEq, Eq)]
pub enum Class {
    Internal,
    Inbound,
    Outbound,
    Absent,
}

#[derive(Clone, Copy, Debug, Default, PartialEq, Eq)]
pub struct Edge {
    pub process: u8,
    pub from: u8,
    pub to: u8,
    pub kind: u8,
    pub first: u8,
    pub second: u8,
    pub mode: u8,
    pub guard: Span,
    pub value: Span,
}

/// A run of terms in the term list.
#[derive(Clone, Copy, Debug, Default, PartialEq, Eq)]
pub struct Span {
    pub start: u16,
    pub count: u8,
}

#[derive(Clone, Copy, Debug, PartialEq, Eq)]
pub enum Kind {
    Input,
    Output,
    Assignment,
    Set,
    Reset,
    Timeout,
    Rearm,
    Skip,
}

#[derive(Clone, Copy, Debug, PartialEq, Eq)]
pub enum Mode {
    Unguarded,
    Expression,
    Else,
}

#[derive(Clone, Copy, Debug, PartialEq, Eq)]
pub struct Term {
    pub operation: u8,
    pub argument: i16,
}

impl Signal {
    pub const ABSENT: Signal = Signal { class: Class::Absent as u8, destination: 0 };

    pub fn class(self) -> Option<Class> {
        Some(match self.class {
            0 => Class::Internal,
            1 => Class::Inbound,
            2 => Class::Outbound,
            3 => Class::Absent,
            _ => return None,
        })
    }
}

impl Span {
    pub const EMPTY: Span = Span { start: 0, count: 0 };

    /// The terms of this span, if they lie inside the list.
    pub fn of(self, terms: &[Term]) -> Option<&[Term]> {
        let start = usize::from(self.start);
        terms.get(start..start + usize::from(self.count))
    }
}

impl Kind {
    pub fn is_acting(self) -> bool {
        matches!(self, Kind::Output | Kind::Assignment | Kind::Set | Kind::Reset | Kind::Skip)
    }

    pub fn takes_guard(self) -> bool {
        self.is_acting()
    }

    pub fn takes_value(self) -> bool {
        matches!(self, Kind::Output | Kind::Assignment | Kind::Set)
    }
}

impl Edge {
    pub fn kind(&self) -> Option<Kind> {
        Some(match self.kind {
            0 => Kind::Input,
            1 => Kind::Output,
            2 => Kind::Assignment,
            3 => Kind::Set,
            4 => Kind::Reset,
            5 => Kind::Timeout,
            6 => Kind::Rearm,
            7 => Kind::Skip,
            _ => return None,
        })
    }

    pub fn mode(&self) -> Option<Mode> {
        Some(match self.mode {
            0 => Mode::Unguarded,
            1 => Mode::Expression,
            2 => Mode::Else,
            _ => return None,
        })
    }

    /// Whether it waits for timer `first` to run out.
    pub fn awaits_timer(&self) -> bool {
        matches!(self.kind(), Some(Kind::Timeout | Kind::Rearm))
    }
}

impl Table {
    pub fn class_of(&self, signal: u8) -> Option<Class> {
        self.signals.get(usize::from(signal))?.class()
    }
}
