//! Refusals: a number, a layer and a place, and how they are written.

use std::error::Error;
use std::fmt;

/// What is wrong. The discriminants are the documents' numbers.
#[derive(Clone, Copy, Debug, PartialEq, Eq)]
pub enum Fault {
    Cut = 1,
    Version = 2,
    Limit = 3,
    NotZero = 4,
    Surplus = 5,
    Name = 6,
    Missing = 7,
    WrongSignal = 8,
    Expression = 9,
    Form = 10,
    Mixed = 11,
    NoWayOn = 12,
    NinthTimer = 13,
    TooManyEdges = 14,
    Full = 15,
    NoEdge = 16,
    Unmarked = 17,
    OtherState = 18,
    Unknown = 19,
    NotReady = 20,
    QueueFull = 21,
}

/// Where it is wrong.
#[derive(Clone, Copy, Debug, PartialEq, Eq)]
pub enum Place {
    /// A bit of the sheet, or of the name area.
    Sheet(usize),
    /// 0, or the number of a process or signal.
    Table(usize),
    Location {
        process: usize,
        location: usize,
    },
    Edge(usize),
    /// An edge met while opening, and the first bit of its record.
    EdgeAt {
        edge: usize,
        bit: usize,
    },
    Test(usize),
    Book(usize),
    State(usize),
}

#[derive(Clone, Copy, Debug, PartialEq, Eq)]
pub struct Refusal {
    pub fault: Fault,
    pub place: Place,
}

impl Fault {
    pub fn at(self, place: Place) -> Refusal {
        Refusal { fault: self, place }
    }

    pub fn at_bit(self, bit: usize) -> Refusal {
        self.at(Place::Sheet(bit))
    }
}

impl fmt::Display for Place {
    fn fmt(&self, f: &mut fmt::Formatter) -> fmt::Result {
        match *self {
            Place::Sheet(bit) => write!(f, "sheet {bit}"),
            Place::Table(number) => write!(f, "table {number}"),
            Place::Location { process, location } => write!(f, "table {process} {location}"),
            Place::Edge(edge) => write!(f, "edge {edge}"),
            Place::EdgeAt { edge, bit } => write!(f, "edge {edge} sheet {bit}"),
            Place::Test(number) => write!(f, "test {number}"),
            Place::Book(number) => write!(f, "book {number}"),
            Place::State(number) => write!(f, "state {number}"),
        }
    }
}

impl fmt::Display for Refusal {
    fn fmt(&self, f: &mut fmt::Formatter) -> fmt::Result {
        write!(f, "refused {} {}", self.fault as u8, self.place)
    }
}

impl Error for Refusal {}
