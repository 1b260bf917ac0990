//! The ticket and its reader: bytes become a ticket, or the one refusal that
//! the documents name for them.

use std::fmt;

pub const RECORD: usize = 16;
pub const MOST_RECORDS: usize = 133;
pub const MOST_TERMS: usize = 128;
pub const MOST_DEPTH: u32 = 24;

#[derive(Clone, Debug, PartialEq, Eq)]
pub struct Axis {
    pub degree: u8,
    pub lower_open: bool,
    pub upper_open: bool,
    pub lower: i32,
    pub upper: i32,
}

#[derive(Clone, Debug, PartialEq, Eq)]
pub struct Term {
    pub exponents: [u8; 4],
    pub coefficient: i32,
    pub drift: i32,
}

#[derive(Clone, Copy, Debug, PartialEq, Eq)]
pub enum Relation {
    Above,      // >
    NotBelow,   // >=
    Below,      // <
    NotAbove,   // <=
}

impl Relation {
    pub fn from_byte(byte: u8) -> Option<Relation> {
        match byte {
            1 => Some(Relation::Above),
            2 => Some(Relation::NotBelow),
            3 => Some(Relation::Below),
            4 => Some(Relation::NotAbove),
            _ => None,
        }
    }

    pub fn byte(self) -> u8 {
        match self {
            Relation::Above => 1,
            Relation::NotBelow => 2,
            Relation::Below => 3,
            Relation::NotAbove => 4,
        }
    }

    /// Does a number of this sign (−1, 0, 1) stand in the relation to zero?
    pub fn satisfied_by(self, sign: i32) -> bool {
        match self {
            Relation::Above => sign > 0,
            Relation::NotBelow => sign >= 0,
            Relation::Below => sign < 0,
            Relation::NotAbove => sign <= 0,
        }
    }
}

#[derive(Clone, Debug, PartialEq, Eq)]
pub struct Ticket {
    pub axes: Vec<Axis>,
    pub terms: Vec<Term>,
    pub relation: Relation,
    pub depth: u32,
}

#[derive(Clone, Copy, Debug, PartialEq, Eq)]
pub enum Layer {
    Reader,
    Sizing,
}

/// A refusal of bytes: number, layer, record, byte.
#[derive(Clone, Copy, Debug, PartialEq, Eq)]
pub struct Refusal {
    pub number: u32,
    pub layer: Layer,
    pub record: usize,
    pub byte: usize,
}

impl fmt::Display for Refusal {
    fn fmt(&self, f: &mut fmt::Formatter) -> fmt::Result {
        let layer = match self.layer {
            Layer::Reader => "reader",
            Layer::Sizing => "sizing",
        };
        write!(f, "ticket {} {} {} {}", self.number, layer, self.record, self.byte)
    }
}

fn word(record: &[u8], at: usize) -> i32 {
    i32::from_be_bytes([record[at], record[at + 1], record[at + 2], record[at + 3]])
}

/// Reads a ticket. Each record's faults are all gathered, and the least by
/// (number, byte) is given: that is the documented order, stated once.
pub fn read(bytes: &[u8]) -> Result<Ticket, Refusal> {
    let refuse = |number, record, byte| Refusal { number, layer: Layer::Reader, record, byte };
    if bytes.is_empty() || bytes.len() % RECORD != 0 || bytes.len() / RECORD > MOST_RECORDS {
        return Err(refuse(1, 0, 0));
    }
    let mut axes: Vec<Axis> = Vec::new();
    let mut terms: Vec<Term> = Vec::new();
    let mut question: Option<(Relation, u32)> = None;
    for (number, record) in bytes.chunks(RECORD).enumerate() {
        let mut faults: Vec<(u32, usize)> = Vec::new();
        let kind = record[0];
        let in_turn = question.is_none()
            && match kind {
                1 => terms.is_empty() && axes.len() < 4 && record[1] as usize == axes.len(),
                2 => !axes.is_empty() && terms.len() < MOST_TERMS,
                3 => !axes.is_empty(),
                _ => false,
            };
        if !in_turn {
            return Err(refuse(2, number, 0)); // nothing in a record comes before 2
        }
        let must_be_zero = match kind {
            1 => 12..16,
            2 => 5..8,
            _ => 3..16,
        };
        faults.extend(must_be_zero.filter(|&at| record[at] != 0).map(|at| (3, at)));
        match kind {
            1 => {
                if record[3] & 0b1111_1100 != 0 {
                    faults.push((3, 3));
                }
                if !(1..=8).contains(&record[2]) {
                    faults.push((4, 2));
                }
                let (lower, upper) = (word(record, 4), word(record, 8));
                if !(-30_000..=30_000).contains(&lower) {
                    faults.push((5, 4));
                }
                if !(-30_000..=30_000).contains(&upper) || upper <= lower {
                    faults.push((5, 8));
                }
                axes.push(Axis {
                    degree: record[2],
                    lower_open: record[3] & 1 != 0,
                    upper_open: record[3] & 2 != 0,
                    lower,
                    upper,
                });
            }
            2 => {
                let mut exponents = [0u8; 4];
                for axis in 0..4 {
                    exponents[axis] = record[1 + axis];
                    let degree = axes.get(axis).map_or(0, |a| a.degree);
                    if exponents[axis] > degree {
                        faults.push((6, 1 + axis));
                    }
                }
                terms.push(Term { exponents, coefficient: word(record, 8), drift: word(record, 12) });
            }
            _ => {
                let relation = Relation::from_byte(record[1]);
                if relation.is_none() {
                    faults.push((7, 1));
                }
                if record[2] as u32 > MOST_DEPTH {
                    faults.push((8, 2));
                }
                question = Some((relation.unwrap_or(Relation::Above), record[2] as u32));
            }
        }
        if let Some(&(refusal, byte)) = faults.iter().min() {
            return Err(refuse(refusal, number, byte));
        }
    }
    match question {
        Some((relation, depth)) => Ok(Ticket { axes, terms, relation, depth }),
        None => Err(refuse(2, bytes.len() / RECORD - 1, 0)),
    }
}

/// Writes a ticket as bytes, for the maker of cases and the tests.
pub fn write(ticket: &Ticket) -> Vec<u8> {
    let mut bytes = Vec::new();
    for (number, axis) in ticket.axes.iter().enumerate() {
        bytes.extend([1, number as u8, axis.degree, axis.lower_open as u8 | (axis.upper_open as u8) << 1]);
        bytes.extend(axis.lower.to_be_bytes());
        bytes.extend(axis.upper.to_be_bytes());
        bytes.extend([0; 4]);
    }
    for term in &ticket.terms {
        bytes.push(2);
        bytes.extend(term.exponents);
        bytes.extend([0; 3]);
        bytes.extend(term.coefficient.to_be_bytes());
        bytes.extend(term.drift.to_be_bytes());
    }
    bytes.extend([3, ticket.relation.byte(), ticket.depth as u8]);
    bytes.extend([0; 13]);
    bytes
}
