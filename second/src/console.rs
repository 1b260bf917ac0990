//! The console: a ticket's bytes and orders in, lines of answers out.

use crate::chooser::{BySigns, Evening};
use crate::search::Search;
use crate::sizing;
use crate::ticket::{self, Refusal};

pub const MOST_ORDER_BYTES: usize = 4096;

#[derive(Clone, Copy, Debug, PartialEq, Eq)]
pub enum Order {
    Run(u64),
    Deepen(u64),
    Verdict,
    Point,
}

/// One line, without its newline; None is an unreadable one.
pub fn read_order(line: &[u8]) -> Option<Order> {
    match line {
        b"v" => Some(Order::Verdict),
        b"p" => Some(Order::Point),
        [letter @ (b'r' | b'd'), b' ', digits @ ..] => {
            if digits.is_empty() || digits.len() > 5 || !digits.iter().all(u8::is_ascii_digit) {
                return None;
            }
            let n = digits.iter().fold(0, |n, &digit| n * 10 + (digit - b'0') as u64);
            if n > 65_535 {
                None
            } else if *letter == b'r' {
                Some(Order::Run(n))
            } else {
                Some(Order::Deepen(n))
            }
        }
        _ => None,
    }
}

/// The lines of a text: a newline ends a line, and so does the end of the text
/// where something stands behind the last newline.
pub fn lines(text: &[u8]) -> Vec<&[u8]> {
    let mut lines: Vec<&[u8]> = text.split(|&byte| byte == b'\n').collect();
    if lines.last().is_some_and(|last| last.is_empty()) {
        lines.pop();
    }
    lines
}

/// A case with the chooser and the kinds of the console.
pub struct Case {
    pub search: Search<Evening<BySigns>>,
}

impl Case {
    pub fn open(bytes: &[u8]) -> Result<Case, Refusal> {
        let ticket = ticket::read(bytes)?;
        sizing::check(&ticket, sizing::has_drift(&ticket))?;
        let chooser = Evening::new(2, BySigns).ok().expect("2 is a good gap");
        let enough = 128 * (24 + 3);
        let search = Search::take(ticket, chooser, enough).expect("the workspace always suffices");
        Ok(Case { search })
    }

    /// The answer to one line, without newline.
    pub fn answer(&mut self, line: &[u8]) -> String {
        let refused = |number: u32| format!("no {number}");
        let Some(order) = read_order(line) else { return refused(19) };
        match order {
            Order::Run(n) => self.search.run(n).map_or_else(refused, |done| format!("ran {done}")),
            Order::Deepen(n) => self.search.deepen(n).map_or_else(refused, |depth| format!("depth {depth}")),
            Order::Verdict => {
                let v = self.search.verdict();
                format!("{} {} {} {} {}", v.word.text(), v.examined, v.waiting, v.for_depth, v.for_range)
            }
            Order::Point => self.search.point().map_or_else(refused, |point| {
                point.iter().fold("point".to_string(), |text, (numerator, h)| format!("{text} {numerator}/{h}"))
            }),
        }
    }
}

/// All that the console prints; the orders are asked for only once the ticket is accepted.
pub fn speak(bytes: &[u8], orders: impl FnOnce() -> Vec<u8>) -> String {
    let mut case = match Case::open(bytes) {
        Ok(case) => case,
        Err(refusal) => return format!("{refusal}\n"),
    };
    let orders = orders();
    if orders.len() > MOST_ORDER_BYTES {
        return "no 20\n".to_string();
    }
    lines(&orders).into_iter().map(|line| case.answer(line) + "\n").collect()
}
