//! Sizing: what is looked at once a ticket was read as a whole (9, 10, 11).
//! Everything is exact in big integers, so that no saturation has to be argued.

use crate::big::Big;
use crate::ticket::{Layer, Refusal, Ticket};

/// 2^62 − 1: the limit of both sizes, and the limit R of both kinds of numbers.
pub const LIMIT: i128 = (1 << 62) - 1;

pub fn binomial(n: u32, k: u32) -> i128 {
    if k > n {
        return 0;
    }
    (0..k as i128).fold(1, |c, i| c * (n as i128 - i) / (i + 1))
}

/// L(n): the least common multiple of the binomials C(n, i), computed and not looked up.
pub fn common_multiple(n: u32) -> i128 {
    fn gcd(a: i128, b: i128) -> i128 {
        if b == 0 { a } else { gcd(b, a % b) }
    }
    (0..=n).map(|i| binomial(n, i)).fold(1, |l, c| l / gcd(l, c) * c)
}

/// How many numbers a patch holds.
pub fn numbers(ticket: &Ticket) -> usize {
    ticket.axes.iter().map(|axis| axis.degree as usize + 1).product()
}

/// S, the product of L(degree).
pub fn scale(ticket: &Ticket) -> i128 {
    ticket.axes.iter().map(|axis| common_multiple(axis.degree as u32)).product()
}

/// The size of the values and that of the drifts.
pub fn sizes(ticket: &Ticket) -> (Big, Big) {
    let mut values = Big::zero();
    let mut drifts = Big::zero();
    for term in &ticket.terms {
        let mut powers = Big::from(scale(ticket));
        for (axis, &exponent) in ticket.axes.iter().zip(&term.exponents) {
            let reach = (axis.lower as i128).abs() + (axis.upper as i128 - axis.lower as i128);
            powers = powers.times(&Big::from(reach).power(exponent as u32));
        }
        values = values.plus(&powers.times(&Big::from((term.coefficient as i128).abs())));
        drifts = drifts.plus(&powers.times(&Big::from((term.drift as i128).abs())));
    }
    (values, drifts)
}

pub fn has_drift(ticket: &Ticket) -> bool {
    ticket.terms.iter().any(|term| term.drift != 0)
}

/// Refusals 9, 10 and 11, in that order, for a kind that carries drift or not.
pub fn check(ticket: &Ticket, carries_drift: bool) -> Result<(), Refusal> {
    let refuse = |number, record, byte| Err(Refusal { number, layer: Layer::Sizing, record, byte });
    if numbers(ticket) > 128 {
        return refuse(9, 0, 0);
    }
    let (values, drifts) = sizes(ticket);
    if values > Big::from(LIMIT) || drifts > Big::from(LIMIT) {
        return refuse(10, 0, 0);
    }
    if !carries_drift {
        if let Some(at) = ticket.terms.iter().position(|term| term.drift != 0) {
            return refuse(11, ticket.axes.len() + at, 12);
        }
    }
    Ok(())
}
