//! Pairs, patches, the first patch and the halves.
//!
//! Neither is computed by the documented loops:
//! - the first patch comes from polar forms: coefficient k of x^e on [a, b] is
//!   the blossom of x^e at n−k times a and k times b, that is the elementary
//!   symmetric polynomial of order e of these n numbers over C(n, e);
//! - the halves come from differences: with D_m the m-th forward difference at
//!   the lower end, the polynomial is Σ C(n, m)·D_m·x^m, halving the interval
//!   divides D_m by 2^m, and Newton's formula gives the coefficients back:
//!   2^n · (new B_k) = Σ_m C(k, m) · 2^(n−m) · D_m. The upper half is the
//!   mirror of the lower half of the mirror.

use crate::big::Big;
use crate::sizing::{binomial, common_multiple, numbers, LIMIT};
use crate::ticket::{Axis, Relation, Ticket};

/// A value and its drift. i128 is wide enough: parts are within 2^62 − 1, and
/// on the way to a half they grow by at most 2^(2n) ≤ 2^16.
#[derive(Clone, Copy, Debug, PartialEq, Eq)]
pub struct Pair {
    pub value: i128,
    pub drift: i128,
}

impl Pair {
    pub fn sign(self) -> i32 {
        (if self.value != 0 { self.value.signum() } else { self.drift.signum() }) as i32
    }

    fn plus(self, other: Pair) -> Pair {
        Pair { value: self.value + other.value, drift: self.drift + other.drift }
    }

    fn times(self, n: i128) -> Pair {
        Pair { value: self.value * n, drift: self.drift * n }
    }

    /// May both parts be multiplied by 2^n within the limit?
    pub fn may_grow(self, n: u32, limit: i128) -> bool {
        let fits = |part: i128| part == 0 || (n < 64 && part.abs() << n <= limit);
        fits(self.value) && fits(self.drift)
    }
}

pub type Patch = Vec<Pair>;

/// For < and ≤ the question is turned: (relation after turning, were the pairs negated?).
pub fn turned(relation: Relation) -> (Relation, bool) {
    match relation {
        Relation::Below => (Relation::Above, true),
        Relation::NotAbove => (Relation::NotBelow, true),
        upright => (upright, false),
    }
}

pub fn degrees(ticket: &Ticket) -> Vec<u32> {
    ticket.axes.iter().map(|axis| axis.degree as u32).collect()
}

/// How far neighbours along an axis stand apart.
pub fn stride(degrees: &[u32], axis: usize) -> usize {
    degrees[axis + 1..].iter().map(|&n| n as usize + 1).product()
}

/// The index on an axis of the number at a place.
pub fn index(degrees: &[u32], place: usize, axis: usize) -> usize {
    place / stride(degrees, axis) % (degrees[axis] as usize + 1)
}

/// L(n) times Bernstein coefficient k of x^e on the axis, by the polar form.
fn power_coefficient(axis: &Axis, k: u32, e: u32) -> Big {
    let n = axis.degree as u32;
    // The product of n factors (1 + c·z); its coefficient at z^e is the
    // elementary symmetric polynomial of order e in the c's.
    let mut product = vec![Big::one()];
    for i in 0..n {
        let c = Big::from(if i < k { axis.upper } else { axis.lower } as i128);
        let mut next = product.clone();
        next.push(Big::zero());
        for (m, old) in product.iter().enumerate() {
            next[m + 1] = next[m + 1].plus(&old.times(&c));
        }
        product = next;
    }
    product[e as usize].times(&Big::from(common_multiple(n))).divided_whole(binomial(n, e) as u32)
}

/// The first patch of a ticket that was accepted by sizing.
pub fn first(ticket: &Ticket) -> Patch {
    let degrees = degrees(ticket);
    // All L(n)·B_k(x^e), once: table[axis][e][k].
    let table: Vec<Vec<Vec<Big>>> = ticket
        .axes
        .iter()
        .map(|axis| {
            let n = axis.degree as u32;
            (0..=n).map(|e| (0..=n).map(|k| power_coefficient(axis, k, e)).collect()).collect()
        })
        .collect();
    let (_, negate) = turned(ticket.relation);
    let side = if negate { -1 } else { 1 };
    (0..numbers(ticket))
        .map(|place| {
            let mut value = Big::zero();
            let mut drift = Big::zero();
            for term in &ticket.terms {
                let mut product = Big::from(side);
                for (axis, rows) in table.iter().enumerate() {
                    product = product.times(&rows[term.exponents[axis] as usize][index(&degrees, place, axis)]);
                }
                value = value.plus(&product.times(&Big::from(term.coefficient as i128)));
                drift = drift.plus(&product.times(&Big::from(term.drift as i128)));
            }
            let word = |part: &Big| {
                let part = part.to_i128().expect("a number of the first patch beyond the sizes");
                assert!(part.abs() <= LIMIT, "a number of the first patch beyond the sizes");
                part
            };
            Pair { value: word(&value), drift: word(&drift) }
        })
        .collect()
}

/// The lower half of one row, by differences.
fn lower_row(row: &[Pair]) -> Vec<Pair> {
    let n = row.len() as u32 - 1;
    let mut differences = Vec::new();
    let mut line = row.to_vec();
    while !line.is_empty() {
        differences.push(line[0]);
        line = line.windows(2).map(|two| two[1].plus(two[0].times(-1))).collect();
    }
    (0..=n)
        .map(|k| {
            (0..=k).fold(Pair { value: 0, drift: 0 }, |sum, m| {
                sum.plus(differences[m as usize].times(binomial(k, m) << (n - m)))
            })
        })
        .collect()
}

fn upper_row(row: &[Pair]) -> Vec<Pair> {
    let mirror: Vec<Pair> = row.iter().rev().copied().collect();
    let mut half = lower_row(&mirror);
    half.reverse();
    half
}

/// Both halves of a patch along an axis: lower, upper.
pub fn halves(patch: &[Pair], degrees: &[u32], axis: usize) -> (Patch, Patch) {
    let step = stride(degrees, axis);
    let mut lower = patch.to_vec();
    let mut upper = patch.to_vec();
    for start in (0..patch.len()).filter(|&place| index(degrees, place, axis) == 0) {
        let row: Vec<Pair> = (0..=degrees[axis] as usize).map(|k| patch[start + k * step]).collect();
        for (k, pair) in lower_row(&row).into_iter().enumerate() {
            lower[start + k * step] = pair;
        }
        for (k, pair) in upper_row(&row).into_iter().enumerate() {
            upper[start + k * step] = pair;
        }
    }
    (lower, upper)
}
