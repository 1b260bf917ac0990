//! Seeded random cases: a ticket's bytes, orders, and what the console answers.
//! One case a line: hex | orders | answers, with `;` for a newline.

use std::collections::BTreeMap;

use crate::big::Big;
use crate::console::{speak, Case};
use crate::search::Word;
use crate::sizing::{self, LIMIT};
use crate::ticket::{self, Axis, Relation, Term, Ticket, RECORD};

/// Splitmix64: small, seeded, the same everywhere.
pub struct Dice(u64);

impl Dice {
    pub fn new(seed: u64) -> Dice {
        Dice(seed)
    }

    pub fn next(&mut self) -> u64 {
        self.0 = self.0.wrapping_add(0x9E37_79B9_7F4A_7C15);
        let mut z = self.0;
        z = (z ^ (z >> 30)).wrapping_mul(0xBF58_476D_1CE4_E5B9);
        z = (z ^ (z >> 27)).wrapping_mul(0x94D0_49BB_1331_11EB);
        z ^ (z >> 31)
    }

    /// A number from low to high, both included.
    pub fn from(&mut self, low: i64, high: i64) -> i64 {
        low + (self.next() % (high - low + 1) as u64) as i64
    }

    pub fn below(&mut self, n: usize) -> usize {
        (self.next() % n as u64) as usize
    }

    /// True once in n times.
    pub fn once_in(&mut self, n: usize) -> bool {
        self.below(n) == 0
    }

    pub fn pick<T: Copy>(&mut self, from: &[T]) -> T {
        from[self.below(from.len())]
    }
}

/// A polynomial while it is put together: exponents → (value, drift).
#[derive(Clone, Default)]
struct Polynomial(BTreeMap<[u8; 4], (i128, i128)>);

impl Polynomial {
    fn constant(value: i128) -> Polynomial {
        Polynomial::default().with([0; 4], value, 0)
    }

    /// m·x_axis − r.
    fn linear(axis: usize, m: i128, r: i128) -> Polynomial {
        let mut exponents = [0; 4];
        exponents[axis] = 1;
        Polynomial::constant(-r).with(exponents, m, 0)
    }

    fn with(mut self, exponents: [u8; 4], value: i128, drift: i128) -> Polynomial {
        let pair = self.0.entry(exponents).or_default();
        pair.0 += value;
        pair.1 += drift;
        self
    }

    fn plus(&self, other: &Polynomial) -> Polynomial {
        other.0.iter().fold(self.clone(), |sum, (e, pair)| sum.with(*e, pair.0, pair.1))
    }

    /// The product of the values; drifts are added later, never multiplied.
    fn times(&self, other: &Polynomial) -> Polynomial {
        let mut product = Polynomial::default();
        for (e, (a, _)) in &self.0 {
            for (f, (b, _)) in &other.0 {
                let exponents = [e[0] + f[0], e[1] + f[1], e[2] + f[2], e[3] + f[3]];
                product = product.with(exponents, a.saturating_mul(*b), 0);
            }
        }
        product
    }

    fn scaled(&self, by: i128) -> Polynomial {
        Polynomial(self.0.iter().map(|(e, p)| (*e, (p.0.saturating_mul(by), p.1.saturating_mul(by)))).collect())
    }

    fn degree(&self, axis: usize) -> u8 {
        self.0.iter().filter(|(_, p)| **p != (0, 0)).map(|(e, _)| e[axis]).max().unwrap_or(0)
    }

    /// Terms in a shuffled order, some split in two, some empty ones between;
    /// None where a coefficient is too large for its four bytes.
    fn terms(&self, dice: &mut Dice) -> Option<Vec<Term>> {
        let mut terms = Vec::new();
        for (&exponents, &(value, drift)) in &self.0 {
            if (value, drift) == (0, 0) && !dice.once_in(4) {
                continue;
            }
            let (coefficient, drift) = (i32::try_from(value).ok()?, i32::try_from(drift).ok()?);
            if dice.once_in(10) {
                let part = dice.from(-20, 20) as i32;
                let rest = coefficient.checked_sub(part)?;
                terms.push(Term { exponents, coefficient: part, drift });
                terms.push(Term { exponents, coefficient: rest, drift: 0 });
            } else {
                terms.push(Term { exponents, coefficient, drift });
            }
        }
        for i in (1..terms.len()).rev() {
            terms.swap(i, dice.below(i + 1));
        }
        terms.truncate(128);
        Some(terms)
    }
}

fn relation(dice: &mut Dice) -> Relation {
    dice.pick(&[Relation::Above, Relation::NotBelow, Relation::Below, Relation::NotAbove])
}

fn depth(dice: &mut Dice) -> u32 {
    match dice.below(10) {
        0 => 0,
        1 => 1,
        2 => dice.from(13, 24) as u32,
        _ => dice.from(2, 12) as u32,
    }
}

fn axis(dice: &mut Dice, degree: u8, lower: i64, upper: i64) -> Axis {
    let open = if dice.once_in(2) { 0 } else { dice.below(4) };
    let lower = lower.clamp(-30_000, 29_999);
    let upper = upper.clamp(lower + 1, 30_000);
    Axis { degree, lower_open: open & 1 != 0, upper_open: open & 2 != 0, lower: lower as i32, upper: upper as i32 }
}

/// A small interval, mostly around 0.
fn interval(dice: &mut Dice) -> (i64, i64) {
    let lower = match dice.below(6) {
        0 | 1 => 0,
        2 => -1,
        3 => dice.from(-40, 20),
        _ => dice.from(-4, 2),
    };
    let width = if dice.once_in(4) { dice.from(1, 60) } else { dice.from(1, 5) };
    (lower, lower + width)
}

/// Puts a ticket round a polynomial of which p ≥ 0 is the interesting side:
/// for < and ≤ it is mostly turned round. Degrees are sometimes higher than needed.
fn finish(dice: &mut Dice, polynomial: &Polynomial, ends: &[(i64, i64)]) -> Option<Ticket> {
    let relation = relation(dice);
    let downward = matches!(relation, Relation::Below | Relation::NotAbove);
    let turned = downward != dice.once_in(8);
    let polynomial = if turned { polynomial.scaled(-1) } else { polynomial.clone() };
    let mut axes = Vec::new();
    for (j, &(lower, upper)) in ends.iter().enumerate() {
        let least = polynomial.degree(j).max(1);
        if least > 8 {
            return None;
        }
        let degree = if dice.once_in(5) { (least + dice.from(1, 2) as u8).min(8) } else { least };
        axes.push(axis(dice, degree, lower, upper));
    }
    let mut terms = polynomial.terms(dice)?;
    // Stray zero terms must fit the degrees too.
    terms.retain(|term| term.exponents.iter().enumerate().all(|(j, &e)| e <= axes.get(j).map_or(0, |a| a.degree)));
    Some(Ticket { axes, terms, relation, depth: depth(dice) })
}

/// Sums of squares of lines, plus or minus a constant.
fn squares(dice: &mut Dice) -> Option<Ticket> {
    let axes = dice.pick(&[1, 1, 1, 2, 2, 2, 3, 3, 4]);
    let ends: Vec<(i64, i64)> = (0..axes).map(|_| interval(dice)).collect();
    let mut sum = Polynomial::default();
    let mut roots = Vec::new();
    for (j, &(lower, upper)) in ends.iter().enumerate() {
        let m = dice.pick(&[1, 1, 2, 2, 3, 4, 5, 8]);
        let r = dice.from(lower * m - 1, upper * m + 1);
        roots.push((m, r));
        let line = Polynomial::linear(j, m as i128, r as i128);
        sum = sum.plus(&line.times(&line));
    }
    if axes >= 2 && dice.once_in(2) {
        // A slanted line through about the same point.
        let (m, r) = (dice.from(1, 3) as i128, dice.from(1, 3) as i128);
        let shift = dice.from(-3, 3) as i128;
        let line = Polynomial::linear(0, m, shift).plus(&Polynomial::linear(1, -r, 0));
        sum = sum.plus(&line.times(&line));
    }
    let constant = dice.pick(&[0, 0, 0, 1, 1, 2, 5, 30, -1, -1, -2, -4, -10, -50]);
    sum = sum.scaled(dice.pick(&[1, 1, 4, 64])).plus(&Polynomial::constant(constant));
    if dice.once_in(6) {
        sum = sum.with([0; 4], 0, dice.from(-3, 3) as i128);
    }
    finish(dice, &sum, &ends)
}

/// Products of lines that are zero at ends, in the middle or nearby.
fn products(dice: &mut Dice) -> Option<Ticket> {
    let axes = dice.pick(&[1, 1, 1, 2, 2, 3]);
    let ends: Vec<(i64, i64)> = (0..axes).map(|_| interval(dice)).collect();
    let mut product = Polynomial::constant(dice.pick(&[1, 1, 1, -1, 3]));
    for _ in 0..dice.from(1, 5) {
        let j = dice.below(axes);
        let (lower, upper) = ends[j];
        let m = dice.pick(&[1, 1, 1, 2, 3, 4, 16]);
        let root = match dice.below(4) {
            0 => lower * m,
            1 => upper * m,
            _ => dice.from(lower * m, upper * m),
        };
        let mut line = Polynomial::linear(j, m as i128, root as i128);
        if axes > 1 && dice.once_in(3) {
            line = line.plus(&Polynomial::linear((j + 1) % axes, dice.pick(&[1, -1, 2, -3]), 0));
        }
        if root == upper * m {
            line = line.scaled(-1);
        }
        product = product.times(&line);
        if root != lower * m && root != upper * m && !dice.once_in(4) {
            product = product.times(&line);
        }
    }
    if dice.once_in(3) {
        product = product.plus(&Polynomial::constant(dice.from(-2, 3) as i128));
    }
    if dice.once_in(6) {
        product = product.with([0; 4], 0, dice.from(-2, 2) as i128);
    }
    finish(dice, &product, &ends)
}

/// Constants of any sign, also with drift, on boxes of any degrees; and no terms.
fn constants(dice: &mut Dice) -> Option<Ticket> {
    let axes = dice.from(1, 4) as usize;
    let axes: Vec<Axis> = (0..axes)
        .map(|_| {
            let (lower, upper) = if dice.once_in(4) { (dice.from(-30_000, 0), dice.from(1, 30_000)) } else { interval(dice) };
            let degree = dice.from(1, if axes > 2 { 2 } else { 5 }) as u8;
            axis(dice, degree, lower, upper)
        })
        .collect();
    let mut terms = Vec::new();
    if !dice.once_in(3) {
        let coefficient = dice.pick(&[0, 0, 1, -1, 5, -7, 1000]);
        let drift = dice.pick(&[0, 0, 0, 1, -1, 44]);
        terms.push(Term { exponents: [0; 4], coefficient, drift });
    }
    Some(Ticket { axes, terms, relation: relation(dice), depth: depth(dice) })
}

/// Drift decides: a value that is zero at places or everywhere, and a drift polynomial.
fn drifts(dice: &mut Dice) -> Option<Ticket> {
    let axes = dice.from(1, 2) as usize;
    let ends: Vec<(i64, i64)> = (0..axes).map(|_| interval(dice)).collect();
    let mut value = Polynomial::default();
    if !dice.once_in(3) {
        let j = dice.below(axes);
        let m = dice.pick(&[1, 2, 4]);
        let root = dice.from(ends[j].0 * m, ends[j].1 * m) as i128;
        let line = Polynomial::linear(j, m as i128, root);
        value = if dice.once_in(3) { line } else { line.times(&line) };
    }
    let mut drift = Polynomial::constant(dice.from(-2, 4) as i128);
    for j in 0..axes {
        let line = Polynomial::linear(j, dice.from(1, 3) as i128, dice.from(-3, 3) as i128);
        if dice.once_in(2) {
            drift = drift.plus(&line.times(&line));
        } else if dice.once_in(2) {
            drift = drift.plus(&line);
        }
    }
    let both = drift.0.iter().fold(value, |p, (e, pair)| p.with(*e, 0, pair.0));
    finish(dice, &both, &ends)
}

/// High degrees with large coefficients: the numbers run out of range after some halvings.
fn ranges(dice: &mut Dice) -> Option<Ticket> {
    let (j, axes) = if dice.once_in(4) { (dice.below(2), 2) } else { (0, 1) };
    let ends: Vec<(i64, i64)> = (0..axes).map(|_| dice.pick(&[(0, 1), (0, 1), (-1, 1), (0, 2), (-1, 2), (1, 3)])).collect();
    let mut power = Polynomial::constant(1);
    for _ in 0..dice.from(2, 4) {
        let (m, r) = dice.pick(&[(2, 1), (3, 1), (3, 2), (4, 1), (5, 2), (1, 0), (7, 3)]);
        let line = Polynomial::linear(j, m, r);
        power = power.times(&line).times(&line);
    }
    if axes == 2 {
        let line = Polynomial::linear(1 - j, dice.from(1, 3) as i128, dice.from(0, 2) as i128);
        power = power.plus(&line.times(&line).scaled(dice.pick(&[1, 50, 1000])));
    }
    let power = power.scaled(dice.pick(&[1, 7, 1000, 100_000])).plus(&Polynomial::constant(dice.pick(&[0, 0, 1, -1, 10])));
    if dice.once_in(4) {
        // Drift alone out of range.
        let with = power.with([0; 4], 0, dice.pick(&[1_000_000_000, -2_000_000_000]));
        return finish(dice, &with, &ends);
    }
    finish(dice, &power, &ends)
}

/// Several variables whose signs lead the chooser about: Motzkin's polynomial and its like.
fn surfaces(dice: &mut Dice) -> Option<Ticket> {
    let ends: Vec<(i64, i64)> = (0..dice.pick(&[2, 2, 3])).map(|_| interval(dice)).collect();
    let mut p = match dice.below(5) {
        0 => Polynomial::constant(1).with([4, 2, 0, 0], 1, 0).with([2, 4, 0, 0], 1, 0).with([2, 2, 0, 0], -3, 0),
        1 => Polynomial::default().with([1, 1, 0, 0], 1, 0).with([0; 4], -(dice.from(-2, 6) as i128), 0),
        2 => Polynomial::default().with([2, 0, 0, 0], 1, 0).with([0, 2, 0, 0], 1, 0).with([1, 1, 0, 0], -(dice.from(1, 3) as i128), 0),
        3 => {
            let curve = Polynomial::default().with([2, 0, 0, 0], 1, 0).with([0, 1, 0, 0], -(dice.from(1, 3) as i128), 0);
            curve.times(&curve).plus(&Polynomial::constant(dice.from(-1, 2) as i128))
        }
        _ => Polynomial::default().with([3, 0, 0, 0], 1, 0).with([0, 3, 0, 0], 1, 0).with([1, 1, 0, 0], -3, 0).with([0; 4], 1, 0),
    };
    if ends.len() == 3 {
        let line = Polynomial::linear(2, 2, dice.from(-2, 6) as i128);
        p = p.plus(&line.times(&line));
    }
    p = p.plus(&Polynomial::constant(dice.pick(&[0, 0, 0, 1, -1])));
    finish(dice, &p, &ends)
}

/// Any small sparse polynomial.
fn sparse(dice: &mut Dice) -> Option<Ticket> {
    let axes = dice.from(1, 4) as usize;
    let most = [8, 4, 3, 2][axes - 1];
    let axes: Vec<Axis> = (0..axes)
        .map(|_| {
            let (lower, upper) = interval(dice);
            let degree = dice.from(1, most) as u8;
            axis(dice, degree, lower, upper)
        })
        .collect();
    let terms = (0..dice.from(0, 7))
        .map(|_| {
            let mut exponents = [0; 4];
            for (j, axis) in axes.iter().enumerate() {
                exponents[j] = dice.from(0, axis.degree as i64) as u8;
            }
            let drift = if dice.once_in(6) { dice.from(-9, 9) as i32 } else { 0 };
            Term { exponents, coefficient: dice.from(-20, 20) as i32, drift }
        })
        .collect();
    Some(Ticket { axes, terms, relation: relation(dice), depth: depth(dice) })
}

/// Zero coefficients with huge powers: accepted, unless a drift stands with them.
fn huge(dice: &mut Dice) -> Option<Ticket> {
    let degrees = dice.pick(&[&[8u8][..], &[8, 8], &[8, 6, 1], &[3, 3, 3, 1], &[5, 5, 2], &[7, 7, 1]]);
    let axes: Vec<Axis> = degrees.iter().map(|&n| axis(dice, n, -30_000, 30_000)).collect();
    let mut exponents = [0; 4];
    exponents[..degrees.len()].copy_from_slice(degrees);
    let mut terms = vec![Term { exponents, coefficient: 0, drift: 0 }];
    if dice.once_in(3) {
        terms[0].drift = dice.pick(&[1, -1]);
    }
    if dice.once_in(4) {
        terms[0].coefficient = dice.pick(&[1, -1, i32::MIN, i32::MAX]);
    }
    terms.push(Term { exponents: [0; 4], coefficient: dice.from(-2, 2) as i32, drift: dice.pick(&[0, 0, 1]) });
    if dice.once_in(2) {
        let mut exponents = [0; 4];
        exponents[dice.below(degrees.len())] = 1;
        terms.push(Term { exponents, coefficient: dice.from(-2, 2) as i32, drift: 0 });
    }
    Some(Ticket { axes, terms, relation: relation(dice), depth: depth(dice).min(9) })
}

/// Sizes at the limit, one below, one above, or near it: terms are added, each
/// as large as still fits, and then one is moved by a little.
fn limits(dice: &mut Dice) -> Option<Ticket> {
    let count = dice.from(1, 3) as usize;
    let axes: Vec<Axis> = (0..count)
        .map(|_| {
            let degree = dice.from(1, [8, 5, 3][count - 1]) as u8;
            let reach = dice.pick(&[1, 2, 3, 10, 100, 5_000, 30_000]);
            let lower = dice.pick(&[0, -reach, -reach / 2, reach / 3]);
            axis(dice, degree, lower, lower + reach)
        })
        .collect();
    let mut ticket = Ticket { axes, terms: Vec::new(), relation: relation(dice), depth: depth(dice).min(8) };
    let in_drift = dice.once_in(3);
    for _ in 0..dice.from(3, 60) {
        let mut exponents = [0; 4];
        for (j, axis) in ticket.axes.iter().enumerate() {
            exponents[j] = if dice.once_in(3) { dice.from(0, axis.degree as i64) as u8 } else { axis.degree };
        }
        let one = |n: i32| if in_drift { Term { exponents, coefficient: 0, drift: n } } else { Term { exponents, coefficient: n, drift: 0 } };
        let size = |ticket: &Ticket| if in_drift { sizing::sizes(ticket).1 } else { sizing::sizes(ticket).0 };
        let room = Big::from(LIMIT).minus(&size(&ticket));
        let mut alone = ticket.clone();
        alone.terms = vec![one(1)];
        let Some(unit) = size(&alone).to_i128() else { continue };
        let most = room.to_i128()? / unit;
        let sign = dice.pick(&[1, 1, -1]);
        let n = most.min(i32::MAX as i128) as i32;
        ticket.terms.push(one(n * sign));
    }
    // A constant fills what is left: to the very limit where S is 1.
    let left = Big::from(LIMIT).minus(&if in_drift { sizing::sizes(&ticket).1 } else { sizing::sizes(&ticket).0 });
    let n = (left.to_i128()? / sizing::scale(&ticket)).min(i32::MAX as i128) as i32;
    ticket.terms.push(if in_drift { Term { exponents: [0; 4], coefficient: 0, drift: n } } else { Term { exponents: [0; 4], coefficient: n, drift: 0 } });
    // Then mostly moved across the limit or a little off it.
    let at = if dice.once_in(2) { ticket.terms.len() - 1 } else { dice.below(ticket.terms.len()) };
    let by = dice.pick(&[0, 0, 1, -1, 2]);
    let term = &mut ticket.terms[at];
    let part = if in_drift { &mut term.drift } else { &mut term.coefficient };
    *part = part.checked_add(by)?;
    Some(ticket)
}

/// Numbers that are powers of two and stand, after few halvings, exactly at the
/// edge of the range: (3x − 1)²·y·z·c with the lower ends of y and z at −2^14.
/// The root 1/3 is never met by halving, so the search goes on.
fn edges(dice: &mut Dice) -> Option<Ticket> {
    let c = (1i64 << dice.from(25, 28)) + dice.pick(&[0, 0, 0, 1, -1]);
    let (relation, sign) = dice.pick(&[(Relation::NotBelow, 1), (Relation::NotAbove, -1), (Relation::Above, 1), (Relation::Below, -1)]);
    let in_drift = dice.once_in(3);
    let mut axes: Vec<Axis> = [(2, 0, 1), (1, -(1 << 14), 0), (1, -(1 << 14), 0)].into_iter().map(|(n, a, b)| axis(dice, n, a, b)).collect();
    let turn = dice.below(3); // which axis is x
    axes.swap(0, turn);
    let mut terms = Vec::new();
    for (power, factor) in [(2, 9), (1, -6), (0, 1)] {
        let mut exponents = [1, 1, 1, 0];
        exponents[turn] = power;
        let mut rest = factor * sign * c;
        while rest != 0 {
            let part = rest.clamp(-(1 << 30), 1 << 30);
            rest -= part;
            terms.push(if in_drift { Term { exponents, coefficient: 0, drift: part as i32 } } else { Term { exponents, coefficient: part as i32, drift: 0 } });
        }
    }
    Some(Ticket { axes, terms, relation, depth: dice.from(3, 12) as u32 })
}

/// Patches of 128 numbers, a few less, and more.
fn large(dice: &mut Dice) -> Option<Ticket> {
    let degrees: &[u8] = dice.pick(&[
        &[1, 3, 3, 3][..], &[7, 7, 1], &[3, 7, 3], &[1, 7, 7], &[7, 1, 1, 3], &[8, 6, 1], &[4, 4, 4], &[8, 8],
        &[8, 8, 1], &[2, 6, 6], &[4, 4, 4, 1], &[8, 8, 8], &[8, 8, 8, 8], &[2, 2, 2, 4], &[3, 3, 3, 2], &[3, 3, 2, 3], &[5, 5, 2], &[1, 7, 8], &[2, 2, 4, 2],
    ]);
    let axes: Vec<Axis> = degrees
        .iter()
        .map(|&n| {
            let (lower, upper) = dice.pick(&[(0, 1), (-1, 1), (0, 2), (1, 2), (-2, -1)]);
            axis(dice, n, lower, upper)
        })
        .collect();
    let terms = (0..dice.from(1, 6))
        .map(|_| {
            let mut exponents = [0; 4];
            for (j, &n) in degrees.iter().enumerate() {
                exponents[j] = if dice.once_in(2) { 0 } else { dice.from(0, n as i64) as u8 };
            }
            Term { exponents, coefficient: dice.from(-3, 9) as i32, drift: 0 }
        })
        .collect();
    Some(Ticket { axes, terms, relation: relation(dice), depth: depth(dice).min(10) })
}

/// Many terms, up to the full 128, all with the same few exponents.
fn crowded(dice: &mut Dice) -> Option<Ticket> {
    let (lower, upper) = interval(dice);
    let axes = vec![axis(dice, 3, lower, upper)];
    let terms = (0..dice.pick(&[128, 127, 40]))
        .map(|_| Term { exponents: [dice.below(4) as u8, 0, 0, 0], coefficient: dice.from(-9, 9) as i32, drift: 0 })
        .collect();
    Some(Ticket { axes, terms, relation: relation(dice), depth: depth(dice) })
}

type Family = fn(&mut Dice) -> Option<Ticket>;

/// The families, each as often as it stands here.
const FAMILIES: &[Family] = &[
    squares, squares, squares, squares, squares, products, products, products, products, drifts, drifts, surfaces,
    surfaces, ranges, ranges, sparse, sparse, constants, limits, limits, edges, huge, large, crowded,
];

/// A ticket of some family. Those that the whole box decides are mostly thrown
/// away again, so that most cases have something to search.
fn any_ticket(dice: &mut Dice) -> Ticket {
    loop {
        let Some(ticket) = dice.pick(FAMILIES)(dice) else { continue };
        let at_once = Case::open(&ticket::write(&ticket)).is_ok_and(|mut case| {
            case.search.run(1).is_ok() && matches!(case.search.word(), Word::Holds | Word::Fails)
        });
        if !at_once || dice.once_in(5) {
            return ticket;
        }
    }
}

/// Damages the bytes of a ticket in one or two ways.
fn damage(dice: &mut Dice, bytes: &mut Vec<u8>) {
    for _ in 0..dice.pick(&[1, 1, 1, 2]) {
        if bytes.len() < RECORD {
            return;
        }
        let records = bytes.len() / RECORD;
        let record = dice.below(records);
        let span = record * RECORD..(record + 1) * RECORD;
        match dice.below(14) {
            10 | 11 => {
                // The question, or an axis: relation, depth, degree, flags.
                let from = if dice.once_in(2) { 0 } else { (records - 1) * RECORD };
                bytes[from + dice.from(1, 3) as usize] = dice.pick(&[0, 3, 4, 5, 8, 9, 24, 25, 26, 128, 255]);
            }
            0 => {
                let at = dice.below(bytes.len());
                bytes.truncate(at);
            }
            1 => bytes.truncate(dice.below(records + 1) * RECORD),
            2 => {
                bytes.drain(span);
            }
            3 => {
                let copy = bytes[span].to_vec();
                let at = dice.below(records + 1) * RECORD;
                bytes.splice(at..at, copy);
            }
            4 => {
                let other = dice.below(records);
                for i in 0..RECORD {
                    bytes.swap(record * RECORD + i, other * RECORD + i);
                }
            }
            5 => {
                // A special byte: kinds, numbers, degrees, flags, exponents, relations, depths.
                let at = record * RECORD + dice.below(4);
                bytes[at] = dice.pick(&[0, 1, 2, 3, 4, 5, 8, 9, 24, 25, 255]);
            }
            6 => {
                // An end or a coefficient at and over the limits.
                let at = record * RECORD + dice.pick(&[4, 8, 12]);
                let n: i32 = dice.pick(&[30_000, 30_001, -30_000, -30_001, i32::MIN, i32::MAX, 0, -1]);
                bytes[at..at + 4].copy_from_slice(&n.to_be_bytes());
            }
            7 => bytes.extend((0..dice.pick(&[1, 15, 16, 32])).map(|_| 0)),
            8 => {
                // Many records: over and at 133.
                let copy = bytes[span].to_vec();
                let until = dice.pick(&[133, 134, 132, 200]) * RECORD;
                while bytes.len() < until {
                    bytes.splice(record * RECORD..record * RECORD, copy.iter().copied());
                }
            }
            9 => {
                let at = dice.below(bytes.len());
                bytes[at] ^= 1 << dice.below(8);
            }
            _ => {
                let at = dice.below(bytes.len());
                bytes[at] = dice.next() as u8;
            }
        }
    }
}

/// Bytes that were never a ticket: any at all, or records of plausible shape.
fn noise(dice: &mut Dice) -> Vec<u8> {
    if dice.once_in(3) {
        let length = dice.pick(&[0, 1, 15, 16, 17, 32, 48, 64, 133 * 16, 134 * 16]);
        return (0..length).map(|_| dice.next() as u8).collect();
    }
    let mut bytes = Vec::new();
    let axes = dice.below(6);
    let terms = dice.below(4);
    for number in 0..axes {
        bytes.extend([1, number as u8, dice.below(10) as u8, dice.below(5) as u8]);
        bytes.extend((dice.pick(&[-30_001, -30_000, 0, 5]) as i32).to_be_bytes());
        bytes.extend((dice.pick(&[30_001, 30_000, 6, 5, 5]) as i32).to_be_bytes());
        bytes.extend([0, 0, 0, dice.once_in(8) as u8]);
    }
    for _ in 0..terms {
        bytes.push(2);
        bytes.extend((0..4).map(|_| if dice.once_in(4) { dice.below(3) as u8 } else { 0 }).collect::<Vec<u8>>());
        bytes.extend([0, dice.once_in(10) as u8, dice.once_in(10) as u8]);
        bytes.extend((0..8).map(|_| dice.next() as u8).collect::<Vec<u8>>());
    }
    for _ in 0..dice.pick(&[1, 1, 1, 1, 0, 2]) {
        bytes.extend([3, dice.below(6) as u8, dice.below(27) as u8]);
        bytes.extend((0..13).map(|_| dice.once_in(40) as u8).collect::<Vec<u8>>());
    }
    bytes
}

/// A line that is no order, or one at the edge of the language. No `|`, `;` or
/// carriage return, which the file of cases could not carry.
fn odd_line(dice: &mut Dice) -> Vec<u8> {
    let fixed: &[&str] = &[
        "", " ", "q", "V", "P", "R 5", "D 5", "r", "d", "r ", "d ", "r5", "d5", "r  5", " r 5", "r 5 ", "v ", " v", "p ", "vv", "v p",
        "r 000005", "r 65536", "r 99999", "r 100000", "r -1", "r +1", "r 1.0", "r 0x1", "r\t5", "v\t", "d 65536", "d 000024",
        "d -1", "r 1 1", "r five", "run 5", "verdict", "point", "r 1a", "r a1", "# v", "0", "5 r", "d 4294967297", "r 18446744073709551617",
    ];
    if dice.once_in(5) {
        (0..dice.from(1, 12))
            .map(|_| dice.from(32, 126) as u8)
            .filter(|byte| !b"|;".contains(byte))
            .collect()
    } else {
        dice.pick(fixed).as_bytes().to_vec()
    }
}

/// Orders, made while a case carries them out, so that the work stays bounded.
fn orders(dice: &mut Dice, bytes: &[u8]) -> Vec<u8> {
    if dice.once_in(60) {
        return Vec::new();
    }
    if dice.once_in(40) {
        // At and over 4,096 bytes.
        let length = dice.pick(&[4095, 4096, 4096, 4097, 4097, 5000]);
        let mut text = Vec::new();
        while text.len() < length {
            text.extend(dice.pick(&["v\n", "p\n", "r 1\n", "r 2\n", "\n", "xxxxxxxxxxxxxxxxxxxxxxxxxxxxxxxxxxxxxxxxxxxxxxxxxxxx\n", "d 00009\n"]).bytes());
        }
        text.truncate(length);
        return text;
    }
    let mut case = Case::open(bytes).ok();
    let mut budget = 3000u64; // boxes that runs may still ask for
    let mut text = Vec::new();
    let straight = dice.once_in(2);
    let steps = if straight { 6 } else { dice.from(1, 16) };
    for step in 0..steps {
        let (word, depth) = case.as_ref().map_or((Word::Running, 5), |case| (case.search.word(), case.search.depth()));
        // All of the boxes at a small depth are few; a finished search runs none.
        let cheap = depth <= 9 && budget >= 1023 || word != Word::Running;
        let line = if straight && step == 0 && dice.once_in(2) {
            if cheap { b"r 65535".to_vec() } else { b"r 1500".to_vec() }
        } else if !straight && dice.once_in(5) {
            odd_line(dice)
        } else {
            match (word, dice.below(8)) {
                (_, 0) => b"v".to_vec(),
                (_, 1) => b"p".to_vec(),
                (Word::Running, 2) => format!("d {}", dice.from(0, 26)).into_bytes(),
                (Word::Running, 3) if cheap => format!("r {}", dice.pick(&[65_535, 65_534, 30_000])).into_bytes(),
                (Word::Running, 4) => format!("r {:0>width$}", dice.from(0, 3), width = dice.from(1, 5) as usize).into_bytes(),
                (Word::Running, 5) => format!("r {}", dice.from(1, 20)).into_bytes(),
                (Word::Running, _) => format!("r {}", dice.from(10, 1000)).into_bytes(),
                (Word::Open, 2..=4) => format!("d {}", depth + dice.from(1, 3) as u32).into_bytes(),
                (Word::Open, 5) => format!("d {}", dice.pick(&[0, depth, depth + 1, 24, 25, 100, 65_535])).into_bytes(),
                (_, 2) => format!("d {}", dice.from(0, 30)).into_bytes(),
                (_, 3) => format!("r {}", dice.pick(&[0, 1, 5, 65_535])).into_bytes(),
                (Word::Fails, _) => b"p".to_vec(),
                _ => b"v".to_vec(),
            }
        };
        // What a run asks for is taken from the budget, but at most all boxes of its depth.
        if let Some(crate::console::Order::Run(n)) = crate::console::read_order(&line) {
            if word == Word::Running {
                let asked = n.min((1 << (depth + 1)) - 1);
                if asked > budget {
                    continue;
                }
                budget -= asked;
            }
        }
        if let Some(case) = &mut case {
            case.answer(&line);
        }
        text.extend(line);
        text.push(b'\n');
    }
    if case.is_some_and(|case| case.search.word() == Word::Running) && budget > 0 && !dice.once_in(4) {
        text.extend(format!("r {budget}\n").bytes());
    }
    text.extend(b"v\np\n");
    if dice.once_in(4) {
        text.pop(); // no newline at the end
    }
    text
}

/// One case: the ticket's bytes and the orders.
pub fn one(dice: &mut Dice) -> (Vec<u8>, Vec<u8>) {
    let bytes = match dice.below(20) {
        0 => noise(dice),
        1..=3 => {
            let mut bytes = ticket::write(&any_ticket(dice));
            damage(dice, &mut bytes);
            bytes
        }
        _ => ticket::write(&any_ticket(dice)),
    };
    let orders = orders(dice, &bytes);
    (bytes, orders)
}

/// The text of the file of cases, and a count of what is in it.
pub fn make(seed: u64, count: u64) -> (String, String) {
    let mut dice = Dice::new(seed);
    let mut text = String::new();
    let mut census: BTreeMap<String, u64> = BTreeMap::new();
    for _ in 0..count {
        let (bytes, orders) = one(&mut dice);
        let answers = speak(&bytes, || orders.clone());
        let hex: String = bytes.iter().map(|byte| format!("{byte:02x}")).collect();
        let orders = String::from_utf8(orders).expect("orders of cases are ASCII");
        text += &format!("{hex}|{}|{}\n", orders.replace('\n', ";"), answers.replace('\n', ";"));
        *census.entry(sort_of(&answers)).or_default() += 1;
    }
    let census = census.iter().map(|(sort, n)| format!("{n:8} {sort}\n")).collect();
    (text, census)
}

/// For the census: the refusal of the ticket, or the last verdict's word with
/// what is set aside and whether boxes were halved at all.
fn sort_of(answers: &str) -> String {
    if answers.starts_with("ticket") {
        return answers.split(' ').take(2).collect::<Vec<_>>().join(" ");
    }
    let verdict = answers.lines().rev().find(|line| ["running", "fails", "holds", "open"].iter().any(|w| line.starts_with(w)));
    match verdict {
        None => "no verdict".to_string(),
        Some(line) => {
            let parts: Vec<&str> = line.split(' ').collect();
            let boxes = if parts[1] == "1" || parts[1] == "0" { "at once" } else { "after halvings" };
            let aside = match (parts[3] != "0", parts[4] != "0") {
                (false, false) => "",
                (true, false) => ", depth",
                (false, true) => ", range",
                (true, true) => ", depth and range",
            };
            format!("{} {boxes}{aside}", parts[0])
        }
    }
}

/// Like `make`, but with lines of orders that hold any bytes at all (carriage
/// returns, zeros, bytes over 127, `;` and `|`), and so all three parts in hex.
pub fn make_in_hex(seed: u64, count: u64) -> String {
    let mut dice = Dice::new(seed);
    let hex = |bytes: &[u8]| bytes.iter().map(|byte| format!("{byte:02x}")).collect::<String>();
    let mut text = String::new();
    for _ in 0..count {
        let (bytes, plain) = one(&mut dice);
        let mut orders = Vec::new();
        for line in plain.split_inclusive(|&byte| byte == b'\n') {
            if dice.once_in(3) {
                // A good order spoilt by one byte, on a line of its own before this one.
                let mut odd = dice.pick(&["v", "p", "r 7", "d 9", ""]).as_bytes().to_vec();
                let byte = if dice.once_in(2) { dice.pick(&[13, 0, 9, b';', b'|', 11, 0xa0]) } else { dice.from(128, 255) as u8 };
                odd.insert(dice.below(odd.len() + 1), byte);
                orders.extend(odd);
                orders.push(b'\n');
            }
            orders.extend(line);
        }
        let answers = speak(&bytes, || orders.clone());
        text += &format!("{}|{}|{}\n", hex(&bytes), hex(&orders), hex(answers.as_bytes()));
    }
    text
}

/// Carries a file of cases out again and names the lines (from 1) that are
/// answered otherwise than the file says.
pub fn differing(text: &str) -> Vec<usize> {
    let agrees = |line: &str| {
        let [hex, orders, answers] = line.split('|').collect::<Vec<_>>()[..] else { return false };
        let bytes: Option<Vec<u8>> = hex
            .as_bytes()
            .chunks(2)
            .map(|two| u8::from_str_radix(std::str::from_utf8(two).ok()?, 16).ok())
            .collect();
        bytes.is_some_and(|bytes| {
            speak(&bytes, || orders.replace(';', "\n").into_bytes()) == answers.replace(';', "\n")
        })
    };
    text.split_terminator('\n').enumerate().filter(|(_, line)| !agrees(line)).map(|(at, _)| at + 1).collect()
}
