//! The worked examples of the documents, and the laws that they state, checked
//! against exact evaluation of the polynomial.

use crate::big::Big;
use crate::cases::{self, Dice};
use crate::chooser::{Alternating, BySigns, Chooser, Evening, Half, Question};
use crate::console::{lines, read_order, speak, Case, Order};
use crate::patch::{self, Pair};
use crate::search::{Search, Word};
use crate::sizing;
use crate::ticket::{self, Axis, Relation, Term, Ticket};

/// An axis: degree, ends, and the brackets as they are written.
fn axis(degree: u8, brackets: &str, lower: i32, upper: i32) -> Axis {
    Axis { degree, lower_open: brackets.starts_with('('), upper_open: brackets.ends_with(')'), lower, upper }
}

fn term(exponents: [u8; 4], coefficient: i32, drift: i32) -> Term {
    Term { exponents, coefficient, drift }
}

fn on_line(degree: u8, brackets: &str, ends: (i32, i32), terms: &[(u8, i32)], relation: Relation, depth: u32) -> Ticket {
    Ticket {
        axes: vec![axis(degree, brackets, ends.0, ends.1)],
        terms: terms.iter().map(|&(e, c)| term([e, 0, 0, 0], c, 0)).collect(),
        relation,
        depth,
    }
}

const SQUARE: &[(u8, i32)] = &[(2, 4), (1, -4), (0, 1)];

fn values(patch: &[Pair]) -> Vec<i128> {
    patch.iter().map(|pair| pair.value).collect()
}

#[test]
fn the_example_of_the_format() {
    let rows = "01000200 00000000 00000001 00000000 02020000 00000000 00000004 00000000 02010000 00000000 fffffffc 00000000 \
                02000000 00000000 00000001 00000000 03010100 00000000 00000000 00000000";
    let digits: Vec<u8> = rows.bytes().filter(u8::is_ascii_hexdigit).collect();
    let bytes: Vec<u8> =
        digits.chunks(2).map(|two| u8::from_str_radix(std::str::from_utf8(two).unwrap(), 16).unwrap()).collect();
    let expected = on_line(2, "[]", (0, 1), SQUARE, Relation::Above, 1);
    assert_eq!(ticket::read(&bytes), Ok(expected.clone()));
    assert_eq!(ticket::write(&expected), bytes);
    let answers = speak(&bytes, || b"v\nr 1\np\nr 5\nv\np".to_vec());
    assert_eq!(answers, "running 0 1 0 0\nran 1\nno 17\nran 1\nfails 2 0 0 0\npoint 1/1\n");
}

#[test]
fn refusals_of_the_reader() {
    let good = ticket::write(&on_line(2, "[]", (0, 1), SQUARE, Relation::Above, 1));
    let refused = |bytes: &[u8]| speak(bytes, || panic!("orders are not looked at")).trim_end().to_string();
    let with = |changes: &[(usize, u8)]| {
        let mut bytes = good.clone();
        for &(at, byte) in changes {
            bytes[at] = byte;
        }
        refused(&bytes)
    };
    assert_eq!(refused(&[]), "ticket 1 reader 0 0");
    assert_eq!(refused(&good[..79]), "ticket 1 reader 0 0");
    assert_eq!(refused(&[0; 134 * 16]), "ticket 1 reader 0 0");
    assert_eq!(refused(&[0; 133 * 16]), "ticket 2 reader 0 0");
    assert_eq!(refused(&good[16..]), "ticket 2 reader 0 0");
    assert_eq!(refused(&good[64..]), "ticket 2 reader 0 0");
    assert_eq!(refused(&good[..64]), "ticket 2 reader 3 0");
    assert_eq!(refused(&good[..16]), "ticket 2 reader 0 0");
    assert_eq!(refused(&[&good[..], &good[64..]].concat()), "ticket 2 reader 5 0");
    assert_eq!(refused(&[&good[..32], &good[..16]].concat()), "ticket 2 reader 2 0");
    assert_eq!(with(&[(1, 1)]), "ticket 2 reader 0 0");
    assert_eq!(with(&[(2, 9), (12, 1)]), "ticket 3 reader 0 12");
    assert_eq!(with(&[(15, 1), (3, 4)]), "ticket 3 reader 0 3");
    assert_eq!(with(&[(2, 0), (8, 1)]), "ticket 4 reader 0 2");
    assert_eq!(with(&[(4, 1), (8, 1)]), "ticket 5 reader 0 4");
    assert_eq!(with(&[(11, 0)]), "ticket 5 reader 0 8");
    assert_eq!(with(&[(17, 3), (18, 1)]), "ticket 6 reader 1 1");
    assert_eq!(with(&[(20, 1), (23, 1)]), "ticket 3 reader 1 7");
    assert_eq!(with(&[(65, 5), (66, 25)]), "ticket 7 reader 4 1");
    assert_eq!(with(&[(65, 0)]), "ticket 7 reader 4 1");
    assert_eq!(with(&[(66, 25)]), "ticket 8 reader 4 2");
    assert_eq!(with(&[(66, 25), (79, 1)]), "ticket 3 reader 4 15");
    // The want of a question is found after all else in the last record.
    let mut cut = good[..64].to_vec();
    cut[49] = 3;
    assert_eq!(refused(&cut), "ticket 6 reader 3 1");
    // 129 terms, and a fifth axis.
    let many: Vec<u8> = [&good[..16], &good[16..32].repeat(129), &good[64..]].concat();
    assert_eq!(refused(&many), "ticket 2 reader 129 0");
    let axes: Vec<u8> = (0..5).flat_map(|n| [&[1, n], &good[2..16]].concat()).collect();
    assert_eq!(refused(&axes), "ticket 2 reader 4 0");
    assert_eq!(refused(&axes[..64]), "ticket 2 reader 3 0");
}

#[test]
fn multiples_and_sizes() {
    let multiples: Vec<i128> = (1..=8).map(sizing::common_multiple).collect();
    assert_eq!(multiples, [1, 2, 3, 12, 10, 60, 105, 280]);
    let sized = |c: i32| sizing::check(&on_line(2, "[]", (-30_000, 30_000), &[(2, c)], Relation::Above, 0), true);
    assert_eq!(sized(284_671_976), Ok(()));
    assert_eq!(sized(-284_671_976), Ok(()));
    assert_eq!(sized(284_671_977).unwrap_err().to_string(), "ticket 10 sizing 0 0");
    // Zero with a huge power adds nothing; a drift there is another thing.
    let mut ticket = on_line(8, "[]", (-30_000, 30_000), &[(8, 0)], Relation::Above, 0);
    assert_eq!(sizing::check(&ticket, false), Ok(()));
    ticket.terms[0].drift = 1;
    assert_eq!(sizing::check(&ticket, false).unwrap_err().number, 10);
    ticket.terms[0].exponents[0] = 1;
    assert_eq!(sizing::check(&ticket, false).unwrap_err().to_string(), "ticket 11 sizing 1 12");
    assert_eq!(sizing::check(&ticket, true), Ok(()));
    ticket.axes = vec![axis(8, "[]", 0, 1); 3];
    assert_eq!(sizing::check(&ticket, false).unwrap_err().to_string(), "ticket 9 sizing 0 0");
}

#[test]
fn first_patches_and_halves() {
    let square = patch::first(&on_line(2, "[]", (0, 1), SQUARE, Relation::Above, 1));
    assert_eq!(values(&square), [2, -2, 2]);
    let (lower, upper) = patch::halves(&square, &[2], 0);
    assert_eq!((values(&lower), values(&upper)), (vec![8, 0, 0], vec![0, 0, 8]));
    let other = patch::first(&on_line(2, "[]", (-2, 3), &[(2, 1), (0, -4)], Relation::Above, 1));
    assert_eq!(values(&other), [0, -20, 10]);
    let turned = patch::first(&on_line(2, "[]", (-2, 3), &[(2, 1), (0, -4)], Relation::Below, 1));
    assert_eq!(values(&turned), [0, 20, -10]);
}

#[test]
fn growth_at_the_limit() {
    let may = |value: i128, drift: i128| Pair { value, drift }.may_grow(8, sizing::LIMIT);
    assert!(may((1 << 54) - 1, 0) && may(0, 1 - (1 << 54)));
    assert!(!may(1 << 54, 0) && !may(0, -(1 << 54)));
    assert!(Pair { value: 0, drift: 0 }.may_grow(u32::MAX, sizing::LIMIT));
}

#[test]
fn choosers() {
    let ask = |chooser: &dyn Chooser, degrees: &[u32], halvings: &[u32], signs: &[i32]| {
        chooser.choose(&Question { degrees, halvings, depth: halvings.iter().sum(), signs })
    };
    let signs = |signs: &[i32]| ask(&BySigns, &[1, 2], &[0, 0], signs);
    assert_eq!(signs(&[1, -1, -1, 1, 1, 1]), (0, Half::Lower));
    assert_eq!(signs(&[1, 0, -1, 1, 0, -1]), (1, Half::Upper));
    assert_eq!(signs(&[0; 6]), (0, Half::Lower));
    assert_eq!(signs(&[1, 0, -1]), (0, Half::Lower));
    assert_eq!(ask(&BySigns, &[], &[], &[1]), (0, Half::Lower));
    // No signs, so axis 0 from below.
    let evening = Evening::new(2, BySigns).ok().unwrap();
    assert_eq!(ask(&evening, &[1, 2], &[3, 1], &[]), (1, Half::Lower));
    assert_eq!(ask(&evening, &[1, 2], &[2, 1], &[]), (0, Half::Lower));
    assert_eq!(ask(&evening, &[1, 2], &[2], &[]), (1, Half::Lower));
    assert_eq!(ask(&evening, &[1, 2], &[2, 1, 0], &[]), (0, Half::Lower));
    assert_eq!(ask(&evening, &[], &[5], &[]), (0, Half::Lower));
    assert_eq!(Evening::new(0, BySigns).err().map(|e| e.0), Some(18));
    assert_eq!(Evening::new(25, BySigns).err().map(|e| e.0), Some(18));
    assert_eq!(ask(&Alternating, &[1, 1, 1], &[2, 1, 1], &[]), (1, Half::Lower));
    assert_eq!(ask(&Alternating, &[], &[7], &[]), (0, Half::Lower));
}

/// The verdict as a line, and the point, after all boxes.
fn search(ticket: &Ticket) -> (String, Option<Vec<(i128, u32)>>) {
    sizing::check(ticket, true).unwrap();
    let mut search = Search::take(ticket.clone(), Alternating, 10_000).unwrap();
    search.run(65_535).unwrap();
    let v = search.verdict();
    let text = format!("{} {} {} {} {}", v.word.text(), v.examined, v.waiting, v.for_depth, v.for_range);
    (text, search.point().ok().map(|point| point.to_vec()))
}

#[test]
fn worked_searches() {
    use Relation::*;
    let square = |depth| on_line(2, "[]", (0, 1), SQUARE, NotBelow, depth);
    assert_eq!(search(&square(0)), ("open 1 0 1 0".into(), None));
    assert_eq!(search(&square(1)), ("holds 3 0 0 0".into(), None));
    let other = on_line(2, "[]", (-2, 3), &[(2, 1), (0, -4)], NotBelow, 1);
    assert_eq!(search(&other), ("fails 2 0 0 0".into(), Some(vec![(1, 1)])));
    assert_eq!(search(&on_line(1, "(]", (0, 1), &[(1, 1)], Above, 1)), ("open 3 0 1 0".into(), None));
    let minus = |depth| on_line(1, "()", (0, 1), &[(0, -1)], Above, depth);
    assert_eq!(search(&minus(0)), ("open 1 0 1 0".into(), None));
    assert_eq!(search(&minus(1)), ("fails 2 0 0 0".into(), Some(vec![(1, 1)])));
    let product = |relation| Ticket {
        axes: vec![axis(1, "[]", 0, 1); 2],
        terms: vec![term([1, 1, 0, 0], 1, 0)],
        relation,
        depth: 0,
    };
    assert_eq!(search(&product(NotBelow)), ("holds 1 0 0 0".into(), None));
    assert_eq!(search(&product(Above)), ("fails 1 0 0 0".into(), Some(vec![(0, 0), (0, 0)])));
    let mut drifting = on_line(1, "[]", (0, 1), &[(1, 1), (0, 0)], Above, 0);
    drifting.terms[1].drift = 1;
    assert_eq!(search(&drifting), ("holds 1 0 0 0".into(), None));
    assert_eq!(sizing::check(&drifting, false).unwrap_err().to_string(), "ticket 11 sizing 2 12");
}

#[test]
fn calls_and_their_refusals() {
    let ticket = on_line(1, "()", (0, 1), &[(0, -1)], Relation::Above, 0);
    assert_eq!(Search::take(ticket.clone(), Alternating, 5).err(), Some(12));
    let mut search = Search::take(ticket, Alternating, 6).ok().unwrap();
    assert_eq!((search.run(0), search.run(65_536)), (Err(13), Err(13)));
    assert_eq!((search.deepen(1), search.point().err()), (Err(15), Some(17)));
    search.workspace = 5;
    assert_eq!(search.run(1), Err(12));
    search.workspace = 6;
    assert_eq!(search.run(7), Ok(1));
    // As a case stands that has not been taken yet.
    let v = search.verdict();
    assert_eq!((v.word, v.examined, v.waiting, v.for_depth, v.for_range), (Word::Open, 1, 0, 1, 0));
    assert_eq!((search.run(0), search.run(1)), (Err(13), Err(14)));
    assert_eq!((search.deepen(0), search.deepen(25), search.deepen(1)), (Err(16), Err(16), Err(12)));
    search.workspace = 8;
    assert_eq!(search.deepen(1), Ok(1));
    assert_eq!(search.verdict().examined, 0);
    assert_eq!((search.run(1), search.run(9), search.word()), (Ok(1), Ok(1), Word::Fails));
    assert_eq!((search.run(1), search.deepen(2)), (Err(14), Err(15)));
    assert_eq!(search.point(), Ok(&[(1, 1)][..]));
}

#[test]
fn orders_and_lines() {
    assert_eq!(read_order(b"r 00005"), Some(Order::Run(5)));
    assert_eq!(read_order(b"d 65535"), Some(Order::Deepen(65_535)));
    assert_eq!((read_order(b"v"), read_order(b"p")), (Some(Order::Verdict), Some(Order::Point)));
    for odd in ["", " ", "r 000005", "r 65536", "r", "r ", "r  5", "r 5 ", "r\t5", "v\r", "V", "v ", "r +5", "r 5\0"] {
        assert_eq!(read_order(odd.as_bytes()), None, "{odd:?}");
    }
    assert_eq!(read_order(&[b'r', b' ', 0xd9, 0xa1]), None);
    assert_eq!((lines(b"v").len(), lines(b"v\n").len(), lines(b"\n\n").len(), lines(b"").len()), (1, 1, 2, 0));
    let ticket = ticket::write(&on_line(2, "[]", (0, 1), SQUARE, Relation::Above, 1));
    assert_eq!(speak(&ticket, || b"v\n".repeat(2048)).lines().count(), 2048);
    assert_eq!(speak(&ticket, || vec![b'v'; 4097]), "no 20\n");
    assert_eq!(speak(&ticket, Vec::new), "");
}

/// The documented halves, by the closed formula, against the differences.
#[test]
fn halves_by_the_documented_formula() {
    let mut dice = Dice::new(7);
    for _ in 0..300 {
        let n = dice.from(1, 8) as u32;
        let row: Vec<Pair> = (0..=n)
            .map(|_| Pair { value: dice.from(-(1 << 54) + 1, (1 << 54) - 1) as i128, drift: dice.from(-9, 9) as i128 })
            .collect();
        let (lower, upper) = patch::halves(&row, &[n], 0);
        for k in 0..=n {
            let sum = |m: u32, at: &dyn Fn(u32) -> i128| (0..=m).map(|r| sizing::binomial(m, r) * at(r)).sum::<i128>();
            assert_eq!(lower[k as usize].value, sum(k, &|r| row[r as usize].value) << (n - k));
            assert_eq!(lower[k as usize].drift, sum(k, &|r| row[r as usize].drift) << (n - k));
            assert_eq!(upper[k as usize].value, sum(n - k, &|r| row[(n - r) as usize].value) << k);
            assert!(lower[k as usize].value.abs() <= sizing::LIMIT);
        }
    }
}

/// The polynomial at a point, times w^N, exactly: value and drift.
fn evaluate(ticket: &Ticket, numerators: &[i128], w: i128) -> (Big, Big) {
    let mut sum = (Big::zero(), Big::zero());
    for term in &ticket.terms {
        let mut power = Big::one();
        for (j, axis) in ticket.axes.iter().enumerate() {
            power = power.times(&Big::from(numerators[j]).power(term.exponents[j] as u32));
            power = power.times(&Big::from(w).power((axis.degree - term.exponents[j]) as u32));
        }
        sum.0 = sum.0.plus(&power.times(&Big::from(term.coefficient as i128)));
        sum.1 = sum.1.plus(&power.times(&Big::from(term.drift as i128)));
    }
    sum
}

fn is_true(ticket: &Ticket, numerators: &[i128], w: i128) -> bool {
    let (value, drift) = evaluate(ticket, numerators, w);
    ticket.relation.satisfied_by(if value.is_zero() { drift.sign() } else { value.sign() })
}

fn in_box(ticket: &Ticket, numerators: &[i128], w: i128) -> bool {
    ticket.axes.iter().zip(numerators).all(|(axis, &u)| {
        let (a, b) = (axis.lower as i128 * w, axis.upper as i128 * w);
        (if axis.lower_open { a < u } else { a <= u }) && (if axis.upper_open { u < b } else { u <= b })
    })
}

/// What the numbers mean: the form of the first patch is S · Π(b−a)^n times the polynomial.
#[test]
fn the_form_of_the_first_patch() {
    let mut dice = Dice::new(11);
    let mut checked = 0;
    while checked < 150 {
        let (bytes, _) = cases::one(&mut dice);
        let Ok(ticket) = ticket::read(&bytes) else { continue };
        if sizing::check(&ticket, true).is_err() {
            continue;
        }
        checked += 1;
        let degrees = patch::degrees(&ticket);
        let w = dice.from(1, 7) as i128;
        let point: Vec<i128> = ticket.axes.iter().map(|a| dice.from(a.lower as i64 * w as i64, a.upper as i64 * w as i64) as i128).collect();
        let (mut value, mut drift) = (Big::zero(), Big::zero());
        for (place, pair) in patch::first(&ticket).iter().enumerate() {
            let mut weight = Big::one();
            for (j, axis) in ticket.axes.iter().enumerate() {
                let (n, k) = (degrees[j], patch::index(&degrees, place, j) as u32);
                let s = Big::from(point[j] - axis.lower as i128 * w).power(k);
                let t = Big::from(axis.upper as i128 * w - point[j]).power(n - k);
                weight = weight.times(&s).times(&t).times(&Big::from(sizing::binomial(n, k)));
            }
            value = value.plus(&weight.times(&Big::from(pair.value)));
            drift = drift.plus(&weight.times(&Big::from(pair.drift)));
        }
        let mut factor = Big::from(sizing::scale(&ticket) * if patch::turned(ticket.relation).1 { -1 } else { 1 });
        for axis in &ticket.axes {
            factor = factor.times(&Big::from(axis.upper as i128 - axis.lower as i128).power(axis.degree as u32));
        }
        let (true_value, true_drift) = evaluate(&ticket, &point, w);
        assert_eq!((value, drift), (true_value.times(&factor), true_drift.times(&factor)));
    }
}

/// The law: `fails` gives a point of the box at which the inequality is false,
/// and after `holds` no point of the box can be found at which it is.
#[test]
fn the_law_on_random_cases() {
    let mut dice = Dice::new(5);
    let (mut held, mut failed) = (0, 0);
    for _ in 0..1500 {
        let (bytes, _) = cases::one(&mut dice);
        let Ok(mut case) = Case::open(&bytes) else { continue };
        let ticket = ticket::read(&bytes).unwrap();
        case.search.run(400).unwrap();
        match case.search.word() {
            Word::Fails => {
                failed += 1;
                let point = case.search.point().unwrap();
                let most = point.iter().map(|c| c.1).max().unwrap();
                let numerators: Vec<i128> = point.iter().map(|&(n, h)| n << (most - h)).collect();
                assert!(in_box(&ticket, &numerators, 1 << most) && !is_true(&ticket, &numerators, 1 << most));
            }
            Word::Holds => {
                held += 1;
                for _ in 0..40 {
                    let w = dice.from(1, 12) as i128;
                    let point: Vec<i128> =
                        ticket.axes.iter().map(|a| dice.from(a.lower as i64 * w as i64, a.upper as i64 * w as i64) as i128).collect();
                    assert!(!in_box(&ticket, &point, w) || is_true(&ticket, &point, w));
                }
            }
            _ => {}
        }
    }
    assert!(held > 200 && failed > 200, "{held} {failed}");
}
