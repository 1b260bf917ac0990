//! The second author's exact bound checker, written from the documents alone.

#![forbid(unsafe_code)]

mod big;
mod cases;
mod chooser;
mod console;
mod patch;
mod search;
mod sizing;
#[cfg(test)]
mod tests;
mod ticket;

use std::io::{Read, Write};
use std::process::exit;

fn main() {
    let arguments: Vec<String> = std::env::args().skip(1).collect();
    let words: Vec<&str> = arguments.iter().map(String::as_str).collect();
    match words[..] {
        ["console"] => {
            let bytes = std::fs::read("ticket.bin").unwrap_or_default();
            let text = console::speak(&bytes, || {
                let mut orders = Vec::new();
                let _ = std::io::stdin().read_to_end(&mut orders);
                orders
            });
            let _ = std::io::stdout().write_all(text.as_bytes());
        }
        ["tickets", seed, count, file] => {
            let (Ok(seed), Ok(count)) = (seed.parse(), count.parse()) else { usage() };
            let (text, census) = cases::make(seed, count);
            if let Err(error) = std::fs::write(file, text) {
                eprintln!("{file}: {error}");
                exit(1);
            }
            eprint!("{census}");
        }
        ["hextickets", seed, count, file] => {
            let (Ok(seed), Ok(count)) = (seed.parse(), count.parse()) else { usage() };
            if let Err(error) = std::fs::write(file, cases::make_in_hex(seed, count)) {
                eprintln!("{file}: {error}");
                exit(1);
            }
        }
        ["check", file] => {
            let text = std::fs::read_to_string(file).unwrap_or_else(|error| {
                eprintln!("{file}: {error}");
                exit(1);
            });
            let differing = cases::differing(&text);
            for line in differing.iter().take(20) {
                println!("line {line} differs");
            }
            println!("{} of {} cases differ", differing.len(), text.lines().count());
            exit(if differing.is_empty() { 0 } else { 1 });
        }
        ["sizes", file] => match std::fs::read(file) {
            Ok(bytes) => print!("{}", sizes(&bytes)),
            Err(error) => {
                eprintln!("{file}: {error}");
                exit(1);
            }
        },
        _ => usage(),
    }
}

fn usage() -> ! {
    eprintln!("second console | second tickets SEED COUNT FILE | second hextickets SEED COUNT FILE | second check FILE | second sizes FILE");
    exit(2);
}

/// What `second sizes` prints: numbers, scale, sizes, first patch, halves.
/// Every number of a patch is written value,drift.
fn sizes(bytes: &[u8]) -> String {
    let ticket = match ticket::read(bytes) {
        Ok(ticket) => ticket,
        Err(refusal) => return format!("{refusal}\n"),
    };
    let (values, drifts) = sizing::sizes(&ticket);
    let mut text = format!(
        "numbers {}\nscale {}\nsize of values {}\nsize of drifts {}\n",
        sizing::numbers(&ticket),
        sizing::scale(&ticket),
        values,
        drifts
    );
    if let Err(refusal) = sizing::check(&ticket, sizing::has_drift(&ticket)) {
        return format!("{text}{refusal}\n");
    }
    let line = |name: String, patch: &[patch::Pair]| {
        let numbers: Vec<String> = patch.iter().map(|pair| format!("{},{}", pair.value, pair.drift)).collect();
        format!("{name} {}\n", numbers.join(" "))
    };
    let first = patch::first(&ticket);
    text += &line("patch".to_string(), &first);
    let degrees = patch::degrees(&ticket);
    for axis in 0..degrees.len() {
        // Halves of a patch that may not grow are no patches of any search.
        if first.iter().all(|pair| pair.may_grow(degrees[axis], sizing::LIMIT)) {
            let (lower, upper) = patch::halves(&first, &degrees, axis);
            text += &line(format!("axis {axis} lower"), &lower);
            text += &line(format!("axis {axis} upper"), &upper);
        } else {
            text += &format!("axis {axis} lower range\naxis {axis} upper range\n");
        }
    }
    text
}
