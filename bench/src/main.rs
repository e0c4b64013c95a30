//! Binding and reading back, in plain Rust and, where it is linked in, by the proved engine: the shortest time of some runs in one
//! process, in nanoseconds a row.

mod columns;
mod engines;

use std::hint::black_box;
use std::time::{Duration, Instant};

use columns::{Column, ROWS};
use engines::{Engine, engines};

/// Each engine has so many turns, and at each of them so many runs, so that it does not always find its memory cold.
const TURNS: usize = 4;
const RUNS: usize = 10;

fn main() {
    let mut engines = engines();
    print!("| column | kind | bytes | nodes |");
    for call in ["bind", "read"] {
        engines.iter().for_each(|engine| print!(" {call}, {} |", engine.name()));
        engines[1..].iter().for_each(|_| print!(" times |"));
    }
    println!("\n|---|---|---|---|{}", "---|".repeat(4 * engines.len() - 2));
    for column in columns::all() {
        print_row(&column, &mut engines);
    }
    #[cfg(feature = "proved")]
    print_calls();
}

/// The binder's public calls: a binder is opened and a column bound; the same and the column fetched, of which the first is taken away.
#[cfg(feature = "proved")]
fn print_calls() {
    let mut proved = engines::proved::Proved::new();
    println!("\n| column | open and bind | fetch |\n|---|---|---|");
    for column in columns::all() {
        assert!(proved.calls(&column, true) == ROWS, "it is fetched");
        let (mut bind, mut both) = (Duration::MAX, Duration::MAX);
        for _ in 0..TURNS * RUNS {
            bind = bind.min(time(|| proved.calls(&column, false)));
            both = both.min(time(|| proved.calls(&column, true)));
        }
        println!("| {} | {:.2} | {:.2} |", column.name, a_row(bind), a_row(both) - a_row(bind));
    }
}

fn print_row(column: &Column, engines: &mut [Box<dyn Engine>]) {
    let bytes = engines[0].bind(column).to_vec();
    for engine in engines.iter_mut() {
        assert!(engine.bind(column) == bytes, "{} binds to the same bytes", engine.name());
        let (cells, words) = engine.read(&bytes);
        assert!(words == column.words, "{} gives the presence words back", engine.name());
        assert!(cells == column.clean(), "{} gives the cells back", engine.name());
    }
    let mut bests = vec![(Duration::MAX, Duration::MAX); engines.len()];
    for _ in 0..TURNS {
        for (engine, best) in engines.iter_mut().zip(&mut bests) {
            for _ in 0..RUNS {
                best.0 = best.0.min(time(|| engine.bind(column).len()));
            }
            for _ in 0..RUNS {
                best.1 = best.1.min(time(|| engine.read(&bytes).0.len()));
            }
        }
    }
    print!("| {} | {} | {} | {} |", column.name, column.kind.name(), bytes.len(), forms(&bytes));
    let (binds, reads): (Vec<_>, Vec<_>) = bests.into_iter().unzip();
    for times in [binds, reads] {
        times.iter().for_each(|time| print!(" {:.2} |", a_row(*time)));
        times[1..].iter().for_each(|time| print!(" {:.1} |", a_row(*time) / a_row(times[0])));
    }
    println!();
}

fn time<T>(call: impl FnOnce() -> T) -> Duration {
    let start = Instant::now();
    black_box(call());
    start.elapsed()
}

fn a_row(time: Duration) -> f64 {
    time.as_nanos() as f64 / ROWS as f64
}

/// The tree of a node, children in brackets.
fn forms(bytes: &[u8]) -> String {
    let number = |at: usize| u32::from_le_bytes(bytes[at..at + 4].try_into().unwrap()) as usize;
    let form = match bytes[0] {
        0 => "plain",
        1 => "constant",
        2 => "blank",
        16 => "dict",
        17 => "runs",
        18 => "frame",
        _ => "other",
    };
    let (mut start, mut children) = (16 + number(8), Vec::new());
    while start < number(12) {
        children.push(forms(&bytes[start..]));
        start += u32::from_le_bytes(bytes[start + 12..start + 16].try_into().unwrap()) as usize;
    }
    match children.is_empty() {
        true => form.to_string(),
        false => format!("{form}({})", children.join(", ")),
    }
}
