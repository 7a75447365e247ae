//! Times the calls and prints a table for each rule: the proved library, the second implementation
//! (queues and heaps of its own) and the plain form (the library's algorithm in ordinary Rust); then
//! the library's ratios to both, under all rules side by side.
//!
//! `cargo run --release -p bench`, or with `--no-default-features` without the library.

mod book;
mod clock;
mod loads;
mod table;

use calls::Engine;
use loads::Loads;
use second::Second;
use table::{print_line, print_ratios, time, Table};

/// Each engine gets so many turns at each row.
const TURNS: usize = 3;

const RULES: [&str; 4] = [
    "earliest received first",
    "latest received first",
    "smallest birth minute first",
    "largest birth minute first",
];

fn main() {
    let subjects = compare::subjects();
    let labels = subjects.iter().map(|e| e.label()).chain([Second.label()]);
    let labels: Vec<&str> = labels.collect();
    println!("Best of many runs. Head and table are checked in full by each single call on a book");
    println!(
        "of library and plain; the second implementation keeps its own pieces and trusts them."
    );
    let mut tables = Vec::new();
    for (rule, words) in (0..).zip(RULES) {
        let loads = Loads::new(rule);
        println!(
            "\nrule {rule}: {words} (a day leaves {} pieces)",
            loads.day_pieces()
        );
        let mut table = Table::new(&labels);
        for (title, timed) in loads::ROWS {
            let mut times = vec![f64::MAX; labels.len()];
            // In turns, so that a busy spell of the machine does not hit one of them alone.
            for _ in 0..TURNS {
                let engines = subjects.iter().map(|&engine| Some(engine)).chain([None]);
                for (best, engine) in times.iter_mut().zip(engines) {
                    *best = best.min(timed(&loads, engine));
                }
            }
            table.row(title, times);
        }
        table.print();
        tables.push(table);
    }
    print_ratios(&tables);
    print_parts(&subjects);
}

/// Prints what a whole report is made of, beside its own pass over the pieces, and what it takes over a
/// held report and the writing of its numbers: the goal is at most 1.5.
fn print_parts(subjects: &[&'static dyn Engine]) {
    let loads = Loads::new(0);
    let writing = least(loads::writing);
    println!("\nOf a whole report:");
    print_line("4,096 numbers written", [time(writing)]);
    for &engine in subjects {
        let label = engine.label();
        let checks = least(|| loads.checks(engine));
        let held = least(|| loads.held(Some(engine)));
        let whole = least(|| loads.whole(Some(engine)));
        let over = format!("{:.2}", whole / (held + writing));
        print_line(&format!("checks 1 and 4, {label}"), [time(checks)]);
        print_line(&format!("over held and writing, {label}"), [over]);
    }
}

/// The least time of as many turns as a row of a table gets.
fn least(timed: impl Fn() -> f64) -> f64 {
    (0..TURNS).map(|_| timed()).fold(f64::MAX, f64::min)
}
