//! docs/BENCHMARKS.md, written whole.

use super::measure::{middle, Port, Times};
use super::sets::Set;
use super::{Measured, Rounds};
use crate::record::WIDTH;
use std::fs;

const TEXT: &str = "\
# How fast both are

The original and the port on the same trees, both optimised, on one thread. Made by

    tools/differential/run FOLDER --bench [--before EARLIER]

which rewrites this page. EARLIER is a folder with the archive and the C header of an earlier port, and a line about it in the file ABOUT;
it is then measured in the same rounds: before, where now is the port of this tree.

Microseconds of processor time, of all trees of a line together; of each tree the median of ten rounds, each with the shortest of at least 5
repetitions and 0.04 seconds.

- **analysis**: the original's `run_with_scope` on an empty `Analysis`, once or twice.
- **whole**: the same with making and dropping the `Analysis`.
- **kept**: analysis again, the median of five rounds more, when the C library keeps the memory that the original gives back; else it takes large blocks from the
  system at each run and gives them back.
- **call**: the port's `fresh` or `settled`, which checks the records and writes every number of the lent tables, a million bytes.
- **net**: the call without what a call of no records takes, which is clearing the tables.
- **ratio**: net divided by analysis.

The random trees are the first of the seed that both runs accept. The size series is defines one after another,
`(define f (lambda (a b) (let ((c (a b))) (if c (g a c) (lambda () (b c))))))`, so that depth and scope stay small while the tree
grows.
";

const PATH: &str = concat!(env!("CARGO_MANIFEST_DIR"), "/../../docs/BENCHMARKS.md");

/// `about`: what the earlier port is, or nothing.
pub fn write(seed: u64, about: &str, shapes: &[Measured], series: &[Measured]) -> Result<(), String> {
    let before = if about.is_empty() { String::new() } else { format!(" Before: {about}") };
    let page =
        format!("{TEXT}\n{}, seed {seed}.{before}\n\n{}\n{}", processor(), table(shapes), sizes(series));
    fs::write(PATH, page).map_err(|e| format!("{PATH}: {e}"))
}

fn processor() -> String {
    let text = fs::read_to_string("/proc/cpuinfo").unwrap_or_default();
    let model = text.lines().find_map(|line| line.strip_prefix("model name")?.split_once(": "));
    model.map_or("Processor not known".to_string(), |(_, model)| model.trim().to_string())
}

fn count(set: &Set) -> usize {
    set.inputs.iter().map(|input| input.numbers.len() / WIDTH).sum()
}

fn micros(nanos: f64) -> String {
    format!("{:.1}", nanos / 1000.0)
}

/// Of all trees of a set together, each with the median of its rounds.
fn total(rounds: &Rounds) -> Times {
    let medians: Vec<Times> = rounds.trees.iter().map(|tree| Times::median(tree)).collect();
    Times::sum(&medians)
}

/// The cells of a row of a table.
fn row(cells: impl IntoIterator<Item = String>) -> String {
    let cells: Vec<String> = cells.into_iter().collect();
    format!("| {} |\n", cells.join(" | "))
}

/// The head of a table: words on the left, numbers on the right.
fn head(words: &[&str], numbers: &[String]) -> String {
    let lines = words.iter().map(|_| "---").chain(numbers.iter().map(|_| "--:"));
    row(words.iter().map(|word| word.to_string()).chain(numbers.iter().cloned()))
        + &row(lines.map(String::from))
}

/// The ports that were measured, the earlier one first.
fn ports(times: &Times) -> Vec<(&'static str, Port)> {
    let now = ("now", times.port);
    times.earlier.map_or(vec![now], |earlier| vec![("before", earlier), now])
}

fn table(sets: &[Measured]) -> String {
    let first = total(&sets[0].fresh);
    let mut numbers: Vec<String> = ["records", "analysis", "whole", "kept"].map(String::from).into();
    for (when, _) in ports(&first) {
        numbers.extend(["call", "net", "ratio"].map(|what| format!("{when}: {what}")));
    }
    let mut out = head(&["trees", "run"], &numbers);
    for Measured { set, fresh, settled } in sets {
        for (run, rounds) in [("fresh", fresh), ("settled", settled)] {
            let t = total(rounds);
            let trees = match set.inputs.len() {
                1 => set.name.clone(),
                number => format!("{number} {}", set.name),
            };
            let mut cells = vec![trees, run.to_string(), count(set).to_string()];
            cells.extend([t.analysis, t.whole, middle(rounds.kept.clone())].map(micros));
            for (_, port) in ports(&t) {
                cells.extend([micros(port.call), micros(port.net), format!("{:.2}", port.net / t.analysis)]);
            }
            out += &row(cells);
        }
    }
    out
}

/// Nanoseconds a record.
fn sizes(sets: &[Measured]) -> String {
    let mut numbers = vec!["records".to_string()];
    for run in ["fresh", "settled"] {
        numbers.push(format!("{run}: analysis"));
        numbers.extend(ports(&total(&sets[0].fresh)).into_iter().map(|(when, _)| format!("net {when}")));
    }
    let mut out = "The size series, in nanoseconds a record:\n\n".to_string() + &head(&["trees"], &numbers);
    for Measured { set, fresh, settled } in sets {
        let records = count(set) as f64;
        let mut cells = vec![set.name.clone(), records.to_string()];
        for t in [total(fresh), total(settled)] {
            cells.push(format!("{:.0}", t.analysis / records));
            cells.extend(ports(&t).into_iter().map(|(_, port)| format!("{:.0}", port.net / records)));
        }
        out += &row(cells);
    }
    out
}
