//! The original and the port on the same trees. See docs/DIFFERENTIAL.md.

mod bench;
mod case;
mod compare;
mod expand;
mod expected;
mod expression;
mod generate;
mod layers;
mod node;
mod options;
mod port;
mod random;
mod record;
mod refusals;
mod report;
mod rows;
mod scheme;
mod shrink;
mod stage;
mod summary;
mod syntax;
mod tables;
mod tally;
mod tree;

use case::Case;
use generate::exhaustive::Exhaustive;
use generate::trees::Mix;
use generate::{damaged_case, deep_case, exhaustive_case, limits::limits, random_case, scripts::scripts};
use options::Options;
use record::{SET, UNLESS};
use stage::{with_stack, Differing, Stage};
use std::process::ExitCode;
use std::time::Instant;
use tally::Tally;

const SMALL: (usize, usize) = (1, 60);
const LARGE: (usize, usize) = (61, 4096);

fn main() -> ExitCode {
    let options = Options::read();
    if options.bench {
        bench::bench(options.seed, options.before.as_deref())
    } else {
        compare_all(&options)
    }
}

fn compare_all(options: &Options) -> ExitCode {
    let all = Exhaustive::new(options.exhaustive, 2, SET);
    let more = Exhaustive::new(options.exhaustive.saturating_sub(1), 2, UNLESS);
    let expanded = more.expanded();
    let fixed: Vec<_> = scripts().into_iter().chain(limits()).map(Case::new).collect();
    let start = Instant::now();
    let (mut told, mut total) = (Vec::new(), Tally::default());
    let (mut differing, mut smallest) = (0, Vec::new());
    for stage in stages(options, &all, (&more, &expanded), &fixed) {
        let outcome = stage.run(options.seed, options.threads);
        differing += outcome.differing;
        total += &outcome.tally;
        told.push((stage.name, outcome.tally));
        smallest.extend(outcome.smallest);
    }
    print!("{}{}", summary::answers(&told), summary::held(&total));
    print!("listed in docs/DIFFERENCES.md:\n{}", summary::listed(&total));
    println!("{} inputs, {} records, {} seconds", total.inputs, total.records, start.elapsed().as_secs());
    let shrunk = smallest.into_iter().map(|d| with_stack(|| d.shrunk(options.seed, &port::call)));
    if let Some(d) = shrunk.min_by_key(Differing::size) {
        print!("{}", report::differing(&d));
    }
    println!("{differing} differences");
    if differing == 0 {
        ExitCode::SUCCESS
    } else {
        ExitCode::FAILURE
    }
}

/// `more` are the trees with forms 10 to 12 too, and the numbers of those that have one.
fn stages<'a>(
    options: &Options,
    all: &'a Exhaustive,
    more: (&'a Exhaustive, &'a [u64]),
    fixed: &'a [Case],
) -> Vec<Stage<'a>> {
    let seed = options.seed;
    vec![
        Stage {
            name: "fixed",
            count: fixed.len() as u64,
            case: Box::new(|number| fixed[number as usize].clone()),
        },
        Stage {
            name: "exhaustive",
            count: 2 * all.count(),
            case: Box::new(|number| exhaustive_case(all, number)),
        },
        Stage {
            name: "exhaustive 10-12",
            count: 2 * more.1.len() as u64,
            case: Box::new(move |number| {
                exhaustive_case(more.0, 2 * more.1[number as usize / 2] + number % 2)
            }),
        },
        Stage {
            name: "random",
            count: options.random,
            case: Box::new(move |number| random_case(seed, number, SMALL, Mix::Perhaps).0),
        },
        Stage {
            name: "random 10-12",
            count: options.expanded,
            case: Box::new(move |number| random_case(seed, number, SMALL, Mix::Surely).0),
        },
        Stage {
            name: "large",
            count: options.large,
            case: Box::new(move |number| random_case(seed, number, LARGE, Mix::Perhaps).0),
        },
        Stage {
            name: "deep 10-12",
            count: options.large / 10,
            case: Box::new(move |number| deep_case(seed, number)),
        },
        Stage {
            name: "damaged",
            count: options.damaged,
            case: Box::new(move |number| {
                damaged_case(seed, number, if number % 50 == 0 { LARGE } else { SMALL })
            }),
        },
    ]
}
