//! The command line.

use std::path::PathBuf;
use std::{env, process, thread};

#[derive(Debug, PartialEq)]
pub struct Options {
    pub exhaustive: usize,
    pub random: u64,
    pub expanded: u64,
    pub large: u64,
    pub damaged: u64,
    pub seed: u64,
    pub threads: usize,
    pub bench: bool,
    pub before: Option<PathBuf>,
}

/// The command prints it too, before anything is built.
pub const HELP: &str = include_str!("../options.txt");

impl Default for Options {
    fn default() -> Self {
        Options {
            exhaustive: 6,
            random: 100_000,
            expanded: 100_000,
            large: 2_000,
            damaged: 100_000,
            seed: 1,
            threads: thread::available_parallelism().map_or(1, usize::from),
            bench: false,
            before: None,
        }
    }
}

impl Options {
    /// Of the program's arguments; ends it where they are not understood.
    pub fn read() -> Self {
        let arguments: Vec<String> = env::args().skip(1).collect();
        if arguments.iter().any(|word| word == "--help") {
            print!("{HELP}");
            process::exit(0)
        }
        Options::of(arguments).unwrap_or_else(|message| {
            eprintln!("{message} (--help lists the options)");
            process::exit(2)
        })
    }

    fn of(arguments: impl IntoIterator<Item = String>) -> Result<Self, String> {
        let mut options = Options::default();
        let mut arguments = arguments.into_iter();
        while let Some(argument) = arguments.next() {
            let mut number = || match arguments.next().map(|n| n.parse::<u64>()) {
                Some(Ok(n)) => Ok(n),
                _ => Err(format!("{argument} needs a number")),
            };
            match argument.as_str() {
                "--exhaustive" => options.exhaustive = number()? as usize,
                "--random" => options.random = number()?,
                "--expanded" => options.expanded = number()?,
                "--large" => options.large = number()?,
                "--damaged" => options.damaged = number()?,
                "--seed" => options.seed = number()?,
                "--threads" => options.threads = number()?.max(1) as usize,
                "--quick" => {
                    (options.exhaustive, options.random, options.expanded) = (4, 2_000, 2_000);
                    (options.large, options.damaged) = (40, 2_000);
                }
                "--bench" => options.bench = true,
                "--before" => {
                    options.before = Some(arguments.next().ok_or("--before needs a folder")?.into())
                }
                other => return Err(format!("{other} is no option")),
            }
        }
        Ok(options)
    }
}

#[cfg(test)]
mod tests {
    use super::*;

    fn of(words: &str) -> Result<Options, String> {
        Options::of(words.split_whitespace().map(String::from))
    }

    /// The lines of the help that start with an option: it, and what stands after it.
    fn lines() -> Vec<(&'static str, &'static str)> {
        HELP.lines()
            .filter_map(|line| line.trim_start().split_once(' '))
            .filter(|l| l.0.starts_with("--"))
            .collect()
    }

    #[test]
    fn the_help_tells_every_option_and_its_default() {
        let told: Vec<&str> = lines().into_iter().map(|line| line.0).collect();
        let all = "--exhaustive --random --expanded --large --damaged --seed --threads --quick --bench --before --help";
        assert_eq!(told.join(" "), all);
        for (option, rest) in lines().into_iter().filter(|line| line.1.starts_with("N ")) {
            let default =
                rest.rsplit_once('(').and_then(|(_, end)| end.strip_suffix(')')).expect("a default");
            if option != "--threads" {
                assert_eq!(of(&format!("{option} {default}")), Ok(Options::default()), "{option}");
            }
            assert_ne!(of(&format!("{option} 70007")), Ok(Options::default()), "{option}");
        }
    }

    #[test]
    fn quick_is_what_the_help_says() {
        let quick = lines().into_iter().find(|line| line.0 == "--quick").expect("its line").1;
        let (_, same) = quick.split_once("the same as").expect("what it is");
        let (same, _) = same.split_once('(').expect("its default");
        assert_eq!(of("--quick"), of(same));
        assert_ne!(of("--quick"), of(""));
    }

    #[test]
    fn words_that_are_not_understood() {
        assert_eq!(of("--seed"), Err("--seed needs a number".into()));
        assert_eq!(of("--seed x"), Err("--seed needs a number".into()));
        assert_eq!(of("--bench --before"), Err("--before needs a folder".into()));
        assert_eq!(of("--slow"), Err("--slow is no option".into()));
        assert_eq!(of("--bench --before x").map(|o| o.before), Ok(Some("x".into())));
    }
}
