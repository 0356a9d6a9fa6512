//! A stage: cases of one kind, compared by several threads, with a line that tells how far it is.

use crate::case::Case;
use crate::compare::{compare, Difference};
use crate::port::{self, Port};
use crate::random::Random;
use crate::record::WIDTH;
use crate::refusals;
use crate::shrink::shrink;
use crate::tables::Tables;
use crate::tally::Tally;
use std::io::{IsTerminal, Write};
use std::sync::atomic::{AtomicU64, Ordering::Relaxed};
use std::thread;
use std::time::{Duration, Instant};

pub struct Stage<'a> {
    pub name: &'static str,
    pub count: u64,
    pub case: Box<dyn Fn(u64) -> Case + Sync + 'a>,
}

/// A case that differs.
#[derive(Clone)]
pub struct Differing {
    pub stage: &'static str,
    pub number: u64,
    pub case: Case,
    pub differences: Vec<Difference>,
    pub shrunk: Option<Shrinking>,
}

/// How a case was shrunk.
#[derive(Clone, Copy)]
pub struct Shrinking {
    /// Records before.
    pub records: usize,
    pub tries: usize,
}

/// Of the tries that make a case smaller, and of those that make it plainer.
const MOST_TRIES: usize = 10_000;

fn is_of_the_original(differences: &[Difference]) -> bool {
    differences.iter().any(|difference| matches!(difference, Difference::Original(_)))
}

impl Differing {
    /// How many records it has.
    pub fn size(&self) -> usize {
        self.case.input.numbers.len() / WIDTH
    }

    /// A smaller one that differs too, where it is a tree; what is no tree stays as it is.
    pub fn shrunk(mut self, seed: u64, port: &Port) -> Differing {
        if refusals::first(&self.case).is_some() {
            return self;
        }
        eprintln!("shrinking {} number {}, {} records", self.stage, self.number, self.size());
        let mut tables = Tables::new(seed);
        let mut differences = |case: &Case| {
            let mut random = Random::new(seed, "tables", self.number);
            compare(port, case, &mut tables, &mut random).1
        };
        // What the original does is not taken for what the port does.
        let of_the_original = is_of_the_original(&self.differences);
        let shrunk = shrink(&self.case.input, MOST_TRIES, |input| {
            let found = differences(&Case::new(input.clone()));
            !found.is_empty() && is_of_the_original(&found) == of_the_original
        });
        let case = Case::new(shrunk.input);
        let found = differences(&case);
        // A port that does not always answer the same may not differ again.
        if !found.is_empty() {
            self.shrunk = Some(Shrinking { records: self.size(), tries: shrunk.tries });
            (self.case, self.differences) = (case, found);
        }
        self
    }
}

#[derive(Default)]
pub struct Outcome {
    pub tally: Tally,
    pub differing: u64,
    pub smallest: Option<Differing>,
}

impl Outcome {
    /// Keeps the one with the fewest records, and of those the first.
    fn note(&mut self, differing: Differing) {
        let key = |d: &Differing| (d.size(), d.number);
        if self.smallest.as_ref().is_none_or(|kept| key(&differing) < key(kept)) {
            self.smallest = Some(differing);
        }
    }

    fn join(mut self, other: Outcome) -> Outcome {
        self.tally += &other.tally;
        self.differing += other.differing;
        other.smallest.into_iter().for_each(|differing| self.note(differing));
        self
    }
}

/// How far the threads are.
#[derive(Default)]
struct Progress {
    next: AtomicU64,
    done: AtomicU64,
    differing: AtomicU64,
}

/// Cases that a thread takes at a time.
const CHUNK: u64 = 16;
/// Large trees are deep, and both sides recurse.
const STACK: usize = 64 << 20;

fn spawn<'s, T: Send + 's>(
    scope: &'s thread::Scope<'s, '_>,
    work: impl FnOnce() -> T + Send + 's,
) -> thread::ScopedJoinHandle<'s, T> {
    thread::Builder::new().stack_size(STACK).spawn_scoped(scope, work).expect("a thread")
}

/// A result of work that needs such a stack.
pub fn with_stack<T: Send>(work: impl FnOnce() -> T + Send) -> T {
    thread::scope(|scope| spawn(scope, work).join().expect("no panic of ours"))
}

impl Stage<'_> {
    pub fn run(&self, seed: u64, threads: usize) -> Outcome {
        let progress = Progress::default();
        thread::scope(|scope| {
            let start = |_| spawn(scope, || self.work(seed, &progress));
            let workers: Vec<_> = (0..threads).map(start).collect();
            self.watch(&progress, || workers.iter().all(|worker| worker.is_finished()));
            let results = workers.into_iter().map(|worker| worker.join().expect("no panic of ours"));
            results.fold(Outcome::default(), Outcome::join)
        })
    }

    fn work(&self, seed: u64, progress: &Progress) -> Outcome {
        let mut tables = Tables::new(seed);
        let mut outcome = Outcome::default();
        loop {
            let first = progress.next.fetch_add(CHUNK, Relaxed);
            if first >= self.count {
                return outcome;
            }
            for number in first..self.count.min(first + CHUNK) {
                let differs = self.one(number, seed, &mut tables, &mut outcome);
                progress.done.fetch_add(1, Relaxed);
                progress.differing.fetch_add(differs.into(), Relaxed);
            }
        }
    }

    /// Whether the case differs.
    fn one(&self, number: u64, seed: u64, tables: &mut Tables, outcome: &mut Outcome) -> bool {
        let case = (self.case)(number);
        let mut random = Random::new(seed, "tables", number);
        let (expected, differences) = compare(&port::call, &case, tables, &mut random);
        outcome.tally.add(&case, expected.as_ref());
        let differs = !differences.is_empty();
        if differs {
            outcome.differing += 1;
            outcome.note(Differing { stage: self.name, number, case, differences, shrunk: None });
        }
        differs
    }

    /// Tells how far it is until `ended`: on a terminal one line that changes, else a line now and then.
    fn watch(&self, progress: &Progress, ended: impl Fn() -> bool) {
        let terminal = std::io::stderr().is_terminal();
        let pause = if terminal { Duration::from_millis(200) } else { Duration::from_secs(60) };
        let mut told = Instant::now();
        while !ended() {
            thread::sleep(Duration::from_millis(20));
            if told.elapsed() >= pause {
                self.tell(progress, terminal, false);
                told = Instant::now();
            }
        }
        self.tell(progress, terminal, true);
    }

    fn tell(&self, progress: &Progress, terminal: bool, last: bool) {
        let (done, differing) = (progress.done.load(Relaxed), progress.differing.load(Relaxed));
        let start = if terminal { "\r" } else { "" };
        let end = if terminal && !last { "" } else { "\n" };
        let (name, count) = (self.name, self.count);
        // A progress line that cannot be written is no reason to stop.
        let _ = write!(std::io::stderr(), "{start}{name}: {done} of {count}, {differing} differ{end}");
    }
}

#[cfg(test)]
mod tests {
    use super::*;
    use crate::expected::{expected, Answer};
    use crate::generate::random_input;
    use crate::generate::scripts::script;
    use crate::generate::trees::Mix;
    use crate::port::Run;
    use crate::record::Input;
    use crate::refusals::Refusal;
    use crate::report;
    use crate::rows::{CALL_ROW, FACT};

    /// A port that answers what is expected, so that no library is tried here.
    fn right(run: Run, input: &Input, mut tables: [&mut [u32]; 4]) -> Option<Refusal> {
        tables.iter_mut().for_each(|table| table.fill(0));
        let expected = expected(&Case::new(input.clone())).expect("nothing but what is listed");
        match [expected.fresh, expected.settled][run as usize] {
            Answer::Refused(refusal) => Some(refusal),
            Answer::Accepted(ref rows) => {
                let [facts, captured, arguments] =
                    [&rows.facts.concat(), &rows.captured.concat(), &rows.arguments.concat()];
                for (table, numbers) in tables.iter_mut().zip([facts, captured, arguments]) {
                    table[..numbers.len()].copy_from_slice(numbers);
                }
                None
            }
        }
    }

    /// The same, but that the self tail calls of a settled run are tail calls.
    fn erring(
        run: Run,
        input: &Input,
        [facts, captured, arguments, work]: [&mut [u32]; 4],
    ) -> Option<Refusal> {
        let answer = right(run, input, [&mut *facts, captured, arguments, work]);
        for row in facts.chunks_exact_mut(FACT) {
            if run == Run::Settled && row[..2] == [CALL_ROW, 3] {
                row[1] = 2;
            }
        }
        answer
    }

    fn differing(case: Case, port: &Port) -> Option<Differing> {
        let mut random = Random::new(1, "tables", 7);
        let differences = compare(port, &case, &mut Tables::new(1), &mut random).1;
        let differs = !differences.is_empty();
        differs.then_some(Differing { stage: "random", number: 7, case, differences, shrunk: None })
    }

    fn cases() -> impl Iterator<Item = Case> {
        (0..100).map(|number| Case::new(random_input(&mut Random::new(1, "test", number), 100, Mix::Perhaps)))
    }

    /// A self tail call needs a define, its name, a lambda, a call and its head.
    #[test]
    fn a_port_that_errs_is_shown_by_the_smallest_tree() {
        assert!(cases().all(|case| differing(case, &right).is_none()));
        let met: Vec<_> = cases().filter_map(|case| differing(case, &erring)).take(3).collect();
        assert_eq!(met.len(), 3);
        for differing in met {
            let told = report::differing(&differing.shrunk(1, &erring));
            let expected = "
    (define n0 (lambda () (n0)))
lent tables: [81920, 53248, 53248, 59392] numbers
names=1
class=0
form=5 id=0 name=0 count=0 from=100 to=101
form=1 id=11 name=0 count=0 from=102 to=103
form=6 id=12 name=0 count=0 from=104 to=105
form=8 id=13 name=0 count=1 from=106 to=107
form=1 id=14 name=0 count=0 from=108 to=109
Settled: facts row 3 of (n0) place 1 (kind): expected 3, found 2
";
            let (first, rest) = told.split_at(told.find('\n').expect("lines"));
            assert!(first.contains("random number 7, shrunk from 100 to 5 records in "), "{first}");
            assert_eq!(rest, expected);
        }
    }

    /// A call without its argument.
    #[test]
    fn what_is_no_tree_is_not_shrunk() {
        let refuses_nothing = |_: Run, _: &Input, _: [&mut [u32]; 4]| None;
        let mut case = Case::new(script("(x y)"));
        case.input.numbers.truncate(2 * WIDTH);
        let numbers = case.input.numbers.clone();
        let shown = differing(case, &refuses_nothing).expect("it differs").shrunk(1, &refuses_nothing);
        assert!(shown.shrunk.is_none());
        assert_eq!(shown.case.input.numbers, numbers);
    }

    #[test]
    fn what_does_not_differ_again_stays() {
        let met = cases().find_map(|case| differing(case, &erring)).expect("one differs");
        let (numbers, count) = (met.case.input.numbers.clone(), met.differences.len());
        let shown = met.shrunk(1, &right);
        assert!(shown.shrunk.is_none());
        assert_eq!((shown.case.input.numbers, shown.differences.len()), (numbers, count));
    }
}
