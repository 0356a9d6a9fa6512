//! A smaller tree that differs too: parts are left out or made plain as long as the tree still differs.

use crate::expression::Own;
use crate::record::{has_id, is_expanded, needs_a_child, Input, Record, BEGIN, CONSTANT, IDENTIFIER};
use crate::tree::{Part, Tree};
use std::collections::{BTreeSet, HashMap};

pub struct Shrunk {
    pub input: Input,
    /// How often `differs` was asked.
    pub tries: usize,
}

/// The input passes checks 1 to 8 and 16, and so does every one that `differs` is asked of: at most `most` times for what is
/// smaller, and as often for what is plainer.
pub fn shrink(input: &Input, most: usize, differs: impl FnMut(&Input) -> bool) -> Shrunk {
    let mut search = Search { kept: Tree::new(input), differs, tries: 0, last: most };
    while search.round() {}
    search.last = search.tries + most;
    search.plain_names();
    search.plain_numbers();
    Shrunk { input: search.kept.input(), tries: search.tries }
}

/// The most children that a record may count.
const MOST_COUNT: usize = 255;

struct Search<F> {
    kept: Tree,
    differs: F,
    tries: usize,
    last: usize,
}

/// Less is smaller: fewer records, then fewer that are no constants, then fewer of forms 10 to 12, then fewer that are #f.
fn measure(tree: &Tree) -> [usize; 4] {
    let records = tree.records();
    let count = |of: fn(&&Record) -> bool| records.iter().filter(of).count();
    let others = count(|r| r.form != CONSTANT);
    [records.len(), others, count(|r| is_expanded(r.form)), count(|r| r.form == CONSTANT && r.name == 1)]
}

/// A begin, or one of forms 10 to 12.
fn is_row(form: u32) -> bool {
    form == BEGIN || is_expanded(form)
}

fn unused_id(tree: &Tree) -> u32 {
    let used: BTreeSet<u32> = tree.records().iter().map(|r| r.id).collect();
    (1..).find(|id| !used.contains(id)).expect("fewer records than ids")
}

impl<F: FnMut(&Input) -> bool> Search<F> {
    /// Whether the tree differs, and so is kept.
    fn offer(&mut self, tree: Tree) -> bool {
        if self.tries == self.last {
            return false;
        }
        self.tries += 1;
        let differs = (self.differs)(&tree.input());
        if differs {
            self.kept = tree;
        }
        differs
    }

    /// Changes the part at this place, if that makes a smaller tree that differs.
    fn step(&mut self, at: usize, change: impl FnOnce(&mut Part)) -> bool {
        let mut tree = self.kept.clone();
        let Some(part) = tree.part(at) else { return false };
        change(part);
        let fits = !needs_a_child(part.record.form) || !part.kids.is_empty();
        let fits = fits && (at == 0 || part.loose() <= MOST_COUNT);
        fits && measure(&tree) < measure(&self.kept) && self.offer(tree)
    }

    /// Every part once, the outer ones first. Whether the tree is smaller after it.
    fn round(&mut self) -> bool {
        let before = measure(&self.kept);
        let mut at = 0;
        while self.kept.part(at).is_some() {
            while at > 0 && self.replace(at) {}
            self.leave_out(at);
            self.open(at);
            self.make_begin(at);
            at += 1;
        }
        measure(&self.kept) < before
    }

    /// By a constant, or by one of its children.
    fn replace(&mut self, at: usize) -> bool {
        let id = unused_id(&self.kept);
        if self.step(at, |part| *part = Part::constant(part.record, id)) {
            return true;
        }
        let kids = self.kept.part(at).map_or(0, |part| part.kids.len());
        (0..kids).any(|kid| self.step(at, |part| *part = part.kids.swap_remove(kid)))
    }

    /// Children in runs: all, then halves, down to single ones.
    fn leave_out(&mut self, at: usize) {
        let mut size = self.loose(at);
        while size > 0 {
            let mut first = 0;
            while first < self.loose(at) {
                let run = first..self.loose(at).min(first + size);
                if !self.step(at, |part| part.leave_out(run)) {
                    first += size;
                }
            }
            size /= 2;
        }
    }

    fn loose(&mut self, at: usize) -> usize {
        self.kept.part(at).map_or(0, |part| part.loose())
    }

    /// Of an `and`, `when` or `unless`.
    fn make_begin(&mut self, at: usize) {
        self.step(at, |part| {
            if is_expanded(part.record.form) {
                part.record.form = BEGIN;
            }
        });
    }

    /// The rows of expressions inside such a row.
    fn open(&mut self, at: usize) {
        let mut kid = 0;
        while let Some(part) =
            self.kept.part(at).filter(|part| is_row(part.record.form) && kid < part.kids.len())
        {
            let row = is_row(part.kids[kid].record.form);
            if !(row && self.step(at, |part| part.open(kid))) {
                kid += 1;
            }
        }
    }

    /// Names numbered as they come, none that is not used, and no class with a bit too many.
    fn plain_names(&mut self) {
        let mut tree = self.kept.clone();
        let mut numbers = HashMap::new();
        let mut classes = Vec::new();
        tree.each(|r| {
            if r.form == IDENTIFIER {
                let old = r.name;
                r.name = *numbers.entry(old).or_insert_with(|| {
                    classes.push(self.kept.classes[old as usize]);
                    classes.len() as u32 - 1
                });
            }
        });
        tree.classes = classes;
        self.offer(tree);
        for name in 0..self.kept.classes.len() {
            for bit in (0..8).map(|bit| 1 << bit) {
                if self.kept.classes[name] & bit != 0 {
                    let mut tree = self.kept.clone();
                    tree.classes[name] &= !bit;
                    self.offer(tree);
                }
            }
        }
    }

    /// Plain ids, or at least close ones in the order that they have; plain positions.
    fn plain_numbers(&mut self) {
        let ids: BTreeSet<u32> = self.kept.records().iter().map(|r| r.id).filter(|id| *id != 0).collect();
        let close: HashMap<u32, u32> = ids.into_iter().zip(Own::plain(0).id..).collect();
        if !self.renumber(|r, own| r.id = own.id) {
            self.renumber(|r, _| r.id = close.get(&r.id).copied().unwrap_or(0));
        }
        self.renumber(|r, own| (r.from, r.to) = (own.from, own.to));
    }

    fn renumber(&mut self, change: impl Fn(&mut Record, Own)) -> bool {
        let mut tree = self.kept.clone();
        let mut at = 0;
        tree.each(|r| {
            change(r, Own::plain(at));
            r.id = if has_id(r.form) { r.id } else { 0 };
            at += 1;
        });
        self.offer(tree)
    }
}

#[cfg(test)]
mod tests {
    use super::*;
    use crate::case::Case;
    use crate::generate::random_input;
    use crate::generate::scripts::script;
    use crate::generate::trees::Mix;
    use crate::random::Random;
    use crate::record::{AND, CALL, LAMBDA, LET, SET, UNLESS, WHEN};
    use crate::refusals;
    use crate::scheme::text;

    fn has(part: &Part, of: &impl Fn(&Part) -> bool) -> bool {
        of(part) || part.kids.iter().any(|kid| has(kid, of))
    }

    fn form(part: &Part, form: u32) -> bool {
        part.record.form == form
    }

    /// Shrinks while some part is `of` this; every input that is asked of has to be a tree.
    fn shrunk(input: &Input, most: usize, of: impl Fn(&Part) -> bool) -> (String, usize) {
        let mut asked = 0;
        let Shrunk { input, tries } = shrink(input, most, |input| {
            asked += 1;
            assert_eq!(refusals::first(&Case::new(input.clone())), None);
            has(&Tree::new(input).root, &of)
        });
        assert_eq!(asked, tries);
        (text(&Tree::new(&input)), tries)
    }

    fn set_inside_lambda(part: &Part) -> bool {
        form(part, LAMBDA) && has(part, &|inner| form(inner, SET))
    }

    /// Such a tree has a lambda, a set!, its name and a value; ids count from 10.
    #[test]
    fn a_set_inside_a_lambda() {
        let mut met = 0;
        for number in 0..40 {
            let input = random_input(&mut Random::new(1, "test", number), 300, Mix::Perhaps);
            if has(&Tree::new(&input).root, &set_inside_lambda) {
                met += 1;
                assert_eq!(shrunk(&input, 10_000, set_inside_lambda).0, "(lambda () (set! n0 13))");
            }
        }
        assert!(met >= 10, "{met}");
    }

    #[test]
    fn what_is_needed_stays() {
        let line =
            "a:15 (begin (lambda (x y z) (a x)) (begin (let ((p 1) (q (a b c d)) (r 3)) (if p q r)) #f))";
        let of = |least| move |part: &Part| form(part, LET) && part.names.len() >= least;
        assert_eq!(shrunk(&script(line), 1000, of(0)).0, "(let () 11)");
        assert_eq!(shrunk(&script(line), 1000, of(2)).0, "(let ((n0 13) (n1 14)) 15)");
        let call = |part: &Part| form(part, CALL) && part.kids.len() >= 3;
        assert_eq!(shrunk(&script(line), 1000, call).0, "(11 12 13)");
        let empty = |part: &Part| form(part, CALL);
        assert_eq!(shrunk(&script(line), 1000, empty).0, "(11)");
        let parameters = |part: &Part| form(part, LAMBDA) && part.names.len() >= 2;
        assert_eq!(shrunk(&script(line), 1000, parameters).0, "(lambda (n0 n1) 13)");
        let is_false = |part: &Part| form(part, CONSTANT) && part.record.name == 1;
        assert_eq!(shrunk(&script(line), 1000, is_false).0, "#f");
        assert_eq!(shrunk(&script(line), 1000, |part| form(part, IDENTIFIER)).0, "n0");
        // The root is a begin, so that nothing has to stay.
        assert_eq!(shrunk(&script(line), 1000, |part| form(part, BEGIN)).0, "");
    }

    /// Two top-level expressions of a begin that is not needed; of a class the bit that is.
    #[test]
    fn begins_are_opened_and_classes_lowered() {
        let input = script("f:7 (define g f) (begin (lambda (x) x) (begin f (set! y 1)))");
        let differs = |input: &Input| {
            let tree = Tree::new(input);
            let classed =
                |part: &Part| form(part, IDENTIFIER) && tree.classes[part.record.name as usize] & 4 != 0;
            has(&tree.root, &classed) && has(&tree.root, &|part| form(part, SET))
        };
        assert_eq!(text(&Tree::new(&shrink(&input, 1000, differs).input)), "n0:4 n0 (set! n1 13)");
    }

    /// A test stays, and of the three forms the one that is needed; else it is a begin, which is opened.
    #[test]
    fn forms_10_to_12() {
        let line = "(begin (when (and x y) (and (unless 1 2 (when z)) (set! x 3)) (begin x)) 4)";
        let of = |needed| move |part: &Part| form(part, needed);
        assert_eq!(shrunk(&script(line), 1000, of(AND)).0, "(and)");
        assert_eq!(shrunk(&script(line), 1000, of(WHEN)).0, "(when 11)");
        assert_eq!(shrunk(&script(line), 1000, of(UNLESS)).0, "(unless 11)");
        assert_eq!(shrunk(&script(line), 1000, of(SET)).0, "(set! n0 12)");
        let two_in_a_row = |part: &Part| is_row(part.record.form) && part.kids.len() >= 2;
        let inside = |part: &Part| form(part, LAMBDA) && has(part, &two_in_a_row);
        let input = script("(lambda () (when (and x) (and (and 1 2))))");
        assert_eq!(shrunk(&input, 1000, inside).0, "(lambda () (begin 12 13))");
    }

    /// Where the order of the ids is needed it stays: the outer lambda's is greater than the inner one's.
    #[test]
    fn ids_keep_their_order() {
        let input = script("(f (lambda (x) (lambda (y) x)))");
        let falls = |part: &Part| {
            let inner = |kid: &Part| form(kid, LAMBDA) && kid.record.id < part.record.id;
            form(part, LAMBDA) && part.kids.iter().any(inner)
        };
        // The ids of the two lambdas are 75 and 48, and that of the constant, which is new, is less.
        assert_eq!(shrunk(&input, 1000, falls).0, "(lambda () (lambda () 10))");
    }

    #[test]
    fn the_tries_are_bounded_and_nothing_else_is_kept() {
        let input = random_input(&mut Random::new(1, "test", 1), 300, Mix::Perhaps);
        for most in [0, 1, 7] {
            let never = shrink(&input, most, |_| false);
            assert!(never.tries <= 2 * most);
            assert_eq!(
                (never.input.numbers, never.input.classes),
                (input.numbers.clone(), input.classes.clone())
            );
            assert!(shrunk(&input, most, set_inside_lambda).1 <= 2 * most);
        }
        assert_eq!(shrink(&input, 1000, |_| true).input.numbers, []);
    }
}
