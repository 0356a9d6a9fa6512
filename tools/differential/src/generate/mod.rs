//! What both sides are fed. Every case is found from the seed and its number alone.

pub mod damage;
pub mod deep;
pub mod exhaustive;
pub mod limits;
pub mod scripts;
pub mod trees;

use crate::case::Case;
use crate::expression::{numbers, Expression, Own};
use crate::random::Random;
use crate::record::Input;
use exhaustive::Exhaustive;
use trees::{Mix, Style};

/// Each tree of an exhaustive set is given twice: with classes 0 and rising ids, and with the classes that its
/// number says and ids in some order.
pub fn exhaustive_case(all: &Exhaustive, number: u64) -> Case {
    let (tree, second) = (all.tree(number / 2), number % 2 == 1);
    let size: usize = tree.iter().map(Expression::size).sum();
    let mut ids: Vec<u32> = (0..size).map(|at| Own::plain(at).id).collect();
    let mut classes = vec![0, 0];
    if second {
        Random::new(0, "exhaustive", number).shuffle(&mut ids);
        classes = vec![(number / 2 % 16) as u8, (number / 32 % 16) as u8];
    }
    let own = |at: usize| Own { id: ids[at], ..Own::plain(at) };
    Case::new(Input { classes, numbers: numbers(&tree, own) })
}

/// Names that a tree of this size may have.
fn names(random: &mut Random, size: usize) -> usize {
    match size {
        0..=60 => random.pick(&[1, 2, 3, 3, 4, 5, 6, 8]),
        _ => random.pick(&[3, 10, 40, 200, 1024]),
    }
}

fn class(random: &mut Random) -> u8 {
    let any = random.below(256) as u8;
    random.pick(&[0, 0, 0, 0, 0, 0, 1, 2, 2, 4, 4, 6, 8, 15, any])
}

/// Different ids: rising, falling or in any order; now and then with the smallest and the largest there are.
fn ids(random: &mut Random, size: usize) -> Vec<u32> {
    let step = random.from(1, 1000) as u32;
    let mut ids: Vec<u32> = (0..size as u32).map(|i| 2 + step * i).collect();
    match random.below(3) {
        0 => {}
        1 => ids.reverse(),
        _ => random.shuffle(&mut ids),
    }
    if size >= 2 && random.percent(10) {
        ids[random.below(size)] = u32::MAX - 1;
        ids[random.below(size)] = 1;
    }
    ids
}

/// A random tree of exactly `size` records.
pub fn random_input(random: &mut Random, size: usize, mix: Mix) -> Input {
    let names = names(random, size);
    let style = Style::new(random, size > 60, mix);
    let mut tree = trees::tree(random, style, names, size);
    while mix == Mix::Surely && !tree.iter().any(Expression::has_expanded) {
        tree = trees::tree(random, style, names, size);
    }
    let ids = ids(random, size);
    let places: Vec<u32> = (0..2 * size).map(|_| random.next() as u32).collect();
    let own = |at: usize| Own { id: ids[at], from: places[2 * at], to: places[2 * at + 1] };
    let numbers = numbers(&tree, own);
    Input { classes: (0..names).map(|_| class(random)).collect(), numbers }
}

/// The random tree of this number, with from `least` to `most` records.
pub fn random_case(seed: u64, number: u64, (least, most): (usize, usize), mix: Mix) -> (Case, Random) {
    let of = if mix == Mix::Surely { "expanded" } else { "random" };
    let mut random = Random::new(seed, of, number);
    let size = random.from(least, most);
    (Case::new(random_input(&mut random, size, mix)), random)
}

pub fn deep_case(seed: u64, number: u64) -> Case {
    Case::new(deep::deep(&mut Random::new(seed, "deep", number)))
}

pub fn damaged_case(seed: u64, number: u64, sizes: (usize, usize)) -> Case {
    let (mut case, mut random) = random_case(seed, number, sizes, Mix::Perhaps);
    damage::damage(&mut case, &mut random);
    case
}

#[cfg(test)]
mod tests {
    use super::*;
    use crate::record::{is_expanded, records, WIDTH};
    use crate::refusals;

    #[test]
    fn random_trees_are_trees_of_the_size_asked_for() {
        for number in 0..300 {
            for size in [1, 2, 3, 30, 60, 61, 700, 4096] {
                for mix in [Mix::Never, Mix::Perhaps, Mix::Surely] {
                    let input = random_input(&mut Random::new(7, "test", number), size, mix);
                    assert_eq!(input.numbers.len(), WIDTH * size);
                    let has = records(&input.numbers).iter().any(|r| is_expanded(r.form));
                    assert!(has || mix != Mix::Surely);
                    assert!(!has || mix != Mix::Never);
                    assert_eq!(refusals::first(&Case::new(input)), None);
                }
            }
        }
    }

    #[test]
    fn the_same_number_gives_the_same_case() {
        let [one, two] = [(); 2].map(|_| damaged_case(1, 5, (61, 4096)));
        assert_eq!((one.input.numbers, one.lent), (two.input.numbers, two.lent));
    }
}
