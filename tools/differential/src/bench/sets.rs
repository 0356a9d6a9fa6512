//! The trees that are measured. Both runs accept every one.

use crate::case::Case;
use crate::expected::{expected, Answer};
use crate::expression::{numbers, Expression, Own};
use crate::generate::limits::{tall, wide};
use crate::generate::random_input;
use crate::generate::trees::Mix;
use crate::random::Random;
use crate::record::{Input, BEGIN, CALL, DEFINE, IF, LAMBDA, LET, SET};

pub struct Set {
    pub name: String,
    pub inputs: Vec<Input>,
}

const SIZES: [usize; 6] = [30, 300, 500, 1000, 3500, 4096];
const TREES_A_SIZE: usize = 8;
/// Of the size series: so many defines of 20 records.
const DEFINES: [usize; 5] = [12, 25, 50, 100, 200];

fn accepted(input: &Input) -> bool {
    let case = Case::new(input.clone());
    expected(&case).is_ok_and(|e| matches!((e.fresh, e.settled), (Answer::Accepted(_), Answer::Accepted(_))))
}

/// The first random trees of these sizes that are accepted; the largest shapes; then the size series.
pub fn sets(seed: u64) -> (Vec<Set>, Vec<Set>) {
    let mut shapes: Vec<Set> = SIZES.map(|size| random_set(seed, size)).into();
    shapes.push(Set { name: "1,020 names captured, ids rise".into(), inputs: vec![captured_in_order()] });
    shapes.push(Set { name: "1,020 names captured, ids fall".into(), inputs: vec![wide(4)] });
    shapes.push(Set { name: "15 calls of 255 in one another".into(), inputs: vec![tall()] });
    (shapes, DEFINES.map(series).into())
}

fn random_set(seed: u64, size: usize) -> Set {
    let random = |number| Random::new(seed, "bench", number + ((size as u64) << 32));
    let input = |number| random_input(&mut random(number), size, Mix::Never);
    let inputs = (0..).map(input).filter(accepted).take(TREES_A_SIZE).collect();
    Set { name: format!("random, {size} records"), inputs }
}

/// Four lambdas of 255 parameters inside one another. The innermost reads all 1,020 names, sets every fourth of each 255, and holds one
/// more lambda.
fn captured_in_order() -> Input {
    let group = |i: u32| 255 * i..255 * (i + 1);
    let read = Expression::identifier;
    let set = |name| Expression::new(SET, vec![name], vec![Expression::constant(false)]);
    let begin = |kids| Expression::new(BEGIN, vec![], kids);
    let lambda = |names, body| Expression::new(LAMBDA, names, vec![body]);
    let used = |i: u32| {
        begin(
            group(i)
                .map(|name| if (name - 255 * i).is_multiple_of(4) { set(name) } else { read(name) })
                .collect(),
        )
    };
    let mut kids: Vec<Expression> = (0..4).map(used).collect();
    kids.push(lambda(vec![], read(0)));
    let tree = (0..4).rev().fold(lambda(vec![], begin(kids)), |body, i| lambda(group(i).collect(), body));
    Input { classes: vec![0; 1020], numbers: numbers(&[tree], in_order) }
}

/// Ids rise with the records.
fn in_order(at: usize) -> Own {
    Own { id: 1 + at as u32, from: at as u32, to: at as u32 }
}

/// (define f (lambda (a b) (let ((c (a b))) (if c (g a c) (lambda () (b c))))))
fn define(f: u32, g: u32) -> Expression {
    let [a, b, c] = [0, 1, 2];
    let read = Expression::identifier;
    let call = |kids| Expression::new(CALL, vec![], kids);
    let inner = Expression::new(LAMBDA, vec![], vec![call(vec![read(b), read(c)])]);
    let choice = Expression::new(IF, vec![], vec![read(c), call(vec![read(g), read(a), read(c)]), inner]);
    let body = Expression::new(LET, vec![c], vec![call(vec![read(a), read(b)]), choice]);
    Expression::new(DEFINE, vec![f], vec![Expression::new(LAMBDA, vec![a, b], vec![body])])
}

/// Defines one after another: depth and scope stay as they are while the tree grows.
fn series(defines: usize) -> Set {
    const GLOBALS: u32 = 8;
    let name = |i: u32| 3 + i % GLOBALS;
    let tree: Vec<Expression> = (0..defines as u32).map(|i| define(name(i), name(i + 1))).collect();
    let input = Input { classes: vec![0; 3 + GLOBALS as usize], numbers: numbers(&tree, in_order) };
    Set { name: format!("{defines} defines"), inputs: vec![input] }
}
