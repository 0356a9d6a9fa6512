//! Random trees. Most are accepted: binders are chosen with the layers of live names in view.

use crate::expression::Expression;
use crate::random::Random;
use crate::record::{AND, BEGIN, CALL, DEFINE, IF, LAMBDA, LET, SET, UNLESS, WHEN};

const MOST_NESTING: usize = 64;
const MOST_COUNT: usize = 255;

/// What a tree leans to.
#[derive(Clone, Copy)]
pub struct Style {
    /// Of if, let, define, lambda, begin, call, set!, and, when, unless.
    weights: [usize; 10],
    /// How often a set! may have a parameter or let name as its target.
    set_local: usize,
    /// How often a binder is chosen without looking at its layer.
    careless: usize,
}

/// Even; captures; captures that are set; inner defines; lets; calls; a plain program.
const WEIGHTS: [[usize; 7]; 7] = [
    [1, 1, 1, 1, 1, 1, 1],
    [1, 1, 0, 8, 5, 1, 2],
    [0, 4, 0, 6, 7, 0, 5],
    [1, 2, 4, 5, 4, 1, 1],
    [1, 6, 0, 4, 3, 2, 2],
    [2, 1, 1, 2, 1, 7, 1],
    [3, 3, 0, 3, 3, 9, 1],
];

/// Whether a tree has forms 10 to 12.
#[derive(Clone, Copy, Debug, PartialEq, Eq)]
pub enum Mix {
    Never,
    Perhaps,
    Surely,
}

/// Of and, when, unless, beside those above.
const EXPANDED: [[usize; 3]; 4] = [[1, 1, 1], [6, 0, 0], [1, 3, 3], [8, 4, 4]];

impl Style {
    /// In a large tree one set! too many is enough for refusal 11 or 12, one careless binder for 9.
    pub fn new(random: &mut Random, large: bool, mix: Mix) -> Self {
        let mut weights = [0; 10];
        weights[..7].copy_from_slice(&random.pick(&WEIGHTS));
        let (set_local, careless) = match large {
            false => (random.pick(&[0, 50, 100]), random.pick(&[0, 0, 0, 10])),
            true => (random.pick(&[0, 0, 0, 1, 20]), 0),
        };
        let has = match mix {
            Mix::Never => false,
            Mix::Perhaps => random.percent(50),
            Mix::Surely => true,
        };
        if has {
            weights[7..].copy_from_slice(&random.pick(&EXPANDED));
        }
        Style { weights, set_local, careless }
    }

    fn has_expanded(&self) -> bool {
        self.weights[7] > 0
    }
}

pub struct Maker<'a> {
    random: &'a mut Random,
    style: Style,
    names: usize,
    /// The live names of each layer, the bottom one first.
    layers: Vec<Vec<u32>>,
    /// The name of the lambda define around.
    context: Option<u32>,
}

/// Top-level expressions of exactly `size` records together.
pub fn tree(random: &mut Random, style: Style, names: usize, size: usize) -> Vec<Expression> {
    let mut maker = Maker { random, style, names, layers: vec![vec![]], context: None };
    let pieces = maker.random.pick(&[1, 1, 1, 1, 1 + size / 64, 1 + size / 16]);
    let defines = maker.random.pick(&[0, 30, 80]);
    let mut left = size;
    let mut out = Vec::new();
    while left > 0 {
        let piece = maker.random.from(1, (2 * size / pieces).clamp(1, left));
        let define = piece >= 3 && maker.random.percent(defines);
        let made = if define { maker.define(piece, 1) } else { maker.expression(piece, 1) };
        left -= made.size();
        out.push(made);
    }
    out
}

impl Maker<'_> {
    fn any_name(&mut self) -> u32 {
        self.random.below(self.names) as u32
    }

    /// Mostly a live one.
    fn name(&mut self) -> u32 {
        let above = self.layers.len() - 1;
        let layer = if above > 0 && self.random.percent(75) { self.random.from(1, above) } else { 0 };
        match self.layers[layer].as_slice() {
            live @ [_, ..] if self.random.percent(90) => self.random.pick(live),
            _ => self.any_name(),
        }
    }

    /// One that may enter the newest layer; none where they are hard to find.
    fn binder(&mut self) -> Option<u32> {
        let careless = self.layers.len() == 1 || self.random.percent(self.style.careless);
        let mut tries = (0..8).map(|_| self.random.below(self.names) as u32);
        let newest = self.layers.last().expect("the bottom layer");
        tries.find(|name| careless || !newest.contains(name))
    }

    fn enter(&mut self, name: u32) {
        self.layers.last_mut().expect("the bottom layer").push(name);
    }

    /// Mostly a small one.
    fn count(&mut self, least: usize, most: usize) -> usize {
        let top = self.random.pick(&[1, 2, 2, 3, 3, 3, 4, 4]);
        let top = if self.random.percent(3) { self.random.pick(&[16, 64, MOST_COUNT]) } else { top };
        self.random.from(least, top.min(most))
    }

    /// Enters up to `most` names.
    fn binders(&mut self, most: usize) -> Vec<u32> {
        let count = self.count(0, most);
        let mut out = Vec::new();
        for _ in 0..count {
            let Some(name) = self.binder() else { break };
            self.enter(name);
            out.push(name);
        }
        out
    }

    /// Sizes of so many parts, `size` together: every second time one takes all that the others can spare.
    fn shares(&mut self, size: usize, parts: usize) -> Vec<usize> {
        let mut out = vec![1; parts];
        let spare = size - parts;
        if self.random.percent(50) {
            out[self.random.below(parts)] += spare;
            return out;
        }
        let mut cuts: Vec<usize> = (1..parts).map(|_| self.random.below(spare + 1)).collect();
        cuts.sort_unstable();
        cuts.push(spare);
        let mut before = 0;
        for (share, cut) in out.iter_mut().zip(cuts) {
            *share += cut - before;
            before = cut;
        }
        out
    }

    fn atom(&mut self) -> Expression {
        match self.random.below(100) {
            0..=9 => Expression::constant(self.random.percent(50)),
            10..=12 => Expression::new(BEGIN, vec![], vec![]),
            13..=15 if self.style.has_expanded() => Expression::new(AND, vec![], vec![]),
            _ => Expression::identifier(self.name()),
        }
    }

    /// At most `size` records, its own at this nesting.
    fn expression(&mut self, size: usize, nesting: usize) -> Expression {
        if size == 1 || nesting == MOST_NESTING {
            return self.atom();
        }
        let form = IF + self.random.weighted(&self.style.weights) as u32;
        match form {
            IF if size >= 4 => {
                let sizes = self.shares(size - 1, 3);
                Expression::new(IF, vec![], self.every(&sizes, nesting))
            }
            LET => self.make_let(size, nesting),
            DEFINE if size >= 3 => self.define(size, nesting),
            LAMBDA => self.lambda(size, nesting),
            BEGIN => {
                let sizes = self.sizes(size);
                Expression::new(BEGIN, vec![], self.begin(&sizes, nesting))
            }
            AND => {
                let sizes = self.sizes(size);
                Expression::new(AND, vec![], self.every(&sizes, nesting))
            }
            WHEN | UNLESS => {
                let sizes = self.sizes(size);
                let mut kids = self.every(&sizes[..1], nesting);
                kids.extend(self.begin(&sizes[1..], nesting));
                Expression::new(form, vec![], kids)
            }
            SET if size >= 3 => {
                let value = self.expression(size - 2, nesting + 1);
                Expression::new(SET, vec![self.target()], vec![value])
            }
            _ => self.call(size, nesting),
        }
    }

    /// Of some children of an expression of this size.
    fn sizes(&mut self, size: usize) -> Vec<usize> {
        let count = self.count(1, size - 1);
        self.shares(size - 1, count)
    }

    /// How many `and`s of one child to put around what has so many records to spare, at this nesting.
    fn around(&mut self, spare: usize, nesting: usize) -> usize {
        let most = spare.min(MOST_NESTING.saturating_sub(nesting)).min(2);
        if self.style.has_expanded() && self.random.percent(30) {
            self.random.from(0, most)
        } else {
            0
        }
    }

    fn every(&mut self, sizes: &[usize], nesting: usize) -> Vec<Expression> {
        sizes.iter().map(|size| self.expression(*size, nesting + 1)).collect()
    }

    fn target(&mut self) -> u32 {
        if self.random.percent(self.style.set_local) {
            return self.name();
        }
        let mut tries = (0..8).map(|_| self.random.below(self.names) as u32);
        let local = |name: &u32| self.layers[1..].iter().any(|layer| layer.contains(name));
        tries.find(|name| !local(name)).unwrap_or(0)
    }

    fn call(&mut self, size: usize, nesting: usize) -> Expression {
        let count = self.count(1, size - 1);
        let mut sizes = self.shares(size - 1, count);
        let named = self.random.percent(60);
        let mut ands = 0;
        if named {
            ands = self.around(sizes[0] - 1, nesting + 1);
            sizes[0] = 1;
        }
        let arguments: Vec<Expression> =
            sizes[1..].iter().map(|size| self.argument(*size, nesting + 1)).collect();
        let head = match self.context {
            Some(name) if named && self.random.percent(40) => Expression::identifier(name),
            _ if named => Expression::identifier(self.name()),
            _ => self.expression(sizes[0], nesting + 1),
        };
        let kids = [in_ands(head, ands)].into_iter().chain(arguments).collect();
        Expression::new(CALL, vec![], kids)
    }

    /// Now and then a name in `and`s of one child.
    fn argument(&mut self, size: usize, nesting: usize) -> Expression {
        match self.around(size - 1, nesting) {
            0 => self.expression(size, nesting),
            ands => in_ands(Expression::identifier(self.name()), ands),
        }
    }

    fn make_let(&mut self, size: usize, nesting: usize) -> Expression {
        let most = self.count(0, (size - 2) / 2);
        let sizes = self.shares(size - 1 - most, most + 1);
        let mut kids = self.every(&sizes[..most], nesting);
        let opens = self.layers.len() == 1;
        if opens {
            self.layers.push(vec![]);
        }
        let mut names = Vec::new();
        while names.len() < most {
            let Some(name) = self.binder() else { break };
            self.enter(name);
            names.push(name);
        }
        kids.truncate(names.len());
        kids.push(self.expression(sizes[most], nesting + 1));
        self.layers.last_mut().expect("the let's layer").retain(|name| !names.contains(name));
        if opens {
            self.layers.pop();
        }
        Expression::new(LET, names, kids)
    }

    fn lambda(&mut self, size: usize, nesting: usize) -> Expression {
        self.layers.push(vec![]);
        let names = self.binders(size - 2);
        let body = self.expression(size - 1 - names.len(), nesting + 1);
        self.layers.pop();
        Expression::new(LAMBDA, names, vec![body])
    }

    /// Of a lambda, of a call that may make it a builtin's or a required one, of a name, or of anything.
    fn define(&mut self, size: usize, nesting: usize) -> Expression {
        let deeper = nesting + 1 < MOST_NESTING;
        if size >= 4 && deeper && self.random.percent(50) {
            let Some(name) = self.binder() else { return self.atom() };
            self.enter(name);
            return self.lambda_define(name, size, nesting);
        }
        let body = match self.random.below(4) {
            0 if size >= 5 && deeper => {
                let first = self.around(size - 5, nesting + 2);
                let second = self.around(size - 5 - first, nesting + 2);
                let [getter, module] = [self.any_name(), self.any_name()].map(Expression::identifier);
                Expression::new(CALL, vec![], vec![in_ands(getter, first), in_ands(module, second)])
            }
            1 => Expression::identifier(self.name()),
            _ => self.expression(size - 2, nesting + 1),
        };
        match self.binder() {
            Some(name) if body.core().form != LAMBDA => {
                self.enter(name);
                Expression::new(DEFINE, vec![name], vec![body])
            }
            _ => body,
        }
    }

    /// The name has entered.
    fn lambda_define(&mut self, name: u32, size: usize, nesting: usize) -> Expression {
        let context = self.context.replace(name);
        let ands = self.around(size - 4, nesting + 2);
        let body = self.lambda(size - 2 - ands, nesting + 1 + ands);
        self.context = context;
        Expression::new(DEFINE, vec![name], vec![in_ands(body, ands)])
    }

    /// The children of a begin, or what follows a test. Lambda defines enter first.
    fn begin(&mut self, sizes: &[usize], nesting: usize) -> Vec<Expression> {
        let room = nesting + 2 < MOST_NESTING && self.style.weights[2] > 0;
        let mut plan = Vec::new();
        for size in sizes {
            let define = room && *size >= 4 && self.random.percent(30);
            let name = if define { self.binder() } else { None };
            name.into_iter().for_each(|name| self.enter(name));
            plan.push(name);
        }
        let kid = |(size, name): (&usize, Option<u32>)| match name {
            Some(name) => {
                let ands = self.around(*size - 4, nesting + 3);
                in_ands(self.lambda_define(name, *size - ands, nesting + 1 + ands), ands)
            }
            None => self.begin_kid(*size, nesting + 1),
        };
        sizes.iter().zip(plan).map(kid).collect()
    }

    /// A lambda define would have entered too late: of such a one the lambda alone.
    fn begin_kid(&mut self, size: usize, nesting: usize) -> Expression {
        let kid = self.expression(size, nesting);
        if kid.is_lambda_define() {
            kid.core().kids[0].clone()
        } else {
            kid
        }
    }
}

fn in_ands(e: Expression, ands: usize) -> Expression {
    (0..ands).fold(e, |inner, _| Expression::new(AND, vec![], vec![inner]))
}
