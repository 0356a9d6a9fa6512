//! Which names enter and leave which layer, from document 01's rules: refusal 9, and the order of lists.

use crate::node::Node;
use crate::record::{Record, BEGIN, CALL, DEFINE, LAMBDA, LET};

/// A lambda or a let that ended.
pub struct End {
    pub at: usize,
    /// The records of its argument list: parameters, then inner defines as they entered; or let names.
    pub binders: Vec<usize>,
}

pub struct Layers<'a> {
    records: &'a [Record],
    /// The binders that are live in each layer, the bottom one first.
    live: Vec<Vec<usize>>,
    /// In the order of their ends.
    pub ends: Vec<End>,
    /// The binder of refusal 9.
    pub twice: Option<usize>,
}

/// At top level all defines enter the bottom layer, which refuses none: their order is of no matter here.
pub fn layers<'a>(records: &'a [Record], tops: &[Node]) -> Layers<'a> {
    let mut layers = Layers { records, live: vec![Vec::new()], ends: Vec::new(), twice: None };
    for top in tops {
        layers.visit(top);
    }
    layers
}

impl Layers<'_> {
    fn newest(&mut self) -> &mut Vec<usize> {
        self.live.last_mut().expect("the bottom layer stays")
    }

    fn enter(&mut self, at: usize) {
        let (above, records) = (self.live.len() > 1, self.records);
        let same = |other: &usize| records[*other].name == records[at].name;
        if above && self.newest().iter().any(same) {
            self.twice.get_or_insert(at);
        }
        self.newest().push(at);
    }

    fn visit(&mut self, node: &Node) {
        match node.form {
            LET => self.visit_let(node),
            LAMBDA => self.visit_lambda(node),
            BEGIN => self.visit_begin(node),
            DEFINE if node.is_lambda_define() => {
                self.enter(node.names.start);
                self.visit(&node.kids[0]);
            }
            DEFINE => {
                self.visit(&node.kids[0]);
                self.enter(node.names.start);
            }
            CALL => {
                node.kids[1..].iter().for_each(|kid| self.visit(kid));
                self.visit(&node.kids[0]);
            }
            _ => node.kids.iter().for_each(|kid| self.visit(kid)),
        }
    }

    fn visit_let(&mut self, node: &Node) {
        let (body, initial) = node.kids.split_last().expect("a let has a body");
        initial.iter().for_each(|kid| self.visit(kid));
        let opens = self.live.len() == 1;
        if opens {
            self.live.push(Vec::new());
        }
        node.names.clone().for_each(|at| self.enter(at));
        self.visit(body);
        self.newest().retain(|at| !node.names.contains(at));
        if opens {
            self.live.pop();
        }
        self.ends.push(End { at: node.at, binders: node.names.clone().collect() });
    }

    fn visit_lambda(&mut self, node: &Node) {
        self.live.push(Vec::new());
        node.names.clone().for_each(|at| self.enter(at));
        self.visit(&node.kids[0]);
        let binders = self.live.pop().expect("the lambda's own");
        self.ends.push(End { at: node.at, binders });
    }

    /// Lambda defines enter before anything of the begin is visited.
    fn visit_begin(&mut self, node: &Node) {
        let first = |kid: &&Node| kid.is_lambda_define();
        node.kids.iter().filter(first).for_each(|kid| self.enter(kid.names.start));
        for kid in &node.kids {
            self.visit(if kid.is_lambda_define() { &kid.kids[0] } else { kid });
        }
    }
}
