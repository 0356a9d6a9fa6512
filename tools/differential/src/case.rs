//! What one call is given: an input, and how long the lent tables are.

use crate::port::LENGTHS;
use crate::record::Input;

#[derive(Clone, Debug)]
pub struct Case {
    pub input: Input,
    pub lent: [usize; 4],
}

impl Case {
    pub fn new(input: Input) -> Self {
        Case { input, lent: LENGTHS }
    }

    pub fn lends_set_lengths(&self) -> bool {
        self.lent == LENGTHS
    }
}
