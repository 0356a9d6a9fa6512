//! The compiler's sets of known names, asked by the class bytes of document 01.

use crate::parser::interner::InternedString;
use std::cell::RefCell;

thread_local! {
    static CLASSES: RefCell<Vec<u8>> = const { RefCell::new(Vec::new()) };
}

/// The class bytes of the names, for the runs that this thread makes.
pub fn set_classes(classes: &[u8]) {
    CLASSES.with_borrow_mut(|all| {
        all.clear();
        all.extend_from_slice(classes);
    });
}

/// The names whose class byte has this bit: a set, or one constant name.
pub struct Class(u8);

impl Class {
    pub const PRELUDE: Class = Class(1);
    /// The compiler has two such names, and the pass only asks whether a name is either.
    pub const MODULE_GETTER: Class = Class(2);
    pub const MODULE_NAME: Class = Class(4);
    pub const HASH_GETTER: Class = Class(8);

    pub fn contains(&self, name: &InternedString) -> bool {
        CLASSES.with_borrow(|all| all[name.0 as usize] & self.0 != 0)
    }
}

impl PartialEq<Class> for InternedString {
    fn eq(&self, class: &Class) -> bool {
        class.contains(self)
    }
}
