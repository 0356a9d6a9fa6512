//! The original pass, unchanged, behind stand-ins for what it takes from its compiler.
//!
//! `analysis` and `quickscope` include the original's lines. The modules whose names they use stand at the root of
//! this crate, as they do in the compiler: `parser` (the syntax tree), `visitors`, `steel_vm` and `steel_parser`.

mod analysis;
mod classes;
mod facts;
mod hash;
pub mod parser;
mod quickscope;
mod run;
mod visitors;

mod steel_vm {
    pub mod primitives {
        use crate::classes::Class;

        pub static MODULE_IDENTIFIERS: Class = Class::MODULE_NAME;

        thread_local! {
            pub static PRELUDE_INTERNED_STRINGS: Class = const { Class::PRELUDE };
        }
    }
}

mod steel_parser {
    pub mod ast {
        pub use crate::parser::ast::Vector;

        use crate::classes::Class;

        pub static PROTO_HASH_GET: &Class = &Class::HASH_GETTER;
    }
}

pub use analysis::{
    Analysis, CallKind, CallSiteInformation, FunctionInformation, IdentifierStatus, LetInformation,
    ScopeInfo, SemanticInformation,
};
pub use classes::set_classes;
pub use run::{run, Panic};
