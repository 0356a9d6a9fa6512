//! The original's pass. Its own `use` lines, 1 to 55, name the whole compiler; these here stand for them.
#![allow(dead_code, unused_imports, unexpected_cfgs, clippy::all)]

use crate::hash::{FxBuildHasher, FxHashMap, FxHashSet};
use crate::parser::ast::{
    Atom, Define, ExprKind, LambdaFunction, List, STANDARD_MODULE_GET, UNREADABLE_MODULE_GET,
};
use crate::parser::interner::InternedString;
use crate::parser::parser::{SyntaxObject, SyntaxObjectId};
use crate::parser::span::Span;
use crate::quickscope::ScopeMap;
use crate::steel_parser::{self, ast::PROTO_HASH_GET};
use crate::steel_vm::primitives::MODULE_IDENTIFIERS;
use crate::visitors::VisitorMutUnitRef;
use smallvec::SmallVec;
use std::collections::{hash_map, HashMap};

include!(concat!(env!("OUT_DIR"), "/analysis.rs"));
