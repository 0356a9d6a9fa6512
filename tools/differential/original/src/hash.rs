//! What the original takes from `rustc_hash`; version 1 does not name the builder.

use std::collections::{HashMap, HashSet};
use std::hash::BuildHasherDefault;

pub type FxBuildHasher = BuildHasherDefault<rustc_hash::FxHasher>;
pub type FxHashMap<K, V> = HashMap<K, V, FxBuildHasher>;
pub type FxHashSet<V> = HashSet<V, FxBuildHasher>;
