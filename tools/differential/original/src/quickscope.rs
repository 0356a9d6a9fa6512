//! The original's map of layers, its file whole.

mod map {
    #![allow(dead_code, clippy::all)]
    use crate::hash as rustc_hash;

    include!(concat!(env!("OUT_DIR"), "/map.rs"));
}

pub use map::ScopeMap;
