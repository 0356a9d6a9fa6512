//! The library's two functions. All unsafe code of the crate is here.
//!
//! The interface's version stands in the symbols: a crate and an archive of different versions do not link. The symbols change
//! with [`VERSION`], and with what the numbers of a table mean.
#![allow(unsafe_code)]

use crate::{Tables, VERSION};

/// 0 or the number of a refusal, and its record.
pub(crate) struct Answer {
    pub(crate) number: u32,
    pub(crate) at: usize,
}

/// Both functions have one signature: a slice is a pointer and how many elements it has.
macro_rules! operation {
    ($name:ident, $symbol:literal) => {
        pub(crate) fn $name(records: &[u32], classes: &[u8], tables: &mut Tables<'_>) -> Answer {
            extern "C" {
                #[link_name = $symbol]
                fn operation(
                    records: *const u32,
                    records_length: usize,
                    classes: *const u8,
                    classes_length: usize,
                    facts: *mut u32,
                    facts_length: usize,
                    captured: *mut u32,
                    captured_length: usize,
                    arguments: *mut u32,
                    arguments_length: usize,
                    work: *mut u32,
                    work_length: usize,
                    at: *mut usize,
                ) -> u32;
            }

            let mut at = 0;
            // SAFETY: the library asks that each pointer is aligned and good for its length, for writing where it is `*mut`,
            // and that what it writes overlaps nothing else. Each pointer and length are one slice's, `at` is a local, and what
            // is written is borrowed as `&mut`. Any lengths and contents are answered; no pointer is kept.
            let number = unsafe {
                operation(
                    records.as_ptr(),
                    records.len(),
                    classes.as_ptr(),
                    classes.len(),
                    tables.facts.as_mut_ptr(),
                    tables.facts.len(),
                    tables.captured.as_mut_ptr(),
                    tables.captured.len(),
                    tables.arguments.as_mut_ptr(),
                    tables.arguments.len(),
                    tables.work.as_mut_ptr(),
                    tables.work.len(),
                    &mut at,
                )
            };
            Answer { number, at }
        }
    };
}

const _: () = assert!(VERSION == 2, "the symbols below are of version 2");

operation!(fresh, "scheme_analysis_fresh_v2");
operation!(settled, "scheme_analysis_settled_v2");
