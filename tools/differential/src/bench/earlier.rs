//! An earlier port, loaded at run time, so that one run measures both.

use super::measure::Tables;
use crate::port::{Run, LENGTHS};
use crate::record::Input;
use std::ffi::{c_char, c_int, c_void, CStr, CString};
use std::path::Path;
use std::{env, fs};

type Call = unsafe extern "C" fn(
    *const u32,
    usize,
    *const u8,
    usize,
    *mut u32,
    usize,
    *mut u32,
    usize,
    *mut u32,
    usize,
    *mut u32,
    usize,
    *mut usize,
) -> u32;

extern "C" {
    fn dlopen(path: *const c_char, flags: c_int) -> *mut c_void;
    fn dlsym(library: *mut c_void, name: *const c_char) -> *mut c_void;
    fn dlerror() -> *const c_char;
}

/// All symbols at once, none of them for others.
const RTLD_NOW: c_int = 2;

/// The symbols, the newest first: those of the earliest ports have no version.
const FRESH: [&CStr; 3] = [c"scheme_analysis_fresh_v2", c"scheme_analysis_fresh_v1", c"scheme_analysis_fresh"];
const SETTLED: [&CStr; 3] = [c"scheme_analysis_settled_v2", c"scheme_analysis_settled_v1", c"scheme_analysis_settled"];

/// The lengths as a header names them, in the order of `LENGTHS`.
const NAMES: [&str; LENGTHS.len()] = ["FACTS", "CAPTURED", "ARGUMENTS", "WORK"];

pub struct Earlier {
    fresh: Call,
    settled: Call,
    pub lengths: [usize; LENGTHS.len()],
    /// What it is, for a reader.
    pub about: String,
}

impl Earlier {
    /// The shared library that the command made of the folder's archive, the lengths that the folder's header tells, and what its file ABOUT says.
    pub fn load(folder: &Path) -> Result<Self, String> {
        let header = folder.join("scheme_analysis.h");
        let text = fs::read_to_string(&header).map_err(|e| format!("{}: {e}", header.display()))?;
        let length = |name| length(&text, name).ok_or(format!("{}: no length of {name}", header.display()));
        let library = env::var("SCHEME_ANALYSIS_BEFORE").map_err(|_| "SCHEME_ANALYSIS_BEFORE is not set")?;
        let path = CString::new(library).map_err(|e| e.to_string())?;
        // SAFETY: the path ends with a zero; the library's start runs no code of its own.
        let library = unsafe { dlopen(path.as_ptr(), RTLD_NOW) };
        if library.is_null() {
            return Err(last_error());
        }
        let mut lengths = [0; LENGTHS.len()];
        for (i, name) in NAMES.into_iter().enumerate() {
            lengths[i] = length(name)?;
        }
        Ok(Earlier {
            fresh: call(library, &FRESH)?,
            settled: call(library, &SETTLED)?,
            lengths,
            about: fs::read_to_string(folder.join("ABOUT")).unwrap_or_default().trim().to_string(),
        })
    }

    /// Whether the input is accepted.
    pub fn call(&self, run: Run, input: &Input, [facts, captured, arguments, work]: &mut Tables) -> bool {
        let call = match run {
            Run::Fresh => self.fresh,
            Run::Settled => self.settled,
        };
        let mut at = 0;
        // SAFETY: each pointer is to as many numbers as the length after it says, and the tables do not overlap.
        let refusal = unsafe {
            call(
                input.numbers.as_ptr(),
                input.numbers.len(),
                input.classes.as_ptr(),
                input.classes.len(),
                facts.as_mut_ptr(),
                facts.len(),
                captured.as_mut_ptr(),
                captured.len(),
                arguments.as_mut_ptr(),
                arguments.len(),
                work.as_mut_ptr(),
                work.len(),
                &mut at,
            )
        };
        refusal == 0
    }
}

/// The number after `SCHEME_ANALYSIS_<name>_LENGTH =` in a header.
fn length(header: &str, name: &str) -> Option<usize> {
    let (_, rest) = header.split_once(&format!("SCHEME_ANALYSIS_{name}_LENGTH ="))?;
    rest.trim_start().split(|c: char| !c.is_ascii_digit()).next()?.parse().ok()
}

fn call(library: *mut c_void, names: &[&CStr]) -> Result<Call, String> {
    let found = symbol(library, names)?;
    // SAFETY: every port has had both functions with this signature.
    Ok(unsafe { std::mem::transmute::<*mut c_void, Call>(found) })
}

/// The first of the names that the library has.
fn symbol(library: *mut c_void, names: &[&CStr]) -> Result<*mut c_void, String> {
    // SAFETY: the library is open, and the name ends with a zero.
    let mut found = names.iter().map(|name| unsafe { dlsym(library, name.as_ptr()) });
    found.find(|symbol| !symbol.is_null()).ok_or_else(|| format!("the earlier port has none of {names:?}"))
}

fn last_error() -> String {
    // SAFETY: after a failure the text stands, ended by a zero, until the next call.
    unsafe { CStr::from_ptr(dlerror()) }.to_string_lossy().into_owned()
}

#[cfg(test)]
mod tests {
    use super::*;

    #[test]
    fn lengths_of_a_header() {
        let header = "    SCHEME_ANALYSIS_WORK_LENGTH = 59392,\n    SCHEME_ANALYSIS_FACTS_LENGTH = 81920\n";
        assert_eq!((length(header, "WORK"), length(header, "FACTS")), (Some(59392), Some(81920)));
        assert_eq!(length(header, "CAPTURED"), None);
    }

    /// In the program itself, where the C library's symbols are found.
    #[test]
    fn the_first_name_that_there_is() {
        // SAFETY: without a path it opens the running program.
        let library = unsafe { dlopen(std::ptr::null(), RTLD_NOW) };
        let of = |names: &[&CStr]| symbol(library, names);
        assert_eq!(of(&[c"no_such_symbol", c"free", c"malloc"]), of(&[c"free"]));
        assert_ne!(of(&[c"malloc", c"free"]), of(&[c"free"]));
        assert!(of(&[c"free"]).is_ok());
        let told = of(&[c"no_such_symbol", c"nor_this"]).unwrap_err();
        assert!(told.contains("no_such_symbol") && told.contains("nor_this"), "{told}");
    }
}
