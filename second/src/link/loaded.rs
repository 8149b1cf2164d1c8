//! Builds of the library that were made into shared libraries, so that the functions of several stand
//! beside each other under the same names.

use std::ffi::{CStr, CString, c_char, c_int, c_void};
use std::mem::transmute;
use std::path::Path;
use std::sync::OnceLock;

use super::UNWRITTEN;
use crate::entries::{self, Entries};
use crate::interface::{interface, slice};
use crate::reply::Reply;

unsafe extern "C" {
    fn dlopen(file: *const c_char, how: c_int) -> *mut c_void;
    fn dlsym(library: *mut c_void, name: *const c_char) -> *mut c_void;
    fn dlerror() -> *const c_char;
}

/// All of it is bound at once, so that no call of an entry binds what it needs.
const NOW: c_int = 2;

fn opened(file: &Path) -> Result<*mut c_void, String> {
    // A name without a folder would be looked for among the system's libraries.
    let place = file.canonicalize().map_err(|error| format!("{}: {error}", file.display()))?;
    let file = CString::new(place.as_os_str().as_encoded_bytes()).expect("no zero byte");
    // SAFETY: the name ends in a zero byte; what fails leaves an error, a text that ends so too.
    unsafe {
        let library = dlopen(file.as_ptr(), NOW);
        match library.is_null() {
            true => Err(CStr::from_ptr(dlerror()).to_string_lossy().into_owned()),
            false => Ok(library),
        }
    }
}

/// A function's type, if the library has it.
macro_rules! function {
    (($($slice:ident: $kind:tt),*) [$($value:ident),*]) => {
        Option<unsafe extern "C" fn($(pointer!($kind), usize,)* *mut u64 $(, value!($value))*) -> u32>
    };
}

macro_rules! loaded {
    ($($type:ident $entry:ident $function:ident($($slice:ident: $kind:tt),*) [$($value:ident),*];)*) => {
        struct Functions {
            $($entry: function!(($($slice: $kind),*) [$($value),*])),*
        }

        /// Of each build by its place.
        static LOADED: [OnceLock<Functions>; 2] = [const { OnceLock::new() }; 2];

        /// The entries that a build has. At each place, 0 and 1, one is loaded at the most.
        pub fn library<const PLACE: usize>(file: &Path) -> Result<Entries, String> {
            let library = opened(file)?;
            let functions = Functions {
                $($entry: {
                    let name = CString::new(stringify!($function)).expect("no zero byte");
                    // SAFETY: null, which is none, or a function that its header declares as ours
                    // does: the caller names a build of this library.
                    unsafe {
                        transmute::<*mut c_void, function!(($($slice: $kind),*) [$($value),*])>(
                            dlsym(library, name.as_ptr()),
                        )
                    }
                }),*
            };
            let entries = Entries {
                $($entry: functions.$entry.map(|_| $entry::<PLACE> as entries::$type)),*
            };
            match LOADED[PLACE].set(functions) {
                Ok(()) => Ok(entries),
                Err(_) => Err("a build is loaded there already".into()),
            }
        }

        $(
            #[allow(clippy::too_many_arguments)]
            fn $entry<const PLACE: usize>($($slice: slice!($kind),)* $($value: &mut u64),*) -> Reply {
                let function = LOADED[PLACE].get().and_then(|functions| functions.$entry);
                let function = function.expect("only what is loaded is an entry");
                called!(function, ($($slice: $kind),*) [$($value),*])
            }
        )*
    };
}

interface!(loaded);
