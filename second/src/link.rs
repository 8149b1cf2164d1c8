//! The static library's entries, and those of builds that are loaded. Any bytes and lengths are handed
//! over as they are.

pub mod stack;

/// The library's entries; without the feature `library` there are none.
#[cfg(not(feature = "library"))]
pub fn library() -> crate::entries::Entries {
    crate::entries::Entries::default()
}

#[cfg(feature = "library")]
pub use linked::library;

/// Stands where the library must write a figure, so that one not written shows.
const UNWRITTEN: u64 = 0xa5a5_a5a5_a5a5_a5a5;

macro_rules! pointer {
    (read) => { *const u8 };
    (written) => { *mut u8 };
}

/// A value that is written, beside its name.
macro_rules! value {
    ($value:ident) => { *mut u64 };
}

macro_rules! handed {
    (read $slice:ident) => {
        $slice.as_ptr()
    };
    (written $slice:ident) => {
        $slice.as_mut_ptr()
    };
}

/// A function of C, called with what its row says.
macro_rules! called {
    ($function:expr, ($($slice:ident: $kind:tt),*) [$($value:ident),*]) => {{
        let mut figure = UNWRITTEN;
        // SAFETY: each pointer and length is one live slice, each value is live, and what may be
        // written overlaps nothing else.
        let number = unsafe {
            $function($(handed!($kind $slice), $slice.len(),)* &mut figure $(, $value)*)
        };
        Reply { number, figure }
    }};
}

#[cfg(feature = "library")]
mod linked;

pub mod loaded;
