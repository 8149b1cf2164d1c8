//! The functions that the static library has.

use super::UNWRITTEN;
use crate::entries::Entries;
use crate::interface::{interface, slice};
use crate::reply::Reply;

macro_rules! linked {
    ($($type:ident $entry:ident $function:ident($($slice:ident: $kind:tt),*) [$($value:ident),*];)*) => {
        unsafe extern "C" {
            $(fn $function($(_: pointer!($kind), _: usize,)* _: *mut u64 $(, _: value!($value))*) -> u32;)*
        }

        $(
            #[allow(clippy::too_many_arguments)]
            fn $entry($($slice: slice!($kind),)* $($value: &mut u64),*) -> Reply {
                called!($function, ($($slice: $kind),*) [$($value),*])
            }
        )*

        pub fn library() -> Entries {
            Entries { $($entry: Some($entry)),* }
        }
    };
}

interface!(linked);
