//! The calls of librunlength.a, as include/runlength.h declares them. The crate has no other unsafe code. `table` has the
//! calls and the structs that they answer.

// A call takes as many as it takes.
#![allow(clippy::too_many_arguments)]

use crate::error::Result;

/// A refusal and, where that is all zeros, an answer.
#[repr(C)]
pub struct Answer<T> {
    refusal: RlRefusal,
    content: T,
}

impl<T> Answer<T> {
    pub fn check(self) -> Result<T> {
        self.refusal.check().map(|()| self.content)
    }

    /// How many entries the call needs in the buffer that was too short for it; 0 where none was.
    pub fn needed(&self) -> usize {
        match self.refusal.number {
            12 => self.refusal.second as usize,
            _ => 0,
        }
    }
}

impl RlFound {
    /// The index, if something was found.
    pub fn get(&self) -> Option<usize> {
        (self.found != 0).then_some(self.index)
    }
}

impl RlGot {
    /// The count, if something was found.
    pub fn get(&self) -> Option<usize> {
        (self.found != 0).then_some(self.count)
    }
}

impl From<Option<&i64>> for RlFill {
    fn from(fill: Option<&i64>) -> Self {
        RlFill {
            given: fill.is_some().into(),
            value: fill.copied().unwrap_or(0),
        }
    }
}

/// Declares each C function and wraps it in a safe one of its name. A slice passes as a pointer and a length, a sequence
/// and a batch as the slices that they have.
macro_rules! calls {
    ($($symbol:ident $parameters:tt -> $answer:ty;)*) => {
        $(calls!(@ [$symbol $parameters $answer] [] []; $parameters);)*
    };
    (@ [$symbol:ident $parameters:tt $answer:ty] [$($types:tt)*] [$($arguments:tt)*]; ()) => {
        pub fn $symbol $parameters -> $answer {
            unsafe extern "C" {
                fn $symbol($($types)*) -> $answer;
            }
            // SAFETY: the signature is the header's. Each pointer is a slice's, so aligned and not null, with its number of
            // entries, fewer than 2^60 by the size of the address space; what may be written is lent mutably, so that it
            // overlaps nothing else. The call stays within these entries, all of which are initialised, keeps no pointer,
            // and any bits that it leaves in a buffer are a value of its type.
            unsafe { $symbol($($arguments)*) }
        }
    };
    (@ $call:tt $types:tt $arguments:tt; ($rle:ident: RleRef $(, $($rest:tt)*)?)) => {
        calls!(@ $call $types $arguments; (
            read $rle.ends: i64, read $rle.values: i64 $(, $($rest)*)?
        ));
    };
    (@ $call:tt $types:tt $arguments:tt; ($rle:ident: &mut Rle $(, $($rest:tt)*)?)) => {
        calls!(@ $call $types $arguments; (
            written $rle.ends: i64, written $rle.values: i64 $(, $($rest)*)?
        ));
    };
    (@ $call:tt $types:tt $arguments:tt; ($batch:ident: &RleBatch $(, $($rest:tt)*)?)) => {
        calls!(@ $call $types $arguments; (
            read $batch.keys: u32, read $batch.offsets: usize, read $batch.ends: i64, read $batch.values: i64 $(, $($rest)*)?
        ));
    };
    (@ $call:tt $types:tt $arguments:tt; ($batch:ident: &mut RleBatch $(, $($rest:tt)*)?)) => {
        calls!(@ $call $types $arguments; (
            written $batch.keys: u32, written $batch.offsets: usize, written $batch.ends: i64, written $batch.values: i64
            $(, $($rest)*)?
        ));
    };
    (@ $call:tt $types:tt $arguments:tt; ($list:ident: &[$entry:ident] $(, $($rest:tt)*)?)) => {
        calls!(@ $call $types $arguments; (read $list: $entry $(, $($rest)*)?));
    };
    (@ $call:tt $types:tt $arguments:tt; ($list:ident: &mut [$entry:ident] $(, $($rest:tt)*)?)) => {
        calls!(@ $call $types $arguments; (written $list: $entry $(, $($rest)*)?));
    };
    (@ $call:tt [$($types:tt)*] [$($arguments:tt)*];
     (read $list:ident $(.$field:ident)?: $entry:ident $(, $($rest:tt)*)?)) => {
        calls!(@ $call [$($types)* _: *const $entry, _: usize,]
            [$($arguments)* $list $(.$field)?.as_ptr(), $list $(.$field)?.len(),]; ($($($rest)*)?));
    };
    (@ $call:tt [$($types:tt)*] [$($arguments:tt)*];
     (written $list:ident $(.$field:ident)?: $entry:ident $(, $($rest:tt)*)?)) => {
        calls!(@ $call [$($types)* _: *mut $entry, _: usize,]
            [$($arguments)* $list $(.$field)?.as_mut_ptr(), $list $(.$field)?.len(),]; ($($($rest)*)?));
    };
    (@ $call:tt [$($types:tt)*] [$($arguments:tt)*]; ($number:ident: $type:ty $(, $($rest:tt)*)?)) => {
        calls!(@ $call [$($types)* _: $type,] [$($arguments)* $number,]; ($($($rest)*)?));
    };
}

mod table;

pub use table::*;
