//! The calls of librunlength.a, as include/runlength.h declares them, on slices. `table` has them all, with
//! the structs that they answer.

use crate::answer::{Answer, Refusal};
use crate::call::Fill;

/// The bits of a number that is answered.
trait Bits {
    fn bits(self) -> usize;
}

macro_rules! bits {
    ($($number:ident: $type:ty => $bits:expr;)*) => {
        $(impl Bits for $type {
            fn bits(self) -> usize {
                let $number = self;
                $bits
            }
        })*
    };
}

bits! {
    number: usize => number;
    number: u64 => number as usize;
    number: i64 => number as usize;
    number: f64 => number.to_bits() as usize;
}

/// Declares each struct, with a refusal in front where its name stands in brackets, and what it answers.
macro_rules! answers {
    ($($name:ident $([$refusal:ident])? { $($field:ident: $type:ty),* })*) => {
        $(
            #[repr(C)]
            #[derive(Clone, Copy, Default)]
            pub struct $name {
                $(pub $refusal: Refusal,)?
                $(pub $field: $type,)*
            }

            impl From<$name> for Answer {
                fn from(answer: $name) -> Self {
                    let [refusal, ..] = [$(answer.$refusal,)? Refusal::default()];
                    Answer { refusal, counts: vec![$(answer.$field.bits()),*] }
                }
            }
        )*
    };
}

/// Of a call that only checks.
impl From<Refusal> for Answer {
    fn from(refusal: Refusal) -> Self {
        Answer {
            refusal,
            counts: vec![0],
        }
    }
}

/// Declares each C function and wraps it in a safe one: a slice passes as a pointer and a length.
macro_rules! calls {
    ($($symbol:ident: $name:ident $parameters:tt -> $answer:ty;)*) => {
        $(calls!(@ $symbol $name $parameters $answer; [] []; $parameters);)*
    };
    (@ $symbol:ident $name:ident $all:tt $answer:ty; [$($types:tt)*] [$($values:tt)*]; ()) => {
        pub fn $name $all -> $answer {
            unsafe extern "C" {
                fn $symbol($($types)*) -> $answer;
            }
            // SAFETY: the signature is the export's; each pointer is a slice's, with its length.
            unsafe { $symbol($($values)*) }
        }
    };
    (@ $symbol:ident $name:ident $all:tt $answer:ty; [$($types:tt)*] [$($values:tt)*];
     ($slice:ident: &[$entry:ident] $(, $($rest:tt)*)?)) => {
        calls!(@ $symbol $name $all $answer;
            [$($types)* _: *const $entry, _: usize,]
            [$($values)* $slice.as_ptr(), $slice.len(),];
            ($($($rest)*)?));
    };
    (@ $symbol:ident $name:ident $all:tt $answer:ty; [$($types:tt)*] [$($values:tt)*];
     ($slice:ident: &mut [$entry:ident] $(, $($rest:tt)*)?)) => {
        calls!(@ $symbol $name $all $answer;
            [$($types)* _: *mut $entry, _: usize,]
            [$($values)* $slice.as_mut_ptr(), $slice.len(),];
            ($($($rest)*)?));
    };
    (@ $symbol:ident $name:ident $all:tt $answer:ty; [$($types:tt)*] [$($values:tt)*];
     ($number:ident: $type:ty $(, $($rest:tt)*)?)) => {
        calls!(@ $symbol $name $all $answer;
            [$($types)* _: $type,] [$($values)* $number,]; ($($($rest)*)?));
    };
}

mod table;

pub use table::*;
