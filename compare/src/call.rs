//! The calls: what each takes, and what each side makes of the same arguments.

use crate::answer::{Answer, Error, Reduction, Refusal};
use crate::inputs::Role;
use crate::{naive, original};
use std::fmt;

/// An optional fill: none is given with 0. Its value then stands for nothing.
#[repr(C)]
#[derive(Clone, Copy, PartialEq, Eq)]
pub struct Fill {
    pub given: u64,
    pub value: i64,
}

impl Fill {
    pub fn option(self) -> Option<i64> {
        (self.given != 0).then_some(self.value)
    }
}

/// An argument: a list or lent buffer, also of offsets or indexes, of keys, of mask or kind bytes, or
/// of 64 bits each, an i64, a used count, a key, a fill, or a code.
#[derive(Clone, PartialEq, Eq)]
pub enum Arg {
    List(Vec<i64>),
    Places(Vec<usize>),
    Keys(Vec<u32>),
    Bytes(Vec<u8>),
    Bits(Vec<u64>),
    Number(i64),
    Count(usize),
    Key(u32),
    Fill(Fill),
    Code(u8),
}

impl Arg {
    pub fn is_list(&self) -> bool {
        use Arg::*;
        matches!(self, List(_) | Places(_) | Keys(_) | Bytes(_) | Bits(_))
    }

    /// A buffer after these entries have been written to its front.
    fn written_to(self, buffer: &Arg) -> Arg {
        match (self, buffer) {
            (Arg::List(list), Arg::List(held)) => Arg::List(in_front(list, held)),
            (Arg::Places(list), Arg::Places(held)) => Arg::Places(in_front(list, held)),
            (Arg::Keys(list), Arg::Keys(held)) => Arg::Keys(in_front(list, held)),
            (Arg::Bytes(list), Arg::Bytes(held)) => Arg::Bytes(in_front(list, held)),
            (Arg::Bits(list), Arg::Bits(held)) => Arg::Bits(in_front(list, held)),
            (list, _) => panic!("not what the buffer holds: {list}"),
        }
    }

    /// The first entries of a list of a sequence or of a batch.
    pub fn first(&self, count: usize) -> Arg {
        match self {
            Arg::List(list) => Arg::List(list[..count].to_vec()),
            Arg::Places(list) => Arg::Places(list[..count].to_vec()),
            Arg::Keys(list) => Arg::Keys(list[..count].to_vec()),
            arg => panic!("no list of a sequence or of a batch: {arg}"),
        }
    }
}

fn in_front<T: Copy>(mut list: Vec<T>, held: &[T]) -> Vec<T> {
    list.extend(held.iter().skip(list.len()));
    list
}

macro_rules! taken_from {
    ($($arg:ty: $variant:ident($held:ident) => $taken:ty: $value:expr;)*) => {
        $(impl<'a> From<$arg> for $taken {
            fn from(arg: $arg) -> Self {
                match arg {
                    Arg::$variant($held) => $value,
                    _ => panic!("not what the call takes: {arg}"),
                }
            }
        })*
    };
}

taken_from! {
    &'a Arg: List(list) => &'a [i64]: list;
    &'a mut Arg: List(list) => &'a mut [i64]: list;
    &'a Arg: Places(list) => &'a [usize]: list;
    &'a mut Arg: Places(list) => &'a mut [usize]: list;
    &'a Arg: Keys(list) => &'a [u32]: list;
    &'a mut Arg: Keys(list) => &'a mut [u32]: list;
    &'a Arg: Bytes(list) => &'a [u8]: list;
    &'a mut Arg: Bytes(list) => &'a mut [u8]: list;
    &'a Arg: Bits(list) => &'a [u64]: list;
    &'a mut Arg: Bits(list) => &'a mut [u64]: list;
    &'a Arg: Number(number) => i64: *number;
    &'a Arg: Count(count) => usize: *count;
    &'a Arg: Key(key) => u32: *key;
    &'a Arg: Fill(fill) => Fill: *fill;
    &'a Arg: Code(code) => u8: *code;
}

/// The number, the fill's two numbers, or the list's length and its entries, bits as signed numbers.
impl fmt::Display for Arg {
    fn fmt(&self, f: &mut fmt::Formatter<'_>) -> fmt::Result {
        match self {
            Arg::List(list) => write_list(f, list),
            Arg::Places(list) => write_list(f, list),
            Arg::Keys(list) => write_list(f, list),
            Arg::Bytes(list) => write_list(f, list),
            Arg::Bits(list) => {
                let signed: Vec<i64> = list.iter().map(|&bits| bits as i64).collect();
                write_list(f, &signed)
            }
            Arg::Number(number) => write!(f, "{number}"),
            Arg::Count(count) => write!(f, "{count}"),
            Arg::Key(key) => write!(f, "{key}"),
            Arg::Fill(Fill { given, value }) => write!(f, "{given} {value}"),
            Arg::Code(code) => write!(f, "{code}"),
        }
    }
}

fn write_list<T: fmt::Display>(f: &mut fmt::Formatter<'_>, list: &[T]) -> fmt::Result {
    write!(f, "{}", list.len())?;
    list.iter().try_for_each(|entry| write!(f, " {entry}"))
}

pub struct Parameter {
    pub name: &'static str,
    pub role: Role,
    /// Whether it is a buffer that the call may write.
    pub lent: bool,
}

/// The ends and values of a sequence.
pub type Runs = (Vec<i64>, Vec<i64>);

/// What an answer counts, and puts in place of the first entries of each lent buffer.
pub struct Written {
    counts: Vec<usize>,
    lists: Vec<Arg>,
}

impl Written {
    pub fn nothing<const COUNTS: usize>(counts: [usize; COUNTS]) -> Self {
        Written {
            counts: counts.to_vec(),
            lists: Vec::new(),
        }
    }

    pub fn list(list: Vec<i64>) -> Self {
        Written {
            counts: vec![list.len()],
            lists: vec![Arg::List(list)],
        }
    }

    pub fn places(list: Vec<usize>) -> Self {
        Written {
            counts: vec![list.len()],
            lists: vec![Arg::Places(list)],
        }
    }

    pub fn runs((ends, values): Runs) -> Self {
        Written {
            counts: vec![ends.len()],
            lists: vec![Arg::List(ends), Arg::List(values)],
        }
    }

    pub fn plan(ends: Vec<i64>, idx_a: Vec<usize>, idx_b: Vec<usize>) -> Self {
        Written {
            counts: vec![ends.len()],
            lists: vec![Arg::List(ends), Arg::Places(idx_a), Arg::Places(idx_b)],
        }
    }

    /// Indexes stand segment after segment.
    pub fn plan_many(ends: Vec<i64>, idx: Vec<usize>) -> Self {
        Written {
            counts: vec![ends.len(), idx.len()],
            lists: vec![Arg::List(ends), Arg::Places(idx)],
        }
    }

    pub fn ranges(starts: Vec<i64>, ends: Vec<i64>) -> Self {
        Written {
            counts: vec![starts.len()],
            lists: vec![Arg::List(starts), Arg::List(ends)],
        }
    }

    /// One offset more than there are groups.
    pub fn groups(ends: Vec<i64>, offsets: Vec<usize>) -> Self {
        Written {
            counts: vec![ends.len()],
            lists: vec![Arg::List(ends), Arg::Places(offsets)],
        }
    }

    pub fn reductions(reductions: &[Reduction]) -> Self {
        let kinds = reductions.iter().map(|reduction| reduction.kind());
        let bits = reductions.iter().map(|reduction| reduction.bits());
        Written {
            counts: vec![reductions.len()],
            lists: vec![Arg::Bytes(kinds.collect()), Arg::Bits(bits.collect())],
        }
    }

    /// One offset more than there are sequences.
    pub fn flat(offsets: Vec<usize>, ends: Vec<i64>, values: Vec<i64>) -> Self {
        Written {
            counts: vec![offsets.len() - 1, ends.len()],
            lists: vec![Arg::Places(offsets), Arg::List(ends), Arg::List(values)],
        }
    }

    pub fn batch(keys: Vec<u32>, offsets: Vec<usize>, ends: Vec<i64>, values: Vec<i64>) -> Self {
        let mut flat = Written::flat(offsets, ends, values);
        flat.lists.insert(0, Arg::Keys(keys));
        flat
    }

    /// The sequence of a key, if there is one.
    pub fn got(sequence: Option<Runs>) -> Self {
        let found = sequence.is_some().into();
        let mut runs = Written::runs(sequence.unwrap_or_default());
        runs.counts.insert(0, found);
        runs
    }
}

pub type Reading = Result<Written, Refusal>;

/// All that a caller sees: the answer, and each lent buffer after the call, but for the entries of
/// scratch that an answer leaves free; these stand as they were.
#[derive(PartialEq, Eq)]
pub struct Outcome {
    pub answer: Answer,
    pub lent: Vec<Arg>,
}

/// The answer's numbers, then each lent buffer as a list.
impl fmt::Display for Outcome {
    fn fmt(&self, f: &mut fmt::Formatter<'_>) -> fmt::Result {
        write!(f, "{}", self.answer)?;
        self.lent.iter().try_for_each(|list| write!(f, " {list}"))
    }
}

pub struct Call {
    pub number: u8,
    pub name: &'static str,
    pub parameters: &'static [Parameter],
    /// How many counts it answers.
    counts: usize,
    /// The numbers of the refusals that it gives.
    pub refusals: &'static [u64],
    #[cfg(feature = "library")]
    library: fn(&mut [Arg]) -> Answer,
    original: fn(&[Arg]) -> Option<Reading>,
    naive: fn(&[Arg]) -> Reading,
}

impl Call {
    pub fn named(name: &str) -> &'static Call {
        let call = CALLS.iter().find(|call| call.name == name);
        call.expect("there is a call of that name")
    }

    pub fn takes_arguments(&self) -> bool {
        !self.parameters.is_empty()
    }

    /// Its arguments, a line for each.
    pub fn shown(&self, args: &[Arg]) -> String {
        let named = self.parameters.iter().zip(args);
        let line =
            |(parameter, arg): (&Parameter, &Arg)| format!("    {} = {arg}\n", parameter.name);
        named.map(line).collect()
    }

    /// Whether one of its parameters stands for that.
    pub fn takes(&self, role: Role) -> bool {
        self.parameters.iter().any(|p| p.role == role)
    }

    /// How many of its parameters stand before the buffers of which it reads nothing.
    pub fn inputs(&self) -> usize {
        let mut parameters = self.parameters.iter();
        let room = parameters.position(|parameter| parameter.role.is_room());
        room.unwrap_or(self.parameters.len())
    }

    /// Where the buffers that it may write stand among its arguments.
    pub fn lent_at(&self) -> Vec<usize> {
        let lent = (0..self.parameters.len()).filter(|&i| self.parameters[i].lent);
        lent.collect()
    }

    /// What the library answers. The arguments then stand as it has left them.
    #[cfg(feature = "library")]
    pub fn answer(&self, args: &mut [Arg]) -> Answer {
        (self.library)(args)
    }

    #[cfg(feature = "library")]
    pub fn library(&self, args: &[Arg]) -> Outcome {
        let mut after = args.to_vec();
        let answer = self.answer(&mut after);
        self.seen(args, after, answer)
    }

    /// What a caller sees of the library's answer and of the arguments after it.
    #[cfg(feature = "library")]
    pub fn seen(&self, args: &[Arg], mut after: Vec<Arg>, answer: Answer) -> Outcome {
        if answer.refusal == Refusal::default() {
            self.restore_free(args, &mut after);
        }
        let lent = self.lent(&after).cloned().collect();
        Outcome { answer, lent }
    }

    /// Where the parameters stand that are for that.
    fn of_role(&self, role: Role) -> impl Iterator<Item = usize> {
        (0..self.parameters.len()).filter(move |&i| self.parameters[i].role == role)
    }

    /// The entries of scratch in which an answer may leave anything: two for each run handed in.
    pub fn free_scratch(&self, args: &[Arg]) -> usize {
        let runs = self.of_role(Role::FlatEnds);
        2 * runs.map(|i| <&[i64]>::from(&args[i]).len()).sum::<usize>()
    }

    /// Puts back what the free entries of scratch held.
    #[cfg(feature = "library")]
    fn restore_free(&self, before: &[Arg], after: &mut [Arg]) {
        let free = self.free_scratch(before);
        for i in self.of_role(Role::Scratch) {
            let (held, scratch): (&[i64], &mut [i64]) =
                ((&before[i]).into(), (&mut after[i]).into());
            let free = free.min(held.len());
            scratch[..free].copy_from_slice(&held[..free]);
        }
    }

    /// `None` outside the original's domain, which depends on document 01's answer, `naive`.
    pub fn original(&self, args: &[Arg], naive: &Outcome) -> Option<Outcome> {
        let reading = (self.original)(args)?;
        let refusal = naive.answer.refusal;
        let outside = refusal.is(Error::UnknownCode)
            || refusal.is(Error::TooMany)
            // Buffers are asked about last: any refusal of the original's comes before.
            || refusal.is(Error::ShortBuffer) && reading.is_ok();
        (!outside).then(|| self.outcome(args, reading))
    }

    pub fn naive(&self, args: &[Arg]) -> Outcome {
        self.outcome(args, (self.naive)(args))
    }

    /// Document 01's answer, which is the original's in its domain, or how they differ.
    pub fn agreed(&self, args: &[Arg]) -> Result<Outcome, String> {
        let naive = self.naive(args);
        match self.original(args, &naive) {
            Some(original) if original != naive => {
                Err(format!("{}: {original} is no {naive}", self.name))
            }
            _ => Ok(naive),
        }
    }

    /// After an answer later entries keep what they held; a refused call has written nothing.
    fn outcome(&self, args: &[Arg], reading: Reading) -> Outcome {
        let (refusal, counts, lists) = match reading {
            Ok(Written { counts, lists }) => (Refusal::default(), counts, lists),
            Err(refusal) => (refusal, vec![0; self.counts], Vec::new()),
        };
        let answer = Answer { refusal, counts };
        let mut lists = lists.into_iter();
        let written = |held: &Arg| match lists.next() {
            Some(list) => list.written_to(held),
            None => held.clone(),
        };
        let lent = self.lent(args).map(written).collect();
        Outcome { answer, lent }
    }

    /// The buffers that the call may write.
    fn lent<'a>(&self, args: &'a [Arg]) -> impl Iterator<Item = &'a Arg> {
        let lent = args.iter().zip(self.parameters);
        lent.filter(|(_, parameter)| parameter.lent)
            .map(|(arg, _)| arg)
    }
}

fn wrong_number() -> ! {
    panic!("not as many arguments as the call takes")
}

macro_rules! calls {
    ($($number:literal $name:ident(
        $($(&$lent:tt)? $input:ident: $role:ident),*; $($output:ident: $room:ident),*
    ) -> $counts:literal, $refusals:tt $($alone:ident)?;)*) => {
        /// Every call, with its inputs, then its outputs, how many counts it answers, the refusals that it
        /// gives, and whether the original is without it. That takes inputs alone.
        pub const CALLS: &[Call] = &[$(Call {
            number: $number,
            name: stringify!($name),
            parameters: &[
                $(Parameter {
                    name: stringify!($input),
                    role: Role::$role,
                    lent: !stringify!($($lent)?).is_empty(),
                },)*
                $(Parameter { name: stringify!($output), role: Role::$room, lent: true },)*
            ],
            counts: $counts,
            refusals: &$refusals,
            #[cfg(feature = "library")]
            library: |args| {
                let [$($input,)* $($output,)*] = args else { wrong_number() };
                crate::library::$name(
                    $(calls!(@pass $(&$lent)? $input),)* $($output.into()),*
                ).into()
            },
            original: calls!(@original $($alone)? $name [$($input)*] [$($output)*]),
            naive: |args| {
                let [$($input,)* $($output,)*] = args else { wrong_number() };
                naive::$name($($input.into(),)* $($output.into()),*)
            },
        }),*];
    };
    (@pass $input:ident) => { (&*$input).into() };
    (@pass &mut $lent:ident) => { $lent.into() };
    (@original $name:ident [$($input:ident)*] [$($output:ident)*]) => {
        |args| {
            let [$($input,)* $(calls!(@unused $output),)*] = args else { wrong_number() };
            original::$name($($input.into()),*)
        }
    };
    (@original alone $name:ident $inputs:tt $outputs:tt) => { |_| None };
    (@unused $output:ident) => { _ };
}

mod table;

pub use table::CALLS;
