//! Arguments drawn from random bytes.

use compare::call::{Arg, Call, Fill};
use compare::inputs::{self, Rng};
use std::ops::BitXorAssign;

/// Any words: random ones, few small ones, rising ones, or limits among random ones.
fn words(rng: &mut Rng) -> Vec<u64> {
    let most = rng.pick(&[1, 4, 17, 49]);
    let length = rng.below(most);
    let kind = rng.below(4);
    let mut sum: u64 = 0;
    let word = |_| match kind {
        0 => rng.word(),
        1 => rng.below(4) as u64,
        2 => {
            sum = sum.wrapping_add(1 + rng.below(3) as u64);
            sum
        }
        _ => {
            let any = rng.word();
            rng.pick(&[0, 1, 2, u64::MAX, 1 << 63, (1 << 63) - 1, any])
        }
    };
    (0..length).map(word).collect()
}

/// Any argument of the same kind.
fn any(arg: &Arg, rng: &mut Rng) -> Arg {
    let word = match rng.one_in(2) {
        true => rng.word(),
        false => rng.below(12) as u64,
    };
    let words = words(rng).into_iter();
    match arg {
        Arg::List(_) => Arg::List(words.map(|word| word as i64).collect()),
        Arg::Places(_) => Arg::Places(words.map(|word| word as usize).collect()),
        Arg::Keys(_) => Arg::Keys(words.map(|word| word as u32).collect()),
        Arg::Bytes(_) => Arg::Bytes(words.map(|word| word as u8).collect()),
        Arg::Bits(_) => Arg::Bits(words.collect()),
        Arg::Number(_) => Arg::Number(word as i64),
        Arg::Count(_) => Arg::Count(word as usize),
        Arg::Key(_) => Arg::Key(word as u32),
        Arg::Fill(_) => Arg::Fill(Fill {
            given: word,
            value: rng.word() as i64,
        }),
        Arg::Code(_) => Arg::Code(word as u8),
    }
}

/// Changes bits of an entry, unless there is none.
fn flip_entry<T: BitXorAssign>(list: &mut [T], bits: T, rng: &mut Rng) {
    let entry = rng.below(list.len().max(1));
    if let Some(entry) = list.get_mut(entry) {
        *entry ^= bits;
    }
}

/// Changes a bit of the argument, of a list in one of its entries.
fn flip(arg: &mut Arg, rng: &mut Rng) {
    let bit = rng.below(64);
    match arg {
        Arg::List(list) => flip_entry(list, 1 << bit, rng),
        Arg::Places(list) => flip_entry(list, 1 << bit, rng),
        Arg::Keys(list) => flip_entry(list, 1 << (bit % 32), rng),
        Arg::Bytes(list) => flip_entry(list, 1 << (bit % 8), rng),
        Arg::Bits(list) => flip_entry(list, 1 << bit, rng),
        Arg::Number(number) => *number ^= 1 << bit,
        Arg::Count(count) => *count ^= 1 << bit,
        Arg::Key(key) => *key ^= 1 << (bit % 32),
        Arg::Fill(fill) => fill.given ^= 1 << bit,
        Arg::Code(code) => *code ^= 1 << (bit % 8),
    }
}

/// Puts random words into a buffer of any length up to some more than it had, or of the one that it has.
fn fill_room(room: &mut Arg, any_length: bool, rng: &mut Rng) {
    fn refill<T>(list: &mut Vec<T>, any_length: bool, rng: &mut Rng, word: fn(u64) -> T) {
        let length = match any_length {
            true => rng.below(list.len() + 9),
            false => list.len(),
        };
        *list = (0..length).map(|_| word(rng.word())).collect();
    }
    match room {
        Arg::List(list) => refill(list, any_length, rng, |word| word as i64),
        Arg::Places(list) => refill(list, any_length, rng, |word| word as usize),
        Arg::Keys(list) => refill(list, any_length, rng, |word| word as u32),
        Arg::Bytes(list) => refill(list, any_length, rng, |word| word as u8),
        Arg::Bits(list) => refill(list, any_length, rng, |word| word),
        arg => panic!("no buffer: {arg}"),
    }
}

/// The inputs of a call: any, or nearly valid ones, some of which become any or have bits changed.
fn inputs(call: &Call, rng: &mut Rng) -> Vec<Arg> {
    if !call.takes_arguments() {
        return Vec::new();
    }
    let (mut args, _) = inputs::random(call, rng);
    args.truncate(call.inputs());
    match rng.below(4) {
        0 => args.iter_mut().for_each(|arg| *arg = any(arg, rng)),
        1 => {
            let index = rng.below(args.len());
            args[index] = any(&args[index], rng);
        }
        2 => {
            for _ in 0..=rng.below(3) {
                let index = rng.below(args.len());
                flip(&mut args[index], rng);
            }
        }
        _ => {}
    }
    args
}

/// Arguments of a call, its buffers of the length that document 01 asks or of any.
pub fn arguments(call: &Call, rng: &mut Rng) -> Vec<Arg> {
    let inputs = inputs(call, rng);
    if inputs.len() == call.parameters.len() {
        return inputs;
    }
    let mut args = inputs::with_rooms(call, inputs);
    let any_length = rng.one_in(2);
    for room in &mut args[call.inputs()..] {
        fill_room(room, any_length, rng);
    }
    args
}
