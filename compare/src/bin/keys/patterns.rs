//! Lists of keys by what is hard about them.

use compare::inputs::{Rng, shuffle};
use compare::keys::{FACTOR, Narrow, crowded_from, descending, factor, inverse, random};
use std::collections::{HashMap, HashSet};
use std::rc::Rc;

/// How a list of so many keys is made.
type Make = Box<dyn Fn(&mut Rng, usize) -> Vec<u32>>;

pub struct Pattern {
    pub name: String,
    make: Make,
}

impl Pattern {
    fn new(name: impl Into<String>, make: impl Fn(&mut Rng, usize) -> Vec<u32> + 'static) -> Self {
        Pattern {
            name: name.into(),
            make: Box::new(make),
        }
    }

    /// The key of each position by its number.
    fn each(name: impl Into<String>, key: impl Fn(u32) -> u32 + 'static) -> Self {
        Pattern::new(name, move |_, count| (0..count as u32).map(&key).collect())
    }

    fn keys(&self, rng: &mut Rng, count: usize) -> Vec<u32> {
        (self.make)(rng, count)
    }
}

/// What the others are compared with.
pub fn random_keys() -> Pattern {
    Pattern::new("random", |rng, count| random(count, rng))
}

/// Those that have a row of their own.
pub fn listed() -> Vec<Pattern> {
    vec![
        Crowd::of(1).pattern(),
        Crowd::of(2).pattern(),
        Pattern::each("all equal but the second", |i| u32::from(i == 1)),
        multiples(8),
        multiples(15),
        Pattern::new("two ascending lists, interleaved", |_, count| {
            let list = |from: usize| (from as u32..).take(count.div_ceil(2)).collect();
            interleaved(list(0), list(count))
        }),
        Pattern::new("descending", |_, count| descending(count)),
    ]
}

/// Those that the search goes through.
pub fn families() -> Vec<Pattern> {
    let mut all = listed();
    all.extend(crowds().into_iter().map(Crowd::pattern));
    all.extend(halves());
    all.extend(strides());
    all.extend(hash_multiples());
    all.extend([4, 12, 16, 20, 24, 28].map(multiples));
    all.extend(by_bits());
    all.extend(doubles());
    all.extend(groups());
    all
}

/// Keys of which one hash takes neighbouring numbers and others lie in narrow ranges; anew for each block of positions.
struct Crowd {
    hash: u32,
    others: Vec<Narrow>,
    block: usize,
}

impl Crowd {
    fn of(hash: u32) -> Self {
        Crowd {
            hash,
            others: Vec::new(),
            block: usize::MAX,
        }
    }

    fn and(mut self, hash: u32, one_in: u32) -> Self {
        self.others.push(Narrow { hash, one_in });
        self
    }

    fn in_blocks(mut self, block: usize) -> Self {
        self.block = block;
        self
    }

    /// The blocks start at numbers as far apart as can be.
    fn keys(&self, rng: &mut Rng, count: usize) -> Vec<u32> {
        let start = rng.word() as u32;
        let blocks = count.div_ceil(self.block) as u32;
        let keys_of = |block: u32| {
            let start = start.wrapping_add(block * (u32::MAX / blocks));
            crowded_from(start, self.hash, &self.others).take(self.block.min(count))
        };
        let mut keys: Vec<u32> = (0..blocks).flat_map(keys_of).take(count).collect();
        keys.chunks_mut(self.block.min(count))
            .for_each(|block| shuffle(block, rng));
        keys
    }

    fn name(&self) -> String {
        let mut name = format!("crowded in hash {}", self.hash);
        for Narrow { hash, one_in } in &self.others {
            name += &format!(", {hash} (1/{one_in})");
        }
        if self.block < usize::MAX {
            name += &format!(", blocks of {}", self.block);
        }
        name
    }

    fn pattern(self) -> Pattern {
        Pattern::new(self.name(), move |rng, count| self.keys(rng, count))
    }
}

/// One, two and three hashes at once, over all positions and in blocks.
fn crowds() -> Vec<Crowd> {
    let mut all: Vec<Crowd> = vec![Crowd::of(3), Crowd::of(4)];
    for [first, second] in [[1, 2], [2, 3], [1, 3]] {
        let pairs = [4, 16, 64, 256, 1024].map(|one_in| Crowd::of(first).and(second, one_in));
        all.extend(pairs);
    }
    for [first, second, third] in [[1, 2, 3], [2, 3, 4]] {
        let triples = [4, 16, 32];
        all.extend(triples.map(|one_in| Crowd::of(first).and(second, one_in).and(third, one_in)));
    }
    for block in [4_096, 8_192] {
        let blocks = [
            Crowd::of(1),
            Crowd::of(2),
            Crowd::of(1).and(2, 64),
            Crowd::of(1).and(2, 1024),
            Crowd::of(2).and(3, 64),
            Crowd::of(2).and(3, 1024),
            Crowd::of(2).and(3, 32).and(4, 32),
        ];
        all.extend(blocks.map(|crowd| crowd.in_blocks(block)));
    }
    all
}

fn interleaved(one: Vec<u32>, other: Vec<u32>) -> Vec<u32> {
    let pairs = one.into_iter().zip(other);
    pairs.flat_map(<[u32; 2]>::from).collect()
}

fn one_after_the_other(one: Vec<u32>, other: Vec<u32>) -> Vec<u32> {
    [one, other].concat()
}

type Join = fn(Vec<u32>, Vec<u32>) -> Vec<u32>;

/// Half of the keys of one kind and half of another.
fn halves() -> Vec<Pattern> {
    let kinds = [
        random_keys(),
        Crowd::of(1).pattern(),
        Crowd::of(2).pattern(),
        Crowd::of(1).and(2, 64).pattern(),
    ];
    let kinds = kinds.map(Rc::new);
    let joins: [(&str, Join); 2] = [
        ("interleaved", interleaved),
        ("one after the other", one_after_the_other),
    ];
    let mut all = Vec::new();
    for (one, other) in pairs(&kinds) {
        all.extend(joins.map(|(how, join)| half_each(&one, &other, how, join)));
    }
    all
}

/// Any two that are not the same.
fn pairs(kinds: &[Rc<Pattern>]) -> impl Iterator<Item = (Rc<Pattern>, Rc<Pattern>)> {
    let both = kinds
        .iter()
        .flat_map(move |one| kinds.iter().map(move |other| (one, other)));
    let different = both.filter(|(one, other)| !Rc::ptr_eq(one, other));
    different.map(|(one, other)| (one.clone(), other.clone()))
}

/// The second half is of keys that the first has not: of twice as many, half are enough.
fn half_each(one: &Rc<Pattern>, other: &Rc<Pattern>, how: &str, join: Join) -> Pattern {
    let name = format!("half {}, half {}, {how}", one.name, other.name);
    let (one, other) = (one.clone(), other.clone());
    Pattern::new(name, move |rng, count| {
        let half = count.div_ceil(2);
        let first = one.keys(rng, half);
        let seen: HashSet<u32> = first.iter().copied().collect();
        let others = other.keys(rng, 2 * half).into_iter();
        let second = others.filter(|key| !seen.contains(key)).take(half).collect();
        join(first, second).into_iter().take(count).collect()
    })
}

/// The same number between all neighbours.
fn strides() -> [Pattern; 8] {
    let strides = [
        3,
        1_000,
        65_521,
        65_537,
        0x5555_5555,
        0x7fff_ffff,
        FACTOR,
        factor(2),
    ];
    strides.map(|stride| Pattern::each(format!("stride {stride}"), move |i| i.wrapping_mul(stride)))
}

/// Keys of which a hash takes multiples of a power of two.
fn hash_multiples() -> Vec<Pattern> {
    let of = |hash: u32| {
        let back = inverse(factor(hash));
        [15, 18, 19, 20].map(|bits| {
            let name = format!("hash {hash} in multiples of 2^{bits}");
            Pattern::each(name, move |i| i.rotate_left(bits).wrapping_mul(back))
        })
    };
    [1, 2].into_iter().flat_map(of).collect()
}

/// Those that there are, and then those with one added, and so on.
fn multiples(bits: u32) -> Pattern {
    Pattern::each(format!("multiples of 2^{bits}"), move |i| {
        i.rotate_left(bits)
    })
}

fn by_bits() -> [Pattern; 6] {
    [
        Pattern::each("bits reversed", u32::reverse_bits),
        Pattern::each("bytes reversed", u32::swap_bytes),
        Pattern::each("Gray code", |i| i ^ i >> 1),
        Pattern::each("xor of 0xaaaaaaaa", |i| i ^ 0xaaaa_aaaa),
        Pattern::each("xor of 2^16 times itself", |i| i ^ i << 16),
        Pattern::each("bits reversed, xor of itself", |i| i.reverse_bits() ^ i),
    ]
}

/// The kinds of keys that are given more than once.
fn repeated() -> [Pattern; 4] {
    [
        random_keys(),
        Crowd::of(1).pattern(),
        Crowd::of(2).pattern(),
        Crowd::of(2).and(3, 64).pattern(),
    ]
}

/// Keys given twice far apart: one, the first and last of all, and each, half of the list apart.
fn doubles() -> Vec<Pattern> {
    let one = |kind: Pattern| {
        Pattern::new(
            format!("{}, the first again at the end", kind.name),
            move |rng, count| {
                let mut keys = kind.keys(rng, count);
                keys[count - 1] = keys[0];
                keys
            },
        )
    };
    let each = |kind: Pattern| {
        Pattern::new(
            format!("{}, each twice, far apart", kind.name),
            move |rng, count| {
                let half = kind.keys(rng, count.div_ceil(2));
                half.iter().copied().cycle().take(count).collect()
            },
        )
    };
    let ones = repeated().map(one);
    ones.into_iter().chain(repeated().map(each)).collect()
}

/// Equal keys that stand apart: groups of so many, and half of all keys equal.
fn groups() -> Vec<Pattern> {
    let of = |members: usize| {
        repeated().map(|kind| {
            let name = format!("{}, groups of {members}", kind.name);
            Pattern::new(name, move |rng, count| {
                let keys = kind.keys(rng, count.div_ceil(members));
                (0..count).map(|_| rng.pick(&keys)).collect()
            })
        })
    };
    let one_large = repeated().map(|kind| {
        Pattern::new(
            format!("{}, every second the same", kind.name),
            move |rng, count| {
                let keys = kind.keys(rng, count);
                let last = keys[count - 1];
                keys.chunks(2)
                    .flat_map(|pair| [pair[0], last])
                    .take(count)
                    .collect()
            },
        )
    });
    let equal = [2, 3, 10, 1_000].into_iter().flat_map(of);
    equal.chain(one_large).collect()
}

/// Random keys with the same groups of equal ones.
pub fn with_random_names(keys: &[u32], rng: &mut Rng) -> Vec<u32> {
    let mut names = random(keys.len(), rng).into_iter();
    let mut named = HashMap::new();
    let name = |key: &u32| {
        *named
            .entry(*key)
            .or_insert_with(|| names.next().expect("there is one for each"))
    };
    keys.iter().map(name).collect()
}

/// What the second list of keys is: those that are wanted, or those of the second batch.
#[derive(Clone, Copy, PartialEq, Eq)]
pub enum Second {
    Reordered,
    Absent,
    RandomInstead,
    FirstRandomInstead,
    LastAlone,
    AbsentAlone,
}

impl Second {
    pub const ALL: [Second; 6] = [
        Second::Reordered,
        Second::Absent,
        Second::RandomInstead,
        Second::FirstRandomInstead,
        Second::LastAlone,
        Second::AbsentAlone,
    ];

    pub fn name(self) -> &'static str {
        match self {
            Second::Reordered => "the same in another order",
            Second::Absent => "others of the pattern",
            Second::RandomInstead => "random ones",
            Second::FirstRandomInstead => "these, the first list random",
            Second::LastAlone => "always the last",
            Second::AbsentAlone => "always one other of the pattern",
        }
    }

    /// Both lists.
    pub fn lists(self, drawn: &Drawn, rng: &mut Rng) -> [Vec<u32>; 2] {
        let Drawn { keys, twice } = drawn;
        let every_second = |from: usize| twice.iter().copied().skip(from).step_by(2).collect();
        let alone = |key: u32| vec![key; keys.len()];
        match self {
            Second::Reordered => {
                let mut second = keys.clone();
                shuffle(&mut second, rng);
                [keys.clone(), second]
            }
            Second::Absent => [every_second(0), every_second(1)],
            Second::RandomInstead => [keys.clone(), random(keys.len(), rng)],
            Second::FirstRandomInstead => [random(keys.len(), rng), keys.clone()],
            Second::LastAlone => [keys.clone(), alone(keys[keys.len() - 1])],
            Second::AbsentAlone => [every_second(0), alone(twice[twice.len() - 1])],
        }
    }
}

/// So many keys of a pattern, and twice as many.
pub struct Drawn {
    keys: Vec<u32>,
    twice: Vec<u32>,
}

impl Drawn {
    pub fn new(pattern: &Pattern, rng: &mut Rng, count: usize) -> Self {
        Drawn {
            keys: pattern.keys(rng, count),
            twice: pattern.keys(rng, 2 * count),
        }
    }
}
