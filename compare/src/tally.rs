//! Cases counted by what a call came to.

use crate::call::{CALLS, Call};
use std::collections::BTreeMap;
use std::fmt;

/// Cases by document 01's refusal, 0 standing for an answer.
#[derive(Clone, Default)]
pub struct Seen(BTreeMap<u64, u64>);

impl Seen {
    pub fn add(&mut self, refusal: u64) {
        self.add_cases(refusal, 1);
    }

    fn add_cases(&mut self, refusal: u64, cases: u64) {
        *self.0.entry(refusal).or_default() += cases;
    }

    pub fn add_all(&mut self, other: &Seen) {
        for (&refusal, &cases) in &other.0 {
            self.add_cases(refusal, cases);
        }
    }

    fn cases(&self) -> u64 {
        self.0.values().sum()
    }
}

impl fmt::Display for Seen {
    fn fmt(&self, f: &mut fmt::Formatter<'_>) -> fmt::Result {
        self.0
            .iter()
            .try_for_each(|(refusal, cases)| match refusal {
                0 => write!(f, " {cases} answers"),
                _ => write!(f, ", {cases} of {refusal}"),
            })
    }
}

/// Cases by call.
#[derive(Default)]
pub struct Tally(BTreeMap<u8, Seen>);

impl Tally {
    pub fn add(&mut self, call: &Call, refusal: u64) {
        self.0.entry(call.number).or_default().add(refusal);
    }

    pub fn add_all(&mut self, other: &Tally) {
        for (&call, seen) in &other.0 {
            self.0.entry(call).or_default().add_all(seen);
        }
    }

    pub fn cases(&self) -> u64 {
        self.0.values().map(Seen::cases).sum()
    }

    /// What no case has come to: each answer or refusal that a call gives.
    pub fn missing(&self) -> Vec<String> {
        let missing = |call: &Call| {
            let seen = self.of(call).0.into_iter();
            let numbers = seen
                .filter(|(_, cases)| *cases == 0)
                .map(|(number, _)| number);
            let name = call.name;
            numbers
                .map(move |number| format!("{name} {number}"))
                .collect::<Vec<_>>()
        };
        CALLS.iter().flat_map(missing).collect()
    }

    /// The cases of a call, also with 0 of an answer and of each refusal that it gives.
    fn of(&self, call: &Call) -> Seen {
        let mut seen = self.0.get(&call.number).cloned().unwrap_or_default();
        for &refusal in [0].iter().chain(call.refusals) {
            seen.add_cases(refusal, 0);
        }
        seen
    }
}

/// A row for each call: its cases, the answers, and each refusal with its number.
impl fmt::Display for Tally {
    fn fmt(&self, f: &mut fmt::Formatter<'_>) -> fmt::Result {
        writeln!(
            f,
            "{:21}{:>9}{:>9}  refused, by number",
            "call", "cases", "answered"
        )?;
        for call in CALLS {
            let mut seen = self.of(call);
            let (cases, answers) = (seen.cases(), seen.0.remove(&0).unwrap_or(0));
            write!(f, "{:21}{cases:>9}{answers:>9}", call.name)?;
            for (refusal, cases) in &seen.0 {
                write!(f, "{:>4}: {cases:<7}", refusal)?;
            }
            writeln!(f)?;
        }
        Ok(())
    }
}
