//! The naive reading judged by mutants of the original: mutants COUNT SEED CORES
//!
//! A mutant is the original with one operator changed. It is held against the naive reading by `judge`.
//! One build has all of them, in switches: each function has its body once for each of its mutants. A
//! body whose type no other can have is built by itself. Functions that no call enters are left alone:
//! these are found first, by a build in which each function tells that it was entered.

mod source;
mod tree;

use compare::call::CALLS;
use compare::inputs::Rng;
use source::{Change, Function, Source};
use std::collections::BTreeSet;
use std::path::{Path, PathBuf};
use std::process::ExitCode;
use std::sync::Mutex;
use std::{env, fs};
use tree::{Tree, Verdict};

/// A file of the original's.
struct File {
    source: Source,
    functions: Vec<Function>,
}

/// A mutant with its number.
type Numbered<'a> = (usize, &'a Mutant<'a>);

/// A change of a function of one of the sources.
struct Mutant<'a> {
    source: &'a Source,
    function: &'a Function,
    change: Change,
}

impl Mutant<'_> {
    fn described(&self) -> String {
        let Change { place, new } = &self.change;
        format!(
            "{}:{}: `{}` becomes `{new}` in {}: {}",
            self.source.name,
            self.source.line(place.start),
            &self.source.text[place.clone()],
            self.function.name,
            self.source.line_text(place.start)
        )
    }
}

fn files(folder: &Path) -> Vec<File> {
    let entries = fs::read_dir(folder).expect("RUNLENGTH_SRC names a folder");
    let paths = entries.map(|entry| entry.expect("the folder can be read").path());
    let is_rust = |path: &PathBuf| path.extension().is_some_and(|extension| extension == "rs");
    let mut paths: Vec<PathBuf> = paths.filter(is_rust).collect();
    paths.sort();
    let file = |path: &PathBuf| {
        let name = path.file_name().expect("a file has a name");
        let text = fs::read_to_string(path).expect("the file can be read");
        let source = Source::new(name.to_string_lossy().into_owned(), text);
        File {
            functions: source.functions(),
            source,
        }
    };
    paths.iter().map(file).collect()
}

/// The mutants of the functions that are entered. The others are named.
fn mutants<'a>(files: &'a [File], entered: &BTreeSet<usize>) -> Vec<Mutant<'a>> {
    let (mut mutants, mut left, mut number) = (Vec::new(), 0, 0);
    for File { source, functions } in files {
        let mut names = Vec::new();
        for function in functions {
            let changes = source.changes(&function.body);
            if entered.contains(&number) {
                let mutant = |change| Mutant {
                    source,
                    function,
                    change,
                };
                mutants.extend(changes.into_iter().map(mutant));
            } else {
                left += changes.len();
                names.push(function.name.as_str());
            }
            number += 1;
        }
        println!("{}: not entered: {}", source.name, names.join(" "));
    }
    println!(
        "of {number} functions the {} calls enter {}, with {} mutants; {left} of the others are left alone",
        CALLS.len(),
        entered.len(),
        mutants.len()
    );
    mutants
}

/// So many of them, in their order.
fn chosen<'a>(mut mutants: Vec<Mutant<'a>>, count: usize, rng: &mut Rng) -> Vec<Mutant<'a>> {
    while mutants.len() > count {
        mutants.remove(rng.below(mutants.len()));
    }
    mutants
}

/// Writes the original with a switch for each function that has some of these mutants.
fn write_switches(tree: &Tree, files: &[File], mutants: &[Numbered]) {
    for File { source, functions } in files {
        let switch = |function: &Function| {
            let own = |mutant: &Mutant| std::ptr::eq(mutant.function, function);
            let own = mutants.iter().filter(|(_, mutant)| own(mutant));
            let changes: Vec<_> = own
                .map(|(number, mutant)| (*number, mutant.change.clone()))
                .collect();
            (!changes.is_empty()).then(|| source.switch(&function.body, &changes))
        };
        let switches: Vec<Change> = functions.iter().filter_map(switch).collect();
        tree.write(source, &switches);
    }
}

/// Builds the original with all of these mutants that compile, and gives the numbers of the others.
fn build_switches(tree: &Tree, files: &[File], mutants: &[Numbered]) -> BTreeSet<usize> {
    let mut left_out = BTreeSet::new();
    loop {
        let built = mutants
            .iter()
            .filter(|(number, _)| !left_out.contains(number));
        write_switches(tree, files, &built.copied().collect::<Vec<_>>());
        let not_built = tree.not_built();
        if not_built.is_empty() {
            assert!(tree.builds(), "what can be checked can be built");
            return left_out;
        }
        left_out.extend(not_built);
    }
}

/// How many there are of each verdict, and the survivors.
#[derive(Default)]
struct Report {
    not_built: usize,
    differ: usize,
    panic: usize,
    over_time: usize,
    survivors: Vec<String>,
}

impl Report {
    /// `None` stands for a mutant that does not compile.
    fn add(&mut self, verdict: Option<Verdict>, mutant: &Mutant) {
        let mutant = mutant.described();
        let (said, count) = match verdict {
            None => ("not built".to_string(), &mut self.not_built),
            Some(Verdict::Differs(call)) => (format!("caught by {call}"), &mut self.differ),
            Some(Verdict::Panics) => ("panics".to_string(), &mut self.panic),
            Some(Verdict::OverTime) => ("over time".to_string(), &mut self.over_time),
            Some(Verdict::Survives) => return self.survivors.push(mutant),
        };
        println!("{said}: {mutant}");
        *count += 1;
    }

    fn print(&mut self) {
        self.survivors.sort();
        for survivor in &self.survivors {
            println!("survives: {survivor}");
        }
        let Report {
            not_built,
            differ,
            panic,
            over_time,
            survivors,
        } = self;
        let (caught, survived) = (*differ + *panic + *over_time, survivors.len());
        println!(
            "caught by a difference {differ}, by a panic or an abort {panic}, by the time limit {over_time}"
        );
        println!(
            "{} mutants, {caught} caught (of these {over_time} by the time limit), {survived} survived, {not_built} not built",
            caught + survived
        );
    }
}

/// Does this with each of the mutants, by so many workers at once.
fn for_each(
    mutants: &[Numbered],
    cores: usize,
    judge: impl Fn(usize, usize, &Mutant) -> Option<Verdict> + Sync,
    report: &Mutex<Report>,
) {
    let rest = Mutex::new(mutants.iter());
    compare::in_workers(cores, |worker| {
        let next = || rest.lock().expect("no worker panics").next();
        while let Some((number, mutant)) = next() {
            let verdict = judge(worker, *number, mutant);
            report
                .lock()
                .expect("no worker panics")
                .add(verdict, mutant);
        }
    });
}

/// Judges mutants that one build has.
fn judge_switched(trees: &[Tree], files: &[File], mutants: &[Numbered], report: &Mutex<Report>) {
    let tree = &trees[0];
    let not_built = build_switches(tree, files, mutants);
    let judge = |_, number, _: &Mutant| {
        let built = !not_built.contains(&number);
        built.then(|| tree.verdict(number))
    };
    for_each(mutants, trees.len(), judge, report);
}

/// Judges mutants that are built one by one.
fn judge_single(trees: &[Tree], files: &[File], mutants: &[Numbered], report: &Mutex<Report>) {
    let judge = |worker: usize, number, mutant: &Mutant| {
        let tree = &trees[worker];
        files.iter().for_each(|file| tree.write(&file.source, &[]));
        tree.write(mutant.source, std::slice::from_ref(&mutant.change));
        tree.builds().then(|| tree.verdict(number))
    };
    for_each(mutants, trees.len(), judge, report);
}

fn main() -> ExitCode {
    let numbers: Result<Vec<u64>, _> = env::args().skip(1).map(|word| word.parse()).collect();
    let Ok([count, seed, cores @ (1..)]) = numbers.as_deref() else {
        eprintln!("usage: mutants COUNT SEED CORES");
        return ExitCode::from(2);
    };
    let folder = env::var_os("RUNLENGTH_SRC").expect("launch names the original's folder");
    let files = files(Path::new(&folder));
    let tree = |number| Tree::new(number, files.iter().map(|file| &file.source));
    let trees: Vec<Tree> = (0..*cores as usize).map(tree).collect();
    let entered = trees[0].entered(&files);
    let mutants = mutants(&files, &entered);
    let mutants = chosen(mutants, *count as usize, &mut Rng::new(*seed));
    let numbered = mutants.iter().enumerate();
    let is_single = |(_, mutant): &Numbered| mutant.function.is_opaque;
    let (single, switched): (Vec<_>, Vec<_>) = numbered.partition(is_single);
    let report = Mutex::new(Report::default());
    judge_switched(&trees, &files, &switched, &report);
    judge_single(&trees, &files, &single, &report);
    report.into_inner().expect("no worker panics").print();
    ExitCode::SUCCESS
}
