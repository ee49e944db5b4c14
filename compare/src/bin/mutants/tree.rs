//! A copy of the original with the package that judges it.

use crate::File;
use crate::source::{Change, Function, Source, change_at_line};
use std::collections::BTreeSet;
use std::fs;
use std::os::unix::process::ExitStatusExt;
use std::path::PathBuf;
use std::process::{Command, Output};

/// Random cases of each call.
const CASES: &str = "5000";

/// What a mutant may use, in KiB: one may push entries for ever.
const MEMORY: u32 = 4 << 20;

/// What is put behind the original's lib.rs: a function that tells once that it was entered, and the
/// change that is switched on.
const MORE: &str = "
#[allow(dead_code)]
pub(crate) fn entered(function: usize) {
    use std::sync::atomic::{AtomicBool, Ordering};
    static SEEN: [AtomicBool; 1024] = [const { AtomicBool::new(false) }; 1024];
    if !SEEN[function].swap(true, Ordering::Relaxed) {
        eprintln!(\"{function}\");
    }
}

#[allow(dead_code)]
#[inline]
pub(crate) fn mutant() -> usize {
    static MUTANT: std::sync::OnceLock<usize> = std::sync::OnceLock::new();
    *MUTANT.get_or_init(|| std::env::var(\"MUTANT\").map_or(usize::MAX, |word| word.parse().unwrap()))
}
";

pub enum Verdict {
    /// By a difference, with the call that shows it.
    Differs(String),
    Panics,
    OverTime,
    Survives,
}

pub struct Tree {
    folder: PathBuf,
    package: PathBuf,
}

/// A command that cannot fail.
fn succeed(command: &mut Command) {
    let output = command.output().expect("the command is there");
    let errors = String::from_utf8_lossy(&output.stderr);
    assert!(output.status.success(), "{command:?}: {errors}");
}

impl Tree {
    pub fn new<'a>(number: usize, sources: impl Iterator<Item = &'a Source>) -> Self {
        let package = PathBuf::from(env!("CARGO_MANIFEST_DIR"));
        let folder = package.join(format!("../target/compare/mutants/{number}"));
        fs::create_dir_all(folder.join("src")).expect("the folder can be made");
        let folder = folder.canonicalize().expect("the folder is there");
        let tree = Tree { folder, package };
        sources.for_each(|source| tree.write(source, &[]));
        succeed(
            Command::new("ln")
                .arg("-sfn")
                .args([&tree.package, &tree.linked()]),
        );
        succeed(
            Command::new(tree.package.join("original"))
                .args([tree.folder.join("src"), tree.original()]),
        );
        let lib = tree.original().join("src/lib.rs");
        let modules = fs::read_to_string(&lib).expect("the original has a lib.rs");
        fs::write(&lib, format!("{modules}{MORE}")).expect("lib.rs can be written");
        tree
    }

    /// The package once more: from here its path to the original leads into this tree.
    fn linked(&self) -> PathBuf {
        self.folder.join("compare")
    }

    fn target(&self) -> PathBuf {
        self.folder.join("target/compare")
    }

    fn original(&self) -> PathBuf {
        self.target().join("original")
    }

    pub fn write(&self, source: &Source, changes: &[Change]) {
        let file = self.folder.join("src").join(&source.name);
        fs::write(file, source.changed(changes)).expect("the file can be written");
    }

    fn cargo(&self, command: &str) -> Output {
        let mut cargo = Command::new("cargo");
        cargo.args([command, "--quiet", "--message-format", "short"]);
        cargo.args(["--profile", "mutants", "--bin", "judge"]);
        cargo
            .arg("--manifest-path")
            .arg(self.linked().join("Cargo.toml"));
        cargo.arg("--target-dir").arg(self.target());
        let output = cargo.current_dir(&self.package).output();
        output.expect("cargo is there")
    }

    /// Whether what is written compiles.
    pub fn builds(&self) -> bool {
        self.cargo("build").status.success()
    }

    /// The changes of switches that do not compile; more may show when these are left out.
    pub fn not_built(&self) -> BTreeSet<usize> {
        let checked = self.cargo("check");
        let said = String::from_utf8_lossy(&checked.stderr);
        let errors = said.lines().filter(|line| line.contains(": error"));
        let places = errors.map(|error| {
            let mut words = error.split(':');
            let file = self.package.join(words.next().unwrap_or(""));
            let text = fs::read_to_string(file).unwrap_or_default();
            let line = words.next().and_then(|word| word.parse().ok());
            let change = line.and_then(|line| change_at_line(&text, line));
            change.unwrap_or_else(|| panic!("no change of a switch: {error}"))
        });
        places.collect()
    }

    fn judge(&self, mutant: usize) -> Output {
        let judge = self.target().join("mutants/judge");
        let limited = format!("ulimit -v {MEMORY}; exec \"$0\" {CASES} 1");
        let mut sh = Command::new("sh");
        sh.arg("-c").arg(limited).arg(judge);
        let output = sh.env("MUTANT", mutant.to_string()).output();
        output.expect("sh is there")
    }

    /// What the naive reading makes of what is built, with this change of its switches.
    pub fn verdict(&self, mutant: usize) -> Verdict {
        let judged = self.judge(mutant);
        let answer = String::from_utf8_lossy(&judged.stdout);
        match (judged.status.code(), judged.status.signal()) {
            (Some(0), _) => Verdict::Survives,
            (Some(1), _) => Verdict::Differs(answer.split(':').next().unwrap_or("").to_string()),
            (Some(3), _) => Verdict::OverTime,
            // An abort is what happens where there is no more memory.
            (Some(101), _) | (_, Some(_)) => Verdict::Panics,
            (code, _) => panic!("the judge ends with {code:?}: {answer}"),
        }
    }

    /// The functions that calls enter, by their number in these files.
    pub fn entered(&self, files: &[File]) -> BTreeSet<usize> {
        let mut numbers = 0..;
        let mut tell = |function: &Function| {
            let number = numbers.next().expect("numbers do not end");
            Change {
                place: function.body.start..function.body.start,
                new: format!(" crate::entered({number});"),
            }
        };
        for file in files {
            let tells: Vec<Change> = file.functions.iter().map(&mut tell).collect();
            self.write(&file.source, &tells);
        }
        assert!(self.builds(), "the original cannot be built");
        let judged = self.judge(usize::MAX);
        assert!(
            judged.status.success(),
            "the original differs from the naive reading"
        );
        let told = String::from_utf8_lossy(&judged.stderr).into_owned();
        let numbers = told.lines().map(|line| line.parse());
        numbers
            .map(|number| number.expect("a number is told"))
            .collect()
    }
}
