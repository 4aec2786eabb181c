//! `view` and `compose` one after the other on generated files, which must come back as they were;
//! `compose` on texts that are spoiled (`compose::spoil`), against the model, and on those of
//! `compose::cases`.

#[cfg(test)]
mod tests;

use std::collections::BTreeMap;
use std::fmt;
use std::io::Write;
use std::path::Path;
use std::process::{Command, Stdio};
use std::sync::atomic::{AtomicBool, Ordering};
use std::thread;

use crate::compose::cases::Case;
use crate::compose::{self, spoil::spoiled};
use crate::generate;
use crate::model::files::Run;
use crate::random::Random;
use crate::view::{self, view};

/// How a program ended, and what it wrote.
pub struct Ended {
    pub well: bool,
    /// None where a signal ended it.
    pub status: Option<i32>,
    pub output: Vec<u8>,
    pub errors: Vec<u8>,
}

/// Runs a program on an input.
pub type Runner<'a> = &'a (dyn Fn(&str, &[u8]) -> Result<Ended, String> + Sync);

/// Runs a program of a folder.
pub fn run(folder: &Path, name: &str, input: &[u8]) -> Result<Ended, String> {
    run_with(folder, name, &[], input)
}

/// The same, with arguments.
pub fn run_with(
    folder: &Path,
    name: &str,
    arguments: &[String],
    input: &[u8],
) -> Result<Ended, String> {
    let path = folder.join(name);
    let said = |error| format!("{}: {error}", path.display());
    let mut command = Command::new(&path);
    command
        .args(arguments)
        .stdin(Stdio::piped())
        .stdout(Stdio::piped())
        .stderr(Stdio::piped());
    let mut child = command.spawn().map_err(said)?;
    let mut pipe = child.stdin.take().expect("a pipe");
    let output = thread::scope(|scope| {
        // It may end before it has read all.
        scope.spawn(move || pipe.write_all(input).ok());
        child.wait_with_output()
    });
    let output = output.map_err(said)?;
    Ok(Ended {
        well: output.status.success(),
        status: output.status.code(),
        output: output.stdout,
        errors: output.stderr,
    })
}

/// What was compared.
#[derive(Clone, Debug, Default)]
pub struct Compared {
    pub files: usize,
    /// Files by each of their sizes, and by what `view` prints of their steps.
    pub sizes: BTreeMap<(&'static str, usize), usize>,
    pub shown: BTreeMap<String, usize>,
    /// Spoiled texts by the sort of their message; those that are runs, by `WRITTEN`.
    pub spoiled: BTreeMap<String, usize>,
}

const WRITTEN: &str = "written";

/// Sizes of files that must come.
const SIZES: [(&str, [usize; 2]); 4] = [
    ("cards", [1, 8]),
    ("registers", [1, 32]),
    ("tasks", [1, 16]),
    ("steps", [0, 4_096]),
];

/// All that `view` can print of a step that is asked for, in its columns, and of one that is taken.
fn shown() -> impl Iterator<Item = String> {
    let steps = view::NAMES.map(|name| format!("  {name:<16}"));
    let functions = view::NAMED_FUNCTIONS.map(|name| format!("  {name:<22}"));
    let taken = [" taken\n", " taken, value ", " taken, found ", " held\n"];
    let others = ["  bytes "].into_iter().chain(taken).map(String::from);
    steps.into_iter().chain(functions).chain(others)
}

impl Compared {
    fn add(&mut self, run: &Run, text: &str) {
        self.files += 1;
        let (registers, tasks) = (run.placement.registers.len(), run.placement.home.len());
        let sizes = [
            run.placement.cards as usize,
            registers,
            tasks,
            run.steps.len(),
        ];
        for ((name, _), size) in SIZES.into_iter().zip(sizes) {
            *self.sizes.entry((name, size)).or_default() += 1;
        }
        for words in shown().filter(|words| text.contains(words.as_str())) {
            *self.shown.entry(words).or_default() += 1;
        }
    }

    fn join(&mut self, other: Compared) {
        fn sum<K: Ord>(counts: &mut BTreeMap<K, usize>, others: BTreeMap<K, usize>) {
            for (key, count) in others {
                *counts.entry(key).or_default() += count;
            }
        }
        self.files += other.files;
        sum(&mut self.sizes, other.sizes);
        sum(&mut self.shown, other.shown);
        sum(&mut self.spoiled, other.spoiled);
    }

    /// What was never reached.
    pub fn missing(&self) -> Vec<String> {
        let sizes = SIZES.into_iter();
        let sizes = sizes.flat_map(|(name, sizes)| sizes.map(|size| (name, size)));
        let sizes = sizes.filter(|size| !self.sizes.contains_key(size));
        let sizes = sizes.map(|(name, size)| format!("files with {name} {size}"));
        let shown = shown().filter(|words| !self.shown.contains_key(words));
        let shown = shown.map(|words| format!("steps shown as {}", words.trim()));
        let sorts = compose::sorts().into_iter().chain([WRITTEN.to_string()]);
        let sorts = sorts.filter(|sort| !self.spoiled.contains_key(sort));
        let sorts = sorts.map(|sort| format!("spoiled texts: {sort}"));
        sizes.chain(shown).chain(sorts).collect()
    }
}

impl fmt::Display for Compared {
    fn fmt(&self, f: &mut fmt::Formatter) -> fmt::Result {
        let texts = self.spoiled.iter();
        let texts = texts.map(|(sort, count)| format!("{count} {sort}"));
        let texts = texts.collect::<Vec<_>>().join("; ");
        write!(
            f,
            "files {}, all come back; spoiled texts  {texts}",
            self.files
        )
    }
}

/// An accepted file, mostly cut to few steps.
fn file(seed: u64, item: u64, count: u64) -> Vec<u8> {
    let files = (0..).map(|again| generate::file(seed, item + again * count).1);
    let mut runs = files.filter_map(|file| Run::read(&file).ok());
    let mut run = runs.next().expect("an accepted file");
    let mut random = Random::new(seed, item);
    if random.percent(80) {
        run.steps.truncate(random.between(0, 60));
    }
    run.write()
}

fn said(bytes: &[u8]) -> String {
    let text = String::from_utf8_lossy(bytes);
    text.lines().next().unwrap_or_default().to_string()
}

/// Whether a program wrote this and had nothing to say.
pub fn wrote(what: &str, ended: Ended, wanted: &[u8]) -> Result<(), String> {
    if !ended.well || !ended.errors.is_empty() {
        return Err(format!(
            "{what}: it ends badly or says: {}",
            said(&ended.errors)
        ));
    }
    match ended.output == wanted {
        true => Ok(()),
        false => {
            let mut pairs = ended.output.iter().zip(wanted);
            let at = pairs.position(|(found, wanted)| found != wanted);
            let (found, wanted) = (ended.output.len(), wanted.len());
            Err(format!(
                "{what}: {found} bytes for {wanted}, the first other one at {at:?}"
            ))
        }
    }
}

/// Whether `compose` did with a text what the model does.
fn composed(what: &str, ended: Ended, wanted: &Result<Vec<u8>, String>) -> Result<(), String> {
    did("compose", what, ended, wanted)
}

/// Whether a program wrote a file, or this message and nothing else.
pub fn did(
    program: &str,
    what: &str,
    ended: Ended,
    wanted: &Result<Vec<u8>, String>,
) -> Result<(), String> {
    let message = match wanted {
        Ok(file) => return wrote(what, ended, file),
        Err(message) => message,
    };
    if ended.well || !ended.output.is_empty() {
        return Err(format!("{what}: it ends well or writes, not: {message}"));
    }
    match ended.errors == format!("{program}: {message}\n").as_bytes() {
        true => Ok(()),
        false => Err(format!("{what}: {}, not: {message}", said(&ended.errors))),
    }
}

/// The texts of `compose::cases`, against what was worked out by hand; how many there are.
pub fn cases(run: Runner) -> Result<usize, String> {
    let cases = compose::cases::cases();
    for Case { name, text, wanted } in &cases {
        composed(name, run("compose", text)?, wanted)?;
    }
    Ok(cases.len())
}

/// The file of an item, what `view` prints of it, and that spoiled.
fn texts(seed: u64, item: u64, count: u64) -> (Vec<u8>, String, Vec<u8>) {
    let file = file(seed, item, count);
    let text = view(&file);
    let spoiled = spoiled(&text, &mut Random::new(seed ^ 1, item));
    (file, text, spoiled)
}

/// The spoiled text of an item, for who looks into a difference.
pub fn text(seed: u64, item: u64, count: u64) -> Vec<u8> {
    texts(seed, item, count).2
}

/// One file there and back, and one spoiled text.
fn compare(
    (file, text, spoiled): (Vec<u8>, String, Vec<u8>),
    run: Runner,
    compared: &mut Compared,
) -> Result<(), String> {
    wrote("view", run("view", &file)?, text.as_bytes())?;
    wrote("compose", run("compose", text.as_bytes())?, &file)?;
    compared.add(&Run::read(&file).expect("an accepted file"), &text);
    let wanted = compose::compose(&spoiled);
    composed("compose, spoiled", run("compose", &spoiled)?, &wanted)?;
    let sort = wanted.map_or_else(|message| compose::sort(&message), |_| WRITTEN.into());
    *compared.spoiled.entry(sort).or_default() += 1;
    Ok(())
}

/// All files of a seed, in as many threads as there are processors.
pub fn all(seed: u64, count: u64, run: Runner) -> Result<Compared, String> {
    let workers = thread::available_parallelism().map_or(1, |number| number.get() as u64);
    let failed = AtomicBool::new(false);
    let work = &|worker: u64| -> Result<Compared, String> {
        let mut compared = Compared::default();
        for item in (worker..count).step_by(workers as usize) {
            if failed.load(Ordering::Relaxed) {
                break;
            }
            let done = compare(texts(seed, item, count), run, &mut compared);
            done.map_err(|words| {
                failed.store(true, Ordering::Relaxed);
                format!("seed {seed} item {item} of {count}: {words}")
            })?;
        }
        Ok(compared)
    };
    thread::scope(|scope| {
        let threads = (0..workers).map(|worker| scope.spawn(move || work(worker)));
        let threads: Vec<_> = threads.collect();
        let mut all = Compared::default();
        for thread in threads {
            all.join(thread.join().expect("a thread that ends")?);
        }
        Ok(all)
    })
}
