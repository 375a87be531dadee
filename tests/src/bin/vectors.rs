//! Writes what the program `vectors` reads, and the lines that it must print. Each line comes from
//! the independent judge; where a text has a stored line, both must agree, apart from idle, the
//! bytes of formulas and trials: the stored lines count the inputs that are not read, refuse ( ) and
//! comma by 3, and try nothing where the verdict is unknown.

use bench_tests::examples::examples;
use bench_tests::grammar::is_allowed;
use bench_tests::judge::judge;
use bench_tests::printed::{handed_text, lines, sbox_text, tables};
use bench_tests::texts::{faults, lets, limits, standing, unknown};
use bench_tests::trials::{self, Trials};
use std::fs;
use std::io;
use std::path::{Path, PathBuf};
use std::process::ExitCode;

/// How the program is called.
const USAGE: &str = "usage: vectors --corpus FOLDER --out FOLDER";

/// Longer texts of the corpus are left out: the limit of the length has its own cases.
const LONGEST_STORED: u64 = 8_192;

/// The place of idle among the fields of a line.
const IDLE: usize = 5;

/// A text with its name, the trials that are asked for, and the line stored beside it.
struct Case {
    name: String,
    text: Vec<u8>,
    trials: Trials,
    stored: Option<String>,
}

/// The folders named on the command line.
struct Folders {
    corpus: PathBuf,
    out: PathBuf,
}

fn main() -> ExitCode {
    let Some(folders) = folders_of(std::env::args().skip(1).collect()) else {
        eprintln!("{USAGE}");
        return ExitCode::from(2);
    };
    match write_all(&folders) {
        Ok(0) => ExitCode::SUCCESS,
        Ok(_) => ExitCode::FAILURE,
        Err(error) => {
            eprintln!("vectors: {error}");
            ExitCode::from(2)
        }
    }
}

/// The folders, where both are named.
fn folders_of(words: Vec<String>) -> Option<Folders> {
    let value = |flag: &str| {
        let at = words.iter().position(|word| word == flag)?;
        words.get(at + 1).map(PathBuf::from)
    };
    let corpus = value("--corpus")?;
    let out = value("--out")?;
    (words.len() == 4).then_some(Folders { corpus, out })
}

/// Writes both files; answers how many stored lines disagree with the judge in more than idle, the
/// bytes of formulas and trials.
fn write_all(folders: &Folders) -> io::Result<usize> {
    let mut cases = written_cases();
    for folder in ["gadgets", "damaged"] {
        cases.extend(stored_cases(&folders.corpus, folder)?);
    }
    let (mut texts, mut printed) = (vec![], tables());
    let mut counts = Counts::default();
    for (at, case) in cases.iter().enumerate() {
        counts.add(case);
        let (size, trials) = (case.text.len(), case.trials);
        let header = format!(
            "{}\t{size}\t{}\t{}\n",
            case.name, trials.count, trials.start
        );
        texts.extend_from_slice(header.as_bytes());
        texts.extend_from_slice(&case.text);
        texts.push(b'\n');
        printed.push_str(&lines(at, &case.name, &case.text, trials));
    }
    fs::create_dir_all(&folders.out)?;
    fs::write(folders.out.join("stdin"), &texts)?;
    fs::write(folders.out.join("stdout"), printed)?;
    print!("{} cases, {} bytes; ", cases.len(), texts.len());
    println!(
        "{} stored lines, {} of them disagree, {} in idle alone, {} in the bytes of formulas alone, \
         {} in trials",
        counts.stored, counts.wrong, counts.idle, counts.marks, counts.trials
    );
    Ok(counts.wrong)
}

/// How many lines are stored, and how many of them are not what the judge answers: in more than
/// what was requested later, in idle alone, in the bytes of formulas alone, and in trials.
#[derive(Default)]
struct Counts {
    stored: usize,
    wrong: usize,
    idle: usize,
    marks: usize,
    trials: usize,
}

impl Counts {
    /// Counts one case.
    fn add(&mut self, case: &Case) {
        let Some(stored) = &case.stored else {
            return;
        };
        self.stored += 1;
        let line = judge(&case.text).line();
        if *stored == line {
            return;
        }
        if without_idle(stored) == without_idle(&line) {
            self.idle += 1;
        } else if refuses_allowed(&case.text, stored) {
            self.marks += 1;
        } else if given_up(stored).is_some_and(|at| Some(at) == given_up(&line)) {
            self.trials += 1;
        } else {
            eprint!("{}: judged {line}", case.name);
            self.wrong += 1;
        }
    }
}

/// Whether a stored line refuses by 3 a line of the text all of whose bytes are allowed.
fn refuses_allowed(text: &[u8], stored: &str) -> bool {
    let fields: Vec<&str> = stored.split('\t').collect();
    let ["refused", "3", number, ..] = fields[..] else {
        return false;
    };
    let mut lines = text.split(|byte| *byte == b'\n').zip(1..);
    lines.any(|(line, at): (_, usize)| {
        at.to_string() == number && line.iter().all(|byte| is_allowed(*byte))
    })
}

/// The line at which a text was given up: of unknown, and of found.
fn given_up(line: &str) -> Option<&str> {
    match line.split('\t').collect::<Vec<&str>>()[..] {
        ["unknown" | "found", "0", at, ..] => Some(at),
        _ => None,
    }
}

/// The fields of a line, apart from idle.
fn without_idle(line: &str) -> Vec<&str> {
    let mut fields: Vec<&str> = line.split('\t').collect();
    if IDLE < fields.len() {
        fields[IDLE] = fields[IDLE].trim_start_matches(|digit: char| digit.is_ascii_digit());
    }
    fields
}

/// The S-box, the text that is handed out, the examples, the limits, the faults and the trials.
fn written_cases() -> Vec<Case> {
    let first = [
        ("sbox".to_string(), sbox_text()),
        ("handed".to_string(), handed_text()),
    ];
    let examples = examples()
        .into_iter()
        .map(|example| (example.name.to_string(), example.text));
    let pairs = faults::pairs()
        .into_iter()
        .map(|(name, text, _)| (name, text));
    let formulas = lets::cases()
        .into_iter()
        .map(|(name, text, _)| (name, text));
    first
        .into_iter()
        .chain(examples)
        .chain(limits::both_sides())
        .chain(standing::both_sides())
        .chain(faults::short_texts())
        .chain(pairs)
        .chain(formulas)
        .chain(faults::every_byte())
        .map(|(name, text)| (name, text, trials::DEFAULT))
        .chain(unknown::cases())
        .map(|(name, text, trials)| Case {
            name,
            text,
            trials,
            stored: None,
        })
        .collect()
}

/// The texts of a folder of the corpus in the order of their names, with their stored lines.
fn stored_cases(corpus: &Path, folder: &str) -> io::Result<Vec<Case>> {
    let mut paths = vec![];
    for entry in fs::read_dir(corpus.join(folder))? {
        let path = entry?.path();
        let short = fs::metadata(&path)?.len() <= LONGEST_STORED;
        if short && path.extension().is_some_and(|end| end == "txt") {
            paths.push(path);
        }
    }
    paths.sort();
    let case = |path: PathBuf| {
        let stem = path.file_stem().unwrap_or_default().to_string_lossy();
        Ok(Case {
            name: format!("{folder}_{stem}"),
            text: fs::read(&path)?,
            trials: trials::DEFAULT,
            stored: fs::read_to_string(path.with_extension("line")).ok(),
        })
    };
    paths.into_iter().map(case).collect()
}
