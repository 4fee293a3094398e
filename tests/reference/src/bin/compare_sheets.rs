//! Compares the program `sheet` with the plain implementation on files by seed.
//!
//!   compare_sheets PROGRAM [COUNT [SEED]]     COUNT cases of the seed: 2,000 of seed 1 by default
//!
//! For each case the program is run in a fresh folder. Its standard output is held to what `sheet`
//! of the reference gives, byte for byte; a program that a signal ends differs as well. Prints each
//! case that differs, then one line; exits with status 1 if there is a difference, with 2 if the
//! program cannot be run.

use std::collections::BTreeMap;
use std::path::{Path, PathBuf};
use std::process::{Command, ExitCode, Output, Stdio};
use std::{env, fs, io, process};

use reference::files::{files_by_seed, File, FILE_NAMES};
use reference::sheet::sheet;

const COUNT: u64 = 2_000;
const SEED: u64 = 1;
/// Longer files are shown by their first bytes.
const SHOWN: usize = 1_000;

fn write(folder: &Path, files: &[File]) -> io::Result<()> {
    for (name, file) in FILE_NAMES.iter().zip(files) {
        let path = folder.join(name);
        match file {
            File::Missing => {}
            File::Folder => fs::create_dir(path)?,
            File::Holding(bytes) => fs::write(path, bytes)?,
        }
    }
    Ok(())
}

/// Runs the program in a folder with these files and nothing else.
fn run(program: &Path, files: &[File]) -> io::Result<Output> {
    let folder = env::temp_dir().join(format!("compare_sheets.{}", process::id()));
    fs::create_dir(&folder)?;
    let output = write(&folder, files)
        .and_then(|()| Command::new(program).current_dir(&folder).stdin(Stdio::null()).output());
    fs::remove_dir_all(&folder)?;
    output
}

fn show_file(name: &str, file: &File) {
    let File::Holding(bytes) = file else {
        return eprintln!("  {name}: {file:?}");
    };
    let shown: String = bytes.iter().take(SHOWN).map(|byte| format!("{byte:02x}")).collect();
    let cut = if bytes.len() > SHOWN { ".." } else { "" };
    eprintln!("  {name}: {} bytes {shown}{cut}", bytes.len());
}

fn show_difference(files: &[File], expected: &str, found: &Output) {
    for (name, file) in FILE_NAMES.iter().zip(files) {
        show_file(name, file);
    }
    eprintln!("expected:\n{expected}");
    eprintln!("found, {}:\n{}", found.status, String::from_utf8_lossy(&found.stdout));
}

/// The number of the refusal that is printed; 0 if the first word is level 0 or `sum`.
fn number(text: &str) -> u32 {
    text.split(' ').next().and_then(|word| word.parse().ok()).unwrap_or(0)
}

/// Answers how many cases differ.
fn compare(program: &Path, count: u64, seed: u64) -> io::Result<usize> {
    let mut met: BTreeMap<u32, usize> = BTreeMap::new();
    let mut differences = 0;
    for index in 0..count {
        let files = files_by_seed(seed, index);
        let expected = sheet(files[0].bytes(), files[1].bytes(), files[2].bytes());
        let found = run(program, &files)?;
        if found.stdout != expected.as_bytes() || found.status.code().is_none() {
            differences += 1;
            eprintln!("DIFFERENCE: seed {seed}, case {index}");
            show_difference(&files, &expected, &found);
        }
        *met.entry(number(&expected)).or_default() += 1;
    }
    let accepted = met.remove(&0).unwrap_or(0);
    let refused: Vec<String> = met.iter().map(|(number, met)| format!("{number}:{met}")).collect();
    println!(
        "{count} cases of seed {seed}: accepted {accepted}; refused {}; differences {differences}",
        refused.join(" ")
    );
    Ok(differences)
}

/// The program, the number of cases and the seed; nothing if the words are others.
fn arguments(words: &[String]) -> Option<(PathBuf, u64, u64)> {
    let (program, numbers) = words.split_first()?;
    let numbers: Option<Vec<u64>> = numbers.iter().map(|word| word.parse().ok()).collect();
    match numbers?[..] {
        [] => Some((program.into(), COUNT, SEED)),
        [count] => Some((program.into(), count, SEED)),
        [count, seed] => Some((program.into(), count, seed)),
        _ => None,
    }
}

fn main() -> ExitCode {
    let words: Vec<String> = env::args().skip(1).collect();
    let Some((program, count, seed)) = arguments(&words) else {
        eprintln!("usage: compare_sheets PROGRAM [COUNT [SEED]]");
        return ExitCode::from(2);
    };
    // The program is run in another folder than this one.
    let result = fs::canonicalize(&program).and_then(|program| compare(&program, count, seed));
    match result {
        Ok(0) => ExitCode::SUCCESS,
        Ok(_) => ExitCode::FAILURE,
        Err(error) => {
            eprintln!("{}: {error}", program.display());
            ExitCode::from(2)
        }
    }
}
