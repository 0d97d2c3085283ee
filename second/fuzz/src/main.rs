//! Runs the comparison: `fuzz [--cases N] [--seed S] [--slip NAME]`, or `fuzz --case N` for one case
//! that is shown first. The cases run in a process of their own, so that one that ends it is shown
//! too.

use fuzz::abi::Entries;
use fuzz::report::{run, Case, SLIPS};
use second::Slip;
use std::env;
use std::fs::{self, File};
use std::os::unix::fs::FileExt;
use std::path::{Path, PathBuf};
use std::process::{Command, ExitCode};

/// Cases where none are asked for.
const CASES: u64 = 200_000;

/// What the program is asked to do.
struct Options {
    seed: u64,
    first: u64,
    cases: u64,
    slip: Slip,
    /// Where the number of each case is noted, in the process that runs them.
    note: Option<PathBuf>,
}

/// Gives what these words ask for, none where they ask for nothing known.
fn options(words: &[String]) -> Option<Options> {
    let mut options = Options {
        seed: 1,
        first: 0,
        cases: CASES,
        slip: Slip::None,
        note: None,
    };
    for pair in words.chunks(2) {
        let [name, value] = pair else { return None };
        match name.as_str() {
            "--seed" => options.seed = value.parse().ok()?,
            "--cases" => options.cases = value.parse().ok()?,
            "--case" => (options.first, options.cases) = (value.parse().ok()?, 1),
            "--slip" => options.slip = slip_of(value)?,
            "--note" => options.note = Some(value.into()),
            _ => return None,
        }
    }
    Some(options)
}

/// Gives the slip of this name.
fn slip_of(name: &str) -> Option<Slip> {
    let mut slips = SLIPS.into_iter();
    slips.find(|slip| format!("{slip:?}") == name)
}

/// Gives the entries that are compared.
fn entries() -> impl Entries {
    #[cfg(feature = "library")]
    return fuzz::abi::Library;
    #[cfg(not(feature = "library"))]
    return fuzz::stand_in::StandIn;
}

/// Runs the cases and tells what they met; with a slip it is right that one differs.
fn work(options: &Options, note: &Path) -> std::io::Result<ExitCode> {
    let note = File::create(note)?;
    let mut noted = Ok(());
    let numbers = options.first..options.first + options.cases;
    let ran = run(&entries(), options.seed, numbers, options.slip, |number| {
        if let Err(fault) = note.write_all_at(&number.to_le_bytes(), 0) {
            noted = Err(fault);
        }
    });
    noted?;
    match &ran {
        Ok(met) => {
            print!("{}", met.lines());
            println!("fuzz: {} cases, no difference", options.cases);
        }
        Err(failed) => {
            println!("fuzz: difference in {}", failed.0.shown());
            failed.1.iter().for_each(|way| println!("  {way}"));
        }
    }
    let right = ran.is_ok() == (options.slip == Slip::None);
    Ok(ExitCode::from(u8::from(!right)))
}

/// Has the cases run in another process, and shows the one at which it was ended from outside.
fn watch(options: &Options, words: &[String]) -> std::io::Result<ExitCode> {
    let note = env::temp_dir().join(format!("fuzz-{}", std::process::id()));
    if options.cases == 1 {
        println!("{}", Case::draw(options.seed, options.first).shown());
    }
    let mut command = Command::new(env::current_exe()?);
    let status = command.args(words).arg("--note").arg(&note).status()?;
    let number = fs::read(&note).ok().and_then(|bytes| bytes.try_into().ok());
    fs::remove_file(&note).ok();
    if let (None, Some(bytes)) = (status.code(), number) {
        let case = Case::draw(options.seed, u64::from_le_bytes(bytes));
        println!("fuzz: {status} in {}", case.shown());
    }
    let code = status.code().and_then(|code| u8::try_from(code).ok());
    Ok(ExitCode::from(code.unwrap_or(1)))
}

fn main() -> ExitCode {
    let words: Vec<String> = env::args().skip(1).collect();
    let Some(options) = options(&words) else {
        eprintln!("usage: fuzz [--cases N | --case N] [--seed S] [--slip NAME]");
        eprintln!("slips: {SLIPS:?}");
        return ExitCode::from(2);
    };
    let ended = match &options.note {
        Some(note) => work(&options, note),
        None => watch(&options, &words),
    };
    ended.unwrap_or_else(|fault| {
        eprintln!("fuzz: {fault}");
        ExitCode::FAILURE
    })
}
