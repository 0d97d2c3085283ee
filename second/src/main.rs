//! Reads a table from standard input and prints its run, or with the argument `density` the
//! answer of its density test. The other arguments make plans and texts to compare programs on.

use std::io::{Read, Write};
use std::path::Path;
use std::process::ExitCode;

/// Gives what standard input is answered with.
fn answered(answer: fn(&[u8]) -> Vec<u8>) -> std::io::Result<Vec<u8>> {
    let mut text = Vec::new();
    std::io::stdin().lock().read_to_end(&mut text)?;
    Ok(answer(&text))
}

/// Writes so many texts from the first on into the folder `texts` of this folder, each under its
/// number, and what is expected for them into `run` and `density`.
fn write_texts(first: u64, count: u64, folder: &Path) -> std::io::Result<()> {
    let folders = ["texts", "run", "density"].map(|name| folder.join(name));
    for folder in &folders {
        std::fs::create_dir_all(folder)?;
    }
    for number in first..first + count {
        let text = second::texts::text(number);
        let answers = [second::answer(&text), second::density_answer(&text)];
        std::fs::write(folders[0].join(number.to_string()), text)?;
        for (folder, answer) in folders[1..].iter().zip(answers) {
            std::fs::write(folder.join(number.to_string()), answer)?;
        }
    }
    Ok(())
}

/// Gives what these words ask for, or nothing where they ask for nothing known.
fn asked(words: &[&str]) -> Option<std::io::Result<Vec<u8>>> {
    let lines = match words {
        [] => return Some(answered(second::answer)),
        ["density"] => return Some(answered(second::density_answer)),
        ["text", number] => second::texts::text(number.parse().ok()?),
        ["texts", first, count, folder] => {
            let (first, count) = (first.parse().ok()?, count.parse().ok()?);
            return Some(write_texts(first, count, Path::new(folder)).map(|()| vec![]));
        }
        ["plans", first, count] => {
            second::plans::plan_lines(first.parse().ok()?, count.parse().ok()?).into_bytes()
        }
        ["plans-answers", first, count] => {
            second::plans::answer_lines(first.parse().ok()?, count.parse().ok()?).into_bytes()
        }
        _ => return None,
    };
    Some(Ok(lines))
}

fn main() -> ExitCode {
    let words: Vec<String> = std::env::args().skip(1).collect();
    let words: Vec<&str> = words.iter().map(String::as_str).collect();
    let Some(answer) = asked(&words) else {
        eprintln!("usage: second [density] < table");
        eprintln!("       second text NUMBER | texts FIRST COUNT FOLDER");
        eprintln!("       second plans FIRST COUNT | plans-answers FIRST COUNT");
        return ExitCode::from(2);
    };
    match answer.and_then(|bytes| std::io::stdout().lock().write_all(&bytes)) {
        Ok(()) => ExitCode::SUCCESS,
        Err(fault) => {
            eprintln!("second: {fault}");
            ExitCode::FAILURE
        }
    }
}
