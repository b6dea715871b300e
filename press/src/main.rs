//! The program `press`: checks, runs and shows a frame in a file. README.md has its commands.

mod files;

use press::layout::LONGEST;
use press::{Answer, Summary, check, explain, run};
use std::env;
use std::ffi::OsString;
use std::io::{self, Write};
use std::path::{Path, PathBuf};
use std::process::ExitCode;

const USAGE: &str = "\
press check FILE           says whether the frame in FILE is accepted, and if not, why
press run FILE [-o OUT]    runs it and writes it to OUT, or back to FILE
press show FILE            says what it holds: head, rows by kind and colour, strained rows
press help                 says this

A word that starts with - is an option; after -- none is.
Exit status: 0 accepted; 1 refused; 2 bad usage, or a file could not be read or written.
";

/// What is asked for.
enum Asked {
    Check(PathBuf),
    Run(PathBuf, PathBuf),
    Show(PathBuf),
    Help,
}

/// How a command ended that could be done.
enum Done {
    Accepted,
    Refused,
}

fn main() -> ExitCode {
    let asked = match asked(env::args_os().skip(1)) {
        Ok(asked) => asked,
        Err(wrong) => {
            // If even this cannot be written, the status says enough.
            let _ = write!(io::stderr(), "press: {wrong}\n\n{USAGE}");
            return ExitCode::from(2);
        }
    };
    match done(&asked) {
        Ok(Done::Accepted) => ExitCode::SUCCESS,
        Ok(Done::Refused) => ExitCode::from(1),
        Err(wrong) => {
            let _ = writeln!(io::stderr(), "press: {wrong}");
            ExitCode::from(2)
        }
    }
}

/// Reads the words of the command.
fn asked(mut words: impl Iterator<Item = OsString>) -> Result<Asked, String> {
    let command = words.next().ok_or("no command")?;
    let command = command.to_string_lossy().into_owned();
    let (mut files, mut out, mut options) = (Vec::new(), None, true);
    while let Some(word) = words.next() {
        match word.to_str() {
            Some("--") if options => options = false,
            Some("-o") if options && command == "run" => {
                let path = words.next().ok_or("-o has no file after it")?;
                if out.replace(PathBuf::from(path)).is_some() {
                    return Err("-o stands there twice".into());
                }
            }
            Some(option) if options && option.starts_with('-') => {
                return Err(format!("{option} is no option of press {command}"));
            }
            _ => files.push(PathBuf::from(word)),
        }
    }
    if let "help" | "-h" | "--help" = command.as_str() {
        return Ok(Asked::Help);
    }
    if !matches!(command.as_str(), "check" | "run" | "show") {
        return Err(format!("{command} is no command"));
    }
    let [file] = <[PathBuf; 1]>::try_from(files)
        .map_err(|files| format!("press {command} takes one FILE, not {}", files.len()))?;
    Ok(match command.as_str() {
        "check" => Asked::Check(file),
        "show" => Asked::Show(file),
        _ => {
            let out = out.unwrap_or_else(|| file.clone());
            Asked::Run(file, out)
        }
    })
}

fn done(asked: &Asked) -> Result<Done, String> {
    match asked {
        Asked::Help => say(USAGE).map(|()| Done::Accepted),
        Asked::Check(file) => {
            let frame = read(file)?;
            let answer = check(&frame);
            if !answer.accepted() {
                return refused(&frame, answer);
            }
            say(&format!("accepted: {}\n", counts(&frame)))?;
            Ok(Done::Accepted)
        }
        Asked::Show(file) => {
            let frame = read(file)?;
            match Summary::of(&frame) {
                Some(summary) => say(&summary.to_string()).map(|()| Done::Accepted),
                None => refused(&frame, check(&frame)),
            }
        }
        Asked::Run(file, out) => {
            let mut frame = read(file)?;
            let answer = run(&mut frame);
            if !answer.accepted() {
                return refused(&frame, answer);
            }
            files::write(out, &frame).map_err(|error| format!("{}: {error}", out.display()))?;
            say(&format!(
                "ran {}; wrote {}\n",
                counts(&frame),
                out.display()
            ))?;
            // A run may end with numbers that are not finite.
            let again = check(&frame);
            if !again.accepted() {
                say(&format!(
                    "run again it would be {again}: {}\n",
                    explain(&frame, again)
                ))?;
            }
            Ok(Done::Accepted)
        }
    }
}

/// Says why a frame is refused.
fn refused(frame: &[u8], answer: Answer) -> Result<Done, String> {
    say(&format!("{answer}: {}\n", explain(frame, answer)))?;
    Ok(Done::Refused)
}

/// `25 points, 48 rows`.
fn counts(frame: &[u8]) -> String {
    let count = |at, name| match press::layout::u32_at(frame, at) {
        Some(1) => format!("1 {name}"),
        number => format!("{} {name}s", number.unwrap_or(0)),
    };
    format!("{}, {}", count(6, "point"), count(10, "row"))
}

/// Reads as much of a file as can make a difference.
fn read(file: &Path) -> Result<Vec<u8>, String> {
    files::read(file, LONGEST + 1).map_err(|error| format!("{}: {error}", file.display()))
}

fn say(text: &str) -> Result<(), String> {
    let mut out = io::stdout().lock();
    let said = out.write_all(text.as_bytes()).and_then(|()| out.flush());
    said.map_err(|error| format!("standard output: {error}"))
}
