//! The oracle: what every register, RAM byte and sample must be, by the
//! given Rust and, for a write to `$7C`, by W-202, and what a sound file must
//! be, by W-201. This file is the command line; README.md lists the commands.

use std::fs;
use std::io::{self, Write};
use std::process::ExitCode;

mod bytes;
mod cases;
mod chip;
mod endx;
mod leaves;
mod log;
mod make;
mod page;
mod random;
mod registers;
mod rework;
mod selfcheck;
mod sheet;
mod trace;
mod wav;
mod wavs;

const USAGE: &str = "usage: oracle nibble | block | interpolate | envelope | noise | selfcheck \
    | differs | differs shorter NAME | run LOG RAM [PCM_OUT [RAM_OUT]] | make KIND SEED LOG_OUT RAM_OUT \
    | trace CASES FOLDER | cases KIND COUNT SEED OUTFOLDER \
    | rework PAIRS FOLDER | pairs KIND COUNT SEED OUTFOLDER \
    | endx cases CASES | endx pairs PAIRS \
    | wavs REELS FOLDER | reels KIND COUNT SEED OUTFOLDER";

fn main() -> ExitCode {
    let words: Vec<String> = std::env::args().skip(1).collect();
    let words: Vec<&str> = words.iter().map(String::as_str).collect();
    match command(&words) {
        Ok(()) => ExitCode::SUCCESS,
        Err(message) => {
            eprintln!("oracle: {message}");
            ExitCode::from(2)
        }
    }
}

fn command(words: &[&str]) -> Result<(), String> {
    match words {
        ["nibble"] => print(&leaves::brr::nibbles()),
        ["block"] => print(&leaves::brr::blocks()),
        ["interpolate"] => print(&leaves::interpolate::records()),
        ["envelope"] => print(&leaves::envelope::records()),
        ["noise"] => print(&leaves::noise::records()),
        ["selfcheck"] => {
            selfcheck::all();
            print(b"selfcheck: P1 to P11 hold\n")
        }
        ["differs"] => print(page::report(page::PAGE).as_bytes()),
        ["differs", "shorter", name] => print(page::report_shorter(page::PAGE, name).as_bytes()),
        ["run", log, ram, outputs @ ..] if outputs.len() <= 2 => run(log, ram, outputs),
        ["make", kind, seed, log, ram] => make(kind, seed, log, ram),
        ["trace", cases, folder] => trace(cases, folder),
        ["cases", kind, count, seed, folder] => {
            let (count, seed) = (number(count)?, number(seed)?);
            store(&make::cases::cases(kind, count as usize, seed)?, folder)
        }
        ["rework", pairs, folder] => rework(pairs, folder),
        ["pairs", kind, count, seed, folder] => {
            let (count, seed) = (number(count)?, number(seed)?);
            store(&make::pairs::pairs(kind, count as usize, seed)?, folder)
        }
        ["endx", "cases", file] => endx::<cases::Case>(file),
        ["endx", "pairs", file] => endx::<cases::Pair>(file),
        // No sound file has a RAM image to look for in the folder.
        ["wavs", reels, _] => wavs(reels),
        ["reels", kind, count, seed, folder] => {
            let (count, seed) = (number(count)?, number(seed)?);
            store(&make::reels::reels(kind, count as usize, seed)?, folder)
        }
        _ => Err(USAGE.to_string()),
    }
}

fn run(log: &str, ram: &str, outputs: &[&str]) -> Result<(), String> {
    let result = chip::run(&read(log)?, read_ram(ram)?);
    // A refused log opens no output.
    if let Ok(outcome) = &result {
        for (path, bytes) in outputs
            .iter()
            .zip([&outcome.played.pcm[..], &outcome.ram[..]])
        {
            write(path, bytes)?;
        }
    }
    print(chip::report(&result).as_bytes())
}

fn trace(cases: &str, folder: &str) -> Result<(), String> {
    let cases = cases::read(&read(cases)?)?;
    let text = trace::report(&cases, |image| read_ram(&cases::ram_path(folder, image)))?;
    print(text.as_bytes())
}

fn rework(pairs: &str, folder: &str) -> Result<(), String> {
    let pairs = cases::read(&read(pairs)?)?;
    let text = rework::report(&pairs, |image| read_ram(&cases::ram_path(folder, image)))?;
    print(text.as_bytes())
}

fn endx<C: cases::Stored + cases::Logs>(file: &str) -> Result<(), String> {
    let cases: Vec<C> = cases::read(&read(file)?)?;
    print(endx::report(&cases).as_bytes())
}

fn wavs(reels: &str) -> Result<(), String> {
    let reels = cases::read(&read(reels)?)?;
    print(wavs::report(&reels).as_bytes())
}

/// Prints what each case is called, if it has a name.
fn store<C: cases::Stored>(made: &make::cases::Made<C>, folder: &str) -> Result<(), String> {
    write(&format!("{folder}/cases"), &cases::bytes(&made.cases))?;
    for (image, ram) in (0..).zip(&made.rams) {
        write(&cases::ram_path(folder, image), ram)?;
    }
    print(made.names.as_bytes())
}

fn number(word: &str) -> Result<u64, String> {
    word.parse().map_err(|_| format!("{word} is no number"))
}

fn make(kind: &str, seed: &str, log: &str, ram: &str) -> Result<(), String> {
    let made = make::make(kind, number(seed)?).ok_or(format!("{kind} is no kind of log"))?;
    write(log, &made.log)?;
    write(ram, &made.ram)
}

fn print(bytes: &[u8]) -> Result<(), String> {
    io::stdout()
        .write_all(bytes)
        .map_err(|error| format!("standard output: {error}"))
}

fn read(path: &str) -> Result<Vec<u8>, String> {
    fs::read(path).map_err(|error| format!("{path}: {error}"))
}

/// A missing RAM file counts as 0 bytes (document 01).
fn read_ram(path: &str) -> Result<Vec<u8>, String> {
    match fs::read(path) {
        Err(error) if error.kind() == io::ErrorKind::NotFound => Ok(Vec::new()),
        Err(error) => Err(format!("{path}: {error}")),
        Ok(bytes) => Ok(bytes),
    }
}

fn write(path: &str, bytes: &[u8]) -> Result<(), String> {
    fs::write(path, bytes).map_err(|error| format!("{path}: {error}"))
}
