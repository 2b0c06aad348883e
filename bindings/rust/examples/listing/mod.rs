//! What the examples share: how a file of windows is opened, and the lines that are printed of a window.
use khlongrae::{Answer, BothAnswers, FileError, VERSION, Windows, version};
use std::error::Error;
use std::fs::File;
use std::io::{Read, Write, stdin};
use std::process::ExitCode;

/// A file that is refused, with the number of its refusal.
pub fn told(error: FileError) -> String {
    format!("refused {}: {error}", error.number())
}

/// The file that a call of the program names; `-` is standard input.
pub fn windows() -> Result<Windows<Box<dyn Read>>, Box<dyn Error>> {
    if version() != VERSION {
        return Err("the library has another interface".into());
    }
    let path = std::env::args_os().nth(1).ok_or("it is called with the name of a file")?;
    let input: Box<dyn Read> = if path == "-" { Box::new(stdin()) } else { Box::new(File::open(path)?) };
    Ok(Windows::new(input).map_err(told)?)
}

fn message<const N: usize>(output: &mut impl Write, k: usize, found: &Answer<N>) -> std::io::Result<()> {
    let Answer { place, index, slicer, repairs, undecided, trial, .. } = found;
    let address = found.address().map_or_else(|| "-".into(), |address| address.to_string());
    write!(output, "{k} {} address {address} place {place} index {index}", found.avr())?;
    writeln!(output, " slicer {slicer} repairs {repairs} undecided {undecided} trial {trial}")
}

/// A line for each message of window k, that of a short one after that of a long one, or for a window that holds none.
pub fn print(output: &mut impl Write, k: usize, BothAnswers { long, short }: BothAnswers) -> std::io::Result<()> {
    if let Some(found) = long {
        message(output, k, &found)?;
    }
    if let Some(found) = short {
        message(output, k, &found)?;
    }
    if long.is_none() && short.is_none() {
        writeln!(output, "{k} none")?;
    }
    Ok(())
}

/// The status of a program; where it could not do its work, also a sentence.
pub fn ended(name: &str, done: Result<(), Box<dyn Error>>) -> ExitCode {
    let Err(why) = done else { return ExitCode::SUCCESS };
    eprintln!("{name}: {why}");
    ExitCode::from(2)
}
