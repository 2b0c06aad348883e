//! decode FILE: decodes each window of a file, such as samples/both.win, and prints a line for each message that it holds, that of a short
//! one after that of a long one, or for a window that holds none; `-` is standard input. docs/WINDOWS.md says what the file holds. A file
//! that is refused ends with a sentence and the number of its refusal.
mod listing;

use khlongrae::decode_both;
use std::error::Error;
use std::io::stdout;
use std::process::ExitCode;

fn run() -> Result<(), Box<dyn Error>> {
    let windows = listing::windows()?;
    let settings = windows.settings();
    for (k, window) in windows.enumerate() {
        let window = window.map_err(listing::told)?;
        listing::print(&mut stdout(), k, decode_both(&window.samples, settings, window.index)?)?;
    }
    Ok(())
}

fn main() -> ExitCode {
    listing::ended("decode", run())
}
