//! tray FILE: decodes all windows of a file in one call, and prints the lines that `decode` prints; `-` is standard input. A file that is
//! refused ends with a sentence and the number of its refusal, and without a line.
mod listing;

use khlongrae::Tray;
use std::error::Error;
use std::io::stdout;
use std::process::ExitCode;

fn run() -> Result<(), Box<dyn Error>> {
    let windows = listing::windows()?;
    let settings = windows.settings();
    let (mut samples, mut indices) = (vec![], vec![]);
    for window in windows {
        let window = window.map_err(listing::told)?;
        samples.extend(window.samples);
        indices.push(window.index);
    }
    let mut tray = Tray::new();
    for (k, answers) in tray.decode_both(&samples, settings, &indices)?.iter().enumerate() {
        listing::print(&mut stdout(), k, (*answers)?)?;
    }
    Ok(())
}

fn main() -> ExitCode {
    listing::ended("tray", run())
}
