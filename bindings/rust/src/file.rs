//! A file of windows, read one after another. docs/WINDOWS.md has the format.
use crate::raw::WINDOW;
use crate::{Refusal, Settings};
use core::fmt;
use core::iter::FusedIterator;
use std::io::{self, Read};

/// The most windows of a file.
pub const MOST_WINDOWS: usize = 64;
const SETTINGS: u32 = 4;
const SAMPLE: usize = size_of::<f32>();

/// A window of a file.
#[derive(Clone, Debug, PartialEq)]
pub struct Window {
    /// The receiver's number of the window's sample 128.
    pub index: u64,
    /// Its numbers, as [`decode`](crate::decode) takes them.
    pub samples: [f32; WINDOW],
}

/// The windows of a file, in their order. Each part is checked as it is met, as the window program does it; the first fault ends the
/// iteration, and the windows before it stand. Behind the last window the file must end, else one error comes there.
///
/// A window is read when it is asked for, and is all that is kept. Nothing is read ahead, so that a slow source is followed as it comes;
/// an input whose reads are dear should be buffered.
///
/// ```no_run
/// let windows = khlongrae::Windows::new(std::fs::File::open("samples/listing.win")?)?;
/// let settings = windows.settings();
/// for window in windows {
///     let window = window?;
///     if let Some(answer) = khlongrae::decode(&window.samples, settings, window.index)? {
///         println!("{} {:?}", answer.avr(), answer.address());
///     }
/// }
/// # Ok::<(), Box<dyn std::error::Error>>(())
/// ```
#[derive(Debug)]
pub struct Windows<R> {
    input: R,
    settings: Settings,
    indices: [u64; MOST_WINDOWS],
    announced: usize,
    read: usize,
    ended: bool,
}

impl<R: Read> Windows<R> {
    /// Reads all that stands before the samples: settings, indices and counts.
    ///
    /// # Errors
    /// The first fault in the order of the file: [`FileError::Refused`] with the level, a threshold or an index,
    /// [`FileError::Malformed`] where a count is wrong or the file ends early, [`FileError::Io`] where a read fails.
    pub fn new(mut input: R) -> Result<Windows<R>, FileError> {
        if word(&mut input)? != SETTINGS {
            return Err(Malformed::SettingsCount.into());
        }
        let level = word(&mut input)?;
        if level > 2 {
            return Err(Refusal::Level.into());
        }
        let threshold = threshold(&mut input)?;
        let second = self::threshold(&mut input)?;
        let distance = word(&mut input)?;
        let announced = word(&mut input)? as usize;
        if announced > MOST_WINDOWS {
            return Err(Malformed::WindowCount.into());
        }
        let mut indices = [0; MOST_WINDOWS];
        for index in &mut indices[..announced] {
            *index = u64::from_le_bytes(bytes(&mut input)?);
            if !(128..=1 << 63).contains(index) {
                return Err(Refusal::Index.into());
            }
        }
        if word(&mut input)? as usize != WINDOW * announced {
            return Err(Malformed::SampleCount.into());
        }
        Ok(Windows { input, settings: Settings { level, threshold, second, distance }, indices, announced, read: 0, ended: false })
    }

    /// The settings of the file.
    #[must_use]
    pub fn settings(&self) -> Settings {
        self.settings
    }

    /// How many windows the file says that it has.
    #[must_use]
    pub fn announced(&self) -> usize {
        self.announced
    }

    fn window(&mut self) -> Result<Option<Window>, FileError> {
        if self.read == self.announced {
            return match fill(&mut self.input, &mut [0])? {
                0 => Ok(None),
                _ => Err(Malformed::GoesOn.into()),
            };
        }
        let part: [u8; SAMPLE * WINDOW] = bytes(&mut self.input)?;
        let mut samples = [0.0; WINDOW];
        for (sample, four) in samples.iter_mut().zip(part.chunks_exact(SAMPLE)) {
            *sample = f32::from_le_bytes([four[0], four[1], four[2], four[3]]);
        }
        let index = self.indices[self.read];
        self.read += 1;
        Ok(Some(Window { index, samples }))
    }
}

impl<R: Read> Iterator for Windows<R> {
    type Item = Result<Window, FileError>;
    fn next(&mut self) -> Option<Self::Item> {
        if self.ended {
            return None;
        }
        let next = self.window().transpose();
        self.ended = !matches!(next, Some(Ok(_)));
        next
    }
}

impl<R: Read> FusedIterator for Windows<R> {}

/// Reads until the space is full or the input ends, and says how many bytes came.
fn fill(input: &mut impl Read, space: &mut [u8]) -> Result<usize, FileError> {
    let mut came = 0;
    while came < space.len() {
        match input.read(&mut space[came..]) {
            Ok(0) => break,
            Ok(more) => came += more.min(space.len() - came),
            Err(error) if error.kind() == io::ErrorKind::Interrupted => {}
            Err(error) => return Err(FileError::Io(error)),
        }
    }
    Ok(came)
}

fn bytes<const N: usize>(input: &mut impl Read) -> Result<[u8; N], FileError> {
    let mut space = [0; N];
    if fill(input, &mut space)? < N {
        return Err(Malformed::EndsEarly.into());
    }
    Ok(space)
}

fn word(input: &mut impl Read) -> Result<u32, FileError> {
    Ok(u32::from_le_bytes(bytes(input)?))
}

fn threshold(input: &mut impl Read) -> Result<f32, FileError> {
    let threshold = f32::from_bits(word(input)?);
    if threshold.is_finite() { Ok(threshold) } else { Err(Refusal::Threshold.into()) }
}

/// How a file is malformed.
#[derive(Clone, Copy, Debug, PartialEq, Eq, Hash)]
pub enum Malformed {
    /// It ends before all is there that it says.
    EndsEarly,
    /// The settings are not four.
    SettingsCount,
    /// The windows are more than [`MOST_WINDOWS`].
    WindowCount,
    /// The numbers are not [`WINDOW`] for each window.
    SampleCount,
    /// It goes on behind the last window.
    GoesOn,
}

impl fmt::Display for Malformed {
    fn fmt(&self, f: &mut fmt::Formatter<'_>) -> fmt::Result {
        f.write_str(match self {
            Malformed::EndsEarly => "the file ends early",
            Malformed::SettingsCount => "the settings are not four",
            Malformed::WindowCount => "there are more than 64 windows",
            Malformed::SampleCount => "the numbers are not 2310 for each window",
            Malformed::GoesOn => "the file goes on behind the last window",
        })
    }
}

impl core::error::Error for Malformed {}

/// Why a file of windows was not read to its end.
#[derive(Debug)]
pub enum FileError {
    /// A read failed.
    Io(io::Error),
    /// The file has not the form of one.
    Malformed(Malformed),
    /// The level, a threshold or an index is one that a decode refuses.
    Refused(Refusal),
}

impl FileError {
    /// The number with which the window program refuses the file: 4, 5 or 6, and 10 for a malformed one and for a read that fails.
    #[must_use]
    pub fn number(&self) -> u32 {
        match self {
            FileError::Io(_) | FileError::Malformed(_) => 10,
            FileError::Refused(refusal) => refusal.number(),
        }
    }
}

impl fmt::Display for FileError {
    fn fmt(&self, f: &mut fmt::Formatter<'_>) -> fmt::Result {
        match self {
            FileError::Io(error) => error.fmt(f),
            FileError::Malformed(malformed) => malformed.fmt(f),
            FileError::Refused(refusal) => refusal.fmt(f),
        }
    }
}

impl core::error::Error for FileError {}

impl From<Malformed> for FileError {
    fn from(malformed: Malformed) -> FileError {
        FileError::Malformed(malformed)
    }
}

impl From<Refusal> for FileError {
    fn from(refusal: Refusal) -> FileError {
        FileError::Refused(refusal)
    }
}
