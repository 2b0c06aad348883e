//! Why a call was refused.
use crate::raw;
use core::fmt;

/// Why a call was refused. The values are the library's numbers. Its 0 and 1 are answers and no refusals, and 10, a malformed file, is
/// the window program's alone.
#[derive(Clone, Copy, Debug, PartialEq, Eq, Hash)]
#[repr(u32)]
pub enum Refusal {
    /// A lent input has the wrong length, or a tray has too many windows.
    InputLength = raw::INPUT_LENGTH,
    /// A lent output has the wrong length.
    OutputLength = raw::OUTPUT_LENGTH,
    /// A level that is not 0, 1 or 2.
    Level = raw::LEVEL,
    /// A threshold that is infinite or no number; a carrier's also where it is below 0 (-0.0 is taken).
    Threshold = raw::THRESHOLD,
    /// A sample index below 128 or above 2^63.
    Index = raw::INDEX,
    /// A place out of its range: here, a bin that the spectrum has not.
    Place = raw::PLACE,
    /// A repaired position above 111, of a short message above 55.
    Position = raw::POSITION,
    /// A half-width that is too large for the spectrum.
    HalfWidth = raw::HALF_WIDTH,
}

impl Refusal {
    /// The library's number.
    #[must_use]
    pub fn number(self) -> u32 {
        self as u32
    }

    /// It is proved that the library answers no other number, so another one comes from another archive.
    pub(crate) fn unless_done(number: u32) -> Result<(), Refusal> {
        Err(match number {
            raw::DONE => return Ok(()),
            raw::INPUT_LENGTH => Refusal::InputLength,
            raw::OUTPUT_LENGTH => Refusal::OutputLength,
            raw::LEVEL => Refusal::Level,
            raw::THRESHOLD => Refusal::Threshold,
            raw::INDEX => Refusal::Index,
            raw::PLACE => Refusal::Place,
            raw::POSITION => Refusal::Position,
            raw::HALF_WIDTH => Refusal::HalfWidth,
            _ => panic!("number {number}: this archive has another interface"),
        })
    }
}

impl fmt::Display for Refusal {
    fn fmt(&self, f: &mut fmt::Formatter<'_>) -> fmt::Result {
        f.write_str(match self {
            Refusal::InputLength => "an input has the wrong length",
            Refusal::OutputLength => "an output has the wrong length",
            Refusal::Level => "the level is not 0, 1 or 2",
            Refusal::Threshold => "a threshold is out of its range",
            Refusal::Index => "the sample index is below 128 or above 2^63",
            Refusal::Place => "the bin is not one of the spectrum",
            Refusal::Position => "a repaired position lies behind the message",
            Refusal::HalfWidth => "a half-width is too large for the spectrum",
        })
    }
}

impl core::error::Error for Refusal {}
