//! A message: its line, its remainder, its header.
use crate::raw::{LINE, SHORT_LINE, SHORT_MESSAGE};
use crate::{Refusal, Repairs, raw};
use core::fmt;
use core::ops::Deref;

/// Writes the AVR line of a message of 7 or 14 bytes: `*`, two capital hex digits for each byte, `;`. The line must be exactly as
/// long: [`SHORT_LINE`] or [`LINE`]. [`AvrLine`] is the same with memory of its own.
///
/// # Errors
/// [`Refusal::InputLength`] where the message has another length, [`Refusal::OutputLength`] where the line has.
pub fn avr(message: &[u8], line: &mut [u8]) -> Result<(), Refusal> {
    // SAFETY: both pointers are good for their lengths, and a lent line overlaps nothing.
    Refusal::unless_done(unsafe { raw::khlongrae_avr(message.as_ptr(), message.len(), line.as_mut_ptr(), line.len()) })
}

/// The AVR line of a message: a `str` without a line end, such as `*880776AC00000000000000000000;`.
#[derive(Clone, Copy, PartialEq, Eq, Hash)]
pub struct AvrLine {
    bytes: [u8; LINE],
    length: usize,
}

impl AvrLine {
    /// That of a message of 7 or 14 bytes.
    ///
    /// # Errors
    /// [`Refusal::InputLength`] where the message has another length.
    pub fn of(message: &[u8]) -> Result<AvrLine, Refusal> {
        let length = if message.len() == SHORT_MESSAGE { SHORT_LINE } else { LINE };
        let mut bytes = [0; LINE];
        avr(message, &mut bytes[..length])?;
        Ok(AvrLine { bytes, length })
    }

    /// The text.
    #[must_use]
    pub fn as_str(&self) -> &str {
        // It is proved that the library writes `*`, hex digits and `;`.
        core::str::from_utf8(&self.bytes[..self.length]).expect("this archive has another interface")
    }
}

impl Deref for AvrLine {
    type Target = str;
    fn deref(&self) -> &str {
        self.as_str()
    }
}

impl AsRef<str> for AvrLine {
    fn as_ref(&self) -> &str {
        self
    }
}

impl fmt::Display for AvrLine {
    fn fmt(&self, f: &mut fmt::Formatter<'_>) -> fmt::Result {
        f.pad(self)
    }
}

impl fmt::Debug for AvrLine {
    fn fmt(&self, f: &mut fmt::Formatter<'_>) -> fmt::Result {
        f.debug_tuple("AvrLine").field(&self.as_str()).finish()
    }
}

/// The remainder of a string of bytes of any length, as ICAO Annex 10 Volume IV has it: 0 for a message that a decode looks for, of 14
/// bytes or of 7, that came without an error.
#[must_use]
pub fn remainder(bytes: &[u8]) -> u32 {
    // SAFETY: the pointer is good for its length.
    unsafe { raw::khlongrae_remainder(bytes.as_ptr(), bytes.len()) }
}

/// Whether the first byte of a 14-byte message is that of an extended squitter once the repairs are made. The same position twice
/// cancels.
///
/// # Errors
/// [`Refusal::Position`] where a position is above 111.
pub fn header(first: u8, repairs: Repairs) -> Result<bool, Refusal> {
    let (count, j, k) = counted(repairs);
    // SAFETY: no memory is lent.
    taken(unsafe { raw::khlongrae_header(first, count, j, k) })
}

/// Whether the first byte of a 7-byte message is that of an acquisition squitter once the repairs are made.
///
/// # Errors
/// [`Refusal::Position`] where a position is above 55.
pub fn header_short(first: u8, repairs: Repairs) -> Result<bool, Refusal> {
    let (count, j, k) = counted(repairs);
    // SAFETY: no memory is lent.
    taken(unsafe { raw::khlongrae_header_short(first, count, j, k) })
}

fn counted(repairs: Repairs) -> (u32, u32, u32) {
    match repairs {
        Repairs::None => (0, 0, 0),
        Repairs::One(j) => (1, j, 0),
        Repairs::Two(j, k) => (2, j, k),
    }
}

fn taken(answer: raw::Header) -> Result<bool, Refusal> {
    Refusal::unless_done(answer.number)?;
    Ok(answer.valid == 1)
}
