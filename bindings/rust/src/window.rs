//! The decode of a window.
use crate::raw::{FLOATS, MESSAGE, SHORT_MESSAGE, WORDS};
use crate::{Address, AvrLine, Refusal, Repairs, address_kind, raw};
use core::fmt;

/// What a decode lets pass. Of a short message at most one bit is repaired: there level 2 is treated as 1, and the others have no effect.
#[derive(Clone, Copy, Debug, PartialEq)]
pub struct Settings {
    /// The most bits that are repaired: 0, 1 or 2.
    pub level: u32,
    /// A reading with two repairs is dropped if its cn0 is below this.
    pub threshold: f32,
    /// So is one by the noncoherent slicer below this, if the slicers differ in as many bits as `distance`.
    pub second: f32,
    /// That number of bits.
    pub distance: u32,
}

/// Those with which the Rust original's receiver starts: two repairs, thresholds 67 and 71 dB Hz, a distance of 8 bits.
impl Default for Settings {
    fn default() -> Settings {
        Settings { level: 2, threshold: 67.0, second: 71.0, distance: 8 }
    }
}

/// Where a message was read. Its first sample in the window is 4 * (2 * bit + symbol) + phase.
#[derive(Clone, Copy, Debug, PartialEq, Eq, Hash)]
pub struct Place {
    /// Bit offset, 1 to 31, of a short message 1 to 87.
    pub bit: u32,
    /// Clock phase, 0 to 3.
    pub phase: u32,
    /// Symbol offset, 0 or 1.
    pub symbol: u32,
}

/// `bit,phase,symbol`, as `tools/make-window --place` takes it.
impl fmt::Display for Place {
    fn fmt(&self, f: &mut fmt::Formatter<'_>) -> fmt::Result {
        write!(f, "{},{},{}", self.bit, self.phase, self.symbol)
    }
}

/// Who read the bits.
#[derive(Clone, Copy, Debug, PartialEq, Eq, Hash)]
pub enum Slicer {
    /// By the real part.
    Coherent,
    /// By the norm.
    Noncoherent,
}

/// As a listing has it: `C` or `N`.
impl fmt::Display for Slicer {
    fn fmt(&self, f: &mut fmt::Formatter<'_>) -> fmt::Result {
        f.pad(match self {
            Slicer::Coherent => "C",
            Slicer::Noncoherent => "N",
        })
    }
}

/// What a decode found: a message of `N` bytes, 14 where nothing else is said. [`ShortAnswer`] is that of 7. Either float is no number
/// where the samples are such that none can be told.
#[derive(Clone, Copy, Debug, PartialEq)]
pub struct Answer<const N: usize = MESSAGE> {
    /// The message after its repairs; [`Answer::received`] has it as it was read.
    pub message: [u8; N],
    /// Where it was read.
    pub place: Place,
    /// Which bits were turned over.
    pub repairs: Repairs,
    /// Who read the bits.
    pub slicer: Slicer,
    /// When the message came: the number of its first sample, at 8,000,000 samples a second.
    pub index: u64,
    /// How far between two samples it came, from -0.5 to below 0.5, to add to the index. A message that starts exactly with sample N
    /// has the index N and the fraction -0.5: it takes 0.5 off.
    pub fraction: f32,
    /// How far the signal stood above the noise, in dB Hz; infinite where there was no noise.
    pub cn0: f32,
    /// How many of the bits were undecided: neither half of the bit was strictly greater than the other by what the slicer compares, so
    /// they were equal or one was no number. Such a bit is read as 0, but nothing was received that tells 0 from 1. Bits are counted as
    /// they were read: a repaired one may be among them. 0 here and no repairs mean that every bit was received.
    pub undecided: u32,
    /// Which of the six trials found it, 1 to 6, of a short message 1 to 4. A place is tried in this order: without a repair, with one,
    /// with two, each time by the real part and then by the norm. It agrees with `repairs` and `slicer`: 1, and 2 more for each repair,
    /// and 1 more for [`Slicer::Noncoherent`].
    pub trial: u8,
}

/// What a decode found of a short message.
pub type ShortAnswer = Answer<SHORT_MESSAGE>;

impl<const N: usize> Answer<N> {
    /// The bits as the slicer read them, an undecided one as 0: the message with its repairs undone. No decode answers a position that
    /// lies behind the message; one that a caller put there is passed over.
    #[must_use]
    pub fn received(&self) -> [u8; N] {
        let mut bytes = self.message;
        for position in self.repairs {
            if let Some(byte) = bytes.get_mut(position as usize / 8) {
                *byte ^= 0x80 >> (position % 8);
            }
        }
        bytes
    }

    /// The message's address, or `None` where the message claims none: then bytes 1 to 3 are no address, and a listing has `-`.
    #[must_use]
    pub fn address(&self) -> Option<Address> {
        let [first, high, middle, low] = *self.message.first_chunk()?;
        Some(Address { kind: address_kind(first)?, bytes: [high, middle, low] })
    }

    /// The message's AVR line, as display programs take it. For another length than 14 and 7 it does not compile.
    #[must_use]
    pub fn avr(&self) -> AvrLine {
        const { assert!(N == MESSAGE || N == SHORT_MESSAGE, "a message has 14 bytes or 7") };
        // It is proved that a message of these lengths is not refused.
        AvrLine::of(&self.message).expect("this archive has another interface")
    }
}

/// What a decode of both kinds found.
#[derive(Clone, Copy, Debug, PartialEq)]
pub struct BothAnswers {
    /// The message of 14 bytes.
    pub long: Option<Answer>,
    /// The short message, of 7 bytes.
    pub short: Option<ShortAnswer>,
}

/// The memory that a decode is lent.
struct Lent<const N: usize> {
    message: [u8; N],
    words: [u64; WORDS],
    floats: [f32; FLOATS],
}

impl<const N: usize> Lent<N> {
    const NEW: Self = Lent { message: [0; N], words: [0; WORDS], floats: [0.0; FLOATS] };

    /// What is written there, if something is.
    fn answer(&self, written: bool) -> Option<Answer<N>> {
        written.then(|| answer_of(self.message, &self.words, self.floats))
    }
}

/// What a decode wrote: the message, the whole numbers, of which a tray has one more, and the floats.
pub(crate) fn answer_of<const N: usize>(message: [u8; N], words: &[u64], floats: [f32; FLOATS]) -> Answer<N> {
    // All but the index are small: it is proved that the place is one of the 248 or 696, that a position lies in the message, that
    // what is counted are bits of the message, and that a trial is at most the sixth.
    let small = |word: usize| words[word] as u32;
    Answer {
        message,
        place: Place { bit: small(raw::WORD_BIT), phase: small(raw::WORD_PHASE), symbol: small(raw::WORD_SYMBOL) },
        repairs: match words[raw::WORD_REPAIRS] {
            0 => Repairs::None,
            1 => Repairs::One(small(raw::WORD_FIRST)),
            _ => Repairs::Two(small(raw::WORD_FIRST), small(raw::WORD_SECOND)),
        },
        slicer: if words[raw::WORD_SLICER] == raw::COHERENT { Slicer::Coherent } else { Slicer::Noncoherent },
        index: words[raw::WORD_INDEX],
        fraction: floats[raw::FLOAT_FRACTION],
        cn0: floats[raw::FLOAT_CN0],
        undecided: small(raw::WORD_UNDECIDED),
        trial: words[raw::WORD_TRIAL] as u8,
    }
}

/// Looks for a message of 14 bytes in a window of [`WINDOW`](crate::WINDOW) numbers, derotated and phased. The index is the receiver's
/// number of the window's sample 128. `Ok(None)` says that no place of the window holds a reading that the settings let pass: that is
/// an answer, and no fault.
///
/// # Errors
/// [`Refusal::InputLength`] where the window has another length, [`Refusal::Level`], [`Refusal::Threshold`] and [`Refusal::Index`] where
/// one of these is out of its range.
pub fn decode(samples: &[f32], settings: Settings, index: u64) -> Result<Option<Answer>, Refusal> {
    let mut lent = Lent::NEW;
    let written = decode_into(samples, settings, index, &mut lent.message, &mut lent.words, &mut lent.floats)?;
    Ok(lent.answer(written))
}

/// Looks for a short message, of 7 bytes, in a window: an acquisition squitter, format 11.
///
/// A reply to an interrogator that has one of the codes 1, 2, 4, 8, 16, 32 and 64 is taken at levels 1 and 2, with one repair at position
/// 55, 54 .. 49, though it is no squitter: see docs/AUDIT.md.
///
/// # Errors
/// Those of [`decode`]: a threshold is looked at, though it has no effect.
pub fn decode_short(samples: &[f32], settings: Settings, index: u64) -> Result<Option<ShortAnswer>, Refusal> {
    let mut lent = Lent::NEW;
    let written = decode_short_into(samples, settings, index, &mut lent.message, &mut lent.words, &mut lent.floats)?;
    Ok(lent.answer(written))
}

/// [`decode`] and [`decode_short`] of one window, with what both need made once.
///
/// # Errors
/// Those of [`decode`].
pub fn decode_both(samples: &[f32], settings: Settings, index: u64) -> Result<BothAnswers, Refusal> {
    let (mut long, mut short) = (Lent::NEW, Lent::NEW);
    // SAFETY: each pointer is good for its length, and lent memory overlaps nothing.
    let raw::Both { number, short_number } = unsafe {
        raw::khlongrae_decode_both(
            samples.as_ptr(),
            samples.len(),
            settings.level,
            settings.threshold,
            settings.second,
            settings.distance,
            index,
            long.message.as_mut_ptr(),
            MESSAGE,
            long.words.as_mut_ptr(),
            WORDS,
            long.floats.as_mut_ptr(),
            FLOATS,
            short.message.as_mut_ptr(),
            SHORT_MESSAGE,
            short.words.as_mut_ptr(),
            WORDS,
            short.floats.as_mut_ptr(),
            FLOATS,
        )
    };
    Ok(BothAnswers { long: long.answer(found(number)?), short: short.answer(found(short_number)?) })
}

/// [`decode`] with the answer in lent memory: [`MESSAGE`] bytes, [`WORDS`] whole numbers and [`FLOATS`] floats, which [`raw`] names by
/// their places. `Ok(true)` says that a message was found and all three are written, `Ok(false)` that there was none. Then, and where
/// the call is refused, the memory is as it was.
///
/// # Errors
/// Those of [`decode`], and [`Refusal::OutputLength`] where lent memory has another length.
pub fn decode_into(
    samples: &[f32],
    settings: Settings,
    index: u64,
    message: &mut [u8],
    words: &mut [u64],
    floats: &mut [f32],
) -> Result<bool, Refusal> {
    into(raw::khlongrae_decode, samples, settings, index, message, words, floats)
}

/// [`decode_short`] with the answer in lent memory, as [`decode_into`] has it: [`SHORT_MESSAGE`] bytes, [`WORDS`] whole numbers and
/// [`FLOATS`] floats.
///
/// # Errors
/// Those of [`decode_into`].
pub fn decode_short_into(
    samples: &[f32],
    settings: Settings,
    index: u64,
    message: &mut [u8],
    words: &mut [u64],
    floats: &mut [f32],
) -> Result<bool, Refusal> {
    into(raw::khlongrae_decode_short, samples, settings, index, message, words, floats)
}

/// The decode of either kind.
type Decode = unsafe extern "C" fn(*const f32, usize, u32, f32, f32, u32, u64, *mut u8, usize, *mut u64, usize, *mut f32, usize) -> u32;

fn into(
    call: Decode,
    samples: &[f32],
    settings: Settings,
    index: u64,
    message: &mut [u8],
    words: &mut [u64],
    floats: &mut [f32],
) -> Result<bool, Refusal> {
    // SAFETY: each pointer is good for its length, and lent memory overlaps nothing.
    found(unsafe {
        call(
            samples.as_ptr(),
            samples.len(),
            settings.level,
            settings.threshold,
            settings.second,
            settings.distance,
            index,
            message.as_mut_ptr(),
            message.len(),
            words.as_mut_ptr(),
            words.len(),
            floats.as_mut_ptr(),
            floats.len(),
        )
    })
}

/// Whether a message was found: number 1 says that there was none, and is no refusal.
pub(crate) fn found(number: u32) -> Result<bool, Refusal> {
    if number == raw::NO_MESSAGE {
        return Ok(false);
    }
    Refusal::unless_done(number)?;
    Ok(true)
}
