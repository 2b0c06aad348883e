//! Many windows in one call.
use crate::raw::{FLOATS, MESSAGE, RESULT_WORDS, SHORT_MESSAGE, TRAY};
use crate::window::{answer_of, found};
use crate::{Answer, BothAnswers, Refusal, Settings, raw};

const BOTH_BYTES: usize = MESSAGE + SHORT_MESSAGE;
const BOTH_WORDS: usize = 2 * RESULT_WORDS;
const BOTH_FLOATS: usize = 2 * FLOATS;

/// The memory for a tray: up to [`TRAY`] windows in one call, with one setting. It can be used again and again, and has some 25 KiB, so
/// that it may be better kept in a `static` or in a long-lived value than made for each call.
///
/// The windows lie one behind another in one slice, [`WINDOW`](crate::WINDOW) numbers each, and each has its index. The answers stand until
/// the next call.
///
/// ```
/// use khlongrae::{Refusal, Settings, Tray, WINDOW};
///
/// let mut tray = Tray::new();
/// let silence = [0.0; 3 * WINDOW];
/// // the index of the second window is too small: that is told of this window alone
/// let answers = tray.decode(&silence, Settings::default(), &[128, 127, 4096])?;
/// assert_eq!(answers, [Ok(None), Err(Refusal::Index), Ok(None)]);
/// # Ok::<(), Refusal>(())
/// ```
#[derive(Clone, Debug)]
pub struct Tray {
    messages: [u8; TRAY * BOTH_BYTES],
    words: [u64; TRAY * BOTH_WORDS],
    floats: [f32; TRAY * BOTH_FLOATS],
    answers: [Result<Option<Answer>, Refusal>; TRAY],
    both: [Result<BothAnswers, Refusal>; TRAY],
}

impl Tray {
    /// Memory without answers.
    #[must_use]
    pub const fn new() -> Tray {
        Tray {
            messages: [0; TRAY * BOTH_BYTES],
            words: [0; TRAY * BOTH_WORDS],
            floats: [0.0; TRAY * BOTH_FLOATS],
            answers: [Ok(None); TRAY],
            both: [Ok(BothAnswers { long: None, short: None }); TRAY],
        }
    }

    /// For each window what [`decode`](crate::decode) answers for it, its index and the settings. There are as many windows as indices.
    ///
    /// # Errors
    /// Of the call: [`Refusal::InputLength`] where the windows are more than [`TRAY`] or have not [`WINDOW`](crate::WINDOW) numbers for
    /// each index, [`Refusal::Level`] and [`Refusal::Threshold`]. Of a window, among the answers: [`Refusal::Index`], which leaves the
    /// others as they are.
    pub fn decode(&mut self, samples: &[f32], settings: Settings, indices: &[u64]) -> Result<&[Result<Option<Answer>, Refusal>], Refusal> {
        // the library refuses more than there is room for
        let room = indices.len().min(TRAY);
        let messages = &mut self.messages[..MESSAGE * room];
        let words = &mut self.words[..RESULT_WORDS * room];
        let floats = &mut self.floats[..FLOATS * room];
        tray_into(samples, settings, indices, messages, words, floats)?;
        let answers = &mut self.answers[..room];
        let parts = messages.chunks_exact(MESSAGE).zip(words.chunks_exact(RESULT_WORDS)).zip(floats.chunks_exact(FLOATS));
        for (answer, ((message, words), floats)) in answers.iter_mut().zip(parts) {
            *answer = answered(message, words, floats);
        }
        Ok(answers)
    }

    /// For each window what [`decode_both`](crate::decode_both) answers for it, its index and the settings.
    ///
    /// # Errors
    /// Those of [`Tray::decode`].
    pub fn decode_both(
        &mut self,
        samples: &[f32],
        settings: Settings,
        indices: &[u64],
    ) -> Result<&[Result<BothAnswers, Refusal>], Refusal> {
        let room = indices.len().min(TRAY);
        let messages = &mut self.messages[..BOTH_BYTES * room];
        let words = &mut self.words[..BOTH_WORDS * room];
        let floats = &mut self.floats[..BOTH_FLOATS * room];
        tray_both_into(samples, settings, indices, messages, words, floats)?;
        let answers = &mut self.both[..room];
        let parts = messages.chunks_exact(BOTH_BYTES).zip(words.chunks_exact(BOTH_WORDS)).zip(floats.chunks_exact(BOTH_FLOATS));
        for (answer, ((message, words), floats)) in answers.iter_mut().zip(parts) {
            let long = answered(&message[..MESSAGE], &words[..RESULT_WORDS], &floats[..FLOATS]);
            let short = answered(&message[MESSAGE..], &words[RESULT_WORDS..], &floats[FLOATS..]);
            *answer = long.and_then(|long| Ok(BothAnswers { long, short: short? }));
        }
        Ok(answers)
    }
}

impl Default for Tray {
    fn default() -> Tray {
        Tray::new()
    }
}

/// What a part of a result says: its message, whole numbers and floats.
fn answered<const N: usize>(message: &[u8], words: &[u64], floats: &[f32]) -> Result<Option<Answer<N>>, Refusal> {
    let message = *message.first_chunk().expect("a part has the bytes of its message");
    let floats = *floats.first_chunk().expect("a part has its floats");
    // A number is small: it is proved to be 0, 1 or 6.
    Ok(found(words[raw::WORD_NUMBER] as u32)?.then(|| answer_of(message, words, floats)))
}

/// [`Tray::decode`] with the results in lent memory: for each window [`MESSAGE`] bytes, [`RESULT_WORDS`] whole numbers and [`FLOATS`]
/// floats, which [`raw`] names by their places. The number of a result, [`raw::WORD_NUMBER`], is 0, 1 where its window holds no message, or
/// 6 for its index; where it is not 0, zeros are written as its other fields. Where the call is refused, the memory is as it was.
///
/// # Errors
/// Those of [`Tray::decode`] for the call, and [`Refusal::OutputLength`] where lent memory has another length.
pub fn tray_into(
    samples: &[f32],
    settings: Settings,
    indices: &[u64],
    messages: &mut [u8],
    words: &mut [u64],
    floats: &mut [f32],
) -> Result<(), Refusal> {
    into(raw::khlongrae_tray, samples, settings, indices, messages, words, floats)
}

/// [`Tray::decode_both`] with the results in lent memory, as [`tray_into`] has it: for each window first what the long message needs, then
/// the short one, so [`MESSAGE`] and [`SHORT_MESSAGE`] bytes, twice [`RESULT_WORDS`] whole numbers and twice [`FLOATS`] floats.
///
/// # Errors
/// Those of [`tray_into`].
pub fn tray_both_into(
    samples: &[f32],
    settings: Settings,
    indices: &[u64],
    messages: &mut [u8],
    words: &mut [u64],
    floats: &mut [f32],
) -> Result<(), Refusal> {
    into(raw::khlongrae_tray_both, samples, settings, indices, messages, words, floats)
}

/// The tray of either kind.
type Call = unsafe extern "C" fn(
    usize,
    *const f32,
    usize,
    u32,
    f32,
    f32,
    u32,
    *const u64,
    usize,
    *mut u8,
    usize,
    *mut u64,
    usize,
    *mut f32,
    usize,
) -> u32;

fn into(
    call: Call,
    samples: &[f32],
    settings: Settings,
    indices: &[u64],
    messages: &mut [u8],
    words: &mut [u64],
    floats: &mut [f32],
) -> Result<(), Refusal> {
    // SAFETY: each pointer is good for its length, and lent memory overlaps nothing.
    Refusal::unless_done(unsafe {
        call(
            indices.len(),
            samples.as_ptr(),
            samples.len(),
            settings.level,
            settings.threshold,
            settings.second,
            settings.distance,
            indices.as_ptr(),
            indices.len(),
            messages.as_mut_ptr(),
            messages.len(),
            words.as_mut_ptr(),
            words.len(),
            floats.as_mut_ptr(),
            floats.len(),
        )
    })
}
