//! The carrier, in a spectrum of N floats, N even, 4 to 4,096.
use crate::{Refusal, raw};
use core::mem::MaybeUninit;

/// The strongest bin of a spectrum.
#[derive(Clone, Copy, Debug, PartialEq)]
pub struct Strongest {
    /// The bin.
    pub bin: usize,
    /// Its power.
    pub value: f32,
}

/// What the carrier call says.
#[derive(Clone, Copy, Debug, PartialEq)]
pub enum Carrier {
    /// A carrier stands out.
    Peak {
        /// The strongest bin.
        bin: usize,
        /// How far between two bins the peak lies.
        fraction: f32,
        /// The power at the bin.
        value: f32,
        /// The power beside it.
        floor: f32,
    },
    /// None does.
    Weak {
        /// The power at the strongest bin.
        value: f32,
        /// The power beside it.
        floor: f32,
    },
}

/// The strongest bin within `search` of the middle: the first greatest above 0, or the first bin and 0 if there is none.
///
/// # Errors
/// Of a spectrum of N floats: [`Refusal::InputLength`] where N is odd, below 4 or above 4,096, [`Refusal::HalfWidth`] where `search` is
/// above N/2 - 2.
pub fn long_fft_max_search(spectrum: &[f32], search: usize) -> Result<Strongest, Refusal> {
    let mut answer = MaybeUninit::<raw::Search>::uninit();
    // SAFETY: the spectrum is good for its length, the answer for being written; every call writes all of it.
    let answer = unsafe {
        raw::khlongrae_long_fft_max_search(answer.as_mut_ptr(), spectrum.as_ptr(), spectrum.len(), search);
        answer.assume_init()
    };
    Refusal::unless_done(answer.number)?;
    Ok(Strongest { bin: answer.bin, value: answer.value })
}

/// The power outside of bin - notch to bin + notch.
///
/// # Errors
/// Of a spectrum of N floats: [`Refusal::InputLength`] where N is odd, below 4 or above 4,096, [`Refusal::Place`] where the bin is not
/// below N, [`Refusal::HalfWidth`] where the notch is not.
pub fn carrier_notched_power(spectrum: &[f32], bin: usize, notch: usize) -> Result<f32, Refusal> {
    // SAFETY: the pointer is good for its length.
    let answer = unsafe { raw::khlongrae_carrier_notched_power(spectrum.as_ptr(), spectrum.len(), bin, notch) };
    Refusal::unless_done(answer.number)?;
    Ok(answer.floor)
}

/// The carrier call: a peak where its value is at least the threshold times the floor.
///
/// # Errors
/// Of a spectrum of N floats: [`Refusal::InputLength`] where N is odd, below 4 or above 4,096, [`Refusal::Threshold`] where the threshold
/// is below 0 (-0.0 is taken), infinite or no number, [`Refusal::HalfWidth`] where `search` is above N/2 - 2 or the notch is not below N.
pub fn check_carrier_metric(spectrum: &[f32], search: usize, notch: usize, threshold: f32) -> Result<Carrier, Refusal> {
    let mut answer = MaybeUninit::<raw::Carrier>::uninit();
    // SAFETY: the spectrum is good for its length, the answer for being written; every call writes all of it.
    let raw::Carrier { number, peak, bin, fraction, value, floor } = unsafe {
        raw::khlongrae_check_carrier_metric(answer.as_mut_ptr(), spectrum.as_ptr(), spectrum.len(), search, notch, threshold);
        answer.assume_init()
    };
    Refusal::unless_done(number)?;
    Ok(if peak == 1 { Carrier::Peak { bin, fraction, value, floor } } else { Carrier::Weak { value, floor } })
}

/// Whether the third of five values is a local maximum: none before it is as great, none behind it is greater.
///
/// # Errors
/// [`Refusal::InputLength`] where the values are not five.
pub fn check_local_maximum(values: &[f32]) -> Result<bool, Refusal> {
    // SAFETY: the pointer is good for its length.
    let answer = unsafe { raw::khlongrae_check_local_maximum(values.as_ptr(), values.len()) };
    Refusal::unless_done(answer.number)?;
    Ok(answer.yes == 1)
}
