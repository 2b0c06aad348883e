//! The functions and the numbers of the archive, as bindings/c/khlongrae.h has them, without its prefix in the constants. An answer
//! of more than 16 bytes is written to the memory that is named first: so the call is the same on x86-64 and on Arm.
//!
//! What the calls cannot check is left to the caller: that a pointer is good for its length (with length 0 it may be null or dangling),
//! that it is aligned for its type, and that memory which a call writes overlaps no other memory of the call. The modules above this
//! one see to it.

/// The number of the interface that is described here.
pub const VERSION: u32 = 3;

/// Done.
pub const DONE: u32 = 0;
/// A decode: no place of the window holds a reading that the settings let pass.
pub const NO_MESSAGE: u32 = 1;
/// A lent input has the wrong length, or a tray has too many windows.
pub const INPUT_LENGTH: u32 = 2;
/// A lent output has the wrong length.
pub const OUTPUT_LENGTH: u32 = 3;
/// A level, or a count of repairs, that is not 0, 1 or 2.
pub const LEVEL: u32 = 4;
/// A threshold that is infinite or no number; a carrier's also where it is below 0 (-0.0 is taken).
pub const THRESHOLD: u32 = 5;
/// A sample index below 128 or above 2^63.
pub const INDEX: u32 = 6;
/// A place out of its range: here, a bin that the spectrum has not.
pub const PLACE: u32 = 7;
/// A repaired position above 111, of a short message above 55.
pub const POSITION: u32 = 8;
/// A half-width that is too large for the spectrum.
pub const HALF_WIDTH: u32 = 9;

/// Numbers of a window: 1,155 samples, each a real part and an imaginary part.
pub const WINDOW: usize = 2310;
/// Bytes of a message.
pub const MESSAGE: usize = 14;
/// Bytes of a short message.
pub const SHORT_MESSAGE: usize = 7;
/// Whole numbers of a decode.
pub const WORDS: usize = 10;
/// Floats of a decode.
pub const FLOATS: usize = 2;
/// The most windows of a tray.
pub const TRAY: usize = 64;
/// Whole numbers of a tray's result: those of a decode, and its number.
pub const RESULT_WORDS: usize = 11;
/// Bytes of the AVR line of a message.
pub const LINE: usize = 30;
/// Bytes of the AVR line of a short message.
pub const SHORT_LINE: usize = 16;

/// Of the words, when the message came.
pub const WORD_INDEX: usize = 0;
/// Of the words, the bit offset.
pub const WORD_BIT: usize = 1;
/// Of the words, the clock phase.
pub const WORD_PHASE: usize = 2;
/// Of the words, the symbol offset.
pub const WORD_SYMBOL: usize = 3;
/// Of the words, how many bits were turned over.
pub const WORD_REPAIRS: usize = 4;
/// Of the words, the first of those bits, or 0.
pub const WORD_FIRST: usize = 5;
/// Of the words, the second of those bits, or 0.
pub const WORD_SECOND: usize = 6;
/// Of the words, who read the bits.
pub const WORD_SLICER: usize = 7;
/// Of the words, how many bits were undecided.
pub const WORD_UNDECIDED: usize = 8;
/// Of the words, which of the six trials found the message.
pub const WORD_TRIAL: usize = 9;
/// Of the words of a tray's result alone, its number: 0, 1 where the window holds no message, 6 for its index.
pub const WORD_NUMBER: usize = 10;

/// The slicer by the real part.
pub const COHERENT: u64 = 0;
/// The slicer by the norm.
pub const NONCOHERENT: u64 = 1;

/// Of the floats, how far the signal stood above the noise.
pub const FLOAT_CN0: usize = 0;
/// Of the floats, how far between two samples the message came.
pub const FLOAT_FRACTION: usize = 1;

/// Behind a first byte: no address.
pub const NO_ADDRESS: u32 = 0;
/// Behind a first byte: an ICAO address.
pub const ADDRESS_ICAO: u32 = 1;
/// Behind a first byte: an address of another kind.
pub const ADDRESS_OTHER: u32 = 2;
/// Behind a first byte: an address whose kind a flag inside the message tells.
pub const ADDRESS_FLAGGED: u32 = 3;

/// What [`khlongrae_decode_both`] answers.
#[derive(Clone, Copy, Debug)]
#[repr(C)]
pub struct Both {
    /// What [`khlongrae_decode`] answers.
    pub number: u32,
    /// What [`khlongrae_decode_short`] answers.
    pub short_number: u32,
}

/// What [`khlongrae_header`] and [`khlongrae_header_short`] answer.
#[derive(Clone, Copy, Debug)]
#[repr(C)]
pub struct Header {
    /// 0, or that of the refusal.
    pub number: u32,
    /// 1 where the header is one that is taken, else 0.
    pub valid: u32,
}

/// What [`khlongrae_long_fft_max_search`] answers.
#[derive(Clone, Copy, Debug)]
#[repr(C)]
pub struct Search {
    /// 0, or that of the refusal.
    pub number: u32,
    /// The strongest bin.
    pub bin: usize,
    /// Its power.
    pub value: f32,
}

/// What [`khlongrae_carrier_notched_power`] answers.
#[derive(Clone, Copy, Debug)]
#[repr(C)]
pub struct Floor {
    /// 0, or that of the refusal.
    pub number: u32,
    /// The power beside the bin.
    pub floor: f32,
}

/// What [`khlongrae_check_carrier_metric`] answers.
#[derive(Clone, Copy, Debug)]
#[repr(C)]
pub struct Carrier {
    /// 0, or that of the refusal.
    pub number: u32,
    /// 1: a peak; 0: the carrier is weak, and bin and fraction are 0.
    pub peak: u32,
    /// The strongest bin.
    pub bin: usize,
    /// How far between two bins the peak lies.
    pub fraction: f32,
    /// The power at the strongest bin.
    pub value: f32,
    /// The power beside it.
    pub floor: f32,
}

/// What [`khlongrae_check_local_maximum`] answers.
#[derive(Clone, Copy, Debug)]
#[repr(C)]
pub struct Maximum {
    /// 0, or that of the refusal.
    pub number: u32,
    /// 1 where the third value is a local maximum, else 0.
    pub yes: u32,
}

unsafe extern "C" {
    /// The number of the library's interface.
    pub fn khlongrae_version() -> u32;
    /// Looks for a message of 14 bytes in a window, and writes what it found.
    pub fn khlongrae_decode(
        samples: *const f32,
        samples_len: usize,
        level: u32,
        threshold: f32,
        second: f32,
        distance: u32,
        index: u64,
        message: *mut u8,
        message_len: usize,
        words: *mut u64,
        words_len: usize,
        floats: *mut f32,
        floats_len: usize,
    ) -> u32;
    /// Looks for a short message, of 7 bytes, in a window, and writes what it found.
    pub fn khlongrae_decode_short(
        samples: *const f32,
        samples_len: usize,
        level: u32,
        threshold: f32,
        second: f32,
        distance: u32,
        index: u64,
        message: *mut u8,
        message_len: usize,
        words: *mut u64,
        words_len: usize,
        floats: *mut f32,
        floats_len: usize,
    ) -> u32;
    /// Looks for a message of either kind in a window, and writes what it found of each.
    pub fn khlongrae_decode_both(
        samples: *const f32,
        samples_len: usize,
        level: u32,
        threshold: f32,
        second: f32,
        distance: u32,
        index: u64,
        message: *mut u8,
        message_len: usize,
        words: *mut u64,
        words_len: usize,
        floats: *mut f32,
        floats_len: usize,
        short_message: *mut u8,
        short_message_len: usize,
        short_words: *mut u64,
        short_words_len: usize,
        short_floats: *mut f32,
        short_floats_len: usize,
    ) -> Both;
    /// What [`khlongrae_decode`] answers for each of many windows.
    pub fn khlongrae_tray(
        count: usize,
        samples: *const f32,
        samples_len: usize,
        level: u32,
        threshold: f32,
        second: f32,
        distance: u32,
        indices: *const u64,
        indices_len: usize,
        messages: *mut u8,
        messages_len: usize,
        words: *mut u64,
        words_len: usize,
        floats: *mut f32,
        floats_len: usize,
    ) -> u32;
    /// What [`khlongrae_decode_both`] answers for each of many windows.
    pub fn khlongrae_tray_both(
        count: usize,
        samples: *const f32,
        samples_len: usize,
        level: u32,
        threshold: f32,
        second: f32,
        distance: u32,
        indices: *const u64,
        indices_len: usize,
        messages: *mut u8,
        messages_len: usize,
        words: *mut u64,
        words_len: usize,
        floats: *mut f32,
        floats_len: usize,
    ) -> u32;
    /// Writes the AVR line of a message.
    pub fn khlongrae_avr(message: *const u8, message_len: usize, line: *mut u8, line_len: usize) -> u32;
    /// The remainder of a string of bytes.
    pub fn khlongrae_remainder(bytes: *const u8, bytes_len: usize) -> u32;
    /// Whether a first byte is that of an extended squitter once so many of its bits are turned over.
    pub fn khlongrae_header(first: u8, count: u32, j: u32, k: u32) -> Header;
    /// Whether it is that of an acquisition squitter.
    pub fn khlongrae_header_short(first: u8, count: u32, j: u32, k: u32) -> Header;
    /// What the three bytes behind a first byte are, by the byte as it is after the repairs.
    pub fn khlongrae_address_kind(first: u8) -> u32;
    /// The strongest bin within `search` of the middle.
    pub fn khlongrae_long_fft_max_search(answer: *mut Search, spectrum: *const f32, spectrum_len: usize, search: usize) -> *mut Search;
    /// The power outside of bin - notch to bin + notch.
    pub fn khlongrae_carrier_notched_power(spectrum: *const f32, spectrum_len: usize, bin: usize, notch: usize) -> Floor;
    /// The carrier call.
    pub fn khlongrae_check_carrier_metric(
        answer: *mut Carrier,
        spectrum: *const f32,
        spectrum_len: usize,
        search: usize,
        notch: usize,
        threshold: f32,
    ) -> *mut Carrier;
    /// Whether the third of five values is a local maximum.
    pub fn khlongrae_check_local_maximum(values: *const f32, values_len: usize) -> Maximum;
}
