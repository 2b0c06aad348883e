//! Safe calls of Khlongrae, a decoder for ADS-B windows whose every function is proved to answer its definition.
//!
//! The library checks every length and every setting itself, so the calls here check nothing: they hand slices over, and turn a
//! number into a [`Refusal`]. A refused call leaves lent memory as it was. Where several refusals apply, the lowest number from 2
//! up is told. No call keeps state, takes memory from the heap, or panics (but for an archive of another interface, see
//! [`version`]); a decode takes some 34 KiB of stack, one of both kinds some 44 KiB. [`Tray`] decodes many windows in one call, which takes
//! some 54 KiB of stack, of both kinds some 64 KiB. [`raw`] has the library's functions as they are.
//!
//! The proof is of the library in the default float environment, which `khlongrae.h` describes. What is written in Rust here is not
//! proved: the names and texts of an answer's fields, [`Answer::received`], and the reader of files.
//!
//! ```
//! let silence = [0.0; khlongrae::WINDOW];
//! assert_eq!(khlongrae::decode(&silence, khlongrae::Settings::default(), 128), Ok(None));
//! ```
//!
//! The feature `std`, on by default, has `Windows`, the reader of files. Without it the crate needs `core` alone.
#![no_std]
#![warn(missing_docs)]

#[cfg(feature = "std")]
extern crate std;

mod address;
mod carrier;
#[cfg(feature = "std")]
mod file;
mod message;
pub mod raw;
mod refusal;
mod repairs;
mod tray;
mod window;

pub use address::{Address, AddressKind, address_kind};
pub use carrier::{Carrier, Strongest, carrier_notched_power, check_carrier_metric, check_local_maximum, long_fft_max_search};
#[cfg(feature = "std")]
pub use file::{FileError, MOST_WINDOWS, Malformed, Window, Windows};
pub use message::{AvrLine, avr, header, header_short, remainder};
pub use raw::{FLOATS, LINE, MESSAGE, RESULT_WORDS, SHORT_LINE, SHORT_MESSAGE, TRAY, VERSION, WINDOW, WORDS};
pub use refusal::Refusal;
pub use repairs::{Positions, Repairs};
pub use tray::{Tray, tray_both_into, tray_into};
pub use window::{
    Answer, BothAnswers, Place, Settings, ShortAnswer, Slicer, decode, decode_both, decode_into, decode_short, decode_short_into,
};

/// The number of the library's interface. Compare it with [`VERSION`] before any other call: it grows by 1 where a signature, a length
/// or the meaning of a field changes.
#[must_use]
pub fn version() -> u32 {
    // SAFETY: no memory is lent.
    unsafe { raw::khlongrae_version() }
}
