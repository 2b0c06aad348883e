//! The root of the published modules, and the way in.
pub mod circbuf;
pub mod constants;
pub mod math;
pub mod mode_s;
mod plain;
pub mod receiver;
pub use receiver::entry::*;

/// Named by a comment of the receiver only.
pub const CHUNK_LEN: usize = constants::dsp::NFFT_SHORT;
