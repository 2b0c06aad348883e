//! The proved library, compiled for any processor of this kind.
use crate::rules::{Answer, Settings};

#[repr(C)]
pub struct Number {
    pub number: u32,
    pub value: u32,
}
#[repr(C)]
pub struct Power {
    pub number: u32,
    pub power: f32,
}
#[repr(C)]
pub struct Found {
    pub found: u32,
    pub count: u32,
    pub first: u32,
    pub second: u32,
}

// The library's functions are declared once, for its callers in Rust.
#[allow(dead_code)]
#[path = "../../bindings/rust/src/raw.rs"]
mod raw;

#[link(name = "khlongrae", kind = "static")]
unsafe extern "C" {}

#[link(name = "probes", kind = "static")]
unsafe extern "C" {
    fn probe_symbols(samples: *const f32, n: usize, symbols: *mut f32, m: usize) -> u32;
    fn probe_streams(
        row: *const f32,
        n: usize,
        coherent: *mut u8,
        coherent_len: usize,
        noncoherent: *mut u8,
        noncoherent_len: usize,
        coherent_marks: *mut u8,
        coherent_marks_len: usize,
        noncoherent_marks: *mut u8,
        noncoherent_marks_len: usize,
    ) -> u32;
    fn probe_undecided(symbols: *const f32, n: usize, noncoherent: bool) -> Number;
    fn probe_power(symbols: *const f32, n: usize, message: *const u8, m: usize) -> Power;
    fn probe_noise_power(samples: *const f32, n: usize, message: *const u8, m: usize) -> Power;
    fn probe_cn0(prompt: f32, noise: f32) -> f32;
    fn probe_parabola(early: f32, prompt: f32, late: f32) -> f32;
    fn probe_remainder(bytes: *const u8, n: usize, offset: usize) -> Number;
    fn probe_distance(a: *const u8, n: usize, b: *const u8, m: usize, offset: usize) -> Number;
    fn probe_header(bytes: *const u8, n: usize, offset: usize, count: u32, j: u8, k: u8) -> Number;
    fn probe_single(crc: u32) -> Found;
    fn probe_double(crc: u32) -> Found;
    fn probe_codes(crcs: *const u32, n: usize, codes: *mut u32, m: usize) -> u32;
}

/// The memory that a decode is lent: message, whole numbers, floats.
#[derive(Clone, Debug, PartialEq)]
pub struct Lent {
    pub message: Vec<u8>,
    pub words: Vec<u64>,
    pub floats: Vec<f32>,
}

impl Lent {
    pub const LONG: [usize; 3] = [raw::MESSAGE, raw::WORDS, raw::FLOATS];
    pub const SHORT: [usize; 3] = [raw::SHORT_MESSAGE, raw::WORDS, raw::FLOATS];

    pub fn zeros([message, words, floats]: [usize; 3]) -> Lent {
        Lent { message: vec![0; message], words: vec![0; words], floats: vec![0.0; floats] }
    }
    /// Memory that no call writes by chance.
    pub fn marked([message, words, floats]: [usize; 3]) -> Lent {
        Lent { message: vec![0xA5; message], words: vec![0xA5A5; words], floats: vec![1.5; floats] }
    }
    /// Where the number is not 0 the memory still holds the zeros that it was lent with, and that of a tray's result the zeros that were
    /// written.
    pub fn answer(&self, number: u32) -> Answer {
        let [index, bit, phase, symbol, count, first, second, slicer, undecided, trial] = self.words[..].try_into().unwrap();
        Answer {
            number,
            place: [bit, phase, symbol],
            message: std::array::from_fn(|k| self.message.get(k).copied().unwrap_or(0)),
            repairs: [count, first, second],
            slicer,
            cn0: self.floats[0],
            index,
            fraction: self.floats[1],
            undecided,
            trial,
        }
    }
}

type Decode =
    unsafe extern "C" fn(*const f32, usize, u32, f32, f32, u32, u64, *mut u8, usize, *mut u64, usize, *mut f32, usize) -> u32;

fn decode_by(decode: Decode, samples: &[f32], s: Settings, index: u64, out: &mut Lent) -> u32 {
    let (x, n) = (samples.as_ptr(), samples.len());
    let (m, mn) = (out.message.as_mut_ptr(), out.message.len());
    let (w, wn) = (out.words.as_mut_ptr(), out.words.len());
    let (f, fn_) = (out.floats.as_mut_ptr(), out.floats.len());
    unsafe { decode(x, n, s.level, s.threshold, s.second, s.distance, index, m, mn, w, wn, f, fn_) }
}

/// The number, and the lent memory as it was left.
pub fn decode_into(samples: &[f32], s: Settings, index: u64, out: &mut Lent) -> u32 {
    decode_by(raw::khlongrae_decode, samples, s, index, out)
}
pub fn decode_short_into(samples: &[f32], s: Settings, index: u64, out: &mut Lent) -> u32 {
    decode_by(raw::khlongrae_decode_short, samples, s, index, out)
}
pub fn decode_both_into(samples: &[f32], s: Settings, index: u64, long: &mut Lent, short: &mut Lent) -> [u32; 2] {
    let numbers = unsafe {
        raw::khlongrae_decode_both(
            samples.as_ptr(),
            samples.len(),
            s.level,
            s.threshold,
            s.second,
            s.distance,
            index,
            long.message.as_mut_ptr(),
            long.message.len(),
            long.words.as_mut_ptr(),
            long.words.len(),
            long.floats.as_mut_ptr(),
            long.floats.len(),
            short.message.as_mut_ptr(),
            short.message.len(),
            short.words.as_mut_ptr(),
            short.words.len(),
            short.floats.as_mut_ptr(),
            short.floats.len(),
        )
    };
    [numbers.number, numbers.short_number]
}

/// The number of a tray, of long messages (0) or of both kinds (1).
pub fn tray_into(kind: usize, count: usize, samples: &[f32], s: Settings, indices: &[u64], out: &mut Lent) -> u32 {
    let call = [raw::khlongrae_tray, raw::khlongrae_tray_both][kind];
    unsafe {
        call(
            count,
            samples.as_ptr(),
            samples.len(),
            s.level,
            s.threshold,
            s.second,
            s.distance,
            indices.as_ptr(),
            indices.len(),
            out.message.as_mut_ptr(),
            out.message.len(),
            out.words.as_mut_ptr(),
            out.words.len(),
            out.floats.as_mut_ptr(),
            out.floats.len(),
        )
    }
}

pub fn decode(samples: &[f32], s: Settings, index: u64) -> Answer {
    let mut out = Lent::zeros(Lent::LONG);
    let number = decode_into(samples, s, index, &mut out);
    out.answer(number)
}
pub fn decode_short(samples: &[f32], s: Settings, index: u64) -> Answer {
    let mut out = Lent::zeros(Lent::SHORT);
    let number = decode_short_into(samples, s, index, &mut out);
    out.answer(number)
}
pub fn decode_both(samples: &[f32], s: Settings, index: u64) -> [Answer; 2] {
    let [mut long, mut short] = [Lent::LONG, Lent::SHORT].map(Lent::zeros);
    let numbers = decode_both_into(samples, s, index, &mut long, &mut short);
    [long.answer(numbers[0]), short.answer(numbers[1])]
}

pub fn symbols(samples: &[f32], out: &mut [f32]) -> u32 {
    unsafe { probe_symbols(samples.as_ptr(), samples.len(), out.as_mut_ptr(), out.len()) }
}
/// The bits of both slicers, then the marks of both.
pub fn streams(row: &[f32], out: &mut [Vec<u8>; 4]) -> u32 {
    let [(a, an), (b, bn), (c, cn), (d, dn)] = out.each_mut().map(|o| (o.as_mut_ptr(), o.len()));
    unsafe { probe_streams(row.as_ptr(), row.len(), a, an, b, bn, c, cn, d, dn) }
}
pub fn undecided(symbols: &[f32], slicer: usize) -> Number {
    unsafe { probe_undecided(symbols.as_ptr(), symbols.len(), slicer == 1) }
}
pub fn power(symbols: &[f32], message: &[u8]) -> Power {
    unsafe { probe_power(symbols.as_ptr(), symbols.len(), message.as_ptr(), message.len()) }
}
pub fn noise_power(samples: &[f32], message: &[u8]) -> Power {
    unsafe { probe_noise_power(samples.as_ptr(), samples.len(), message.as_ptr(), message.len()) }
}
pub fn cn0(prompt: f32, noise: f32) -> f32 {
    unsafe { probe_cn0(prompt, noise) }
}
pub fn parabola(early: f32, prompt: f32, late: f32) -> f32 {
    unsafe { probe_parabola(early, prompt, late) }
}
/// Of a whole string of bytes.
pub fn checksum(bytes: &[u8]) -> u32 {
    unsafe { raw::khlongrae_remainder(bytes.as_ptr(), bytes.len()) }
}
/// Of the message at an offset of a stream.
pub fn remainder(bytes: &[u8], offset: usize) -> Number {
    unsafe { probe_remainder(bytes.as_ptr(), bytes.len(), offset) }
}
pub fn distance(a: &[u8], b: &[u8], offset: usize) -> Number {
    unsafe { probe_distance(a.as_ptr(), a.len(), b.as_ptr(), b.len(), offset) }
}
pub fn header(bytes: &[u8], offset: usize, [count, j, k]: [u8; 3]) -> Number {
    unsafe { probe_header(bytes.as_ptr(), bytes.len(), offset, u32::from(count), j, k) }
}
/// Of a long message's first byte, and of a short one's: the number, and whether it is taken.
pub fn headers(first: u8, count: u32, j: u32, k: u32) -> [(u32, u32); 2] {
    let both = unsafe { [raw::khlongrae_header(first, count, j, k), raw::khlongrae_header_short(first, count, j, k)] };
    both.map(|h| (h.number, h.valid))
}
pub fn address_kind(first: u8) -> u32 {
    unsafe { raw::khlongrae_address_kind(first) }
}
pub fn single(crc: u32) -> Found {
    unsafe { probe_single(crc) }
}
pub fn double(crc: u32) -> Found {
    unsafe { probe_double(crc) }
}
pub fn codes(crcs: &[u32], out: &mut [u32]) -> u32 {
    unsafe { probe_codes(crcs.as_ptr(), crcs.len(), out.as_mut_ptr(), out.len()) }
}
