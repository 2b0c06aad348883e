//! The way in: a window in place of the derotated samples, and the kernels one by one. A child of the receiver, since only a
//! child reaches what is private there. Answers are plain tuples, so that the variants have them in common.
use super::*;

/// The logarithm of the rules, in place of `10.0 * x.log10()`.
pub fn rules_ten_log10(x: f32) -> f32 {
    if x.is_nan() || x == f32::INFINITY {
        return x;
    }
    if x == 0.0 {
        return f32::NEG_INFINITY;
    }
    let bits = x.to_bits();
    let (mut r, mut e) = (u64::from(bits & 0x7f_ffff), (bits >> 23) as i32 - 127);
    if e == -127 {
        e = -126;
    } else {
        r += 1 << 23;
    }
    while r < 1 << 23 {
        (r, e) = (2 * r, e - 1);
    }
    r <<= 8;
    let mut digits = 0;
    for _ in 0..16 {
        let t = r * r;
        if t >= 1 << 63 {
            (digits, r) = (2 * digits + 1, t >> 32);
        } else {
            (digits, r) = (2 * digits, t >> 31);
        }
    }
    (65536 * e + digits) as f32 * (12626113.0 / 274877906944.0)
}

/// Level, the two thresholds, distance.
pub type Settings = (u32, f32, f32, u32);

/// Place (bit, phase, symbol), message, repairs (how many, positions), slicer (noncoherent is 1), cn0, index, fraction.
pub type Answer = ([usize; 3], [u8; 14], [u8; 3], u8, f32, u64, f32);

fn flat_errors(errors: BitErrors) -> [u8; 3] {
    match errors {
        BitErrors::NoErrors => [0, 0, 0],
        BitErrors::SingleError(j) => [1, j, 0],
        BitErrors::DoubleError(j, k) => [2, j, k],
    }
}

fn errors([count, j, k]: [u8; 3]) -> BitErrors {
    match count {
        0 => BitErrors::NoErrors,
        1 => BitErrors::SingleError(j),
        _ => BitErrors::DoubleError(j, k),
    }
}

fn complex(numbers: &[f32]) -> Vec<Complex32> {
    numbers.chunks(2).map(|z| Complex32::new(z[0], z[1])).collect()
}

pub struct Oracle(ADSBReceiver);

impl Default for Oracle {
    fn default() -> Oracle {
        Oracle(ADSBReceiver::new())
    }
}

impl Oracle {
    /// Whether the settings are taken.
    pub fn set(&mut self, (level, threshold, second, distance): Settings) -> bool {
        let level = match level {
            0 => ErrorCorrectionLevel::NoErrors,
            1 => ErrorCorrectionLevel::SingleError,
            2 => ErrorCorrectionLevel::DoubleError,
            _ => return false,
        };
        self.0.set_error_correction_level(level);
        self.0.set_cn0_threshold(threshold).is_ok()
            && self.0.set_noncoherent_high_hamming_cn0_threshold(second).is_ok()
            && self.0.set_noncoherent_high_hamming_distance(distance).is_ok()
    }

    /// A window of 2,310 numbers.
    pub fn load(&mut self, window: &[f32], index: u64) {
        for (z, x) in self.0.packet_samples.iter_mut().zip(window.chunks(2)) {
            *z = Complex32::new(x[0], x[1]);
        }
        self.0.packet.detection.sample_index = index;
    }

    /// Decodes the window that is loaded: whether it holds a message.
    pub fn run(&mut self) -> bool {
        self.0.decode_derotated();
        self.0.packet.decode.is_some()
    }

    /// The message of a window. The Rust's answer does not carry the place: the search is made again for it.
    pub fn decode(&mut self, window: &[f32], index: u64) -> Option<Answer> {
        self.load(window, index);
        self.run();
        let d = self.0.packet.decode.as_ref()?;
        let at = self.0.find_best_decode_candidate()?.location;
        let slicer = u8::from(d.demodulation == DemodulationType::NonCoherent);
        Some((
            [at.bit_offset, at.clock_phase, at.sym_offset],
            d.message,
            flat_errors(d.corrected_errors),
            slicer,
            d.cn0_db,
            d.sample_index,
            d.sample_index_frac,
        ))
    }

    /// The symbols of the last window: row, symbol, part.
    pub fn symbols(&self) -> Vec<f32> {
        self.0.symbols.iter().flatten().flat_map(|z| [z.re, z.im]).collect()
    }

    /// The streams of the last window: coherent, noncoherent; clock phase, stream, byte.
    pub fn streams(&self) -> [Vec<u8>; 2] {
        [self.0.coherent_demod, self.0.noncoherent_demod].map(|d| d.as_flattened().as_flattened().to_vec())
    }
}

pub fn remainder(stream: &[u8], offset: usize) -> u32 {
    compute_crc(stream.try_into().unwrap(), offset)
}

pub fn distance(a: &[u8], b: &[u8], offset: usize) -> u32 {
    compute_hamming_distance(a.try_into().unwrap(), b.try_into().unwrap(), offset)
}

pub fn header(stream: &[u8], offset: usize, repairs: [u8; 3]) -> bool {
    df_is_valid_extended_squitter(stream.try_into().unwrap(), offset, errors(repairs))
}

pub fn power(symbols: &[f32], message: &[u8; 14]) -> f32 {
    postdecode_power(complex(symbols)[..].try_into().unwrap(), message)
}

pub fn noise_power(samples: &[f32], message: &[u8; 14]) -> f32 {
    postdecode_noise_power(complex(samples)[..].try_into().unwrap(), message)
}

pub fn parabola(early: f32, prompt: f32, late: f32) -> f32 {
    parabolic_interpolation([early, prompt, late])
}

pub fn single(crc: u32) -> Option<u8> {
    single_bit_error_from_crc24(crc)
}

pub fn double(crc: u32) -> Option<(u8, u8)> {
    double_bit_error_from_crc24(crc)
}

/// The remainder of a string of bytes, by the published algorithm.
pub fn checksum(bytes: &[u8]) -> u32 {
    crate::mode_s::CRC24.checksum(bytes)
}
