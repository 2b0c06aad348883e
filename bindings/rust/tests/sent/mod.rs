//! Windows with messages that are known.
use khlongrae::*;

pub const WORKED: [u8; MESSAGE] = [0x88, 0x07, 0x76, 0xAC, 0, 0, 0, 0, 0, 0, 0, 0, 0, 0];
pub const SQUITTER: [u8; SHORT_MESSAGE] = [0x5D, 0x48, 0x40, 0xD6, 0xF8, 0x74, 0x0F];
pub const SETTINGS: Settings = Settings { level: 2, threshold: 67.0, second: 71.0, distance: 8 };

/// Adds a pulse in the first half of each bit that is 1, in the second half of each that is 0, from a sample on, in the real part (0) or
/// the imaginary part (1).
pub fn send(samples: &mut [f32; WINDOW], message: &[u8], from: usize, part: usize, amplitude: f32) {
    for j in 0..8 * message.len() {
        let half = if message[j / 8] >> (7 - j % 8) & 1 == 1 { 0 } else { 4 };
        for k in 0..4 {
            samples[2 * (from + 8 * j + half + k) + part] += amplitude;
        }
    }
}

/// A window with a message from a sample on.
pub fn window(message: &[u8], from: usize) -> [f32; WINDOW] {
    let mut samples = [0.0; WINDOW];
    send(&mut samples, message, from, 0, 1.0);
    samples
}

/// A message with these bits turned over.
pub fn damaged<const N: usize>(mut bytes: [u8; N], damage: &[usize]) -> [u8; N] {
    for j in damage {
        bytes[j / 8] ^= 0x80 >> (j % 8);
    }
    bytes
}
