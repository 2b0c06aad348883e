//! The windows of a benchmark, each kind with its settings. Made of fixed seeds.
use crate::recipe::Random;
use crate::rules::{Kind, LONG, SHORT, Settings, at, divided};

/// Bits behind which their remainder stands, as a message of this kind has them.
fn ended(kind: &Kind, body: u128) -> u128 {
    kind.message(body << 24 | u128::from(divided(body)))
}

/// A message with a header that is taken and remainder 0.
fn whole(r: &mut Random, kind: &Kind) -> u128 {
    let first = u128::from(8 * kind.headers[0].0 + 5);
    let rest = kind.bits - 32;
    ended(kind, first << rest | (u128::from(r.word()) << 64 | u128::from(r.word())) >> (128 - rest))
}

fn noise(r: &mut Random, size: f32) -> Vec<f32> {
    (0..2310).map(|_| size * r.normal()).collect()
}

/// Full pulses, in part 0 (re) or 1 of their samples.
fn send(x: &mut [f32], kind: &Kind, message: u128, start: usize, amplitude: f32, part: usize) {
    for j in 0..kind.bits {
        let first = start + 8 * j + if message & at(j) == 0 { 4 } else { 0 };
        for n in first..first + 4 {
            x[2 * n + part] += amplitude;
        }
    }
}

/// A stream of 144 bits in which the messages at offsets 1 and 25 both have remainder 0 and a good header, then `wrong` bits of
/// each turned over where the two do not overlap.
fn two_in_a_stream(r: &mut Random, wrong: usize) -> [bool; 144] {
    let mut stream = [false; 144];
    // The second begins with byte 3 of the first.
    let body = whole(r, &LONG) >> 24 & !(0xFF << 56) | 0x8D << 56;
    let first = ended(&LONG, body);
    let second = ended(&LONG, first & ((1 << 88) - 1));
    for j in 0..112 {
        stream[1 + j] = first & at(j) != 0;
        stream[25 + j] = second & at(j) != 0;
    }
    for k in 0..wrong {
        stream[1 + 10 + 5 * k] ^= true;
        stream[25 + 95 + 5 * k] ^= true;
    }
    stream
}

/// The same with short messages, at offsets 1 and 60.
fn two_short_in_a_stream(r: &mut Random, wrong: usize) -> [bool; 144] {
    let mut stream = [false; 144];
    for from in [1, 60] {
        let message = whole(r, &SHORT);
        for j in 0..SHORT.bits {
            stream[from + j] = (message & at(j) != 0) != (10..10 + wrong).contains(&j);
        }
    }
    stream
}

/// All eight streams are given: the symbols of a clock phase go up or down by 1 as the next bit says.
fn crafted(r: &mut Random, stream: impl Fn(&mut Random) -> [bool; 144]) -> Vec<f32> {
    let mut sums = vec![0f32; 1152];
    for phase in 0..4 {
        let streams = [stream(r), stream(r)];
        let mut value = 512f32;
        for n in 0..288 {
            sums[4 * n + phase] = value;
            value += if streams[n % 2][n / 2] { -1.0 } else { 1.0 };
        }
    }
    let mut x = vec![0f32; 2310];
    for m in 0..1152 {
        x[2 * (m + 3)] = sums[m] - x[2 * m] - x[2 * (m + 1)] - x[2 * (m + 2)];
    }
    x
}

pub struct Windows {
    pub name: &'static str,
    pub samples: Vec<Vec<f32>>,
    pub settings: Settings,
}

fn made(n: usize, name: &'static str, settings: Settings, one: &dyn Fn(&mut Random) -> Vec<f32>) -> Windows {
    let r = &mut Random(name.bytes().fold(1, |h, b| h * 31 + u64::from(b)));
    Windows { name, samples: (0..n).map(|_| one(r)).collect(), settings }
}

const USUAL: Settings = Settings { level: 2, threshold: 67.0, second: 71.0, distance: 8 };
const FREE: Settings = Settings { threshold: -1e30, second: -1e30, ..USUAL };

/// One message in noise, some of its bits turned over.
fn message(kind: &'static Kind, size: f32, wrong: usize) -> impl Fn(&mut Random) -> Vec<f32> {
    move |r| {
        let mut x = noise(r, size);
        let mut m = whole(r, kind);
        for k in 0..wrong {
            m ^= at(20 + 40 * k + r.below(30));
        }
        send(&mut x, kind, m, 64 + r.below(128), 1.0, 0);
        x
    }
}

/// What the Rust can decode too.
pub fn all(n: usize) -> Vec<Windows> {
    let made = |name, s, one: &dyn Fn(&mut Random) -> Vec<f32>| made(n, name, s, one);
    vec![
        made("noise", USUAL, &|r| noise(r, 0.1)),
        made("message", USUAL, &message(&LONG, 0.1, 0)),
        made("one-damaged", USUAL, &message(&LONG, 0.1, 1)),
        made("two-damaged", USUAL, &message(&LONG, 0.1, 2)),
        made("noise-free", USUAL, &message(&LONG, 0.0, 0)),
        made("constant", USUAL, &|r| vec![r.unit(); 2310]),
        made("crafted-exact", FREE, &|r| crafted(r, |r| two_in_a_stream(r, 0))),
        made("crafted-two", FREE, &|r| crafted(r, |r| two_in_a_stream(r, 2))),
    ]
}

/// The kinds of these names, n windows each.
pub fn of(names: &[&str], n: usize) -> Vec<Windows> {
    let mut windows = all(n);
    windows.extend(searched(n).into_iter().filter(|w| w.name.contains("short")));
    windows.retain(|w| names.contains(&w.name));
    windows
}

/// For the long search, the short one and both in one call.
pub fn searched(n: usize) -> Vec<Windows> {
    let made = |name, s, one: &dyn Fn(&mut Random) -> Vec<f32>| made(n, name, s, one);
    let both = |r: &mut Random| {
        let mut x = message(&LONG, 0.1, 0)(r);
        // The stronger one, a quarter turn from the long one: the noncoherent slicer reads it, the coherent one the other.
        send(&mut x, &SHORT, whole(r, &SHORT), 512 + r.below(128), 3.0, 1);
        x
    };
    let mut windows = all(n);
    windows.retain(|w| ["noise", "message", "constant", "crafted-exact"].contains(&w.name));
    windows.extend([
        made("short", USUAL, &message(&SHORT, 0.1, 0)),
        made("short-damaged", USUAL, &message(&SHORT, 0.1, 1)),
        made("both", USUAL, &both),
        made("crafted-short", USUAL, &|r| crafted(r, |r| two_short_in_a_stream(r, 0))),
        made("crafted-short-one", USUAL, &|r| crafted(r, |r| two_short_in_a_stream(r, 1))),
    ]);
    windows
}
