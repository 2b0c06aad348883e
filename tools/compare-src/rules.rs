//! The rules, written down a second time and apart from both decoders, for either kind of message. This is where the branches are counted.
use crate::counts::{Counts, Under};
use std::cmp::Ordering;

#[derive(Clone, Copy, Debug, PartialEq)]
pub struct Settings {
    pub level: u32,
    pub threshold: f32,
    pub second: f32,
    pub distance: u32,
}

/// What the searches for the two kinds of message differ in.
pub struct Kind {
    /// How many bits a message has.
    pub bits: usize,
    /// The last bit offset that is searched.
    pub last: usize,
    /// The most repairs.
    pub most: u32,
    /// Each format that is taken, with the codes that it is taken with.
    pub headers: &'static [(u8, &'static [u8])],
    /// Where the ones of a message are whose remainder is 0 and whose header is taken: none such has fewer.
    pub fewest: &'static [usize],
    /// What stands before the names of its counts.
    pub under: &'static str,
}

const CAPABILITIES: &[u8] = &[0, 4, 5, 6, 7];

/// Extended squitters.
pub const LONG: Kind = Kind {
    bits: 112,
    last: 31,
    most: 2,
    headers: &[(17, CAPABILITIES), (18, &[0, 2, 3, 4, 5, 6])],
    fewest: &[0, 4, 16, 24, 86, 95],
    under: "",
};

/// Acquisition squitters.
pub const SHORT: Kind = Kind {
    bits: 56,
    last: 87,
    most: 1,
    headers: &[(11, CAPABILITIES)],
    fewest: &[1, 3, 4, 22, 31, 38, 39, 53],
    under: "short: ",
};

impl Kind {
    pub fn header(&self, first: u8) -> bool {
        self.headers.iter().any(|(format, codes)| first >> 3 == *format && codes.contains(&(first & 7)))
    }
    /// A message stands at the top of 112 bits, its first bit highest; behind a short one there are zeros.
    pub fn message(&self, bits: u128) -> u128 {
        bits << (112 - self.bits)
    }
    /// One whose bits are all 1.
    pub fn all(&self) -> u128 {
        self.message((1 << self.bits) - 1)
    }
    pub fn remainder(&self, message: u128) -> u32 {
        divided(message >> (112 - self.bits))
    }
    /// The most bits of an answer that can be undecided. Such a bit is sliced as 0, so each 1 of the message was decided or repaired.
    pub fn most_undecided(&self) -> u64 {
        (self.bits - self.fewest.len()) as u64 + u64::from(self.most)
    }
}

/// Where the number is not 0 the rest is zeros. Slicer 0 is coherent; repairs are their count and positions. A short message has the
/// first 7 bytes, and zeros behind them. Undecided are the bits that were so when that slicer made them. The trial is the one that passed.
#[derive(Clone, Copy, Debug, Default)]
pub struct Answer {
    pub number: u32,
    pub place: [u64; 3],
    pub message: [u8; 14],
    pub repairs: [u64; 3],
    pub slicer: u64,
    pub cn0: f32,
    pub index: u64,
    pub fraction: f32,
    pub undecided: u64,
    pub trial: u64,
}

/// A float's bits, with one pattern for all NaNs.
pub fn bits(x: f32) -> u32 {
    if x.is_nan() { 0x7FC0_0000 } else { x.to_bits() }
}

impl Answer {
    pub fn refused(number: u32) -> Answer {
        Answer { number, ..Answer::default() }
    }
    /// Every field, floats by their bits.
    pub fn fields(&self) -> (u32, [u64; 3], [u8; 14], [u64; 3], u64, u32, u64, u32, u64, u64) {
        let [cn0, fraction] = [self.cn0, self.fraction].map(bits);
        (self.number, self.place, self.message, self.repairs, self.slicer, cn0, self.index, fraction, self.undecided, self.trial)
    }
    /// The same but for cn0.
    pub fn but_cn0(&self) -> Answer {
        Answer { cn0: 0.0, ..*self }
    }
    /// The same but for the count of undecided bits, as the Rust answers: it has no marks.
    pub fn but_undecided(&self) -> Answer {
        Answer { undecided: 0, ..*self }
    }
}

type Complex = (f32, f32);
fn plus(a: Complex, b: Complex) -> Complex {
    (a.0 + b.0, a.1 + b.1)
}
fn norm(z: Complex) -> f32 {
    z.0 * z.0 + z.1 * z.1
}
/// What a slicer compares of two symbols.
fn measure(slicer: usize, z: Complex) -> f32 {
    if slicer == 0 { z.0 } else { norm(z) }
}
fn sample(samples: &[f32], j: usize) -> Complex {
    (samples[2 * j], samples[2 * j + 1])
}

/// The remainder of at most 112 bits, the first highest, times x^24, one bit at a time. Zeros before them change nothing.
pub fn divided(bits: u128) -> u32 {
    let mut r: u32 = 0;
    for j in 0..136 {
        let bit = if j < 112 { (bits >> (111 - j)) as u32 & 1 } else { 0 };
        r = 2 * r + bit;
        if r >> 24 == 1 {
            r ^= 0x1FF_F409;
        }
    }
    r
}

pub fn bytes_of(message: u128) -> [u8; 14] {
    std::array::from_fn(|k| (message >> (104 - 8 * k)) as u8)
}
pub fn at(j: usize) -> u128 {
    1 << (111 - j)
}

/// What the three bytes behind a first byte are: 1 an ICAO address, 2 one of another kind, 3 one whose kind a flag inside the message
/// tells, 0 none.
pub fn address_kind(first: u8) -> u32 {
    match (first >> 3, first & 7) {
        _ if !LONG.header(first) && !SHORT.header(first) => 0,
        (11 | 17, _) | (_, 0) => 1,
        (_, 5) => 2,
        (_, 4) => 0,
        _ => 3,
    }
}
pub fn ten_log10(x: f32) -> f32 {
    if x.is_nan() || x < 0.0 {
        return f32::NAN;
    }
    if x == 0.0 {
        return f32::NEG_INFINITY;
    }
    if x == f32::INFINITY {
        return x;
    }
    // Exact: every f32 is an f64 with a full significand.
    let wide = f64::from(x).to_bits();
    let e = (wide >> 52) as i64 - 1023;
    let mut r = ((wide & ((1 << 52) - 1)) | 1 << 52) >> 21;
    let mut l = 65536 * e;
    for k in (0..16).rev() {
        let t = u128::from(r) * u128::from(r);
        if t >= 1 << 63 {
            l += 1 << k;
            r = (t >> 32) as u64;
        } else {
            r = (t >> 31) as u64;
        }
    }
    l as f32 * f32::from_bits(0x3840_A8C1)
}

pub fn cn0_of(prompt: f32, noise_power: f32) -> f32 {
    let noise = 2.0 * noise_power;
    let difference = prompt - noise;
    let signal = if difference > 0.0 { difference } else { 0.0 };
    ten_log10((signal / noise) * 2_000_000.0)
}

pub fn parabola(early: f32, prompt: f32, late: f32) -> f32 {
    let d = (late + early) - 2.0 * prompt;
    if d == 0.0 { 0.0 } else { (-0.5 * (late - early)) / d }
}

/// For each remainder of a kind of message which one or two positions clear it: 0 none, else 1 more than the number of the choice.
pub struct Tables {
    pub kind: &'static Kind,
    which: Vec<u16>,
    choices: Vec<[u64; 3]>,
    of_bit: Vec<u32>,
}

impl Tables {
    pub fn new(kind: &'static Kind) -> Tables {
        let of_bit: Vec<u32> = (0..kind.bits).map(|j| kind.remainder(at(j))).collect();
        let (mut which, mut choices) = (vec![0; 1 << 24], vec![]);
        let mut put = |r: u32, choice| {
            assert!(r != 0 && which[r as usize] == 0, "two choices have one remainder");
            choices.push(choice);
            which[r as usize] = choices.len() as u16;
        };
        for j in 0..kind.bits {
            put(of_bit[j], [1, j as u64, 0]);
            for k in j + 1..kind.bits {
                put(of_bit[j] ^ of_bit[k], [2, j as u64, k as u64]);
            }
        }
        Tables { kind, which, choices, of_bit }
    }
    /// The positions, as many as asked for, that clear a remainder.
    pub fn clearing(&self, count: u64, r: u32) -> Option<[u64; 3]> {
        if count == 0 {
            return (r == 0).then_some([0; 3]);
        }
        let choice = self.choices[usize::from(self.which[r as usize].checked_sub(1)?)];
        (choice[0] == count).then_some(choice)
    }
    /// Whether so many positions, or fewer, from one on clear a remainder.
    fn cleared(&self, r: u32, from: usize, count: usize) -> bool {
        r == 0 || count > 0 && (from..self.kind.bits).any(|j| self.cleared(r ^ self.of_bit[j], j + 1, count - 1))
    }
    /// Whether `fewest` is what it says: its message is clear with a header that is taken, and none such has fewer ones.
    pub fn fewest_is_so(&self) -> bool {
        let ones = self.kind.fewest.iter().fold(0, |m, &j| m | at(j));
        let fewer = |first: u8| {
            let count = (self.kind.fewest.len() - 1).checked_sub(first.count_ones() as usize);
            count.is_some_and(|count| self.cleared(self.remainder(u128::from(first) << 104), 8, count))
        };
        self.mends(0, ones, self.remainder(ones)) && !(0..=255).any(|first| self.kind.header(first) && fewer(first))
    }
    /// Whether bits that are all undecided, and so all 0, are a message, whatever the level.
    pub fn takes_zeros(&self) -> bool {
        (0..=2).any(|count| self.mends(count, 0, self.remainder(0)))
    }
    /// The header of a message is one of those that are taken.
    fn good(&self, message: u128) -> bool {
        self.kind.header((message >> 104) as u8)
    }
    /// The positions, as many as asked for, that clear a message and give it a good header.
    fn mends(&self, count: u64, message: u128, r: u32) -> bool {
        self.clearing(count, r).is_some_and(|found| self.good(repaired(message, found)))
    }
    pub fn remainder(&self, message: u128) -> u32 {
        let (mut m, mut r) = (message, 0);
        while m != 0 {
            let j = m.leading_zeros() as usize - 16;
            r ^= self.of_bit[j];
            m ^= at(j);
        }
        r
    }
}

/// Those of both kinds.
pub struct Both {
    pub long: Tables,
    pub short: Tables,
}

impl Both {
    pub fn new() -> Both {
        Both { long: Tables::new(&LONG), short: Tables::new(&SHORT) }
    }
}

pub fn repaired(message: u128, repairs: [u64; 3]) -> u128 {
    repairs[1..=repairs[0] as usize].iter().fold(message, |m, &j| m ^ at(j as usize))
}

/// What the rules see of a window.
pub struct Window<'a> {
    samples: &'a [f32],
    symbols: Vec<[Complex; 288]>,
    /// By slicer, clock phase, symbol offset: the 144 bits.
    streams: Vec<[u8; 144]>,
}

impl Window<'_> {
    pub fn of(samples: &[f32]) -> Window<'_> {
        let symbols: Vec<[Complex; 288]> = (0..4)
            .map(|k| std::array::from_fn(|n| (0..4).fold((0.0, 0.0), |z, m| plus(z, sample(samples, 4 * n + k + m)))))
            .collect();
        let mut streams = vec![];
        for slicer in 0..2 {
            for row in &symbols {
                for s in 0..2 {
                    streams.push(std::array::from_fn(|i| {
                        if 2 * i + s + 1 == 288 {
                            return 0;
                        }
                        let [a, b] = [row[2 * i + s], row[2 * i + s + 1]].map(|z| measure(slicer, z));
                        u8::from(a > b)
                    }));
                }
            }
        }
        Window { samples, symbols, streams }
    }
    pub fn bits(&self, kind: &Kind, slicer: usize, [bit, phase, symbol]: [usize; 3]) -> u128 {
        let stream = &self.streams[8 * slicer + 2 * phase + symbol];
        kind.message(stream[bit..bit + kind.bits].iter().fold(0, |m, &b| m << 1 | u128::from(b)))
    }
    /// Whether the bit of two symbols was undecided: they are equal, or in no order since one of them is NaN. The last symbol has none
    /// behind it.
    fn mark(&self, slicer: usize, phase: usize, symbol: usize) -> bool {
        let row = &self.symbols[phase];
        let after = row.get(symbol + 1).map(|&z| measure(slicer, z));
        !after.and_then(|b| measure(slicer, row[symbol]).partial_cmp(&b)).is_some_and(Ordering::is_ne)
    }
    /// All marks of a slicer: for each clock phase both streams, eight marks a byte, the first highest.
    pub fn marks(&self, slicer: usize) -> Vec<u8> {
        let mut out = vec![];
        for (phase, stream) in (0..4).flat_map(|phase| [(phase, 0), (phase, 1)]) {
            for k in 0..18 {
                let mark = |i: usize| u8::from(self.mark(slicer, phase, 2 * i + stream));
                out.push((8 * k..8 * k + 8).fold(0, |byte, i| byte << 1 | mark(i)));
            }
        }
        out
    }
    /// The undecided bits of a message at a place.
    pub fn undecided(&self, kind: &Kind, slicer: usize, [bit, phase, symbol]: [usize; 3]) -> u128 {
        (0..kind.bits).filter(|j| self.mark(slicer, phase, 2 * (bit + j) + symbol)).fold(0, |m, j| m | at(j))
    }
    /// What is compared for bit j of a message at a place.
    fn halves(&self, slicer: usize, [bit, phase, symbol]: [usize; 3], j: usize) -> [f32; 2] {
        [0, 1].map(|half| measure(slicer, self.symbols[phase][2 * (bit + j) + symbol + half]))
    }
    pub fn distance(&self, kind: &Kind, place: [usize; 3]) -> u32 {
        (self.bits(kind, 0, place) ^ self.bits(kind, 1, place)).count_ones()
    }
    /// At the place that starts with a sample.
    pub fn prompt(&self, kind: &Kind, start: usize, message: u128) -> f32 {
        let row = &self.symbols[start % 4];
        (0..kind.bits).fold(0.0, |sum, j| sum + norm(row[start / 4 + 2 * j + usize::from(message & at(j) == 0)]))
    }
    pub fn noise(&self, kind: &Kind, start: usize, message: u128) -> f32 {
        (0..kind.bits).fold(0.0, |sum, j| {
            let empty = start + 8 * j + if message & at(j) == 0 { 0 } else { 4 };
            sum + norm(plus(sample(self.samples, empty + 1), sample(self.samples, empty + 2)))
        })
    }
}

#[derive(Clone, Copy)]
struct Reading {
    trial: u32,
    slicer: usize,
    repairs: [u64; 3],
}

#[derive(Clone, Copy)]
struct Candidate {
    place: [usize; 3],
    reading: Reading,
    message: u128,
    cn0: f32,
}

/// The names of what is counted here, for either kind.
pub const NAMES: &[&str] = &[
    "reading by trial #1-4",
    "answer by trial #1-4",
    "header bad at trial #1-4",
    "trial 4 skipped, remainders equal, and it would have passed",
    "choice: fewer repairs replace",
    "choice: greater cn0 replaces",
    "choice: more repairs do not replace",
    "choice: lower cn0 does not replace",
    "choice: equal cn0 does not replace",
    "choice: NaN holder kept",
    "choice: NaN newcomer does not replace",
    "choice: NaN holder replaced by fewer repairs",
    "choice: NaN newcomer replaces by fewer repairs",
    "moves -2",
    "moves -1",
    "moves 0",
    "moves +1",
    "moves +2",
    "parabola held to -1",
    "parabola held to 1",
    "parabola with d = 0",
    "fraction NaN",
    "neighbour earlier takes over",
    "neighbour later takes over",
    "neighbour earlier, then later takes over",
    "no neighbour takes over",
    "answer at the first place",
    "answer at the last place",
    "a reading before the first place, not looked for",
    "a reading behind the last place, not looked for",
    "cn0 NaN",
    "cn0 infinite",
    "cn0 minus infinite",
    "cn0 finite",
    "level #0-2",
    "found",
    "nothing found",
    "refused #2-6",
    "coherent: none undecided",
    "coherent: one undecided",
    "coherent: many undecided",
    "coherent: as many undecided as there can be",
    "coherent: an undecided bit with zeros",
    "coherent: an undecided bit with equal halves, not zeros",
    "coherent: an undecided bit with a NaN",
    "coherent: an undecided bit repaired",
    "coherent: the last bit undecided",
    "coherent: another count by the other slicer",
    "noncoherent: none undecided",
    "noncoherent: one undecided",
    "noncoherent: many undecided",
    "noncoherent: as many undecided as there can be",
    "noncoherent: an undecided bit with zeros",
    "noncoherent: an undecided bit with equal halves, not zeros",
    "noncoherent: an undecided bit with a NaN",
    "noncoherent: an undecided bit repaired",
    "noncoherent: the last bit undecided",
    "noncoherent: another count by the other slicer",
];
pub const SLICERS: [&str; 2] = ["coherent", "noncoherent"];
/// Of so many bits so many. An answer never has all: zeros are no message.
pub fn how_many(bits: usize, count: u64) -> &'static str {
    match count {
        0 => "none undecided",
        1 => "one undecided",
        _ if count == bits as u64 => "all undecided",
        _ => "many undecided",
    }
}
/// Of long messages alone.
pub const LONG_NAMES: &[&str] = &[
    "reading by trial #5-6",
    "answer by trial #5-6",
    "header bad at trial #5-6",
    "slip: trial 5 passes behind a trial 4 whose header failed",
    "trial 6 skipped, remainders equal, and it would have passed",
    "trial 5 dropped, and trial 6 would have passed",
    "dropped below the first threshold",
    "dropped below the second threshold, by the distance",
    "saved by the distance alone",
    "coherent, two repairs, below the second threshold, survives",
    "cn0 exactly at the first threshold, survives",
    "cn0 exactly at the second threshold, survives",
    "distance exactly at its limit, dropped",
    "distance one below its limit, survives",
    "NaN cn0 with two repairs survives",
];
/// Of short messages alone.
pub const SHORT_NAMES: &[&str] = &[
    "level 2, two positions would clear it, and it is not read",
    "level 2, nothing found, where two repairs would find something",
    "below both thresholds, with the slicers at the distance, found",
    "answer at a bit offset above 31",
    "answer repaired at 49 to 55",
];

fn passes(t: &Tables, c: &mut Under, trial: u32, message: u128, r: u32) -> Option<[u64; 3]> {
    let found = t.clearing(u64::from(trial - 1) / 2, r)?;
    if t.good(repaired(message, found)) {
        return Some(found);
    }
    c.met(&format!("header bad at trial {trial}"), true);
    None
}

/// The first trial that passes.
fn reading(t: &Tables, c: &mut Under, level: u32, words: [u128; 2]) -> Option<Reading> {
    let r = words.map(|message| t.remainder(message));
    let mut slips = false;
    for trial in 1..=6 {
        let slicer = usize::from(trial % 2 == 0);
        let message = words[slicer];
        if (trial - 1) / 2 > level.min(t.kind.most) {
            break;
        }
        if trial > 3 && slicer == 1 && r[0] == r[1] {
            if t.mends(u64::from(trial - 1) / 2, message, r[1]) {
                c.met(&format!("trial {trial} skipped, remainders equal, and it would have passed"), true);
            }
            continue;
        }
        if let Some(repairs) = passes(t, c, trial, message, r[slicer]) {
            c.met(&format!("reading by trial {trial}"), true);
            c.met("slip: trial 5 passes behind a trial 4 whose header failed", trial == 5 && slips);
            return Some(Reading { trial, slicer, repairs });
        }
        slips |= trial == 4 && t.clearing(1, r[1]).is_some();
    }
    None
}

fn dropped(t: &Tables, c: &mut Under, s: Settings, w: &Window, new: &Candidate) -> bool {
    if new.reading.repairs[0] < 2 {
        return false;
    }
    let cn0 = new.cn0;
    let noncoherent = new.reading.slicer == 1;
    let distance = w.distance(t.kind, new.place);
    c.met("cn0 exactly at the first threshold, survives", cn0 == s.threshold && (!noncoherent || cn0 >= s.second));
    c.met("NaN cn0 with two repairs survives", cn0.is_nan());
    if cn0 < s.threshold {
        c.met("dropped below the first threshold", true);
        let [coherent, other] = [0, 1].map(|slicer| w.bits(t.kind, slicer, new.place));
        let r = t.remainder(other);
        let sixth = t.mends(2, other, r);
        c.met("trial 5 dropped, and trial 6 would have passed", new.reading.trial == 5 && sixth && r != t.remainder(coherent));
        return true;
    }
    c.met("coherent, two repairs, below the second threshold, survives", !noncoherent && cn0 < s.second);
    c.met("cn0 exactly at the second threshold, survives", noncoherent && cn0 == s.second && distance >= s.distance);
    if noncoherent && cn0 < s.second {
        c.met("dropped below the second threshold, by the distance", distance >= s.distance);
        c.met("distance exactly at its limit, dropped", distance == s.distance);
        c.met("saved by the distance alone", distance < s.distance);
        c.met("distance one below its limit, survives", Some(distance + 1) == Some(s.distance));
        return distance >= s.distance;
    }
    false
}

fn replaces(c: &mut Under, new: &Candidate, held: &Candidate) -> bool {
    let (n, h) = (new.reading.repairs[0], held.reading.repairs[0]);
    if n < h {
        c.met("choice: fewer repairs replace", true);
        c.met("choice: NaN holder replaced by fewer repairs", held.cn0.is_nan());
        c.met("choice: NaN newcomer replaces by fewer repairs", new.cn0.is_nan());
        return true;
    }
    if n > h {
        c.met("choice: more repairs do not replace", true);
        return false;
    }
    c.met("choice: NaN holder kept", held.cn0.is_nan() && !new.cn0.is_nan());
    c.met("choice: NaN newcomer does not replace", new.cn0.is_nan() && !held.cn0.is_nan());
    c.met("choice: lower cn0 does not replace", new.cn0 < held.cn0);
    c.met("choice: equal cn0 does not replace", new.cn0 == held.cn0);
    c.met("choice: greater cn0 replaces", new.cn0 > held.cn0);
    new.cn0 > held.cn0
}

fn timing(kind: &Kind, c: &mut Under, w: &Window, start: usize, message: u128) -> (i64, f32) {
    let power_at = |start: usize| w.prompt(kind, start, message);
    let own = power_at(start);
    let (early, late) = (power_at(start - 1), power_at(start + 1));
    let (mut offset, mut power) = (0i64, own);
    if early > power {
        (offset, power) = (-1, early);
    }
    if late > power {
        c.met("neighbour earlier, then later takes over", offset == -1);
        (offset, power) = (1, late);
    }
    c.met("neighbour earlier takes over", offset == -1);
    c.met("neighbour later takes over", offset == 1);
    c.met("no neighbour takes over", offset == 0);
    let at = (start as i64 + offset) as usize;
    let (before, after) = (power_at(at - 1), power_at(at + 1));
    let mut p = parabola(before, power, after);
    c.met("parabola with d = 0", (after + before) - 2.0 * power == 0.0);
    if p < -1.0 {
        c.met("parabola held to -1", true);
        p = -1.0;
    } else if p > 1.0 {
        c.met("parabola held to 1", true);
        p = 1.0;
    }
    let mut fraction = (p + offset as f32) - 0.5;
    let mut moves = 0;
    while fraction < -0.5 {
        (fraction, moves) = (fraction + 1.0, moves - 1);
    }
    while fraction >= 0.5 {
        (fraction, moves) = (fraction - 1.0, moves + 1);
    }
    c.met("fraction NaN", fraction.is_nan());
    c.met(["moves -2", "moves -1", "moves 0", "moves +1", "moves +2"][(moves + 2) as usize], true);
    (moves, fraction)
}

/// How many of an answer's bits were undecided by the slicer that it names: those at its place, before any repair.
fn undecided(kind: &Kind, c: &mut Under, w: &Window, best: &Candidate) -> u64 {
    let Candidate { place, reading: Reading { slicer, repairs, .. }, .. } = *best;
    let [own, other] = [slicer, 1 - slicer].map(|slicer| w.undecided(kind, slicer, place));
    let count = u64::from(own.count_ones());
    let mut met = |name: &str, holds: bool| c.met(&format!("{}: {name}", SLICERS[slicer]), holds);
    let any = |test: &dyn Fn([f32; 2]) -> bool| (0..kind.bits).any(|j| own & at(j) != 0 && test(w.halves(slicer, place, j)));
    met(how_many(kind.bits, count), true);
    met("as many undecided as there can be", count == kind.most_undecided());
    met("an undecided bit with zeros", any(&|[a, b]| a == 0.0 && b == 0.0));
    met("an undecided bit with equal halves, not zeros", any(&|[a, b]| a == b && a != 0.0));
    met("an undecided bit with a NaN", any(&|[a, b]| a.is_nan() || b.is_nan()));
    met("an undecided bit repaired", repaired(0, repairs) & own != 0);
    met("the last bit undecided", own & at(kind.bits - 1) != 0);
    met("another count by the other slicer", own.count_ones() != other.count_ones());
    count
}

/// The search for the kind of message that the tables are of.
pub fn decode(t: &Tables, counts: &mut Counts, samples: &[f32], s: Settings, index: u64) -> Answer {
    let (kind, c) = (t.kind, &mut counts.under(t.kind.under));
    let number = if samples.len() != 2310 {
        2
    } else if s.level > 2 {
        4
    } else if !s.threshold.is_finite() || !s.second.is_finite() {
        5
    } else if !(128..=1 << 63).contains(&index) {
        6
    } else {
        0
    };
    if number != 0 {
        c.met(&format!("refused {number}"), true);
        return Answer::refused(number);
    }
    c.met(&format!("level {}", s.level), true);
    let w = &Window::of(samples);
    let words_at = |place| [w.bits(kind, 0, place), w.bits(kind, 1, place)];
    let beside = |bit, symbols: usize| {
        let mut places = (0..4).flat_map(|phase| (0..symbols).map(move |symbol| [bit, phase, symbol]));
        places.any(|place| reading(t, &mut Counts::default().under(""), s.level, words_at(place)).is_some())
    };
    c.met("a reading before the first place, not looked for", beside(0, 2));
    c.met("a reading behind the last place, not looked for", beside(kind.last + 1, 1));
    let mut held: Option<Candidate> = None;
    // A level above the most repairs of the kind: what it would have found.
    let mut beyond = false;
    for bit in 1..=kind.last {
        for phase in 0..4 {
            for symbol in 0..2 {
                let place = [bit, phase, symbol];
                let words = words_at(place);
                let Some(reading) = reading(t, c, s.level, words) else {
                    let two = s.level > kind.most && words.iter().any(|&m| t.mends(2, m, t.remainder(m)));
                    c.met("level 2, two positions would clear it, and it is not read", two);
                    beyond |= two;
                    continue;
                };
                let message = repaired(words[reading.slicer], reading.repairs);
                let start = 4 * (2 * bit + symbol) + phase;
                let cn0 = cn0_of(w.prompt(kind, start, message), w.noise(kind, start, message));
                let new = Candidate { place, reading, message, cn0 };
                if dropped(t, c, s, w, &new) {
                    continue;
                }
                if held.as_ref().is_none_or(|h| replaces(c, &new, h)) {
                    held = Some(new);
                }
            }
        }
    }
    let Some(best) = held else {
        c.met("nothing found", true);
        c.met("level 2, nothing found, where two repairs would find something", beyond);
        return Answer::refused(1);
    };
    let [bit, phase, symbol] = best.place;
    let start = 4 * (2 * bit + symbol) + phase;
    let (moves, fraction) = timing(kind, c, w, start, best.message);
    c.met("found", true);
    c.met(&format!("answer by trial {}", best.reading.trial), true);
    c.met("answer at the first place", best.place == [1, 0, 0]);
    c.met("answer at the last place", best.place == [kind.last, 3, 1]);
    c.met("cn0 NaN", best.cn0.is_nan());
    c.met("cn0 infinite", best.cn0 == f32::INFINITY);
    c.met("cn0 minus infinite", best.cn0 == f32::NEG_INFINITY);
    c.met("cn0 finite", best.cn0.is_finite());
    if kind.bits == SHORT.bits {
        let low = best.cn0 < s.threshold && best.cn0 < s.second && w.distance(kind, best.place) >= s.distance;
        c.met("below both thresholds, with the slicers at the distance, found", low && best.reading.slicer == 1);
        c.met("answer at a bit offset above 31", bit > LONG.last);
        c.met("answer repaired at 49 to 55", best.reading.repairs[0] == 1 && best.reading.repairs[1] >= 49);
    }
    let undecided = undecided(kind, c, w, &best);
    Answer {
        number: 0,
        place: best.place.map(|x| x as u64),
        message: bytes_of(best.message),
        repairs: best.reading.repairs,
        slicer: best.reading.slicer as u64,
        cn0: best.cn0,
        index: (index - 128 + start as u64).wrapping_add_signed(moves),
        fraction,
        undecided,
        trial: u64::from(best.reading.trial),
    }
}
