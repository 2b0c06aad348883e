//! Windows that go through trays as they come: each result must be what the single calls answer for its window.
use crate::Faults;
use crate::counts::Counts;
use crate::proved::{self, Lent};
use crate::recipe::Random;
use crate::rules::{Answer, Settings};

pub const NAMES: &[&str] = &[
    "tray: windows",
    "tray: of no window",
    "tray: of one window",
    "tray: of 2 to 63 windows",
    "tray: of 64 windows",
    "tray: a bad index first",
    "tray: a bad index in between",
    "tray: a bad index last",
    "tray: all indices good",
    "tray: results with a message",
    "tray: results with a message whose cn0 is NaN",
    "tray: results without a message",
    "tray: results for a bad index",
    "tray: refused #2-5",
    "tray of both: results with both messages",
    "tray of both: results with a long message alone",
    "tray of both: results with a short message alone",
    "tray of both: results without a message",
    "tray of both: results for a bad index",
    "tray of both: refused #2-5",
];

const WINDOW: usize = 2310;
const MOST: usize = 64;

/// Trays of long messages, and of both kinds: what stands before the names, and what of the lent memory each window gets.
const KINDS: [(&str, [usize; 3]); 2] = [("tray", [14, 11, 2]), ("tray of both", [21, 22, 4])];

/// The windows of the next tray, with their numbers.
pub struct Trays {
    random: Random,
    /// How many were called, and how many windows the next one is to have.
    called: u64,
    size: usize,
    samples: Vec<f32>,
    settings: Vec<Settings>,
    indices: Vec<u64>,
    numbers: Vec<u64>,
}

impl Trays {
    pub fn new(seed: u64) -> Trays {
        let (samples, settings, indices, numbers) = (vec![], vec![], vec![], vec![]);
        Trays { random: Random(seed.rotate_left(32) ^ 0x7472_6179), called: 0, size: MOST, samples, settings, indices, numbers }
    }

    /// Puts a window into the tray, which is called when it has its size.
    pub fn take(&mut self, c: &mut Counts, f: &mut Faults, number: u64, samples: &[f32], s: Settings, index: u64) {
        self.samples.extend(samples);
        self.settings.push(s);
        self.indices.push(index);
        self.numbers.push(number);
        if self.numbers.len() == self.size {
            self.call(c, f);
        }
    }

    /// Calls the tray with what it has, and empties it. A tray has one setting: that of one of its windows. In turn the next one has 1
    /// window, some, some and 64; before one of 1 there is one of none, with the same settings.
    pub fn call(&mut self, c: &mut Counts, f: &mut Faults) {
        if self.numbers.is_empty() {
            return;
        }
        let s = self.random.pick(&self.settings);
        self.compare(c, f, s);
        self.samples.clear();
        self.settings.clear();
        self.indices.clear();
        self.numbers.clear();
        self.called += 1;
        self.size = match self.called % 4 {
            0 => MOST,
            1 => 1,
            _ => 2 + self.random.below(MOST - 2),
        };
        if self.size == 1 {
            self.compare(c, f, s);
        }
    }

    /// Trays of either kind, and some that are refused.
    fn compare(&mut self, c: &mut Counts, f: &mut Faults, s: Settings) {
        let n = self.numbers.len();
        c.met("tray: of no window", n == 0);
        c.met("tray: of one window", n == 1);
        c.met("tray: of 2 to 63 windows", 1 < n && n < MOST);
        c.met("tray: of 64 windows", n == MOST);
        self.spoil(c);
        let first = self.numbers.first().copied().unwrap_or(0);
        let mut single = vec![];
        for (samples, &index) in self.samples.chunks(WINDOW).zip(&self.indices) {
            c.met("tray: windows", true);
            single.push([proved::decode(samples, s, index), proved::decode_short(samples, s, index)]);
        }
        for (kind, (name, sizes)) in KINDS.into_iter().enumerate() {
            let mut out = Lent::marked(sizes.map(|size| size * n));
            let number = proved::tray_into(kind, n, &self.samples, s, &self.indices, &mut out);
            f.same(&format!("{name}: number"), first, number, 0);
            for (k, single) in single.iter().enumerate() {
                result(c, f, self.numbers[k], &parts(kind, k, &out), &single[..=kind]);
            }
            for _ in 0..4 {
                self.refused(c, f, kind, s, first);
            }
        }
    }

    /// Two trays of three may get bad indices: first, last, anywhere.
    fn spoil(&mut self, c: &mut Counts) {
        let (n, r) = (self.indices.len(), &mut self.random);
        let mut bad = vec![];
        if n > 1 && self.called % 3 != 0 {
            bad = vec![0, n - 1, r.below(n)];
            bad.retain(|_| r.often(2));
        }
        for &k in &bad {
            self.indices[k] = r.pick(&[0, 127, (1 << 63) + 1, u64::MAX]);
            c.met("tray: a bad index first", k == 0);
            c.met("tray: a bad index in between", 0 < k && k < n - 1);
            c.met("tray: a bad index last", k == n - 1);
        }
        c.met("tray: all indices good", n > 1 && bad.is_empty());
    }

    /// A call in which something is wrong: the number of what is looked at first, and lent memory as it was.
    fn refused(&mut self, c: &mut Counts, f: &mut Faults, kind: usize, s: Settings, first: u64) {
        let ((name, sizes), mut n, r) = (KINDS[kind], self.indices.len(), &mut self.random);
        let (mut samples, mut indices, mut s) = (self.samples.clone(), self.indices.clone(), s);
        // In the order in which they are looked at: count, inputs, outputs, level, thresholds.
        let wrong: [bool; 5] = std::array::from_fn(|_| r.often(3));
        let Some(lowest) = wrong.iter().position(|wrong| *wrong) else { return };
        let more = wrong[0] && r.often(2);
        if more {
            // One window too many, and all that it needs.
            n = MOST + 1;
            samples.resize(WINDOW * n, 0.0);
            indices.resize(n, 128);
        }
        // 2^63 windows have 0 numbers, counted in 64 bits.
        let count = if wrong[0] && !more { r.pick(&[n + 1, MOST + 1, usize::MAX, 1 << 63]) } else { n };
        let mut lengths = sizes.map(|size| size * n);
        if wrong[1] && r.often(2) {
            let length = samples.len();
            samples.resize(r.pick(&[length.saturating_sub(1), length.saturating_sub(WINDOW), length + WINDOW, length + 1]), 0.0);
        } else if wrong[1] {
            indices.resize(r.pick(&[n.saturating_sub(1), n + 1]), 128);
        }
        if wrong[2] {
            let length = &mut lengths[r.below(3)];
            *length = r.pick(&[length.saturating_sub(1), length.saturating_sub(n), *length + n, *length + 1]);
        }
        if wrong[3] {
            s.level = r.pick(&[3, 4, u32::MAX]);
        }
        if wrong[4] {
            let bad = r.pick(&[f32::NAN, f32::INFINITY, f32::NEG_INFINITY]);
            *(if r.often(2) { &mut s.threshold } else { &mut s.second }) = bad;
        }
        // Without windows nothing can be shorter.
        let unchanged = [count == n && n <= MOST, samples.len() == WINDOW * n && indices.len() == n, lengths == sizes.map(|size| size * n)];
        if unchanged.get(lowest) == Some(&true) {
            return;
        }
        let number = [2, 2, 3, 4, 5][lowest];
        let untouched = Lent::marked(lengths);
        let mut out = untouched.clone();
        let got = proved::tray_into(kind, count, &samples, s, &indices, &mut out);
        let refused = f.same(&format!("{name}: refusal, and whether memory is as it was"), first, (got, out == untouched), (number, true));
        c.met(&format!("{name}: refused {number}"), refused);
    }
}

/// The parts of result k: that of the long message, and in a tray of both that of the short one.
fn parts(kind: usize, k: usize, out: &Lent) -> Vec<Answer> {
    let [bytes, words, floats] = KINDS[kind].1;
    let message = &out.message[bytes * k..][..bytes];
    let part = |message: &[u8], part: usize| {
        let words = &out.words[words * k + 11 * part..][..11];
        let floats = &out.floats[floats * k + 2 * part..][..2];
        let lent = Lent { message: message.to_vec(), words: words[..10].to_vec(), floats: floats.to_vec() };
        lent.answer(u32::try_from(words[10]).unwrap_or(u32::MAX))
    };
    let long = part(&message[..14], 0);
    if kind == 0 { vec![long] } else { vec![long, part(&message[14..], 1)] }
}

/// A result, by its parts, is what the single calls answer.
fn result(c: &mut Counts, f: &mut Faults, number: u64, ours: &[Answer], single: &[Answer]) {
    let fields = |answers: &[Answer]| answers.iter().map(Answer::fields).collect::<Vec<_>>();
    let name = ["a result of a tray", "a result of a tray of both"][ours.len() - 1];
    if !f.same(name, number, fields(ours), fields(single)) {
        return;
    }
    let name = match ours.iter().map(|part| part.number).collect::<Vec<_>>()[..] {
        [0] => "tray: results with a message",
        [1] => "tray: results without a message",
        [_] => "tray: results for a bad index",
        [0, 0] => "tray of both: results with both messages",
        [0, 1] => "tray of both: results with a long message alone",
        [1, 0] => "tray of both: results with a short message alone",
        [1, 1] => "tray of both: results without a message",
        _ => "tray of both: results for a bad index",
    };
    c.met(name, true);
    c.met("tray: results with a message whose cn0 is NaN", ours.len() == 1 && ours[0].cn0.is_nan());
}
