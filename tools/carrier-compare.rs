//! carrier-compare SEED SPECTRA: the proved carrier calls against the Rust's, and against the rules written down a second time.
//! Built and run by tools/carrier-compare.

mod published {
    include!(env!("PUBLISHED"));
}
use published as rust;
use std::collections::BTreeMap;

/// The proved library. A struct of more than 16 bytes is answered in memory that is named first: so the System V convention of
/// x86-64 has it, and so the module has it when it is compiled for another processor.
mod proved {
    use std::mem::MaybeUninit;
    #[repr(C)]
    pub struct Search { pub number: u32, pub bin: usize, pub value: f32 }
    #[repr(C)]
    pub struct Floor { pub number: u32, pub floor: f32 }
    #[repr(C)]
    pub struct Carrier { pub number: u32, pub peak: u32, pub bin: usize, pub fraction: f32, pub value: f32, pub floor: f32 }
    #[repr(C)]
    pub struct Maximum { pub number: u32, pub yes: u32 }
    unsafe extern "C" {
        fn khlongrae_long_fft_max_search(answer: *mut Search, spectrum: *const f32, n: usize, search: usize);
        fn khlongrae_carrier_notched_power(spectrum: *const f32, n: usize, bin: usize, notch: usize) -> Floor;
        fn khlongrae_check_carrier_metric(answer: *mut Carrier, spectrum: *const f32, n: usize, search: usize, notch: usize, threshold: f32);
        fn khlongrae_check_local_maximum(values: *const f32, n: usize) -> Maximum;
    }
    pub fn search(s: &[f32], m: usize) -> Search {
        let mut answer = MaybeUninit::uninit();
        unsafe {
            khlongrae_long_fft_max_search(answer.as_mut_ptr(), s.as_ptr(), s.len(), m);
            answer.assume_init()
        }
    }
    pub fn floor(s: &[f32], bin: usize, w: usize) -> Floor { unsafe { khlongrae_carrier_notched_power(s.as_ptr(), s.len(), bin, w) } }
    pub fn carrier(s: &[f32], m: usize, w: usize, t: f32) -> Carrier {
        let mut answer = MaybeUninit::uninit();
        unsafe {
            khlongrae_check_carrier_metric(answer.as_mut_ptr(), s.as_ptr(), s.len(), m, w, t);
            answer.assume_init()
        }
    }
    pub fn maximum(v: &[f32]) -> Maximum { unsafe { khlongrae_check_local_maximum(v.as_ptr(), v.len()) } }
}

/// The rules, written down a second time. A refused call has its number and zeros.
mod rules {
    fn spectrum(n: usize) -> bool { n % 2 == 0 && (4..=4096).contains(&n) }
    fn peak(s: &[f32], m: usize) -> (usize, f32) {
        let (first, last) = (s.len() / 2 - m, s.len() / 2 + m);
        let above = |&j: &usize| s[j] > 0.0;
        let greatest = (first..=last).filter(above).map(|j| s[j]).fold(0.0, f32::max);
        match (first..=last).filter(above).find(|&j| s[j] == greatest) {
            Some(bin) => (bin, s[bin]),
            None => (first, 0.0),
        }
    }
    fn outside(s: &[f32], bin: usize, w: usize) -> f32 {
        (0..s.len()).filter(|j| j.abs_diff(bin) > w).fold(0.0, |sum, j| sum + s[j])
    }
    fn parabola(early: f32, prompt: f32, late: f32) -> f32 {
        let d = (late + early) - 2.0 * prompt;
        if d == 0.0 { 0.0 } else { (-0.5 * (late - early)) / d }
    }
    pub fn search(s: &[f32], m: usize) -> (u32, usize, f32) {
        if !spectrum(s.len()) { return (2, 0, 0.0); }
        if m > s.len() / 2 - 2 { return (9, 0, 0.0); }
        let (bin, value) = peak(s, m);
        (0, bin, value)
    }
    pub fn floor(s: &[f32], bin: usize, w: usize) -> (u32, f32) {
        if !spectrum(s.len()) { return (2, 0.0); }
        if bin >= s.len() { return (7, 0.0); }
        if w >= s.len() { return (9, 0.0); }
        (0, outside(s, bin, w))
    }
    /// Number, whether it is a peak, bin, fraction, value, floor.
    pub fn carrier(s: &[f32], m: usize, w: usize, t: f32) -> (u32, bool, usize, f32, f32, f32) {
        let n = s.len();
        if !spectrum(n) { return (2, false, 0, 0.0, 0.0, 0.0); }
        if !t.is_finite() || t < 0.0 { return (5, false, 0, 0.0, 0.0, 0.0); }
        if m > n / 2 - 2 || w >= n { return (9, false, 0, 0.0, 0.0, 0.0); }
        let (bin, value) = peak(s, m);
        let floor = outside(s, bin, w);
        if value >= t * floor {
            (0, true, bin, parabola(s[bin - 1], s[bin], s[bin + 1]), value, floor)
        } else {
            (0, false, 0, 0.0, value, floor)
        }
    }
    pub fn maximum(v: &[f32]) -> (u32, bool) {
        if v.len() != 5 { return (2, false); }
        (0, !v[..2].iter().any(|&x| x >= v[2]) && !v[3..].iter().any(|&x| x > v[2]))
    }
}

/// Numbers from a seed (splitmix64).
struct Random(u64);
impl Random {
    fn word(&mut self) -> u64 {
        self.0 = self.0.wrapping_add(0x9E37_79B9_7F4A_7C15);
        let mut z = self.0;
        z = (z ^ (z >> 30)).wrapping_mul(0xBF58_476D_1CE4_E5B9);
        z = (z ^ (z >> 27)).wrapping_mul(0x94D0_49BB_1331_11EB);
        z ^ (z >> 31)
    }
    fn below(&mut self, n: usize) -> usize { (self.word() % n as u64) as usize }
    fn pick<T: Copy>(&mut self, from: &[T]) -> T { from[self.below(from.len())] }
    fn noise(&mut self) -> f32 { -((self.below(1 << 24) as f32 + 0.5) / (1 << 24) as f32).ln() }
    /// Any bits, but a NaN is quiet: no sum or product makes a signalling one, and an optimiser may fold two comparisons into one
    /// of their maximum, which is NaN where one of the two is a signalling NaN (rustc 1.95 does so for Arm).
    fn pattern(&mut self) -> f32 {
        let x = f32::from_bits(self.word() as u32);
        if x.is_nan() { f32::from_bits(x.to_bits() | 0x0040_0000) } else { x }
    }
}

const SPECIALS: [f32; 16] = [
    f32::NAN, f32::INFINITY, f32::NEG_INFINITY, 0.0, -0.0, f32::MIN_POSITIVE, 1.0e-45, -1.0e-45,
    f32::MAX, f32::MIN, 1.0, -1.0, 2.0, 3.0, 0.5, 1.0e-20,
];

/// A spectrum of n bins, searched within m of the middle: one of many kinds.
fn spectrum(r: &mut Random, n: usize, m: usize) -> Vec<f32> {
    let (middle, m) = (n / 2, m.min(n / 2));
    let (first, last) = (middle - m, (middle + m).min(n.saturating_sub(1)));
    let mut s: Vec<f32> = match r.below(16) {
        0 => vec![0.0; n],
        1 => vec![-0.0; n],
        2 => { let x = r.noise(); vec![x; n] }
        3 => (0..n).map(|_| -r.noise()).collect(),
        4 => (0..n).map(|_| r.below(4) as f32 - 1.0).collect(),
        5 => (0..n).map(|_| f32::from_bits(r.below(1 << 20) as u32)).collect(),
        6 => (0..n).map(|_| r.noise() * 1.0e38).collect(),
        7 => (0..n).map(|_| r.pattern()).collect(),
        8 => (0..n).map(|_| r.pick(&SPECIALS)).collect(),
        9 => vec![f32::NAN; n],
        10 => (0..n).map(|_| r.pick(&[0.0, -0.0])).collect(),
        _ => (0..n).map(|_| r.noise()).collect(),
    };
    if n == 0 { return s; }
    // A carrier of some strength, in the search, at its ends, beside it, or anywhere.
    if r.below(2) == 0 {
        let bin = match r.below(6) {
            0 => first,
            1 => last,
            2 => first.saturating_sub(1),
            3 => (last + 1).min(n - 1),
            4 => r.below(n),
            _ => first + r.below(last - first + 1),
        };
        s[bin] = r.pick(&[3.0, 30.0, 300.0, 3.0e6]);
        if r.below(3) == 0 { let other = first + r.below(last - first + 1); s[other] = s[bin]; }
    }
    // A few specials.
    if r.below(4) == 0 {
        for _ in 0..=r.below(3) { let bin = r.below(n); s[bin] = r.pick(&SPECIALS); }
    }
    s
}

/// A threshold: one that the rules refuse, one near the value over the floor, or some other.
fn threshold(r: &mut Random, value: f32, floor: f32) -> f32 {
    let edge = value / floor;
    match r.below(12) {
        0 => 0.0,
        1 => -0.0,
        2 => r.pick(&[f32::NAN, f32::INFINITY, f32::NEG_INFINITY, -1.0, -1.0e-45, f32::MIN]),
        3 | 4 => edge,
        5 => edge.next_up(),
        6 => edge.next_down(),
        7 => r.pick(&[f32::MAX, f32::MIN_POSITIVE, 1.0e-45, 1.0]),
        8 => r.pattern(),
        _ => 0.0148,
    }
}

/// What was met, how often.
struct Counts(BTreeMap<&'static str, u64>);
impl Counts {
    fn of(names: &[&'static str]) -> Counts { Counts(names.iter().map(|&name| (name, 0)).collect()) }
    fn met(&mut self, name: &'static str, holds: bool) { *self.0.get_mut(name).expect(name) += holds as u64; }
}

fn bits(x: f32) -> u32 { if x.is_nan() { 0x7FC0_0000 } else { x.to_bits() } }

fn same<T: PartialEq + std::fmt::Debug>(what: &str, ours: T, theirs: T) {
    if ours != theirs {
        eprintln!("carrier-compare: {what} differs: {ours:X?} for {theirs:X?}");
        std::process::exit(1);
    }
}

/// Every call over one spectrum against the rules.
fn against_rules(c: &mut Counts, s: &[f32], m: usize, bin: usize, w: usize, t: f32) {
    let (a, b) = (proved::search(s, m), rules::search(s, m));
    same("search", (a.number, a.bin, bits(a.value)), (b.0, b.1, bits(b.2)));
    let (a, b) = (proved::floor(s, bin, w), rules::floor(s, bin, w));
    same("floor", (a.number, bits(a.floor)), (b.0, bits(b.1)));
    c.met("floor refused 2", a.number == 2);
    c.met("floor refused 7", a.number == 7);
    c.met("floor refused 9", a.number == 9);
    let (a, b) = (proved::carrier(s, m, w, t), rules::carrier(s, m, w, t));
    same(
        "carrier",
        (a.number, a.peak == 1, a.bin, bits(a.fraction), bits(a.value), bits(a.floor)),
        (b.0, b.1, b.2, bits(b.3), bits(b.4), bits(b.5)),
    );
    let searched = if a.number == 0 { &s[s.len() / 2 - m..=s.len() / 2 + m] } else { &[] };
    let taken = a.number == 0;
    c.met("spectra", true);
    c.met("peaks", taken && a.peak == 1);
    c.met("weaks", taken && a.peak == 0);
    c.met("refused 2", a.number == 2);
    c.met("refused 5", a.number == 5);
    c.met("refused 9", a.number == 9);
    c.met("ties for the peak", taken && a.value > 0.0 && searched.iter().filter(|&&x| x == a.value).count() > 1);
    c.met("none above zero", taken && !searched.iter().any(|&x| x > 0.0));
    c.met("all negative", taken && s.iter().all(|&x| x < 0.0));
    c.met("blank, a peak", a.peak == 1 && s.iter().all(|&x| x == 0.0));
    c.met("NaN in the search", taken && searched.iter().any(|x| x.is_nan()));
    c.met("NaN floor, weak", taken && a.peak == 0 && a.floor.is_nan());
    c.met("infinite floor, threshold 0, weak", taken && a.peak == 0 && a.floor == f32::INFINITY && t == 0.0);
    c.met("infinite value", taken && a.value == f32::INFINITY);
    c.met("value on the threshold", a.peak == 1 && a.value > 0.0 && a.value == t * a.floor);
    c.met("fraction beyond half a bin", a.peak == 1 && a.fraction.abs() > 0.5);
    c.met("fraction NaN", a.peak == 1 && a.fraction.is_nan());
    c.met("peak at the first bin searched", a.peak == 1 && a.value > 0.0 && a.bin == s.len() / 2 - m);
    c.met("peak at the last bin searched", a.peak == 1 && a.value > 0.0 && m > 0 && a.bin == s.len() / 2 + m);
    c.met("notch over an end", a.peak == 1 && (a.bin < w || a.bin + w >= s.len()));
    c.met("threshold -0.0 taken", taken && t == 0.0 && t.is_sign_negative());
}

/// Every call over one spectrum of the Rust's length against the Rust.
fn against_rust(c: &mut Counts, s: &[f32], bin: usize, t: f32) {
    let (m, w) = (rust::M, rust::W);
    let (a, b) = (proved::search(s, m), rust::search(s));
    same("search, by the Rust", (a.number, a.bin, bits(a.value)), (0, b.0, bits(b.1)));
    same("floor, by the Rust", bits(proved::floor(s, bin, w).floor), bits(rust::floor(s, bin)));
    let a = proved::carrier(s, m, w, t);
    match rust::metric(s, t) {
        None => same("refusal, by the Rust", a.number, 5),
        Some((Some(floor), hertz)) => {
            let fraction = rust::fraction(s, b.0);
            same(
                "peak, by the Rust",
                (a.number, a.peak, a.bin, bits(a.fraction), bits(a.value), bits(a.floor)),
                (0, 1, b.0, bits(fraction), bits(b.1), bits(floor)),
            );
            let ours = ((a.bin as f64 + f64::from(a.fraction)) - (rust::N / 2) as f64) * rust::BINWIDTH;
            same("frequency, by the Rust", (ours.is_nan(), ours == hertz), (hertz.is_nan(), !hertz.is_nan()));
        }
        Some((None, _)) => same(
            "weak, by the Rust",
            (a.number, a.peak, bits(a.value), bits(a.floor)),
            (0, 0, bits(b.1), bits(rust::floor(s, b.0))),
        ),
    }
    c.met("spectra, by the Rust", true);
}

fn local_maximum(c: &mut Counts, r: &mut Random) {
    let v: Vec<f32> = match r.below(4) {
        0 => (0..5).map(|_| r.pick(&SPECIALS)).collect(),
        1 => (0..5).map(|_| r.pattern()).collect(),
        _ => (0..5).map(|_| r.below(3) as f32).collect(),
    };
    let a = proved::maximum(&v);
    same("local maximum", (a.number, a.yes == 1), rules::maximum(&v));
    same("local maximum, by the Rust", a.yes == 1, rust::local_maximum(v[..].try_into().unwrap()));
    c.met("local maxima", a.yes == 1);
    c.met("no local maxima", a.yes == 0);
    c.met("local maxima, third NaN", a.yes == 1 && v[2].is_nan());
    c.met("local maxima, a later one as great", a.yes == 1 && (v[3] == v[2] || v[4] == v[2]));
    c.met("no local maxima, an earlier one as great", a.yes == 0 && (v[0] == v[2] || v[1] == v[2]));
    let other = [1.0f32; 9];
    let n = r.below(10);
    let a = proved::maximum(&other[..n]);
    same("local maximum of another length", (a.number, a.yes == 1), rules::maximum(&other[..n]));
    c.met("local maximum refused 2", a.number == 2);
}

fn main() {
    let given: Option<Vec<u64>> = std::env::args().skip(1).map(|x| x.parse().ok()).collect();
    let Some(&[seed, count @ (1..)]) = given.as_deref() else {
        eprintln!("carrier-compare: two words, SEED from 0 and SPECTRA from 1");
        std::process::exit(2)
    };
    same("N, M and W", (rust::N, rust::M, rust::W), (1792, 672, 90));
    let r = &mut Random(seed);
    let c = &mut Counts::of(&[
        "spectra", "spectra, by the Rust", "peaks", "weaks", "refused 2", "refused 5", "refused 9", "floor refused 2", "floor refused 7",
        "floor refused 9", "ties for the peak", "none above zero", "all negative", "blank, a peak", "NaN in the search", "NaN floor, weak",
        "infinite floor, threshold 0, weak", "infinite value", "value on the threshold", "fraction beyond half a bin", "fraction NaN",
        "peak at the first bin searched", "peak at the last bin searched", "notch over an end", "threshold -0.0 taken", "local maxima",
        "no local maxima", "local maxima, third NaN", "local maxima, a later one as great", "no local maxima, an earlier one as great",
        "local maximum refused 2",
    ]);
    for _ in 0..count {
        // The Rust's length and half-widths.
        let s = spectrum(r, rust::N, rust::M);
        let (top, value) = rust::search(&s);
        let t = threshold(r, value, rust::floor(&s, top));
        let bin = r.below(rust::N);
        against_rust(c, &s, bin, t);
        against_rules(c, &s, rust::M, bin, rust::W, t);
        // Other lengths and half-widths, some of them refused.
        let n = match r.below(8) {
            0 => r.below(16),
            1 => 4090 + r.below(16),
            2 => r.below(4100),
            3 => 4 + 2 * r.below(6),
            _ => 4 + 2 * r.below(300),
        };
        let m = match r.below(8) {
            0 => r.pick(&[n / 2, n, usize::MAX, usize::MAX - 1]),
            1 => (n / 2).saturating_sub(1),
            2 => (n / 2).saturating_sub(2),
            _ => r.below((n / 2).max(1)),
        };
        let w = match r.below(8) {
            0 => r.pick(&[n, n + 1, usize::MAX]),
            1 => n.saturating_sub(1),
            2 => 0,
            _ => r.below(n.max(1)),
        };
        let bin = if r.below(8) == 0 { r.pick(&[n, n + 1, usize::MAX]) } else { r.below(n.max(1)) };
        let s = spectrum(r, n, m);
        let found = rules::search(&s, m);
        let t = threshold(r, found.2, rules::floor(&s, found.1, w).1);
        against_rules(c, &s, m, bin, w, t);
        local_maximum(c, r);
    }
    println!("carrier-compare: seed {seed}, every answer equal");
    for (name, times) in &c.0 {
        println!("{times:>10}  {name}");
    }
    if c.0.values().any(|&times| times == 0) {
        eprintln!("carrier-compare: a count is 0: more spectra, or another seed");
        std::process::exit(1);
    }
}
