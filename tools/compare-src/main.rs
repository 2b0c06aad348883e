//! The proved decoder against the published Rust, and against the rules written down a second time. Built and run by tools/compare.
mod counts;
mod generate;
mod proved;
mod recipe;
mod rules;
mod trays;

use counts::Counts;
use proved::Lent;
use recipe::Random;
use rules::{Answer, Both, Settings, Tables, Window, bits};
use std::fmt::Debug;
use std::fs::File;
use std::io::Write;
use std::time::Instant;
use trays::Trays;

/// The four variants of the Rust, each with its answers in the same form.
struct Oracles {
    a: oracle_a::Oracle,
    b: oracle_b::Oracle,
    l: oracle_l::Oracle,
    s: oracle_s::Oracle,
}

macro_rules! ask {
    ($oracle:expr, $s:expr, $samples:expr, $index:expr) => {{
        if !$oracle.set(($s.level, $s.threshold, $s.second, $s.distance)) {
            panic!("the Rust refuses the settings {:?}", $s);
        }
        match $oracle.decode($samples, $index) {
            None => Answer::refused(1),
            Some((place, message, repairs, slicer, cn0, index, fraction)) => Answer {
                number: 0,
                place: place.map(|x| x as u64),
                message,
                repairs: repairs.map(u64::from),
                slicer: u64::from(slicer),
                cn0,
                index,
                fraction,
                undecided: 0,
                // The Rust does not name the trial: it is the one that looks for so many errors in this slicer's bits.
                trial: 1 + 2 * u64::from(repairs[0]) + u64::from(slicer),
            },
        }
    }};
}

/// What disagrees: the first are printed, all are counted.
#[derive(Default)]
struct Faults(u64);

impl Faults {
    fn same<T: PartialEq + Debug>(&mut self, what: &str, window: u64, ours: T, theirs: T) -> bool {
        if ours == theirs {
            return true;
        }
        self.0 += 1;
        if self.0 <= 10 {
            println!("compare: {what} disagrees at window {window}\n  proved: {ours:?}\n  other:  {theirs:?}");
        }
        false
    }
}

fn all_bits(xs: &[f32]) -> Vec<u32> {
    xs.iter().map(|&x| bits(x)).collect()
}

const KERNEL_NAMES: &[&str] = &[
    "kernels: windows",
    "kernels: a row of another length refused",
    "kernels: another length refused, output #1-4",
    "kernels: symbols of no message refused",
    "kernels: remainders and distances",
    "kernels: offset 33 refused",
    "kernels: powers",
    "kernels: headers taken",
    "kernels: headers not taken",
    "kernels: position above 111 refused",
    "kernels: parabolas",
    "kernels: cn0",
];

/// Of all bits that the symbols of a place give, by kind of message and slicer.
const PLACE_NAMES: &[&str] = &[
    "112 bits, coherent: none undecided",
    "112 bits, coherent: one undecided",
    "112 bits, coherent: many undecided",
    "112 bits, coherent: all undecided",
    "112 bits, noncoherent: none undecided",
    "112 bits, noncoherent: one undecided",
    "112 bits, noncoherent: many undecided",
    "112 bits, noncoherent: all undecided",
    "56 bits, coherent: none undecided",
    "56 bits, coherent: one undecided",
    "56 bits, coherent: many undecided",
    "56 bits, coherent: all undecided",
    "56 bits, noncoherent: none undecided",
    "56 bits, noncoherent: one undecided",
    "56 bits, noncoherent: many undecided",
    "56 bits, noncoherent: all undecided",
];

/// Both slicings of each clock phase: the bits by the Rust, the marks by the rules. Then calls that are refused: their memory stays.
fn slicings(c: &mut Counts, f: &mut Faults, r: &mut Random, number: u64, symbols: &[f32], bits: &[Vec<u8>; 2], w: &Window) {
    let marks = [0, 1].map(|slicer| w.marks(slicer));
    for k in 0..4 {
        let row = &symbols[576 * k..576 * k + 576];
        let mut out = [(); 4].map(|()| vec![0xA5; 36]);
        f.same("streams: number", number, proved::streams(row, &mut out), 0);
        let theirs = [&bits[0], &bits[1], &marks[0], &marks[1]].map(|all| all[36 * k..36 * k + 36].to_vec());
        f.same("streams and marks", number, &out, &theirs);
        f.same("the last mark of stream 1", number, [out[2][35] & 1, out[3][35] & 1], [1, 1]);
    }
    let row = &symbols[..576];
    let mut call = |name: &str, row: &[f32], lengths: [usize; 4], refused: u32| {
        let untouched = lengths.map(|n| vec![0xA5; n]);
        let mut out = untouched.clone();
        let got = (proved::streams(row, &mut out), out);
        c.met(name, f.same("a slicing that is refused", number, got, (refused, untouched)));
    };
    for k in 0..4 {
        let mut lengths = [36; 4];
        lengths[k] = r.pick(&[0, 1, 18, 35, 37, 72]);
        call(&format!("kernels: another length refused, output {}", k + 1), row, lengths, 3);
        // A row is looked at first.
        let short = r.pick(&[0, 1, 288, 574, 575]);
        lengths[k] = r.pick(&[36, lengths[k]]);
        call("kernels: a row of another length refused", &row[..short], lengths, 2);
    }
}

/// How many bits were undecided at each place that ends within the window, by the symbols alone.
fn counted(c: &mut Counts, f: &mut Faults, r: &mut Random, number: u64, symbols: &[f32], w: &Window) {
    for kind in [&rules::LONG, &rules::SHORT] {
        for (phase, start) in (0..4).flat_map(|phase| (0..=288 - 2 * kind.bits).map(move |start| (phase, start))) {
            let row = &symbols[576 * phase + 2 * start..][..4 * kind.bits];
            for slicer in 0..2 {
                let ours = proved::undecided(row, slicer);
                let count = w.undecided(kind, slicer, [start / 2, phase, start % 2]).count_ones();
                f.same("undecided bits of a place", number, (ours.number, ours.value), (0, count));
                let amount = rules::how_many(kind.bits, u64::from(count));
                c.met(&format!("kernels: {} bits, {}: {amount}", kind.bits, rules::SLICERS[slicer]), true);
            }
        }
    }
    let length = r.pick(&[0, 1, 222, 223, 225, 226, 446, 447, 449, 450, 576]);
    let ours = proved::undecided(&symbols[..length], r.below(2));
    let refused = f.same("symbols of no message", number, (ours.number, ours.value), (2, 0));
    c.met("kernels: symbols of no message refused", refused);
}

/// Symbols, streams, marks, undecided bits, remainders, distances, powers and headers of the window that oracle a has decoded.
fn kernels(
    c: &mut Counts,
    f: &mut Faults,
    r: &mut Random,
    o: &oracle_a::Oracle,
    number: u64,
    samples: &[f32],
    message: &[u8; 14],
) {
    c.met("kernels: windows", true);
    let mut symbols = vec![0.0; 2304];
    f.same("symbols: number", number, proved::symbols(samples, &mut symbols), 0);
    f.same("symbols", number, all_bits(&symbols), all_bits(&o.symbols()));
    let theirs = o.streams();
    let w = &Window::of(samples);
    slicings(c, f, r, number, &symbols, &theirs, w);
    counted(c, f, r, number, &symbols, w);
    for at in (0..144).step_by(18) {
        let [a, b] = [&theirs[0][at..at + 18], &theirs[1][at..at + 18]];
        for offset in 0..33 {
            for stream in [a, b] {
                let ours = proved::remainder(stream, offset);
                f.same("remainder", number, (ours.number, ours.value), (0, oracle_a::remainder(stream, offset)));
            }
            let ours = proved::distance(a, b, offset);
            f.same("distance", number, (ours.number, ours.value), (0, oracle_a::distance(a, b, offset)));
            c.met("kernels: remainders and distances", true);
        }
        c.met("kernels: offset 33 refused", f.same("offset 33", number, proved::remainder(a, 33).number, 7));
        // A header at an offset, with repairs that fall into it or not.
        let (offset, stream) = (r.below(33), if r.often(2) { a } else { b });
        let mut stream = stream.to_vec();
        if r.often(2) {
            stream[offset / 8] = 0x88 >> (offset % 8);
        }
        let most = r.pick(&[8, 112]);
        let repairs = [r.below(3) as u8, r.below(most) as u8, r.below(112) as u8];
        let ours = proved::header(&stream, offset, repairs);
        let theirs = oracle_a::header(&stream, offset, repairs);
        f.same("header", number, (ours.number, ours.value), (0, u32::from(theirs)));
        c.met("kernels: headers taken", theirs);
        c.met("kernels: headers not taken", !theirs);
        let high = [1, 112 + r.below(144) as u8, 0];
        c.met("kernels: position above 111 refused", f.same("position", number, proved::header(&stream, offset, high).number, 8));
    }
    for _ in 0..4 {
        let start = r.below(260);
        let mut m = *message;
        if r.often(2) {
            m = std::array::from_fn(|_| r.word() as u8);
        }
        let row = &symbols[576 * (start % 4) + 2 * (start / 4)..][..448];
        let ours = proved::power(row, &m);
        f.same("power", number, (ours.number, bits(ours.power)), (0, bits(oracle_a::power(row, &m))));
        let part = &samples[2 * start..2 * start + 1792];
        let noise = proved::noise_power(part, &m);
        f.same("noise power", number, (noise.number, bits(noise.power)), (0, bits(oracle_a::noise_power(part, &m))));
        c.met("kernels: powers", true);
        let cn0 = proved::cn0(ours.power, noise.power);
        f.same("cn0", number, bits(cn0), bits(rules::cn0_of(ours.power, noise.power)));
        c.met("kernels: cn0", true);
        let x = [ours.power, noise.power, if r.often(3) { r.pattern() } else { ours.power * r.unit() }];
        let [a, b, d] = [r.pick(&x), r.pick(&x), r.pick(&x)];
        f.same("parabola", number, bits(proved::parabola(a, b, d)), bits(oracle_a::parabola(a, b, d)));
        c.met("kernels: parabolas", true);
    }
}

/// Every lookup there is: all 2^24 remainders, and some numbers above them. A row of them is as long as a window's.
fn lookups(f: &mut Faults, t: &Tables) {
    let (mut singles, mut doubles) = (0, 0);
    let all: Vec<u32> = (0..1 << 24).chain([1 << 24, u32::MAX]).collect();
    for crcs in all.chunks(496) {
        let mut codes = vec![0; crcs.len()];
        f.same("row of lookups, its number", u64::from(crcs[0]), proved::codes(crcs, &mut codes), 0);
        for (&crc, code) in crcs.iter().zip(codes) {
            let one = oracle_a::single(crc).map_or([0; 4], |j| [1, 1, u32::from(j), 0]);
            let two = oracle_a::double(crc).map_or([0; 4], |(j, k)| [1, 2, u32::from(j), u32::from(k)]);
            let ours = [proved::single(crc), proved::double(crc)].map(|x| [x.found, x.count, x.first, x.second]);
            f.same("single lookup", u64::from(crc), ours[0], one);
            f.same("double lookup", u64::from(crc), ours[1], two);
            let wanted = match [u32::from(crc == 0), one[0], two[0]] {
                [1, 0, 0] => 0xFFFF,
                [0, 1, 0] => one[2] << 8 | 0xFF,
                [0, 0, 1] => two[2] << 8 | two[3],
                _ => 0x10000,
            };
            f.same("row of lookups", u64::from(crc), code, wanted);
            if crc < 1 << 24 {
                let ruled = [1, 2].map(|n| t.clearing(n, crc).map_or([0; 4], |[n, j, k]| [1, n as u32, j as u32, k as u32]));
                f.same("lookup, by the rules", u64::from(crc), ours, ruled);
            }
            singles += one[0];
            doubles += two[0];
        }
    }
    let mut codes = [0xA5A5; 2];
    let number = proved::codes(&[0], &mut codes);
    f.same("row of lookups, with a length too many", 0, (number, codes), (3, [0xA5A5; 2]));
    f.same("how many single and double errors", 0, (singles, doubles), (112, 6216));
    println!("lookups: all 16,777,216 remainders, {singles} single and {doubles} double errors");
}

/// The remainders of random strings of 0 to 64 bytes.
fn remainders(f: &mut Faults, seed: u64) {
    const STRINGS: u64 = 1_000_000;
    let (r, mut lengths) = (&mut Random(!seed), [0; 65]);
    for number in 0..STRINGS {
        let bytes: Vec<u8> = (0..r.below(65)).map(|_| r.word() as u8).collect();
        let ours = proved::checksum(&bytes);
        f.same("remainder of a string", number, ours, oracle_a::checksum(&bytes));
        f.same("remainder of a string, by the division", number, ours, divided(&bytes));
        lengths[bytes.len()] += 1;
    }
    f.same("whether a length never came up", 0, lengths.contains(&0), false);
    println!("remainders: {STRINGS} strings of 0 to 64 bytes");
}

/// Every first byte with up to two bits turned over, and what is refused, for either kind.
fn headers(f: &mut Faults) {
    const POSITIONS: [u32; 14] = [0, 1, 2, 3, 4, 5, 6, 7, 8, 55, 56, 111, 112, u32::MAX];
    let pairs = POSITIONS.map(|j| POSITIONS.map(|k| [j, k]));
    for first in 0..=255u8 {
        for (count, [j, k]) in (0..4).flat_map(|count| pairs.iter().flatten().map(move |pair| (count, *pair))) {
            let counted = &[j, k][..count.min(2)];
            let turned = counted.iter().filter(|j| **j < 8).fold(first, |b, j| b ^ 0x80 >> j);
            let wanted = [&rules::LONG, &rules::SHORT].map(|kind| match count {
                3 => (4, 0),
                _ if counted.iter().any(|j| *j as usize >= kind.bits) => (8, 0),
                _ => (0, u32::from(kind.header(turned))),
            });
            f.same("headers", u64::from(first), proved::headers(first, count as u32, j, k), wanted);
        }
    }
}

/// By the number of the kind.
const ADDRESS_NAMES: &[&str] = &["address: none", "address: ICAO", "address: another kind", "address: told by a flag"];

/// Whose address a message has, by the rules; the Rust does not tell.
fn address(c: &mut Counts, f: &mut Faults, number: u64, message: &[u8; 14]) {
    let kind = rules::address_kind(message[0]);
    f.same("kind of address", number, proved::address_kind(message[0]), kind);
    c.met(ADDRESS_NAMES[kind as usize], true);
}

/// Calls that are refused: the number, and lent memory as it was.
fn refusals(c: &mut Counts, f: &mut Faults, r: &mut Random, t: &Both, number: u64, samples: &[f32], s: Settings, index: u64) {
    let bad = [f32::NAN, f32::INFINITY, f32::NEG_INFINITY];
    let (mut samples, mut s, mut index) = (samples, s, index);
    let mut sizes = [Lent::LONG, Lent::SHORT];
    for _ in 0..1 + r.below(2) {
        match r.below(5) {
            0 => samples = &samples[..r.pick(&[0, 1, 2308, 2309]).min(samples.len())],
            1 => sizes[r.below(2)][r.below(3)] = r.below(20),
            2 => s.level = r.pick(&[3, 4, u32::MAX]),
            3 if r.often(2) => s.threshold = r.pick(&bad),
            3 => s.second = r.pick(&bad),
            _ => index = r.pick(&[0, 127, (1 << 63) + 1, u64::MAX]),
        }
    }
    let good = [sizes[0] == Lent::LONG, sizes[1] == Lent::SHORT];
    let found = [&t.long, &t.short].map(|t| rules::decode(t, &mut Counts::default(), samples, s, index).number);
    let ruled = |k: usize, good: bool| if good || found[k] == 2 { found[k] } else { 3 };
    let mut out = sizes.map(Lent::marked);
    let mut got = [0; 2];
    got[0] = proved::decode_into(samples, s, index, &mut out[0]);
    got[1] = proved::decode_short_into(samples, s, index, &mut out[1]);
    f.same("refusal", number, got, [0, 1].map(|k| ruled(k, good[k])));
    // The call for both is refused where either would be.
    let mut pair = sizes.map(Lent::marked);
    let [long, short] = &mut pair;
    let numbers = proved::decode_both_into(samples, s, index, long, short);
    f.same("refusal of both", number, numbers, [0, 1].map(|k| ruled(k, good[0] && good[1])));
    for k in 0..2 {
        if got[k] != 0 {
            f.same("memory of a refused call", number, &out[k], &Lent::marked(sizes[k]));
        }
        if numbers[k] != 0 {
            f.same("memory of a refused call for both", number, &pair[k], &Lent::marked(sizes[k]));
        }
        if (2..=6).contains(&got[k]) {
            c.met(&format!("{}refused {}", [t.long.kind, t.short.kind][k].under, got[k]), true);
        }
    }
    // The Rust refuses thresholds that are not finite, and has no level but its three.
    let taken = oracle_a::Oracle::default().set((s.level, s.threshold, s.second, s.distance));
    f.same("settings, by the Rust", number, taken, s.level <= 2 && s.threshold.is_finite() && s.second.is_finite());
}

/// By what the two searches found in a window.
const PAIR_NAMES: &[&str] =
    &["both: a long and a short message", "both: a long message alone", "both: a short message alone", "both: nothing"];

const REPLY_NAMES: &[&str] = &[
    "reply: code 1, taken with a repair at 55",
    "reply: code 2, taken with a repair at 54",
    "reply: code 4, taken with a repair at 53",
    "reply: code 8, taken with a repair at 52",
    "reply: code 16, taken with a repair at 51",
    "reply: code 32, taken with a repair at 50",
    "reply: code 64, taken with a repair at 49",
    "reply: a code of more bits, not taken",
    "reply: a code of one bit at level 0, not taken",
];

/// A reply to an interrogator is taken as the squitter that it is not exactly where its code has one bit and one repair is allowed.
fn reply(c: &mut Counts, f: &mut Faults, number: u64, level: u32, code: u8, squitter: &[u8; 14], short: &Answer) {
    let taken = short.number == 0 && short.message == *squitter;
    if !taken {
        c.met(REPLY_NAMES[if code.is_power_of_two() { 8 } else { 7 }], !code.is_power_of_two() || level == 0);
        return;
    }
    f.same("a reply is taken: one bit in its code, one repair allowed", number, (code.count_ones(), level > 0), (1, true));
    let bit = code.trailing_zeros();
    f.same("a reply is taken: its repair", number, short.repairs, [1, 55 - u64::from(bit), 0]);
    c.met(REPLY_NAMES[bit as usize], true);
}

const CAUSES: &[&str] = &[
    "A: agrees in every field",
    "A: cn0 alone, by the logarithm",
    "A: another answer, by the logarithm at a threshold",
    "A: another place, by the logarithm in the choice",
    "A: another answer, by the slip",
    "A: another answer, by logarithm and slip",
];
const LIMIT: f32 = 0.0002;

/// Why the Rust as published answers something else, or nothing that is known.
fn cause(ours: &Answer, a: &Answer, l: &Answer, s: &Answer, b: &Answer) -> Option<&'static str> {
    let near = |x: &Answer, y: &Answer| {
        let gap = (x.cn0 - y.cn0).abs();
        x.but_cn0().fields() == y.but_cn0().fields() && (bits(x.cn0) == bits(y.cn0) || gap <= LIMIT)
    };
    if ours.fields() == a.fields() {
        return Some(CAUSES[0]);
    }
    if near(ours, a) && ours.fields() == l.fields() {
        return Some(CAUSES[1]);
    }
    if ours.fields() == l.fields() {
        let chosen = ours.number == 0 && a.number == 0 && ours.repairs[0] == a.repairs[0];
        return Some(CAUSES[if chosen { 3 } else { 2 }]);
    }
    if near(ours, s) {
        return Some(CAUSES[4]);
    }
    (ours.fields() == b.fields()).then_some(CAUSES[5])
}

struct Given {
    seed: u64,
    windows: u64,
    first: u64,
    variants: String,
    lookups: bool,
    record: Option<File>,
    show: bool,
}

/// A wrong call: one line, status 2.
fn stop(why: String) -> ! {
    eprintln!("compare: {why}");
    std::process::exit(2)
}

fn given() -> Given {
    let mut g = Given { seed: 1, windows: 2000, first: 0, variants: "AB".into(), lookups: false, record: None, show: false };
    let mut words = std::env::args().skip(1);
    while let Some(word) = words.next() {
        let mut value = || words.next().unwrap_or_else(|| stop(format!("{word} wants a value")));
        let mut number = |least: u64, most: u64| {
            let text = value();
            let n = text.parse().ok().filter(|n| (least..=most).contains(n));
            n.unwrap_or_else(|| stop(format!("{word}: '{text}' is not a whole number from {least} to {most}")))
        };
        match word.as_str() {
            "--seed" => g.seed = number(0, u64::MAX),
            "--windows" => g.windows = number(1, u64::MAX / 2),
            "--first" => g.first = number(0, u64::MAX / 2),
            "--variant" => match value() {
                v if ["A", "B", "AB"].contains(&v.as_str()) => g.variants = v,
                v => stop(format!("--variant: '{v}' is not A, B or AB")),
            },
            "--lookups" => g.lookups = true,
            "--record" => {
                let path = value();
                g.record = Some(File::create(&path).unwrap_or_else(|why| stop(format!("--record: {path}: {why}"))));
            }
            "--show" => g.show = true,
            _ => stop(format!("{word} is not known")),
        }
    }
    g
}

fn has(samples: &[f32], test: impl Fn(f32) -> bool) -> bool {
    samples.iter().any(|&x| test(x))
}

fn main() {
    let g = given();
    let t = &Both::new();
    let [long, short] = [t.long.kind.under, t.short.kind.under];
    let c = &mut Counts::of(&[
        (long, rules::NAMES),
        (long, rules::LONG_NAMES),
        (short, rules::NAMES),
        (short, rules::SHORT_NAMES),
        ("", generate::NAMES),
        ("", KERNEL_NAMES),
        ("kernels: ", PLACE_NAMES),
        ("", ADDRESS_NAMES),
        ("", PAIR_NAMES),
        ("", REPLY_NAMES),
        ("", trays::NAMES),
    ]);
    let causes = &mut Counts::of(&[("", CAUSES)]);
    let f = &mut Faults::default();
    let mut recorded = vec![];
    let mut trays = Trays::new(g.seed);
    let mut o = Oracles {
        a: oracle_a::Oracle::default(),
        b: oracle_b::Oracle::default(),
        l: oracle_l::Oracle::default(),
        s: oracle_s::Oracle::default(),
    };
    f.same("the check value of the CRC, by the division", 0, oracle_a::checksum(b"123456789"), divided(b"123456789"));
    for first in 0..=255 {
        f.same("kind of address, by the first byte", u64::from(first), proved::address_kind(first), rules::address_kind(first));
    }
    remainders(f, g.seed);
    headers(f);
    for t in [&t.long, &t.short] {
        f.same("zeros, as undecided bits are, are a message", 0, t.takes_zeros(), false);
        f.same("the fewest ones of a message", 0, t.fewest_is_so(), true);
    }
    if g.lookups {
        lookups(f, &t.long);
    }
    for (name, wanted, recipe) in generate::named() {
        let (samples, s, index) = (recipe.window(), recipe.settings, recipe.index);
        let ours = proved::decode(&samples, s, index);
        let [a, b] = [ask!(o.a, s, &samples, index), ask!(o.b, s, &samples, index)];
        let [l, only_s] = [ask!(o.l, s, &samples, index), ask!(o.s, s, &samples, index)];
        let [long, short] = [&t.long, &t.short].map(|t| rules::decode(t, &mut Counts::default(), &samples, s, index));
        let known = ours.but_undecided();
        f.same(name, 0, known.fields(), b.fields());
        f.same(name, 0, cause(&known, &a, &l, &only_s, &b), Some(CAUSES[wanted]));
        f.same(name, 0, ours.fields(), long.fields());
        recorded.push(recipe.record(&Answer { undecided: long.undecided, trial: long.trial, ..b }, &short));
        if g.show {
            println!("{name}\n  ours: {ours:?}\n  A:    {a:?}");
        }
    }
    let [with_a, with_b] = ["A", "B"].map(|v| g.variants.contains(v));
    let (mut met_before, mut shown) = (vec![0u64; c.0.len()], [0; 6]);
    let (mut unclassified, mut differs_b, mut largest) = (0u64, 0u64, 0f32);
    // By kind of message and slicer.
    let mut most_undecided = [[0; 2]; 2];
    let began = Instant::now();
    let mut told = began;
    for number in g.first..g.first + g.windows {
        let made = generate::make(t, g.seed, number);
        let (samples, s, index) = (&made.samples[..], made.settings, made.index);
        c.met(made.kind, true);
        c.met("thresholds set by a first decode", made.adjusted);
        c.met("has NaN", has(samples, f32::is_nan));
        c.met("has infinities", has(samples, f32::is_infinite));
        c.met("has subnormals", has(samples, f32::is_subnormal));
        c.met("has huge numbers", has(samples, |x| x.is_finite() && x.abs() > 1e30));
        c.met("has zeros", has(samples, |x| x.to_bits() == 0));
        c.met("has minus zeros", has(samples, |x| x.to_bits() == 1 << 31));
        let before: Vec<u64> = if g.record.is_some() { c.0.values().copied().collect() } else { vec![] };
        let ruled = rules::decode(&t.long, c, samples, s, index);
        let ours = proved::decode(samples, s, index);
        f.same("answer, by the rules", number, ours.fields(), ruled.fields());
        let short_ruled = rules::decode(&t.short, c, samples, s, index);
        let short = proved::decode_short(samples, s, index);
        f.same("short answer, by the rules", number, short.fields(), short_ruled.fields());
        let pair = proved::decode_both(samples, s, index).map(|a| a.fields());
        f.same("answers of both searches", number, pair, [ours.fields(), short.fields()]);
        c.met(PAIR_NAMES[(2 * ours.number + short.number) as usize], true);
        if let Some((code, squitter)) = &made.reply {
            reply(c, f, number, s.level, *code, squitter, &short);
        }
        for (kind, found) in [ours, short].iter().enumerate().filter(|(_, found)| found.number == 0) {
            let most = &mut most_undecided[kind][found.slicer as usize];
            *most = found.undecided.max(*most);
        }
        // The Rust has no marks: undecided bits are compared with the rules alone. The trial is compared with both.
        let known = ours.but_undecided();
        let b = ask!(o.b, s, samples, index);
        if with_b && !f.same("answer, by the Rust B", number, known.fields(), b.fields()) {
            differs_b += 1;
        }
        let a = ask!(o.a, s, samples, index);
        if with_a {
            let (l, only_s) = (ask!(o.l, s, samples, index), ask!(o.s, s, samples, index));
            match cause(&known, &a, &l, &only_s, &b) {
                Some(name) => {
                    causes.met(name, true);
                    if name == CAUSES[1] && (ours.cn0 - a.cn0).abs() > largest {
                        largest = (ours.cn0 - a.cn0).abs();
                    }
                    let k = CAUSES.iter().position(|x| *x == name).unwrap();
                    shown[k] += 1;
                    if g.show && k >= 2 && shown[k] <= 5 {
                        println!("{name}: window {number}, {}\n  ours: {ours:?}\n  A:    {a:?}", made.kind);
                    }
                }
                None => {
                    unclassified += 1;
                    f.same("A differs for no known cause: answer", number, known.fields(), a.fields());
                }
            }
        }
        let r = &mut Random(number ^ g.seed << 40);
        if number % 16 == 0 {
            kernels(c, f, r, &o.a, number, samples, &ours.message);
        }
        if number % 8 == 0 {
            refusals(c, f, r, t, number, samples, s, index);
        }
        if let (Some(_), Some(recipe)) = (&g.record, &made.recipe) {
            // A window is kept where it brings something that is still rare in the list.
            let now: Vec<u64> = c.0.values().copied().collect();
            let brings: Vec<usize> = (0..now.len()).filter(|&k| now[k] > before[k]).collect();
            if brings.iter().any(|&k| met_before[k] < 12) && recipe.fits() {
                brings.iter().for_each(|&k| met_before[k] += 1);
                recorded.push(recipe.record(&Answer { undecided: ruled.undecided, trial: ruled.trial, ..b }, &short_ruled));
            }
        }
        for found in [&ours, &short] {
            if found.number == 0 {
                address(c, f, number, &found.message);
            }
        }
        trays.take(c, f, number, samples, s, index);
        if told.elapsed().as_secs() >= 10 {
            told = Instant::now();
            let (done, total) = (number + 1 - g.first, g.windows);
            let rate = done as f64 / began.elapsed().as_secs_f64();
            let left = (total - done) as f64 / rate;
            eprintln!(
                "compare: {done} of {total} windows, {rate:.0} a second, {:.0} min {:02.0} s left, {} disagree",
                (left / 60.0).floor(),
                left % 60.0,
                f.0
            );
        }
    }
    trays.call(c, f);
    f.same("windows that went through a tray", 0, c.0["tray: windows"], g.windows);
    let seconds = began.elapsed().as_secs_f64();
    println!(
        "compare: seed {}, windows {} to {}, {seconds:.0} s, {:.0} a second",
        g.seed,
        g.first,
        g.first + g.windows - 1,
        g.windows as f64 / seconds
    );
    for (name, times) in &c.0 {
        println!("{times:>12}  {name}");
    }
    for (t, [coherent, noncoherent]) in [&t.long, &t.short].iter().zip(most_undecided) {
        let (bits, most) = (t.kind.bits, t.kind.most_undecided());
        println!("the most undecided of {bits} bits: coherent {coherent}, noncoherent {noncoherent}; there can be {most}");
    }
    if with_a {
        for (name, times) in &causes.0 {
            println!("{times:>12}  {name}");
        }
        println!("{unclassified:>12}  A: differs for no known cause");
        println!("the largest gap of cn0 to A: {largest} dB");
    }
    if let Some(mut file) = g.record.as_ref() {
        file.write_all(&(recorded.len() as u32).to_le_bytes()).unwrap();
        recorded.iter().for_each(|x| file.write_all(x).unwrap());
        println!("compare: {} windows recorded", recorded.len());
    }
    let none = c.none();
    none.iter().for_each(|name| println!("compare: never met: {name}"));
    println!("compare: {} windows, B disagrees at {differs_b}, {} faults in all, {} counts are 0", g.windows, f.0, none.len());
    if f.0 > 0 || !none.is_empty() {
        std::process::exit(1);
    }
}

/// The remainder of a string of bytes, one bit at a time.
fn divided(bytes: &[u8]) -> u32 {
    let mut r: u32 = 0;
    for j in 0..8 * bytes.len() + 24 {
        let bit = bytes.get(j / 8).map_or(0, |b| b >> (7 - j % 8) & 1);
        r = 2 * r + u32::from(bit);
        if r >> 24 == 1 {
            r ^= 0x1FF_F409;
        }
    }
    r
}
