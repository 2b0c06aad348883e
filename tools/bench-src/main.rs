//! The proved decoder and the published Rust on the same windows, in turn. Built and run by tools/bench.
#[path = "../compare-src/counts.rs"]
mod counts;
mod kinds;
#[path = "../compare-src/recipe.rs"]
mod recipe;
#[path = "../compare-src/rules.rs"]
mod rules;

use kinds::Windows;
use recipe::Random;
use rules::Settings;
use std::hint::black_box;
use std::time::Instant;

const INDEX: u64 = 128_000;
/// How many whole numbers a decode writes, and one result of a tray.
const WORDS: usize = 10;
const RESULT_WORDS: usize = 11;
/// How many windows a tray has.
const TRAY: usize = 64;

/// Who decodes: each has its windows at hand, and answers whether window i holds a message.
type Decoder = Box<dyn FnMut(usize) -> bool>;

/// The numbers of a decode of both kinds.
#[repr(C)]
#[derive(Clone, Copy)]
struct Numbers {
    long: u32,
    short: u32,
}

/// Samples, settings, index, and the memory that is lent for one message: bytes, whole numbers, floats.
macro_rules! decode {
    ($name:ident) => {
        fn $name(
            samples: *const f32,
            samples_len: usize,
            level: u32,
            threshold: f32,
            second: f32,
            distance: u32,
            index: u64,
            message: *mut u8,
            message_len: usize,
            words: *mut u64,
            words_len: usize,
            floats: *mut f32,
            floats_len: usize,
        ) -> u32;
    };
}
/// The same with memory for a second one.
macro_rules! decode_both {
    ($name:ident) => {
        fn $name(
            samples: *const f32,
            samples_len: usize,
            level: u32,
            threshold: f32,
            second: f32,
            distance: u32,
            index: u64,
            message: *mut u8,
            message_len: usize,
            words: *mut u64,
            words_len: usize,
            floats: *mut f32,
            floats_len: usize,
            short_message: *mut u8,
            short_message_len: usize,
            short_words: *mut u64,
            short_words_len: usize,
            short_floats: *mut f32,
            short_floats_len: usize,
        ) -> Numbers;
    };
}

/// Many windows, their indices, and memory for as many results.
macro_rules! decode_tray {
    ($name:ident) => {
        fn $name(
            count: usize,
            samples: *const f32,
            samples_len: usize,
            level: u32,
            threshold: f32,
            second: f32,
            distance: u32,
            indices: *const u64,
            indices_len: usize,
            messages: *mut u8,
            messages_len: usize,
            words: *mut u64,
            words_len: usize,
            floats: *mut f32,
            floats_len: usize,
        ) -> u32;
    };
}

/// For any processor of this kind, as it is shipped.
#[link(name = "khlongrae", kind = "static")]
unsafe extern "C" {
    decode!(khlongrae_decode);
    decode!(khlongrae_decode_short);
    decode_both!(khlongrae_decode_both);
    decode_tray!(khlongrae_tray);
    decode_tray!(khlongrae_tray_both);
    fn khlongrae_remainder(bytes: *const u8, bytes_len: usize) -> u32;
}

/// For this machine's own processor: tools/bench has put native_ before each name.
#[link(name = "khlongrae_native", kind = "static")]
unsafe extern "C" {
    decode!(native_khlongrae_decode);
    decode!(native_khlongrae_decode_short);
    decode_both!(native_khlongrae_decode_both);
    decode_tray!(native_khlongrae_tray);
    decode_tray!(native_khlongrae_tray_both);
    fn native_khlongrae_remainder(bytes: *const u8, bytes_len: usize) -> u32;
}

/// Another archive of the library, where tools/bench was given one: before_ stands before each name.
#[cfg(before)]
#[link(name = "khlongrae_before", kind = "static")]
unsafe extern "C" {
    decode!(before_khlongrae_decode);
    fn before_khlongrae_remainder(bytes: *const u8, bytes_len: usize) -> u32;
    fn before_khlongrae_version() -> u32;
}

/// How many whole numbers a decode writes, by the number of the library's interface: in 1 it did not count undecided bits, in 2 it did not
/// tell the trial.
#[cfg(before)]
fn words_by(version: u32) -> usize {
    match version {
        1 => 8,
        2 => 9,
        3 => WORDS,
        _ => panic!("the archive before has the interface number {version}, which is not known here"),
    }
}

/// A decode of messages of so many bytes, by a library that writes so many whole numbers.
macro_rules! one {
    ($decode:ident, $bytes:literal, $windows:expr, $s:expr) => {
        one!($decode, $bytes, $windows, $s, WORDS)
    };
    ($decode:ident, $bytes:literal, $windows:expr, $s:expr, $words:expr) => {{
        let (windows, s, n) = ($windows.to_vec(), $s, $words);
        let (mut message, mut words, mut floats) = ([0; $bytes], [0; WORDS], [0.0; 2]);
        Box::new(move |i: usize| {
            let x: &Vec<f32> = black_box(&windows[i]);
            let (m, w, f) = (message.as_mut_ptr(), words.as_mut_ptr(), floats.as_mut_ptr());
            unsafe { $decode(x.as_ptr(), x.len(), s.level, s.threshold, s.second, s.distance, INDEX, m, $bytes, w, n, f, 2) == 0 }
        }) as Decoder
    }};
}
/// One of both kinds.
macro_rules! two {
    ($decode:ident, $windows:expr, $s:expr) => {{
        let (windows, s) = ($windows.to_vec(), $s);
        let (mut message, mut words, mut floats) = ([0; 14], [0; WORDS], [0.0; 2]);
        let (mut short, mut short_words, mut short_floats) = ([0; 7], [0; WORDS], [0.0; 2]);
        Box::new(move |i: usize| {
            let x: &Vec<f32> = black_box(&windows[i]);
            let (m, w, f) = (message.as_mut_ptr(), words.as_mut_ptr(), floats.as_mut_ptr());
            let (n, v, g) = (short.as_mut_ptr(), short_words.as_mut_ptr(), short_floats.as_mut_ptr());
            let (x, len) = (x.as_ptr(), x.len());
            let both = unsafe {
                $decode(x, len, s.level, s.threshold, s.second, s.distance, INDEX, m, 14, w, WORDS, f, 2, n, 7, v, WORDS, g, 2)
            };
            both.long == 0 || both.short == 0
        }) as Decoder
    }};
}
/// All windows in one call, of one kind of message or of both: it is made for window 0, and for each other one its result is looked at.
macro_rules! tray {
    ($tray:ident, $kinds:literal, $bytes:literal, $windows:expr, $s:expr) => {{
        let (samples, s, n) = ($windows.concat(), $s, $windows.len());
        let indices = vec![INDEX; n];
        let (mut messages, mut floats) = (vec![0; $bytes * n], vec![0.0; 2 * $kinds * n]);
        let mut words = vec![0; $kinds * RESULT_WORDS * n];
        Box::new(move |i: usize| {
            if i == 0 {
                let x: &Vec<f32> = black_box(&samples);
                let (m, w, f) = (messages.as_mut_ptr(), words.as_mut_ptr(), floats.as_mut_ptr());
                let (mn, wn, fn_) = (messages.len(), words.len(), floats.len());
                let (x, len, j) = (x.as_ptr(), x.len(), indices.as_ptr());
                let number = unsafe { $tray(n, x, len, s.level, s.threshold, s.second, s.distance, j, n, m, mn, w, wn, f, fn_) };
                assert_eq!(number, 0, "a tray is refused");
            }
            let result = &words[$kinds * RESULT_WORDS * i..][..$kinds * RESULT_WORDS];
            result.chunks(RESULT_WORDS).any(|part| part[WORDS] == 0)
        }) as Decoder
    }};
}
/// The Rust keeps a window in its receiver: one receiver for each.
macro_rules! rust {
    ($oracle:ident, $windows:expr, $s:expr) => {{
        let mut receivers: Vec<$oracle::Oracle> = $windows
            .iter()
            .map(|w| {
                let mut o = $oracle::Oracle::default();
                assert!(o.set(($s.level, $s.threshold, $s.second, $s.distance)));
                o.load(w, INDEX);
                o
            })
            .collect();
        Box::new(move |i: usize| black_box(&mut receivers[i]).run()) as Decoder
    }};
}

/// The last may order its sums anew: the others all find the same messages.
const NAMES: [&str; 5] = ["khlongrae", "khlongrae-native", "rust", "rust-native", "rust-algebraic"];
/// The searches: as shipped, then for this machine's own processor.
const SEARCHES: [&str; 6] = ["khlongrae", "short", "both", "khlongrae-native", "short-native", "both-native"];
/// Single calls and a tray: as shipped, then for this machine's own processor; and the same of both kinds of message.
const TRAYS: [&str; 4] = ["khlongrae", "tray", "khlongrae-native", "tray-native"];
const TRAYS_BOTH: [&str; 4] = ["both", "tray-both", "both-native", "tray-both-native"];
/// The windows for them; those of both kinds have a short message too.
const TRAY_KINDS: [&str; 5] = ["noise", "message", "one-damaged", "two-damaged", "short"];
/// The remainder alone, and how long its strings are.
const DIVIDERS: [&str; 4] = ["khlongrae", "khlongrae-native", "rust", "rust-native"];
const LENGTHS: [usize; 4] = [7, 14, 64, 4096];

fn decoder(who: &str, windows: &[Vec<f32>], s: Settings) -> Decoder {
    match who {
        "khlongrae" => one!(khlongrae_decode, 14, windows, s),
        "khlongrae-native" => one!(native_khlongrae_decode, 14, windows, s),
        "short" => one!(khlongrae_decode_short, 7, windows, s),
        "short-native" => one!(native_khlongrae_decode_short, 7, windows, s),
        "both" => two!(khlongrae_decode_both, windows, s),
        "both-native" => two!(native_khlongrae_decode_both, windows, s),
        "tray" => tray!(khlongrae_tray, 1, 14, windows, s),
        "tray-native" => tray!(native_khlongrae_tray, 1, 14, windows, s),
        "tray-both" => tray!(khlongrae_tray_both, 2, 21, windows, s),
        "tray-both-native" => tray!(native_khlongrae_tray_both, 2, 21, windows, s),
        #[cfg(before)]
        "before" => one!(before_khlongrae_decode, 14, windows, s, words_by(unsafe { before_khlongrae_version() })),
        "rust" => rust!(oracle_a, windows, s),
        "rust-native" => rust!(oracle_n, windows, s),
        "rust-algebraic" => rust!(oracle_g, windows, s),
        _ => stop(),
    }
}

/// A remainder in place of a decode: whether that of string i is 0.
fn divider(who: &str, strings: &[Vec<u8>]) -> Decoder {
    let divide: fn(&[u8]) -> u32 = match who {
        "khlongrae" => |x| unsafe { khlongrae_remainder(x.as_ptr(), x.len()) },
        "khlongrae-native" => |x| unsafe { native_khlongrae_remainder(x.as_ptr(), x.len()) },
        #[cfg(before)]
        "before" => |x| unsafe { before_khlongrae_remainder(x.as_ptr(), x.len()) },
        "rust" => oracle_a::checksum,
        "rust-native" => oracle_n::checksum,
        _ => stop(),
    };
    let strings = strings.to_vec();
    Box::new(move |i| divide(black_box(&strings[i])) == 0)
}

/// Microseconds for a window, the windows in turn, for about `micros`.
fn time(decode: &mut Decoder, windows: usize, micros: f64) -> f64 {
    let (began, mut runs) = (Instant::now(), 0);
    loop {
        for i in 0..windows {
            black_box(decode(i));
        }
        runs += windows;
        let spent = began.elapsed().as_secs_f64() * 1e6;
        if spent > micros {
            return spent / runs as f64;
        }
    }
}

fn median(mut xs: Vec<f64>) -> f64 {
    xs.sort_by(f64::total_cmp);
    xs[xs.len() / 2]
}

/// The median time of each decoder. `agrees` holds of what each finds, window by window.
fn medians(mut decoders: Vec<Decoder>, windows: usize, rounds: usize, micros: f64, agrees: impl Fn(&[Vec<bool>]) -> bool) -> String {
    let found: Vec<Vec<bool>> = decoders.iter_mut().map(|d| (0..windows).map(|i| d(i)).collect()).collect();
    assert!(agrees(&found), "the decoders find messages in {found:?}");
    let mut times = vec![vec![]; decoders.len()];
    for round in 0..rounds {
        // Each round begins with another one: where the machine is shared, others may take it away at the same turn of every round.
        for turn in 0..decoders.len() {
            let k = (round + turn) % decoders.len();
            times[k].push(time(&mut decoders[k], windows, micros));
        }
    }
    let medians: Vec<String> = times.into_iter().map(|t| format!("{:.4}", median(t))).collect();
    medians.join(" ")
}

/// One line a kind and level: the median time of each decoder.
fn table(names: &[&str], kinds: Vec<Windows>, rounds: usize, micros: f64, agrees: impl Fn(&[Vec<bool>]) -> bool) {
    for Windows { name, samples, settings } in kinds {
        for level in 0..3 {
            let decoders = names.iter().map(|who| decoder(who, &samples, Settings { level, ..settings })).collect();
            println!("time {name} {level} {}", medians(decoders, samples.len(), rounds, micros, &agrees));
        }
    }
}

/// One line a length: the median time of the remainder of a string by each. Every second string has the remainder 0.
fn remainders(names: &[&str], rounds: usize, micros: f64) {
    for n in LENGTHS {
        let r = &mut Random(n as u64);
        let strings: Vec<Vec<u8>> = (0..64)
            .map(|i| {
                let mut x: Vec<u8> = (0..n - 3).map(|_| r.word() as u8).collect();
                x.extend(&(oracle_a::checksum(&x) ^ i % 2).to_be_bytes()[1..]);
                x
            })
            .collect();
        let dividers = names.iter().map(|who| divider(who, &strings)).collect();
        println!("length {n} {}", medians(dividers, strings.len(), rounds, micros, same));
    }
}

fn all_but_last(found: &[Vec<bool>]) -> bool {
    found[..found.len() - 1].iter().all(|f| *f == found[0])
}

fn same(found: &[Vec<bool>]) -> bool {
    found.iter().all(|f| *f == found[0])
}

/// Both find something where one of the two does.
fn pairs(found: &[Vec<bool>]) -> bool {
    found.chunks(3).all(|f| (0..f[0].len()).all(|i| f[2][i] == (f[0][i] || f[1][i])))
}

/// The whole time of n different windows, as shipped.
fn line(rounds: usize) {
    let Windows { samples, settings, .. } = kinds::all(1000).into_iter().find(|k| k.name == "message").unwrap();
    for n in [1, 8, 64, 1000] {
        let mut d = decoder("khlongrae", &samples[..n], Settings { level: 2, ..settings });
        let times = (0..rounds).map(|_| {
            let began = Instant::now();
            for i in 0..n {
                black_box(d(i));
            }
            began.elapsed().as_secs_f64() * 1e6
        });
        println!("line {n} {:.3}", median(times.collect()));
    }
}

/// The eight windows of a kind once over, n times: for a count of instructions.
fn repeat(name: &str, who: &str, n: usize) {
    let mut kinds = kinds::all(8).into_iter().chain(kinds::searched(8));
    let Some(Windows { samples, settings, .. }) = kinds.find(|k| k.name == name) else { stop() };
    let mut d = decoder(who, &samples, Settings { level: 2, ..settings });
    for _ in 0..n {
        for i in 0..8 {
            black_box(d(i));
        }
    }
}

/// A wrong call: one line, status 2.
fn stop() -> ! {
    eprintln!(
        "bench: table, searches, trays, trays-both, remainders, before or remainders-before ROUNDS MICROS, line ROUNDS or repeat KIND WHO N, each \
         number from 1"
    );
    std::process::exit(2)
}

fn main() {
    let words: Vec<String> = std::env::args().skip(1).collect();
    let number = |word: &str| word.parse::<usize>().ok().filter(|&n| n > 0).unwrap_or_else(|| stop());
    match words.iter().map(String::as_str).collect::<Vec<_>>()[..] {
        ["table", rounds, micros] => table(&NAMES, kinds::all(8), number(rounds), number(micros) as f64, all_but_last),
        ["searches", rounds, micros] => table(&SEARCHES, kinds::searched(8), number(rounds), number(micros) as f64, pairs),
        ["trays", rounds, micros] => table(&TRAYS, kinds::of(&TRAY_KINDS[..4], TRAY), number(rounds), number(micros) as f64, same),
        ["trays-both", rounds, micros] => {
            table(&TRAYS_BOTH, kinds::of(&TRAY_KINDS, TRAY), number(rounds), number(micros) as f64, same)
        }
        ["remainders", rounds, micros] => remainders(&DIVIDERS, number(rounds), number(micros) as f64),
        ["remainders-before", rounds, micros] => remainders(&["before", "khlongrae"], number(rounds), number(micros) as f64),
        ["before", rounds, micros] => table(&["before", "khlongrae"], kinds::all(8), number(rounds), number(micros) as f64, same),
        ["line", rounds] => line(number(rounds)),
        ["repeat", kind, who, n] => repeat(kind, who, number(n)),
        _ => stop(),
    }
}
