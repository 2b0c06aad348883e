//! The reader of files: what it reads, the first fault in the order of the file, and the windows before it.
use khlongrae::*;
use std::fmt::Write;
use std::io::{self, ErrorKind, Read};
use std::path::Path;

/// The parts of a file, in their order.
#[derive(Clone)]
struct Parts {
    settings: u32,
    level: u32,
    threshold: f32,
    second: f32,
    distance: u32,
    windows: u32,
    indices: Vec<u64>,
    numbers: u32,
    rows: usize,
}

const ROW: usize = 4 * WINDOW;

/// A file of so many windows. The numbers count on from 0.
fn parts(windows: u32) -> Parts {
    let indices = (0..u64::from(windows)).map(|k| 128 + 1000 * k).collect();
    Parts {
        settings: 4,
        level: 1,
        threshold: 60.5,
        second: -0.0,
        distance: 9,
        windows,
        indices,
        numbers: 2310 * windows,
        rows: windows as usize,
    }
}

impl Parts {
    fn bytes(&self) -> Vec<u8> {
        let mut bytes = Vec::new();
        for word in [self.settings, self.level, self.threshold.to_bits(), self.second.to_bits(), self.distance, self.windows] {
            bytes.extend(word.to_le_bytes());
        }
        for index in &self.indices {
            bytes.extend(index.to_le_bytes());
        }
        bytes.extend(self.numbers.to_le_bytes());
        for k in 0..self.rows * WINDOW {
            bytes.extend((k as f32).to_le_bytes());
        }
        bytes
    }
    fn head(&self) -> usize {
        24 + 8 * self.indices.len() + 4
    }
}

/// Changed parts of a file of two windows.
fn changed(change: impl Fn(&mut Parts)) -> Vec<u8> {
    let mut parts = parts(2);
    change(&mut parts);
    parts.bytes()
}

/// How many windows came, and what ended them. Behind an end there is nothing more.
fn read(input: impl Read) -> (usize, Option<FileError>) {
    let mut windows = match Windows::new(input) {
        Ok(windows) => windows,
        Err(error) => return (0, Some(error)),
    };
    let mut came = 0;
    loop {
        match windows.next() {
            Some(Ok(_)) => came += 1,
            end => {
                assert!(windows.next().is_none());
                return (came, end.map(|fault| fault.unwrap_err()));
            }
        }
    }
}

fn malformed(bytes: &[u8], came: usize, how: Malformed) {
    match read(bytes) {
        (n, Some(error @ FileError::Malformed(m))) => assert_eq!((n, m, error.number()), (came, how, 10)),
        other => panic!("{other:?} for {how:?} behind {came} windows"),
    }
}

fn refused(bytes: &[u8], refusal: Refusal) {
    match read(bytes) {
        (0, Some(error @ FileError::Refused(r))) => assert_eq!((r, error.number()), (refusal, refusal.number())),
        other => panic!("{other:?} for {refusal:?}"),
    }
}

fn whole(bytes: &[u8], windows: usize) {
    match read(bytes) {
        (n, None) => assert_eq!(n, windows),
        other => panic!("{other:?} for {windows} windows"),
    }
}

#[test]
fn a_file_is_read() {
    let bytes = parts(3).bytes();
    let windows = Windows::new(&bytes[..]).unwrap();
    assert_eq!(windows.settings(), Settings { level: 1, threshold: 60.5, second: 0.0, distance: 9 });
    assert!(windows.settings().second.is_sign_negative());
    assert_eq!(windows.announced(), 3);
    let came: Vec<Window> = windows.map(|window| window.unwrap()).collect();
    assert_eq!(came.iter().map(|window| window.index).collect::<Vec<_>>(), [128, 1128, 2128]);
    let numbers: Vec<f32> = came.iter().flat_map(|window| window.samples).collect();
    assert_eq!(numbers, (0..3 * WINDOW).map(|k| k as f32).collect::<Vec<_>>());
}

/// The line of a listing for a message of window k.
fn line<const N: usize>(k: usize, found: &Answer<N>) -> String {
    let bits = |x: f32| if x.is_nan() { 0x7FC0_0000 } else { x.to_bits() };
    let Answer { index, fraction, repairs, slicer, cn0, undecided, trial, .. } = *found;
    let address = found.address().map_or("-".into(), |address| address.to_string());
    let (avr, fraction, cn0) = (found.avr(), bits(fraction), bits(cn0));
    format!("{k} {index} {fraction:08X} {avr} {address} {repairs} {slicer} {cn0:08X} {undecided} {trial}\n")
}

#[test]
fn the_samples_are_listed() {
    let folder = Path::new(env!("CARGO_MANIFEST_DIR")).join("../../samples");
    for name in ["addresses", "blanked", "both", "listing", "noisy", "silent"] {
        let windows = Windows::new(std::fs::File::open(folder.join(name).with_extension("win")).unwrap()).unwrap();
        let settings = windows.settings();
        let mut text = format!("windows {}\n", windows.announced());
        for (k, window) in windows.enumerate() {
            let window = window.unwrap();
            let BothAnswers { long, short } = decode_both(&window.samples, settings, window.index).unwrap();
            match (long, short) {
                (None, None) => writeln!(text, "{k} none").unwrap(),
                _ => text.extend(long.map(|found| line(k, &found)).into_iter().chain(short.map(|found| line(k, &found)))),
            }
        }
        assert_eq!(text, std::fs::read_to_string(folder.join(name).with_extension("txt")).unwrap());
    }
}

#[test]
fn all_limits_are_taken() {
    for windows in [0, 1, 64] {
        whole(&parts(windows).bytes(), windows as usize);
    }
    for level in 0..=2 {
        whole(&changed(|p| p.level = level), 2);
    }
    for x in [0.0, -0.0, f32::MIN, f32::MAX, f32::from_bits(1)] {
        whole(&changed(|p| p.threshold = x), 2);
        whole(&changed(|p| p.second = x), 2);
    }
    for distance in [0, u32::MAX] {
        whole(&changed(|p| p.distance = distance), 2);
    }
    for index in [128, 1 << 32, 1 << 63] {
        whole(&changed(|p| p.indices = vec![index; 2]), 2);
    }
}

#[test]
fn an_early_end_is_told_wherever_it_is() {
    let file = parts(2);
    let (bytes, head) = (file.bytes(), file.head());
    for n in 0..head {
        malformed(&bytes[..n], 0, Malformed::EndsEarly);
    }
    for (n, came) in [(0, 0), (1, 0), (ROW - 1, 0), (ROW, 1), (ROW + 1, 1), (2 * ROW - 1, 1)] {
        malformed(&bytes[..head + n], came, Malformed::EndsEarly);
    }
}

#[test]
fn a_file_that_goes_on_is_told_behind_its_last_window() {
    for windows in [0, 1, 64] {
        for more in [1, 4, ROW] {
            let mut bytes = parts(windows).bytes();
            bytes.resize(bytes.len() + more, 0);
            malformed(&bytes, windows as usize, Malformed::GoesOn);
        }
    }
    let file = parts(64);
    match read(file.bytes()[..file.head()].chain(io::repeat(0))) {
        (64, Some(FileError::Malformed(Malformed::GoesOn))) => {}
        other => panic!("{other:?} for an input without end"),
    }
}

#[test]
fn wrong_counts_are_told() {
    for n in [0, 3, 5, 4 << 24, u32::MAX] {
        malformed(&changed(|p| p.settings = n), 0, Malformed::SettingsCount);
    }
    for n in [65, 2 << 24, u32::MAX] {
        malformed(&changed(|p| p.windows = n), 0, Malformed::WindowCount);
    }
    for n in [0, 2, 2310, 4619, 4621, 9240, u32::MAX] {
        malformed(&changed(|p| p.numbers = n), 0, Malformed::SampleCount);
    }
}

#[test]
fn settings_and_indices_are_refused_as_a_decode_refuses_them() {
    for level in [3, 1 << 24, u32::MAX] {
        refused(&changed(|p| p.level = level), Refusal::Level);
        refused(&changed(|p| p.level = level)[..8], Refusal::Level);
    }
    for x in [f32::NAN, -f32::NAN, f32::INFINITY, f32::NEG_INFINITY] {
        refused(&changed(|p| p.threshold = x)[..12], Refusal::Threshold);
        refused(&changed(|p| p.second = x)[..16], Refusal::Threshold);
    }
    for index in [0, 127, (1 << 63) + 1, u64::MAX] {
        refused(&changed(|p| p.indices[0] = index)[..32], Refusal::Index);
        refused(&changed(|p| p.indices[1] = index)[..40], Refusal::Index);
    }
}

#[test]
fn the_first_fault_of_the_file_is_told() {
    malformed(&changed(|p| (p.settings, p.level) = (5, 3)), 0, Malformed::SettingsCount);
    refused(&changed(|p| (p.level, p.threshold) = (3, f32::NAN)), Refusal::Level);
    refused(&changed(|p| (p.threshold, p.windows) = (f32::NAN, 65)), Refusal::Threshold);
    refused(&changed(|p| (p.second, p.windows) = (f32::NAN, 65)), Refusal::Threshold);
    malformed(&changed(|p| (p.windows, p.indices[0]) = (65, 0)), 0, Malformed::WindowCount);
    refused(&changed(|p| (p.indices[1], p.numbers) = (0, 0)), Refusal::Index);
    malformed(&changed(|p| (p.numbers, p.rows) = (0, 1)), 0, Malformed::SampleCount);
}

/// Hands over what it has, at most `step` bytes at a time, each time after one interrupted read. Then its reads fail.
struct Broken<'a> {
    rest: &'a [u8],
    step: usize,
    interrupted: bool,
}

impl Read for Broken<'_> {
    fn read(&mut self, space: &mut [u8]) -> io::Result<usize> {
        self.interrupted = !self.interrupted;
        if self.interrupted {
            return Err(ErrorKind::Interrupted.into());
        }
        if self.rest.is_empty() {
            return Err(ErrorKind::ConnectionReset.into());
        }
        let n = self.step.min(space.len());
        self.rest.read(&mut space[..n])
    }
}

#[test]
fn a_read_that_fails_is_told_wherever_it_fails() {
    let file = parts(2);
    let (bytes, head) = (file.bytes(), file.head());
    let tails = [(0, 0), (1, 0), (ROW - 1, 0), (ROW, 1), (2 * ROW - 1, 1), (2 * ROW, 2)];
    for (n, came) in (0..head).map(|n| (n, 0)).chain(tails.map(|(n, came)| (head + n, came))) {
        match read(Broken { rest: &bytes[..n], step: 3, interrupted: false }) {
            (m, Some(error @ FileError::Io(_))) => {
                assert_eq!((m, error.number()), (came, 10));
                assert!(matches!(error, FileError::Io(e) if e.kind() == ErrorKind::ConnectionReset));
            }
            other => panic!("{other:?} for a read that fails behind {n} bytes"),
        }
    }
}

#[test]
fn nothing_is_read_ahead() {
    let file = parts(2);
    let bytes = file.bytes();
    let mut left = &bytes[..];
    assert!(Windows::new(&mut left).unwrap().next().unwrap().is_ok());
    assert_eq!(left.len(), ROW);
}

#[test]
fn each_fault_has_its_own_words() {
    use Malformed::*;
    let texts = [EndsEarly, SettingsCount, WindowCount, SampleCount, GoesOn].map(|m| FileError::from(m).to_string());
    assert_eq!(texts[0], "the file ends early");
    assert_eq!(texts.iter().collect::<std::collections::HashSet<_>>().len(), 5);
    assert_eq!(FileError::from(Refusal::Level).to_string(), Refusal::Level.to_string());
    assert_eq!(FileError::Io(ErrorKind::ConnectionReset.into()).to_string(), io::Error::from(ErrorKind::ConnectionReset).to_string());
}
