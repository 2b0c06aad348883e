//! Trays: each answer is that of the single call, and a refused call leaves lent memory as it was.
mod sent;

use khlongrae::*;
use sent::{SETTINGS, SQUITTER, WORKED, damaged, send, window};

const MORE: usize = TRAY + 1;

/// What a window holds, by its number: silence, a long message, a short one, both, a long one with a damaged bit, and with two. It comes so
/// many samples later than in the first.
fn made(k: usize) -> [f32; WINDOW] {
    match k % 6 {
        0 => [0.0; WINDOW],
        1 => window(&WORKED, 128 + k),
        2 => window(&SQUITTER, 500 + k),
        3 => {
            let mut samples = window(&WORKED, 128 + k);
            send(&mut samples, &SQUITTER, 500 + k, 1, 4.0);
            samples
        }
        4 => window(&damaged(WORKED, &[40]), 128 + k),
        _ => window(&damaged(WORKED, &[40, 41]), 128 + k),
    }
}

/// So many windows one behind another, and their indices.
fn windows(n: usize) -> (Vec<f32>, Vec<u64>) {
    ((0..n).flat_map(made).collect(), (0..n as u64).map(|k| if k % 2 == 0 { 128 + k } else { (1 << 63) - k }).collect())
}

/// What the single calls answer for each window: of a long message, and of both kinds.
type Singles = (Vec<Result<Option<Answer>, Refusal>>, Vec<Result<BothAnswers, Refusal>>);

fn singles(samples: &[f32], settings: Settings, indices: &[u64]) -> Singles {
    let each = || samples.chunks_exact(WINDOW).zip(indices);
    let long = each().map(|(samples, index)| decode(samples, settings, *index)).collect();
    (long, each().map(|(samples, index)| decode_both(samples, settings, *index)).collect())
}

#[test]
fn known_windows_are_answered() {
    let (samples, indices) = windows(6);
    let mut tray = Tray::new();
    let long = |answer: &Option<Answer>| answer.map(|found| (found.message, found.repairs));
    let found: Vec<_> = tray.decode(&samples, SETTINGS, &indices).unwrap().iter().map(|answer| long(&answer.unwrap())).collect();
    let clean = Some((WORKED, Repairs::None));
    let all = [None, clean, None, clean, Some((WORKED, Repairs::One(40))), Some((WORKED, Repairs::Two(40, 41)))];
    assert_eq!(found, all);
    let both = tray.decode_both(&samples, SETTINGS, &indices).unwrap();
    assert_eq!(both.iter().map(|both| long(&both.unwrap().long)).collect::<Vec<_>>(), all);
    let short: Vec<_> = both.iter().map(|both| both.unwrap().short.map(|found| found.message)).collect();
    assert_eq!(short, [None, None, Some(SQUITTER), Some(SQUITTER), None, None]);
}

/// A tray of every size, used again and again, with each kind in turn.
#[test]
fn each_answer_is_that_of_the_single_call() {
    let (samples, indices) = windows(TRAY);
    let (long, both) = singles(&samples, SETTINGS, &indices);
    let mut tray = Tray::default();
    for n in (0..=TRAY).rev() {
        let (samples, indices) = (&samples[..WINDOW * n], &indices[..n]);
        assert_eq!(tray.decode(samples, SETTINGS, indices), Ok(&long[..n]));
        assert_eq!(tray.decode_both(samples, SETTINGS, indices), Ok(&both[..n]));
    }
}

/// Level, thresholds and distance hold for each window.
#[test]
fn the_settings_are_those_of_each_window() {
    // in the real part, and where the norm alone reads it; something between the pulses, so that cn0 is finite
    let mut samples = vec![];
    for part in [0, 1] {
        let mut window = [0.0; WINDOW];
        send(&mut window, &damaged(WORKED, &[40, 41]), 128, part, 1.0);
        send(&mut window, &damaged(WORKED, &[40, 41]), 132, part, 0.125);
        samples.extend(window);
    }
    let (low, high) = (f32::MIN, f32::MAX);
    for (level, threshold, second, distance, found) in [
        (2, low, low, 0, [true, true]),
        (1, low, low, 0, [false, false]),
        (2, high, low, 0, [false, false]),
        (2, low, high, 8, [true, false]),
        (2, low, high, 113, [true, true]),
    ] {
        let settings = Settings { level, threshold, second, distance };
        let mut tray = Tray::new();
        let answers = tray.decode(&samples, settings, &[128, 128]).unwrap();
        assert_eq!([answers[0].unwrap().is_some(), answers[1].unwrap().is_some()], found);
        let (long, both) = singles(&samples, settings, &[128, 128]);
        assert_eq!(answers, long);
        assert_eq!(tray.decode_both(&samples, settings, &[128, 128]), Ok(&both[..]));
    }
}

#[test]
fn a_bad_index_is_told_of_its_window_alone() {
    let bad = [(0, 127), (1, 0), (30, (1 << 63) + 1), (31, 127), (47, u64::MAX), (63, (1 << 63) + 1)];
    let (samples, mut indices) = windows(TRAY);
    for (k, index) in bad {
        indices[k] = index;
    }
    let mut tray = Tray::new();
    for level in 0..=2 {
        let settings = Settings { level, ..SETTINGS };
        let (long, both) = singles(&samples, settings, &indices);
        assert_eq!(tray.decode(&samples, settings, &indices), Ok(&long[..]));
        assert_eq!(tray.decode_both(&samples, settings, &indices), Ok(&both[..]));
        for k in 0..TRAY {
            let is_bad = bad.iter().any(|(at, _)| *at == k);
            assert_eq!((long[k] == Err(Refusal::Index), both[k] == Err(Refusal::Index)), (is_bad, is_bad));
        }
    }
}

/// What of the lent memory each window gets, by kind.
type Into = fn(&[f32], Settings, &[u64], &mut [u8], &mut [u64], &mut [f32]) -> Result<(), Refusal>;
const KINDS: [(Into, [usize; 3]); 2] =
    [(tray_into, [MESSAGE, RESULT_WORDS, FLOATS]), (tray_both_into, [MESSAGE + SHORT_MESSAGE, 2 * RESULT_WORDS, 2 * FLOATS])];

/// A tray of either kind into memory whose lengths are off by so much is refused, and the memory is as it was.
fn refused(refusal: Refusal, samples: &[f32], settings: Settings, indices: &[u64], off: [isize; 3]) {
    for (into, sizes) in KINDS {
        let long = |k: usize| (sizes[k] * indices.len()).checked_add_signed(off[k]).unwrap();
        let kept = (vec![0xA5; long(0)], vec![0xA5A5; long(1)], vec![1.5; long(2)]);
        let mut lent = kept.clone();
        assert_eq!(into(samples, settings, indices, &mut lent.0, &mut lent.1, &mut lent.2), Err(refusal));
        assert_eq!(lent, kept);
    }
    if refusal != Refusal::OutputLength {
        let mut tray = Tray::new();
        assert_eq!(tray.decode(samples, settings, indices), Err(refusal));
        assert_eq!(tray.decode_both(samples, settings, indices), Err(refusal));
    }
}

#[test]
fn refused_trays_leave_lent_memory_as_it_was() {
    let right = [0, 0, 0];
    let (all, indices) = windows(MORE);
    for n in [1, 2, 63, TRAY] {
        let (samples, indices) = (&all[..WINDOW * n], &indices[..n]);
        for wrong in [WINDOW * n - 1, WINDOW * n + 1, WINDOW * (n - 1), WINDOW * (n + 1)] {
            refused(Refusal::InputLength, &all[..wrong], SETTINGS, indices, right);
        }
        for wrong in [[-1, 0, 0], [1, 0, 0], [0, -1, 0], [0, 1, 0], [0, 0, -1], [0, 0, 1], [1, -1, 1], [0, -(n as isize), 0]] {
            refused(Refusal::OutputLength, samples, SETTINGS, indices, wrong);
        }
        refused(Refusal::Level, samples, Settings { level: 3, ..SETTINGS }, indices, right);
        for wrong in [f32::NAN, f32::INFINITY, f32::NEG_INFINITY] {
            refused(Refusal::Threshold, samples, Settings { threshold: wrong, ..SETTINGS }, indices, right);
            refused(Refusal::Threshold, samples, Settings { second: wrong, ..SETTINGS }, indices, right);
        }
        // all is wrong, then one thing less
        let bad = Settings { level: 3, threshold: f32::NAN, ..SETTINGS };
        refused(Refusal::InputLength, &samples[1..], bad, indices, [1, 1, 1]);
        refused(Refusal::OutputLength, samples, bad, indices, [1, 1, 1]);
        refused(Refusal::Level, samples, bad, indices, right);
        refused(Refusal::Threshold, samples, Settings { level: 2, ..bad }, indices, right);
    }
    refused(Refusal::InputLength, &all, SETTINGS, &indices, right);
    refused(Refusal::InputLength, &all, Settings { level: 3, ..SETTINGS }, &indices, right);
}

#[test]
fn a_tray_may_be_empty() {
    let mut tray = Tray::new();
    assert_eq!(tray.decode(&[], SETTINGS, &[]), Ok(&[][..]));
    assert_eq!(tray.decode_both(&[], SETTINGS, &[]), Ok(&[][..]));
    refused(Refusal::InputLength, &[0.0], SETTINGS, &[], [0, 0, 0]);
    for wrong in [[1, 0, 0], [0, 1, 0], [0, 0, 1]] {
        refused(Refusal::OutputLength, &[], SETTINGS, &[], wrong);
    }
    refused(Refusal::Level, &[], Settings { level: 3, ..SETTINGS }, &[], [0, 0, 0]);
    refused(Refusal::Threshold, &[], Settings { second: f32::NAN, ..SETTINGS }, &[], [0, 0, 0]);
}

/// A long message, silence, and a bad index: the fields as the library writes them, zeros where there is no message.
#[test]
fn results_in_lent_memory() {
    let samples = [window(&WORKED, 128), [0.0; WINDOW], window(&WORKED, 128)].concat();
    let indices = [128, 128, 127];
    let mut lent = ([0xA5; 3 * MESSAGE], [0xA5A5; 3 * RESULT_WORDS], [1.5; 3 * FLOATS]);
    assert_eq!(tray_into(&samples, SETTINGS, &indices, &mut lent.0, &mut lent.1, &mut lent.2), Ok(()));
    let zeros = [0; MESSAGE];
    assert_eq!(lent.0.as_slice(), [WORKED, zeros, zeros].concat());
    let found = [128, 15, 3, 1, 0, 0, 0, 0, 0, 1, 0];
    let numbered = |number| {
        let mut words = [0; RESULT_WORDS];
        words[raw::WORD_NUMBER] = number;
        words
    };
    assert_eq!(lent.1.as_slice(), [found, numbered(1), numbered(6)].concat());
    assert_eq!(lent.2.map(f32::to_bits), [f32::INFINITY, -0.5, 0.0, 0.0, 0.0, 0.0].map(f32::to_bits));
    let mut lent = ([0xA5; 3 * (MESSAGE + SHORT_MESSAGE)], [0xA5A5; 6 * RESULT_WORDS], [1.5; 6 * FLOATS]);
    assert_eq!(tray_both_into(&samples, SETTINGS, &indices, &mut lent.0, &mut lent.1, &mut lent.2), Ok(()));
    assert_eq!((&lent.0[..MESSAGE], &lent.0[MESSAGE..]), (&WORKED[..], &[0; 2 * MESSAGE + 3 * SHORT_MESSAGE][..]));
    assert_eq!(lent.1.as_slice(), [found, numbered(1), numbered(1), numbered(1), numbered(6), numbered(6)].concat());
    assert_eq!(lent.2.map(f32::to_bits)[2..], [0; 10]);
}
