//! Known answers, refusals, and lent memory that a refused call must leave as it was.
mod sent;

use khlongrae::*;
use sent::{SETTINGS, SQUITTER, WORKED, damaged, send, window};

const FOUND: Answer = Answer {
    message: WORKED,
    place: Place { bit: 15, phase: 3, symbol: 1 },
    repairs: Repairs::None,
    slicer: Slicer::Coherent,
    index: 128,
    fraction: -0.5,
    cn0: f32::INFINITY,
    undecided: 0,
    trial: 1,
};

const SHORT_FOUND: ShortAnswer = Answer {
    message: SQUITTER,
    place: Place { bit: 62, phase: 0, symbol: 1 },
    repairs: Repairs::None,
    slicer: Slicer::Coherent,
    index: 500,
    fraction: -0.5,
    cn0: f32::INFINITY,
    undecided: 0,
    trial: 1,
};

/// Takes the samples of n bits away, from bit j of a message on, and the sample before them: the message may be read one sample early.
fn blank(samples: &mut [f32; WINDOW], from: usize, j: usize, n: usize) {
    samples[2 * (from + 8 * j - 1)..2 * (from + 8 * (j + n))].fill(0.0);
}

/// The trial is the one that looks for so many repairs in this slicer's bits.
fn agrees<const N: usize>(answer: &Answer<N>) -> bool {
    usize::from(answer.trial) == 1 + 2 * answer.repairs.count() + usize::from(answer.slicer == Slicer::Noncoherent)
}

#[test]
fn the_interface_is_the_one_that_was_meant() {
    assert_eq!(version(), VERSION);
}

#[test]
fn the_defaults_are_those_of_the_original() {
    let Settings { level, threshold, second, distance } = Settings::default();
    assert_eq!(level, 2, "ErrorCorrectionLevel::DoubleError");
    assert_eq!(threshold, 67.0, "CN0_THRESHOLD");
    assert_eq!(second, 71.0, "NONCOHERENT_HIGH_HAMMING_CN0_THRESHOLD");
    assert_eq!(distance, 8, "NONCOHERENT_HIGH_HAMMING_DISTANCE");
}

#[test]
fn the_worked_message_is_found() {
    assert_eq!(decode(&window(&WORKED, 128), SETTINGS, 128), Ok(Some(FOUND)));
}

/// What is found where the worked message was sent with these bits turned over.
fn found_after(damage: &[usize], settings: Settings) -> Option<Answer> {
    let damaged = damaged(WORKED, damage);
    let found = decode(&window(&damaged, 128), settings, 128).unwrap();
    if let Some(answer) = found {
        assert_eq!(answer.message, WORKED);
        assert_eq!(answer.received(), damaged);
        assert!(agrees(&answer));
    }
    found
}

/// What is found where the squitter was sent with these bits turned over.
fn short_found_after(damage: &[usize], settings: Settings) -> Option<ShortAnswer> {
    let damaged = damaged(SQUITTER, damage);
    let found = decode_short(&window(&damaged, 500), settings, 128).unwrap();
    if let Some(answer) = found {
        assert_eq!(answer.message, SQUITTER);
        assert_eq!(answer.received(), damaged);
        assert!(agrees(&answer));
    }
    found
}

#[test]
fn damaged_bits_are_repaired_and_named() {
    let repairs = |damage: &[usize]| found_after(damage, SETTINGS).unwrap().repairs;
    assert_eq!(repairs(&[]), Repairs::None);
    assert_eq!(repairs(&[0]), Repairs::One(0));
    assert_eq!(repairs(&[40]), Repairs::One(40));
    assert_eq!(repairs(&[111]), Repairs::One(111));
    assert_eq!(repairs(&[40, 41]), Repairs::Two(40, 41));
    assert_eq!(repairs(&[111, 7]), Repairs::Two(7, 111));
}

#[test]
fn the_squitter_is_found() {
    assert_eq!(decode_short(&window(&SQUITTER, 500), SETTINGS, 128), Ok(Some(SHORT_FOUND)));
    assert_eq!(decode_short(&window(&SQUITTER, 703), SETTINGS, 128).unwrap().unwrap().place.bit, 87);
    assert_eq!(decode(&window(&SQUITTER, 500), SETTINGS, 128), Ok(None));
    assert_eq!(decode_short(&window(&WORKED, 128), SETTINGS, 128), Ok(None));
}

#[test]
fn one_damaged_bit_of_a_squitter_is_repaired() {
    let strict = Settings { level: 1, threshold: f32::MAX, second: f32::MAX, distance: 0 };
    for settings in [SETTINGS, strict] {
        for j in [0, 7, 20, 55] {
            assert_eq!(short_found_after(&[j], settings).unwrap().repairs, Repairs::One(j as u32));
            assert_eq!(short_found_after(&[j], Settings { level: 0, ..settings }), None);
        }
        assert_eq!(short_found_after(&[20, 21], settings), None);
    }
}

/// Of the replies to interrogators with a code of their own, those with one bit set are taken, with one repair at 55, 54 .. 49.
#[test]
fn a_reply_to_a_code_with_one_bit_is_taken() {
    for code in 1..128u32 {
        let damage: Vec<usize> = (49..56).filter(|j| code >> (55 - j) & 1 == 1).collect();
        let repairs = short_found_after(&damage, SETTINGS).map(|answer| answer.repairs);
        assert_eq!(repairs, (damage.len() == 1).then(|| Repairs::One(damage[0] as u32)), "{code}");
    }
}

/// Each kind is answered as its own decode answers it, whatever becomes of the other.
#[test]
fn both_kinds_are_found() {
    let of_both = |samples: &[f32]| decode_both(samples, SETTINGS, 128);
    assert_eq!(of_both(&[0.0; WINDOW]), Ok(BothAnswers { long: None, short: None }));
    assert_eq!(of_both(&window(&WORKED, 128)), Ok(BothAnswers { long: Some(FOUND), short: None }));
    assert_eq!(of_both(&window(&SQUITTER, 500)), Ok(BothAnswers { long: None, short: Some(SHORT_FOUND) }));
    // the real part has the one, and the norm the other
    let mut samples = window(&WORKED, 128);
    send(&mut samples, &SQUITTER, 500, 1, 4.0);
    let BothAnswers { long, short } = of_both(&samples).unwrap();
    assert_eq!((long, short), (decode(&samples, SETTINGS, 128).unwrap(), decode_short(&samples, SETTINGS, 128).unwrap()));
    let (long, short) = (long.unwrap(), short.unwrap());
    assert_eq!((long.message, long.slicer), (WORKED, Slicer::Coherent));
    assert_eq!((short.message, short.slicer), (SQUITTER, Slicer::Noncoherent));
}

/// A window in which a trial finds a message: 1 and 2 a whole one, 3 and 4 one with a damaged bit, 5 and 6 one with two. The odd ones find
/// it in the real part; the even ones by the norm, where the real part has nothing.
fn window_for<const N: usize>(trial: u8, message: [u8; N], from: usize) -> [f32; WINDOW] {
    let damage = &[40, 41][..usize::from(trial - 1) / 2];
    let mut samples = [0.0; WINDOW];
    send(&mut samples, &damaged(message, damage), from, usize::from(trial % 2 == 0), 1.0);
    samples
}

/// Each trial is told by its number, at each level at which it is made. A short message has no trials 5 and 6.
#[test]
fn the_trial_is_told() {
    for trial in 1..=6 {
        for level in 0..=2 {
            let settings = Settings { level, ..SETTINGS };
            let told = |most: u32| (u32::from(trial) <= 2 + 2 * level.min(most)).then_some(trial);
            let long = decode(&window_for(trial, WORKED, 128), settings, 128).unwrap();
            assert_eq!(long.map(|found| (found.message, found.trial)), told(2).map(|trial| (WORKED, trial)));
            assert!(long.is_none_or(|found| agrees(&found)));
            let short = decode_short(&window_for(trial, SQUITTER, 500), settings, 128).unwrap();
            assert_eq!(short.map(|found| (found.message, found.trial)), told(1).map(|trial| (SQUITTER, trial)));
            assert!(short.is_none_or(|found| agrees(&found)));
        }
    }
}

/// The message, and what is told of how its bits were read.
fn read<const N: usize>(found: Option<Answer<N>>) -> ([u8; N], Slicer, Repairs, u32) {
    let found = found.unwrap();
    assert!(agrees(&found));
    let Answer { message, slicer, repairs, undecided, .. } = found;
    (message, slicer, repairs, undecided)
}

/// A bit without its samples is read as 0 and counted: where a 0 was sent that is all, and where a 1 was sent it is repaired, and
/// counted all the same.
#[test]
fn undecided_bits_are_counted() {
    let long = |samples: &[f32]| read(decode(samples, SETTINGS, 128).unwrap());
    let short = |samples: &[f32]| read(decode_short(samples, SETTINGS, 128).unwrap());
    for n in (0..=80).step_by(8) {
        let mut samples = window(&WORKED, 128);
        blank(&mut samples, 128, 32, n);
        assert_eq!(long(&samples), (WORKED, Slicer::Coherent, Repairs::None, n as u32));
        blank(&mut samples, 128, 4, 1);
        assert_eq!(long(&samples), (WORKED, Slicer::Coherent, Repairs::One(4), n as u32 + 1));
    }
    for n in 0..=6 {
        let mut samples = window(&SQUITTER, 500);
        blank(&mut samples, 500, 18, n);
        assert_eq!(short(&samples), (SQUITTER, Slicer::Coherent, Repairs::None, n as u32));
        blank(&mut samples, 500, 9, 1);
        assert_eq!(short(&samples), (SQUITTER, Slicer::Coherent, Repairs::One(9), n as u32 + 1));
    }
    // what is no number is greater than nothing
    let mut samples = window(&WORKED, 128);
    samples[2 * (128 + 8 * 60 + 5)] = f32::NAN;
    assert_eq!(long(&samples), (WORKED, Slicer::Coherent, Repairs::None, 1));
}

/// By what the slicer that is named compares, and for each of both kinds by itself: two bits are blanked in either message, and five more
/// behind the short one. The real part has the long message alone.
#[test]
fn undecided_bits_are_those_of_the_slicer() {
    let mut samples = window(&WORKED, 128);
    send(&mut samples, &SQUITTER, 504, 1, 4.0);
    blank(&mut samples, 504, 19, 2);
    blank(&mut samples, 128, 104, 5);
    let BothAnswers { long, short } = decode_both(&samples, SETTINGS, 128).unwrap();
    assert_eq!((long, short), (decode(&samples, SETTINGS, 128).unwrap(), decode_short(&samples, SETTINGS, 128).unwrap()));
    assert_eq!(read(long), (WORKED, Slicer::Coherent, Repairs::None, 7));
    assert_eq!(read(short), (SQUITTER, Slicer::Noncoherent, Repairs::None, 2));
}

#[test]
fn silence_is_an_answer() {
    assert_eq!(found_after(&[40, 41], Settings { level: 1, ..SETTINGS }), None);
    assert_eq!(found_after(&[40], Settings { level: 0, ..SETTINGS }), None);
    assert_eq!(decode(&[0.0; WINDOW], SETTINGS, 128), Ok(None));
    let mut lent = ([0xA5; MESSAGE], [0xA5A5; WORDS], [1.5; FLOATS]);
    let kept = lent;
    assert_eq!(decode_into(&[0.0; WINDOW], SETTINGS, 128, &mut lent.0, &mut lent.1, &mut lent.2), Ok(false));
    assert_eq!(lent, kept);
    assert_eq!(decode_into(&window(&WORKED, 128), SETTINGS, 128, &mut lent.0, &mut lent.1, &mut lent.2), Ok(true));
    assert_eq!(lent, (WORKED, [128, 15, 3, 1, 0, 0, 0, 0, 0, 1], [f32::INFINITY, -0.5]));
    let mut lent = ([0xA5; SHORT_MESSAGE], [0xA5A5; WORDS], [1.5; FLOATS]);
    let kept = lent;
    assert_eq!(decode_short_into(&[0.0; WINDOW], SETTINGS, 128, &mut lent.0, &mut lent.1, &mut lent.2), Ok(false));
    assert_eq!(lent, kept);
    assert_eq!(decode_short_into(&window(&SQUITTER, 500), SETTINGS, 128, &mut lent.0, &mut lent.1, &mut lent.2), Ok(true));
    assert_eq!(lent, (SQUITTER, [500, 62, 0, 1, 0, 0, 0, 0, 0, 1], [f32::INFINITY, -0.5]));
}

#[test]
fn what_was_received_has_the_repairs_undone() {
    for (repairs, damage) in [(Repairs::None, &[][..]), (Repairs::One(9), &[9]), (Repairs::Two(0, 111), &[0, 111])] {
        assert_eq!(Answer { repairs, ..FOUND }.received(), damaged(WORKED, damage));
    }
    assert_eq!(Answer { repairs: Repairs::One(55), ..SHORT_FOUND }.received(), damaged(SQUITTER, &[55]));
    assert_eq!(Answer { repairs: Repairs::One(56), ..SHORT_FOUND }.received(), SQUITTER);
    assert_eq!(Answer { repairs: Repairs::Two(112, u32::MAX), ..FOUND }.received(), WORKED);
}

#[test]
fn repairs_are_counted_printed_and_gone_through() {
    for (repairs, text, positions) in
        [(Repairs::None, "0", &[][..]), (Repairs::One(7), "1:7", &[7]), (Repairs::Two(40, 111), "2:40,111", &[40, 111])]
    {
        assert_eq!(repairs.to_string(), text);
        assert_eq!(repairs.count(), positions.len());
        assert_eq!(repairs.positions().len(), positions.len());
        assert_eq!(repairs.into_iter().collect::<Vec<_>>(), positions);
    }
    let mut two = Repairs::Two(1, 2).positions();
    assert_eq!((two.next(), two.len(), two.next(), two.len(), two.next()), (Some(1), 1, Some(2), 0, None));
}

#[test]
fn an_answer_is_printed_as_a_listing_has_it() {
    let address = FOUND.address().unwrap();
    assert_eq!(address, Address { kind: AddressKind::Icao, bytes: [0x07, 0x76, 0xAC] });
    assert_eq!((address.number(), address.to_string().as_str()), (0x07_76AC, "I0776AC"));
    assert_eq!(Address { kind: AddressKind::Other, bytes: [0, 0, 10] }.to_string(), "X00000A");
    assert!(Address { bytes: [0, 1, 0], ..address } > Address { bytes: [0, 0, 255], ..address });
    assert_eq!((Slicer::Coherent.to_string(), Slicer::Noncoherent.to_string()), ("C".into(), "N".into()));
    assert_eq!(FOUND.place.to_string(), "15,3,1");
    assert_eq!(FOUND.avr().as_str(), "*880776AC00000000000000000000;");
    assert_eq!(SHORT_FOUND.address().unwrap().to_string(), "I4840D6");
    assert_eq!(SHORT_FOUND.avr().as_str(), "*5D4840D6F8740F;");
}

#[test]
fn an_avr_line_is_a_str() {
    let line = FOUND.avr();
    assert_eq!(line, AvrLine::of(&WORKED).unwrap());
    assert_ne!(line, AvrLine::of(&[0; MESSAGE]).unwrap());
    assert!(line.starts_with("*88") && line.len() == LINE);
    assert_eq!(line.as_ref(), "*880776AC00000000000000000000;");
    assert_eq!(format!("{line} {line:.3} {line:?}"), format!("{0} *88 AvrLine({0:?})", "*880776AC00000000000000000000;"));
    assert_eq!(AvrLine::of(&WORKED[..SHORT_MESSAGE]).unwrap().as_str(), "*880776AC000000;");
    for wrong in [0, 6, 8, 13] {
        assert_eq!(AvrLine::of(&WORKED[..wrong]), Err(Refusal::InputLength));
    }
    assert_eq!(AvrLine::of(&[0; 15]), Err(Refusal::InputLength));
}

#[test]
fn refusals_have_the_numbers_of_the_library() {
    use Refusal::*;
    let all = [InputLength, OutputLength, Level, Threshold, Index, Place, Position, HalfWidth];
    assert_eq!(all.map(Refusal::number), [2, 3, 4, 5, 6, 7, 8, 9]);
}

/// A decode of either kind into memory of these lengths is refused with this number, and the memory is as it was. A length of the
/// message is told by how much longer it is than it must be.
fn refused(refusal: Refusal, samples: &[f32], settings: Settings, index: u64, lengths: [isize; 3]) {
    for (bytes, decode) in [(MESSAGE, decode_into as fn(&_, _, _, &mut _, &mut _, &mut _) -> _), (SHORT_MESSAGE, decode_short_into)] {
        let long = |right: usize, k: usize| right.checked_add_signed(lengths[k]).unwrap();
        let kept = (vec![0xA5; long(bytes, 0)], vec![0xA5A5; long(WORDS, 1)], vec![1.5; long(FLOATS, 2)]);
        let mut lent = kept.clone();
        assert_eq!(decode(samples, settings, index, &mut lent.0, &mut lent.1, &mut lent.2), Err(refusal));
        assert_eq!(lent, kept);
    }
    if refusal != Refusal::OutputLength {
        assert_eq!(decode_both(samples, settings, index), Err(refusal));
    }
}

#[test]
fn refused_decodes_leave_lent_memory_as_it_was() {
    let samples = window(&WORKED, 128);
    let right = [0, 0, 0];
    refused(Refusal::InputLength, &samples[1..], SETTINGS, 128, right);
    refused(Refusal::InputLength, &[], SETTINGS, 128, right);
    for wrong in [[-1, 0, 0], [1, 0, 0], [0, -1, 0], [0, 1, 0], [0, 0, -1], [0, 0, 1], [-7, -10, -2]] {
        refused(Refusal::OutputLength, &samples, SETTINGS, 128, wrong);
    }
    refused(Refusal::Level, &samples, Settings { level: 3, ..SETTINGS }, 128, right);
    refused(Refusal::Threshold, &samples, Settings { threshold: f32::NAN, ..SETTINGS }, 128, right);
    refused(Refusal::Threshold, &samples, Settings { second: f32::NEG_INFINITY, ..SETTINGS }, 128, right);
    refused(Refusal::Index, &samples, SETTINGS, 127, right);
    refused(Refusal::Index, &samples, SETTINGS, (1 << 63) + 1, right);
}

#[test]
fn the_lowest_number_is_told() {
    let samples = window(&WORKED, 128);
    let bad = Settings { level: 3, threshold: f32::NAN, ..SETTINGS };
    refused(Refusal::InputLength, &samples[1..], bad, 0, [-7, -10, -2]);
    refused(Refusal::OutputLength, &samples, bad, 0, [-7, -10, -2]);
    refused(Refusal::Level, &samples, bad, 0, [0, 0, 0]);
    refused(Refusal::Threshold, &samples, Settings { level: 2, ..bad }, 0, [0, 0, 0]);
}

#[test]
fn a_line_is_written_or_left() {
    let mut line = [0xA5; LINE];
    assert_eq!(avr(&WORKED[..13], &mut line[..28]), Err(Refusal::InputLength));
    assert_eq!(avr(&WORKED, &mut line[..29]), Err(Refusal::OutputLength));
    assert_eq!(line, [0xA5; LINE]);
    assert_eq!(avr(&WORKED, &mut line), Ok(()));
    assert_eq!(&line, b"*880776AC00000000000000000000;");
    assert_eq!(avr(&WORKED[..SHORT_MESSAGE], &mut line[..SHORT_LINE]), Ok(()));
    assert_eq!(&line[..SHORT_LINE], b"*880776AC000000;");
}

#[test]
fn remainders() {
    assert_eq!((remainder(&WORKED), remainder(&SQUITTER)), (0, 0));
    assert_eq!(remainder(&[]), 0);
    let mut one = [0; MESSAGE];
    one[13] = 1;
    assert_eq!(remainder(&one), 0xFFF409);
    one[13] = 2;
    assert_eq!(remainder(&one), 0x001C1B);
}

#[test]
fn headers() {
    assert_eq!(header(0x88, Repairs::None), Ok(true));
    assert_eq!(header(0x90, Repairs::None), Ok(true));
    assert_eq!(header(0x89, Repairs::None), Ok(false));
    assert_eq!(header(0x91, Repairs::None), Ok(false));
    assert_eq!(header(0x89, Repairs::One(7)), Ok(true));
    assert_eq!(header(0x89, Repairs::Two(7, 111)), Ok(true));
    assert_eq!(header(0x89, Repairs::Two(7, 7)), Ok(false));
    for far in [112, 256 + 7, u32::MAX] {
        assert_eq!(header(0x89, Repairs::One(far)), Err(Refusal::Position));
        assert_eq!(header(0x89, Repairs::Two(7, far)), Err(Refusal::Position));
    }
    assert_eq!((header_short(0x58, Repairs::None), header(0x58, Repairs::None)), (Ok(true), Ok(false)));
    assert_eq!((header_short(0x88, Repairs::None), header_short(0x59, Repairs::None)), (Ok(false), Ok(false)));
    assert_eq!(header_short(0x59, Repairs::One(7)), Ok(true));
    assert_eq!(header_short(0x59, Repairs::Two(7, 55)), Ok(true));
    for far in [56, 111, 256 + 7, u32::MAX] {
        assert_eq!(header_short(0x59, Repairs::One(far)), Err(Refusal::Position));
        assert_eq!(header_short(0x59, Repairs::Two(7, far)), Err(Refusal::Position));
    }
}

#[test]
fn only_a_header_that_is_taken_claims_an_address() {
    for first in 0..=255 {
        let letter = match (first >> 3, first & 7) {
            (11 | 17, 0 | 4..=7) | (18, 0) => "I",
            (18, 5) => "X",
            (18, 2 | 3 | 6) => "?",
            _ => "-",
        };
        assert_eq!(address_kind(first).map_or("-".into(), |kind| kind.to_string()), letter, "{first:02X}");
        let taken = [header, header_short].map(|header| header(first, Repairs::None));
        assert!(address_kind(first).is_none() || taken.contains(&Ok(true)));
        let mut message = WORKED;
        message[0] = first;
        let address = Answer { message, ..FOUND }.address().map_or("-".into(), |address| address.to_string());
        assert_eq!(address, if letter == "-" { letter.into() } else { format!("{letter}0776AC") });
    }
}

#[test]
fn carriers() {
    let mut spectrum = [1.0; 16];
    spectrum[9] = 10.0;
    spectrum[10] = 4.0;
    assert_eq!(long_fft_max_search(&spectrum, 6), Ok(Strongest { bin: 9, value: 10.0 }));
    assert_eq!(long_fft_max_search(&spectrum[1..], 6), Err(Refusal::InputLength));
    assert_eq!(long_fft_max_search(&spectrum, 7), Err(Refusal::HalfWidth));
    assert_eq!(carrier_notched_power(&spectrum, 9, 1), Ok(13.0));
    assert_eq!(carrier_notched_power(&spectrum, 16, 16), Err(Refusal::Place));
    let peak = Carrier::Peak { bin: 9, fraction: 0.1, value: 10.0, floor: 13.0 };
    assert_eq!(check_carrier_metric(&spectrum, 6, 1, 0.5), Ok(peak));
    assert_eq!(check_carrier_metric(&spectrum, 6, 1, 1.0), Ok(Carrier::Weak { value: 10.0, floor: 13.0 }));
    assert_eq!(check_carrier_metric(&spectrum, 6, 16, -1.0), Err(Refusal::Threshold));
    assert_eq!(check_local_maximum(&[1.0, 2.0, 3.0, 3.0, 1.0]), Ok(true));
    assert_eq!(check_local_maximum(&[3.0, 2.0, 3.0, 1.0, 1.0]), Ok(false));
    assert_eq!(check_local_maximum(&[1.0; 4]), Err(Refusal::InputLength));
}
