//! Windows of every kind. One in three holds short messages.
use crate::counts::Counts;
use crate::recipe::{Plant, Random, Recipe, Shape, blank};
use crate::rules::{self, Answer, Both, LONG, SHORT, Settings, Tables, Window, at, bytes_of, divided};

pub const NAMES: &[&str] = &[
    "window: planted at four samples in a row",
    "window: thin pulses",
    "window: full pulses, one message",
    "window: full pulses, two messages",
    "window: near tie",
    "window: two messages, a NaN in one",
    "window: bits with equal halves",
    "window: a blanked stretch",
    "window: bits without a number",
    "window: a message in noise",
    "window: two messages in noise",
    "window: pure noise",
    "window: random patterns",
    "window: one value throughout",
    "window: two values in turn",
    "window: short, planted at four samples in a row",
    "window: short, thin pulses",
    "window: short, full pulses, one plant",
    "window: short, full pulses, two plants",
    "window: short, near tie",
    "window: two short messages, a NaN in one",
    "window: short, bits with equal halves",
    "window: short, a blanked stretch",
    "window: short, bits without a number",
    "window: a short message inside a long one",
    "window: a reply to an interrogator",
    "window: a short message in noise",
    "window: two short messages in noise",
    "window: a long and a short message in noise",
    "has NaN",
    "has infinities",
    "has subnormals",
    "has huge numbers",
    "has zeros",
    "has minus zeros",
    "thresholds set by a first decode",
];

/// A window to be compared, and how it was made if that can be recorded.
pub struct Made {
    pub kind: &'static str,
    pub samples: Vec<f32>,
    pub settings: Settings,
    pub index: u64,
    pub recipe: Option<Recipe>,
    pub adjusted: bool,
    /// The code of the interrogator that is replied to, and the squitter that the reply would be without it.
    pub reply: Option<(u8, [u8; 14])>,
}

const SPECIALS: [u32; 20] = [
    0x7FC0_0000,
    0xFFC0_0000,
    0x7FC0_0001,
    0x7F80_0001,
    0x7F80_0000,
    0xFF80_0000,
    0x0000_0000,
    0x8000_0000,
    0x0000_0001,
    0x8000_0001,
    0x007F_FFFF,
    0x0080_0000,
    0x7F7F_FFFF,
    0xFF7F_FFFF,
    0x7E80_0000,
    0x5F80_0000,
    0xDF80_0000,
    0x1F80_0000,
    0x3F80_0000,
    0xBF80_0000,
];

fn random_message(r: &mut Random) -> u128 {
    (u128::from(r.word()) << 64 | u128::from(r.word())) >> 16
}
/// A message whose remainder is 0, with a header that is taken or not.
fn whole(r: &mut Random, t: &Tables, taken: bool) -> u128 {
    let formats = t.kind.headers;
    let first = loop {
        let near = 8 * formats[0].0 + r.below(8 * formats.len()) as u8;
        let first = if taken || r.often(2) { near } else { r.word() as u8 };
        if t.kind.header(first) == taken {
            break first;
        }
    };
    ended(t, random_message(r) >> 8 | u128::from(first) << 104)
}
/// A message of these bits but for the last 24: there stands the remainder of those before them.
fn ended(t: &Tables, message: u128) -> u128 {
    let body = message >> (112 - t.kind.bits) >> 24;
    t.kind.message(body << 24 | u128::from(divided(body)))
}
fn errors(r: &mut Random, t: &Tables, count: usize) -> u128 {
    let mut e: u128 = 0;
    while (e.count_ones() as usize) < count {
        // The first byte more often than the rest.
        e |= at(if r.often(4) { r.below(8) } else { r.below(t.kind.bits) });
    }
    e
}
fn string(r: &mut Random, t: &Tables) -> u128 {
    if t.kind.bits == SHORT.bits && r.often(8) {
        let code = 1 + r.below(127);
        return whole(r, t, true) ^ t.kind.message(code as u128);
    }
    match r.below(12) {
        0 => t.kind.message(random_message(r) >> (112 - t.kind.bits)),
        1 => whole(r, t, true),
        2 => whole(r, t, false),
        3 | 4 => whole(r, t, true) ^ errors(r, t, 1),
        5 => whole(r, t, false) ^ errors(r, t, 1),
        6 | 7 | 8 => whole(r, t, true) ^ errors(r, t, 2),
        9 | 10 => whole(r, t, false) ^ errors(r, t, 2),
        _ => whole(r, t, true) ^ errors(r, t, 3),
    }
}
/// What the two slicers are to read at a place.
fn strings(r: &mut Random, t: &Tables) -> (u128, u128) {
    let one = string(r, t);
    match r.below(12) {
        // The same.
        0 | 1 => (one, one),
        // Some bits apart.
        2 => {
            let count = 1 + r.below(14);
            (one ^ errors(r, t, count), one)
        }
        3 => {
            let count = 1 + r.below(14);
            (one, one ^ errors(r, t, count))
        }
        // Two messages with the same errors: the remainders are equal.
        4 => {
            let count = 1 + r.below(2);
            let (e, taken) = (errors(r, t, count), r.often(2));
            (whole(r, t, false) ^ e, whole(r, t, taken) ^ e)
        }
        // Trial 4 with a bad header before trial 5 or 6.
        5 => (whole(r, t, true) ^ errors(r, t, 2), whole(r, t, false) ^ errors(r, t, 1)),
        6 => (whole(r, t, true) ^ errors(r, t, 2), whole(r, t, true) ^ errors(r, t, 2)),
        // Trial 6, at a distance.
        7 | 8 => {
            let (noncoherent, count) = (whole(r, t, true) ^ errors(r, t, 2), 3 + r.below(14));
            (noncoherent ^ errors(r, t, count), noncoherent)
        }
        _ => (one, string(r, t)),
    }
}

fn settings(r: &mut Random) -> Settings {
    const DB: [f32; 10] = [-1e30, 0.0, -0.0, 50.0, 58.0, 63.0, 67.0, 71.0, 80.0, 1e30];
    Settings {
        level: r.pick(&[2, 2, 2, 2, 2, 2, 1, 1, 0]),
        threshold: r.pick(&DB),
        second: r.pick(&DB),
        distance: r.pick(&[0, 1, 2, 4, 8, 8, 12, 20, 56, 113, u32::MAX]),
    }
}
fn index(r: &mut Random) -> u64 {
    match r.below(6) {
        0 => r.pick(&[128, 129, 130, 256, 1 << 32, (1 << 32) - 1, 1 << 62, (1 << 63) - 1, 1 << 63]),
        1 => 128 + (r.word() >> 1) % ((1 << 63) - 127),
        _ => 128 * (1 + r.below(1 << 20) as u64),
    }
}
fn scale(r: &mut Random) -> f32 {
    match r.below(8) {
        0 => 2f32.powi(r.below(250) as i32 - 149),
        1 => 2f32.powi(-70 - r.below(12) as i32),
        2 => 0.01 + r.unit(),
        _ => 1.0,
    }
}
fn stores(r: &mut Random, start: u32) -> Vec<(u32, u32)> {
    let count = match r.below(8) {
        0 => 1,
        1 => 1 + r.below(4),
        2 => 1 + r.below(30),
        _ => 0,
    };
    let number = r.below(2310) as u32;
    let one = r.pick(&SPECIALS);
    (0..count)
        .map(|_| {
            let j = match r.below(3) {
                0 => r.below(2310) as u32,
                1 => (number + r.below(10) as u32) % 2310,
                _ => (2 * start + r.below(1792) as u32) % 2310,
            };
            let bits = match r.below(4) {
                0 => r.word() as u32,
                1 => r.pick(&SPECIALS),
                _ => one,
            };
            (j, bits)
        })
        .collect()
}
/// Stretches in which nothing comes in, here and there.
fn blanks(r: &mut Random, start: u32) -> Vec<(u32, u32)> {
    let count = if r.often(12) { 1 + r.below(2) } else { 0 };
    let one = |r: &mut Random| {
        let longest = r.pick(&[4, 8, 8, 40, 400]);
        ((start + r.below(896) as u32).min(1154), 1 + r.below(longest) as u32)
    };
    (0..count).map(|_| one(r)).collect()
}
/// A plant's 112 bits with these of a short message somewhere among them: beside them another one, any bits, or zeros.
fn around(r: &mut Random, t: &Tables, start: u32, short: (u128, u128)) -> (u128, u128) {
    // The first place of a window is read from the first bit of an early plant, the last one from bit 56 of a late plant.
    let near = if start < 128 { 0 } else { 56 };
    let offset = match r.below(4) {
        0 | 1 => near,
        2 => 56 - near,
        _ => r.below(57),
    };
    let put = |rest: u128, short: u128, offset: usize| rest & !(u128::from(u64::MAX >> 8) << (56 - offset)) | short >> offset;
    let mut rest = if r.often(4) { (0, 0) } else { [random_message(r); 2].into() };
    if offset % 56 == 0 && r.often(2) {
        let other = strings(r, t);
        rest = (put(rest.0, other.0, 56 - offset), put(rest.1, other.1, 56 - offset));
    }
    (put(rest.0, short.0, offset), put(rest.1, short.1, offset))
}
fn plant(r: &mut Random, t: &Tables, start: u32) -> Plant {
    let mut both = strings(r, t);
    if t.kind.bits == SHORT.bits {
        both = around(r, t, start, both);
    }
    let amplitude = r.pick(&[1.0, 1.0, 2.0, 3.0, 4.0, 8.0]);
    Plant { start, amplitude, coherent: bytes_of(both.0), noncoherent: bytes_of(both.1) }
}
/// A plant, and no other.
fn alone(plant: Plant) -> [Plant; 4] {
    let blank = Plant { amplitude: 0.0, ..plant };
    [plant, blank, blank, blank]
}
fn start(r: &mut Random, last: u32) -> u32 {
    match r.below(5) {
        0 => 5 + r.below(8) as u32,
        1 => last - r.below(8) as u32,
        _ => 5 + r.below(last as usize - 4) as u32,
    }
}

fn recipe(r: &mut Random, t: &Tables) -> (&'static str, Recipe) {
    let short = t.kind.bits == SHORT.bits;
    let shape = r.pick(&[Shape::Four, Shape::Four, Shape::Thin, Shape::Full]);
    let mut first = start(r, if shape == Shape::Four { 255 } else { 257 });
    if short && r.often(4) {
        first = r.pick(&[8, 255]);
    }
    let mut plants = alone(plant(r, t, first));
    let mut kind = match (shape, short) {
        (Shape::Four, false) => "window: planted at four samples in a row",
        (Shape::Thin, false) => "window: thin pulses",
        (Shape::Full, false) => "window: full pulses, one message",
        (Shape::Four, true) => "window: short, planted at four samples in a row",
        (Shape::Thin, true) => "window: short, thin pulses",
        (Shape::Full, true) => "window: short, full pulses, one plant",
    };
    if shape == Shape::Four {
        for k in 1..4 {
            // Now and then the neighbours read nothing.
            plants[k] = plant(r, t, first + k as u32);
            if r.often(3) {
                plants[k].coherent = bytes_of(random_message(r));
                plants[k].noncoherent = bytes_of(random_message(r));
            }
        }
        // Powers that rise by less and less, or fall: the parabola's peak lies far off.
        if r.often(5) {
            let lowest = r.pick(&[0, 2]);
            for k in 0..3 {
                plants[k].amplitude = [1.0, 2.0, 2.4][k.abs_diff(lowest)];
                if k != lowest {
                    plants[k].coherent = bytes_of(random_message(r));
                    plants[k].noncoherent = bytes_of(random_message(r));
                }
            }
        }
    }
    if shape == Shape::Full && r.often(2) {
        let other = start(r, 257);
        plants[1] = plant(r, t, other);
        kind = if short { "window: short, full pulses, two plants" } else { "window: full pulses, two messages" };
    }
    let noise = match shape {
        Shape::Four => r.pick(&[0.0, 1.0, 1.0, 2.0]),
        _ => r.pick(&[0.0, 0.0, 0.015625, 0.0625, 0.01]),
    };
    let recipe = Recipe {
        settings: settings(r),
        index: index(r),
        seed: r.word() as u32 | 1,
        noise,
        scale: scale(r),
        shape,
        plants,
        blanks: blanks(r, first),
        stores: stores(r, first),
    };
    (kind, recipe)
}

/// One plant in little noise or none.
fn simple(r: &mut Random, start: u32, coherent: u128, noncoherent: u128) -> Recipe {
    let plant = Plant { start, amplitude: 1.0, coherent: bytes_of(coherent), noncoherent: bytes_of(noncoherent) };
    Recipe {
        settings: settings(r),
        index: index(r),
        seed: r.word() as u32 | 1,
        noise: r.pick(&[0.0, 0.0, 0.015625, 0.01]),
        scale: 1.0,
        shape: r.pick(&[Shape::Full, Shape::Thin]),
        plants: alone(plant),
        blanks: vec![],
        stores: vec![],
    }
}
/// A long message with the bits of a short one among its own; at times some are turned over, which either may have in common.
fn one_inside(r: &mut Random, both: &Both) -> Recipe {
    let offset = 8 + r.below(25);
    let short = whole(r, &both.short, true) >> offset;
    let body = whole(r, &both.long, true) & !(u128::from(u64::MAX >> 8) << (56 - offset)) | short;
    let long = ended(&both.long, body);
    let wrong = r.pick(&[0, 0, 1, 1, 2]);
    let [e, f] = [errors(r, &both.long, wrong), errors(r, &both.long, wrong)];
    let start = start(r, 255);
    match r.below(3) {
        0 => simple(r, start, long ^ e, long ^ e),
        1 => simple(r, start, long ^ e, long ^ f),
        _ => simple(r, start, long, long ^ f),
    }
}
/// Two messages at samples that follow one another, each with up to two bits turned over. In what is noise to the first alone an imaginary
/// part is no number: its cn0 is none, and the coherent slicer reads it all the same. At some starts the first is met after the second.
fn beside_nan(r: &mut Random, t: &Tables) -> Recipe {
    let start = 8 * (1 + r.below(30)) as u32 + r.pick(&[0, 3]);
    let wrong = r.pick(&[[0, 1], [0, 2], [1, 0], [1, 2], [2, 0], [2, 1], [0, 0], [1, 1]]);
    let [one, other] = wrong.map(|count| whole(r, t, true) ^ errors(r, t, count));
    let mut recipe =
        Recipe { shape: Shape::Four, stores: vec![(2 * (start + 5) + 1, f32::NAN.to_bits())], ..simple(r, start, one, one) };
    recipe.plants[1] = Plant { start: start + 1, amplitude: 1.0, coherent: bytes_of(other), noncoherent: bytes_of(other) };
    recipe
}
/// One short message behind another, each whole or with one bit turned over. The same NaN in the noise of one of them.
fn two_and_nan(r: &mut Random, t: &Tables) -> Recipe {
    let wrong = r.pick(&[[0, 1], [0, 1], [1, 0], [1, 0], [0, 0], [1, 1]]);
    let [one, other] = wrong.map(|count| whole(r, t, true) ^ errors(r, t, count));
    let plant = one | other >> t.kind.bits;
    let start = start(r, 255);
    let j = r.below(112);
    let empty = start + 8 * j as u32 + if plant & at(j) == 0 { 0 } else { 4 };
    Recipe { stores: vec![(2 * (empty + 1) + 1, f32::NAN.to_bits())], ..simple(r, start, plant, plant) }
}
/// A message of which some ones are lost, as many as can be repaired or fewer; at times a message of the fewest ones. What is left of its
/// bits, and which ones were lost.
fn losing(r: &mut Random, t: &Tables) -> (u128, u128) {
    let fewest = t.kind.fewest.iter().fold(0, |m, &j| m | at(j));
    let message = if r.often(2) { fewest } else { whole(r, t, true) };
    let most = t.kind.most as usize;
    let count = if r.often(2) { most } else { r.below(most + 1) } as u32;
    let mut lost: u128 = 0;
    while lost.count_ones() < count {
        lost |= message & errors(r, t, 1);
    }
    (message ^ lost, lost)
}
/// Which bits are to be undecided, among those that are 0: none, one, some, a stretch or all; lost ones and the last one more often.
fn undecided(r: &mut Random, t: &Tables, read: u128, lost: u128) -> u128 {
    let some = match r.below(8) {
        0 => 0,
        1 => errors(r, t, 1),
        2 => random_message(r),
        3 => t.kind.all() >> r.below(t.kind.bits),
        _ => t.kind.all(),
    };
    let lost = if r.often(3) { 0 } else { lost };
    let last = if r.often(4) { at(t.kind.bits - 1) } else { 0 };
    (some | lost | last) & t.kind.all() & !read
}
/// Two plants at one sample, with pulses of the same height: where their bits differ both halves are equal, and 0 is read. One slicer
/// reads the message; the other one the same, nothing but undecided bits, or anything.
fn equal_halves(r: &mut Random, t: &Tables) -> Recipe {
    let (read, lost) = losing(r, t);
    let own = (read, undecided(r, t, read, lost));
    let other = match r.below(4) {
        0 | 1 => (0, t.kind.all()),
        2 => (read, undecided(r, t, read, lost)),
        _ => (random_message(r) & t.kind.all(), 0),
    };
    let offset = r.below(113 - t.kind.bits);
    // Beside a short message there are bits 0, or undecided ones too.
    let beside = if r.often(2) { 0 } else { LONG.all() & !(t.kind.all() >> offset) };
    let both = if r.often(2) { [own, other] } else { [other, own] };
    let [coherent, noncoherent] = both.map(|(read, undecided)| [read >> offset, (read | undecided) >> offset | beside]);
    let start = start(r, 255);
    let mut recipe = Recipe { noise: 0.0, scale: scale(r), ..simple(r, start, coherent[0], noncoherent[0]) };
    recipe.plants[1] = Plant { coherent: bytes_of(coherent[1]), noncoherent: bytes_of(noncoherent[1]), ..recipe.plants[0] };
    recipe
}
/// What the slicers are to read where both read a message, or one of them: then the other one has too many bits wrong.
fn by_one_or_both(r: &mut Random, t: &Tables, message: u128) -> [u128; 2] {
    let count = 3 + r.below(10);
    let wrong = message ^ errors(r, t, count);
    r.pick(&[[message, message], [message, wrong], [wrong, message], [wrong, message]])
}
/// A message with a stretch in which nothing came in, of one bit up to all. There its bits are 0, but for as many as can be repaired or
/// fewer; only its header and its last 24 bits are as they come.
fn blanked(r: &mut Random, t: &Tables) -> Recipe {
    let first = r.below(t.kind.bits);
    let longest = r.pick(&[1, 8, t.kind.bits]);
    let count = (1 + r.below(longest)).min(t.kind.bits - first);
    let stretch = (first..first + count).fold(0, |m, j| m | at(j));
    let header = 0xFF << 104;
    let mut body = whole(r, t, true) & (!stretch | header);
    for _ in 0..r.below(t.kind.most as usize + 1) {
        body |= at(first + r.below(count)) & !header;
    }
    let message = ended(t, body);
    let offset = r.below(113 - t.kind.bits);
    let [coherent, noncoherent] = by_one_or_both(r, t, message).map(|m| m >> offset);
    let start = start(r, 255);
    // A stretch may begin or end within a bit.
    let (early, late) = r.pick(&[(0, 0), (0, 0), (0, 0), (0, 4), (4, 0), (3, 2)]);
    let blank = (start + 8 * (offset + first) as u32 - early, 8 * count as u32 + early - late);
    Recipe { blanks: vec![blank], scale: scale(r), ..simple(r, start, coherent, noncoherent) }
}
/// A message with bits that a NaN leaves undecided, or infinities in both halves, in one part of their samples; lost ones among them.
fn without_number(r: &mut Random, t: &Tables) -> Recipe {
    let (read, lost) = losing(r, t);
    let offset = r.below(113 - t.kind.bits);
    let [coherent, noncoherent] = by_one_or_both(r, t, read).map(|m| m >> offset);
    let start = start(r, 255);
    let mut bits: Vec<usize> = (0..t.kind.bits).filter(|j| lost & at(*j) != 0).collect();
    for _ in 0..r.below(5) {
        let zeros = !read & errors(r, t, 1);
        bits.extend((0..t.kind.bits).filter(|j| zeros & at(*j) != 0));
    }
    let mut stores = vec![];
    for j in bits {
        let first = start as usize + 8 * (offset + j);
        let part = r.below(2);
        let [one, other] = [0, 4].map(|half| (2 * (first + half + r.below(4)) + part) as u32);
        if r.often(4) && stores.len() < 7 {
            stores.extend([one, other].map(|at| (at, f32::INFINITY.to_bits())));
        } else if stores.len() < 8 {
            stores.push((r.pick(&[one, other]), f32::NAN.to_bits()));
        }
    }
    Recipe { stores, ..simple(r, start, coherent, noncoherent) }
}
/// A reply to an interrogator: its code, 1 to 127, is xored into the last 7 bits of what would be a squitter.
fn reply(r: &mut Random, t: &Tables) -> (Recipe, u8, u128) {
    let code = if r.often(3) { 1 + r.below(127) as u8 } else { 1 << r.below(7) };
    let squitter = whole(r, t, true);
    let sent = squitter ^ t.kind.message(u128::from(code));
    // Behind it nothing but bits 0.
    let start = start(r, 255);
    let offset = r.below(57);
    (simple(r, start, sent >> offset, sent >> offset), code, squitter)
}

/// One message from sample 128 on, with the settings of the window program's example.
fn plain(coherent: u128, noncoherent: u128, shape: Shape, threshold: u32, stores: &[(u32, u32)]) -> Recipe {
    let plant = Plant { start: 128, amplitude: 1.0, coherent: bytes_of(coherent), noncoherent: bytes_of(noncoherent) };
    Recipe {
        settings: Settings { level: 2, threshold: f32::from_bits(threshold), second: 71.0, distance: 8 },
        index: 128,
        seed: 1,
        noise: 0.0,
        scale: 1.0,
        shape,
        plants: alone(plant),
        blanks: vec![],
        stores: stores.to_vec(),
    }
}

/// Windows that docs/DIFFERENCES.md names, each with the cause of A's difference by its number.
pub fn named() -> [(&'static str, usize, Recipe); 5] {
    const SIXTY_SEVEN: u32 = 0x4286_0000;
    let m: u128 = 0x8807_76AC << 80;
    let tie = [(286, 0x3F00_0000), (278, 0x3EFF_FFF3), (266, 0x4080_0000)];
    let mut blank = plain(0, 0, Shape::Full, SIXTY_SEVEN, &[]);
    blank.plants[0].amplitude = 0.0;
    [
        ("the example, window 0", 0, plain(m, m, Shape::Full, SIXTY_SEVEN, &[])),
        ("the example, window 1", 0, blank),
        ("the slip", 4, plain(m | 3, 1, Shape::Thin, SIXTY_SEVEN, &[])),
        (
            "the logarithm at a threshold",
            2,
            plain(m | 3, m | 3, Shape::Full, 0x42A6_B36F, &[(266, 0x3E00_0000), (268, 0x3E00_0000)]),
        ),
        ("the logarithm in the choice", 3, plain(m, m, Shape::Thin, SIXTY_SEVEN, &tie)),
    ]
}

/// Pulses of 500 ns that start between samples, with a phase error, in noise.
fn transmit(r: &mut Random, t: &Tables, x: &mut [f32], message: u128, start: f32, amplitude: f32, phase: f32) {
    let (re, im) = (amplitude * phase.cos(), amplitude * phase.sin());
    for j in 0..t.kind.bits {
        let first = start + 8.0 * j as f32 + if message & at(j) == 0 { 4.0 } else { 0.0 };
        let fade = if r.often(60) { r.unit() } else { 1.0 };
        for n in first as usize..=(first as usize + 4).min(1154) {
            // How much of sample n the pulse covers.
            let covered = ((first + 4.0).min(n as f32 + 1.0) - first.max(n as f32)).max(0.0) * fade;
            x[2 * n] += re * covered;
            x[2 * n + 1] += im * covered;
        }
    }
}
fn on_air(r: &mut Random, messages: &[&Tables]) -> Vec<f32> {
    let sigma = r.pick(&[0.0, 0.02, 0.1, 0.2, 0.3, 0.4, 0.6]);
    let mut x: Vec<f32> = (0..2310).map(|_| sigma * r.normal()).collect();
    // A short message that is the stronger one, a quarter turn from a long one: each slicer can read one of them.
    let across = messages.iter().any(|t| t.kind.bits != messages[0].kind.bits) && !r.often(4);
    for t in messages {
        let wrong = r.pick(&[0, 0, 1, 2, 2, 3]);
        let message = whole(r, t, true) ^ errors(r, t, wrong);
        let start = 4.0 + r.unit() * (8 * t.kind.last + 6) as f32;
        let mut phase = if r.often(4) { 6.3 * r.unit() } else { 0.3 * r.normal() };
        let mut amplitude = 0.5 + r.unit();
        if across {
            phase = 0.02 * r.normal();
            if t.kind.bits == SHORT.bits {
                (phase, amplitude) = (phase + std::f32::consts::FRAC_PI_2, 3.0 * amplitude);
            }
        }
        transmit(r, t, &mut x, message, start, amplitude, phase);
    }
    blanks(r, 128).into_iter().for_each(|stretch| blank(&mut x, stretch));
    for (j, bits) in stores(r, 128) {
        x[j as usize] = f32::from_bits(bits);
    }
    x
}

/// Thresholds and distance on, just above or just below what a first decode without thresholds achieves.
fn adjust(r: &mut Random, s: &mut Settings, found: &Answer, distance: u32) {
    let near = [found.cn0, found.cn0, found.cn0.next_up(), found.cn0.next_down()];
    s.threshold = r.pick(&near);
    s.second = r.pick(&near);
    s.distance = (distance + r.below(3) as u32).saturating_sub(1);
    match r.below(4) {
        0 => s.second = -1e30,
        1 => (s.threshold, s.distance) = (-1e30, distance),
        2 => (s.threshold, s.second, s.distance) = (-1e30, 1e30, distance + r.below(2) as u32),
        _ => {}
    }
}

/// Thin pulses, and three numbers beside them: the first place that reads the message and the last one have almost the same noise.
fn near_tie(r: &mut Random, t: &Tables) -> Recipe {
    let message = whole(r, t, true);
    let first = 12 + r.below(240) as u32;
    let offset = r.below(113 - t.kind.bits);
    let empty = |r: &mut Random| {
        let j = 1 + r.below(t.kind.bits - 2);
        first + 8 * (offset + j) as u32 + if message & at(j) == 0 { 0 } else { 4 }
    };
    let a = 0.25 + r.unit();
    let b = f32::from_bits(a.to_bits() - 1 - r.below(40) as u32);
    let stores = vec![(2 * (empty(r) - 1), a.to_bits()), (2 * (empty(r) + 3), b.to_bits()), (2 * (empty(r) + 1), 4f32.to_bits())];
    Recipe { shape: Shape::Thin, noise: 0.0, stores, ..simple(r, first, message >> offset, message >> offset) }
}

pub fn make(both: &Both, seed: u64, number: u64) -> Made {
    let r = &mut Random(seed.wrapping_mul(0xD134_2543_DE82_EF95) ^ number);
    r.word();
    let (mut settings, index) = (settings(r), index(r));
    let (mut recipe_made, mut replied) = (None, None);
    let mut cook = |(kind, recipe): (&'static str, Recipe)| {
        let samples = recipe.window();
        recipe_made = Some(recipe);
        (kind, samples)
    };
    let Both { long, short } = both;
    let (kind, samples) = if number % 3 == 2 {
        match r.below(32) {
            0..=13 if r.often(20) => cook(("window: short, near tie", near_tie(r, short))),
            0..=13 => cook(recipe(r, short)),
            14 | 15 => cook(("window: two short messages, a NaN in one", two_and_nan(r, short))),
            16 => cook(("window: a short message inside a long one", one_inside(r, both))),
            17..=19 => {
                let (recipe, code, squitter) = reply(r, short);
                replied = Some((code, bytes_of(squitter)));
                cook(("window: a reply to an interrogator", recipe))
            }
            20 | 21 => ("window: a short message in noise", on_air(r, &[short])),
            22 => ("window: two short messages in noise", on_air(r, &[short, short])),
            23..=25 => ("window: a long and a short message in noise", on_air(r, &[long, short])),
            26..=28 => cook(("window: short, bits with equal halves", equal_halves(r, short))),
            29 | 30 => cook(("window: short, a blanked stretch", blanked(r, short))),
            _ => cook(("window: short, bits without a number", without_number(r, short))),
        }
    } else {
        match r.below(26) {
            0..=15 if r.often(20) => cook(("window: near tie", near_tie(r, long))),
            0..=15 if r.often(20) => cook(("window: two messages, a NaN in one", beside_nan(r, long))),
            0..=15 => cook(recipe(r, long)),
            16 | 17 => cook(("window: bits with equal halves", equal_halves(r, long))),
            18 => cook(("window: a blanked stretch", blanked(r, long))),
            19 => cook(("window: bits without a number", without_number(r, long))),
            20..=22 => ("window: a message in noise", on_air(r, &[long])),
            23 => ("window: two messages in noise", on_air(r, &[long, long])),
            24 => {
                let size = scale(r);
                ("window: pure noise", (0..2310).map(|_| size * r.normal()).collect())
            }
            _ => match r.below(3) {
                0 => ("window: random patterns", (0..2310).map(|_| r.pattern()).collect()),
                1 => {
                    let one = f32::from_bits(r.pick(&SPECIALS));
                    ("window: one value throughout", vec![one; 2310])
                }
                _ => {
                    let two = [f32::from_bits(r.pick(&SPECIALS)), r.pattern()];
                    let each = 1 + r.below(9);
                    ("window: two values in turn", (0..2310).map(|j| two[j / each % 2]).collect())
                }
            },
        }
    };
    settings = recipe_made.as_ref().map_or(settings, |recipe| recipe.settings);
    let index = recipe_made.as_ref().map_or(index, |recipe| recipe.index);
    let mut adjusted = false;
    if settings.level == 2 && !r.often(3) {
        let free = Settings { threshold: -1e30, second: -1e30, ..settings };
        let found = rules::decode(long, &mut Counts::default(), &samples, free, index);
        if found.repairs[0] == 2 && found.cn0.is_finite() {
            let distance = Window::of(&samples).distance(long.kind, found.place.map(|x| x as usize));
            adjust(r, &mut settings, &found, distance);
            adjusted = true;
            if let Some(recipe) = &mut recipe_made {
                recipe.settings = settings;
            }
        }
    }
    Made { kind, samples, settings, index, recipe: recipe_made, adjusted, reply: replied }
}
