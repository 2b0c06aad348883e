//! Windows that are made of a few numbers by plain f32 operations, so that crates/replay makes the very same ones.
use crate::rules::{Answer, Settings, bits};

/// Numbers from a seed (splitmix64).
pub struct Random(pub u64);

impl Random {
    pub fn word(&mut self) -> u64 {
        self.0 = self.0.wrapping_add(0x9E37_79B9_7F4A_7C15);
        let mut z = self.0;
        z = (z ^ (z >> 30)).wrapping_mul(0xBF58_476D_1CE4_E5B9);
        z = (z ^ (z >> 27)).wrapping_mul(0x94D0_49BB_1331_11EB);
        z ^ (z >> 31)
    }
    pub fn below(&mut self, n: usize) -> usize {
        (self.word() % n as u64) as usize
    }
    pub fn pick<T: Copy>(&mut self, from: &[T]) -> T {
        from[self.below(from.len())]
    }
    pub fn often(&mut self, one_in: usize) -> bool {
        self.below(one_in) == 0
    }
    /// 0 to 1.
    pub fn unit(&mut self) -> f32 {
        (self.word() >> 40) as f32 / (1 << 24) as f32
    }
    /// About normal, of deviation 1.
    pub fn normal(&mut self) -> f32 {
        (0..12).map(|_| self.unit()).sum::<f32>() - 6.0
    }
    pub fn pattern(&mut self) -> f32 {
        f32::from_bits(self.word() as u32)
    }
}

/// Two strings of 112 bits from a sample on: what the slicers are to read there.
#[derive(Clone, Copy, Default)]
pub struct Plant {
    pub start: u32,
    pub amplitude: f32,
    pub coherent: [u8; 14],
    pub noncoherent: [u8; 14],
}

#[derive(Clone, Copy, PartialEq)]
pub enum Shape {
    /// Each plant has pulses of one sample, the second of its symbol.
    Thin,
    /// Each plant has pulses of four samples.
    Full,
    /// The plants lie at four samples that follow one another, from the start of the first: each symbol sum is what its plant says.
    Four,
}

#[derive(Clone)]
pub struct Recipe {
    pub settings: Settings,
    pub index: u64,
    pub seed: u32,
    pub noise: f32,
    pub scale: f32,
    pub shape: Shape,
    pub plants: [Plant; 4],
    /// Stretches of samples that are zeros: the first of them, and how many.
    pub blanks: Vec<(u32, u32)>,
    /// Numbers of the window, 0 to 2,309, with the bits that they take in the end.
    pub stores: Vec<(u32, u32)>,
}

/// Symbol n, part c (re is 0) of a plant: the real part is greater where the coherent bit is 1, the norm where the other is.
fn target(p: &Plant, n: usize, c: usize) -> f32 {
    let bit = |s: &[u8; 14]| s[n / 16] >> (7 - n / 2 % 8) & 1;
    let (coherent, noncoherent) = (bit(&p.coherent), bit(&p.noncoherent));
    let first = n % 2 == 0;
    if c == 0 {
        if (coherent == 1) == first { p.amplitude } else { 0.0 }
    } else if coherent != noncoherent && (noncoherent == 1) == first {
        p.amplitude + p.amplitude
    } else {
        0.0
    }
}

/// What is left of a window where nothing came in for some samples.
pub fn blank(x: &mut [f32], (first, count): (u32, u32)) {
    for m in first..(first + count).min(1155) {
        x[2 * m as usize..][..2].fill(0.0);
    }
}

impl Recipe {
    pub fn window(&self) -> Vec<f32> {
        let mut word = self.seed;
        let mut x: Vec<f32> = (0..2310)
            .map(|_| {
                word ^= word << 13;
                word ^= word >> 17;
                word ^= word << 5;
                ((word >> 28) as f32 - 8.0) * self.noise
            })
            .collect();
        let p = &self.plants;
        for c in 0..2 {
            match self.shape {
                Shape::Thin | Shape::Full => {
                    for plant in p {
                        for n in 0..224 {
                            let value = target(plant, n, c);
                            for m in 0..4 {
                                if self.shape == Shape::Full || m == 1 {
                                    x[2 * (plant.start as usize + 4 * n + m) + c] += value;
                                }
                            }
                        }
                    }
                }
                Shape::Four => {
                    for n in 0..224 {
                        let at = |m: usize| 2 * (p[0].start as usize + 4 * n + m) + c;
                        let t: [f32; 4] = std::array::from_fn(|k| target(&p[k], n, c));
                        x[at(3)] = ((t[0] - x[at(0)]) - x[at(1)]) - x[at(2)];
                        x[at(4)] = (x[at(0)] + t[1]) - t[0];
                        x[at(5)] = (x[at(1)] + t[2]) - t[1];
                        x[at(6)] = (x[at(2)] + t[3]) - t[2];
                    }
                }
            }
        }
        for v in &mut x {
            *v *= self.scale;
        }
        self.blanks.iter().for_each(|&stretch| blank(&mut x, stretch));
        for &(j, bits) in &self.stores {
            x[j as usize] = f32::from_bits(bits);
        }
        x
    }

    /// How many blanks and stores a record has room for.
    const BLANKS: usize = 2;
    const STORES: usize = 8;

    /// Whether crates/replay can make it.
    pub fn fits(&self) -> bool {
        let room = self.blanks.len() <= Recipe::BLANKS && self.stores.len() <= Recipe::STORES;
        room && self.plants.iter().all(|p| p.start < 256)
    }

    /// For crates/replay, 408 bytes, little-endian 32-bit words but for the strings: settings, index, seed, noise, scale, shape;
    /// four plants; two blanks, some of no sample; eight stores, some of them beyond the window; and what the long search and the short
    /// one answer.
    pub fn record(&self, long: &Answer, short: &Answer) -> Vec<u8> {
        let s = &self.settings;
        let mut out: Vec<u8> = vec![];
        let words = [
            s.level,
            s.threshold.to_bits(),
            s.second.to_bits(),
            s.distance,
            self.index as u32,
            (self.index >> 32) as u32,
            self.seed,
            self.noise.to_bits(),
            self.scale.to_bits(),
            self.shape as u32,
        ];
        words.iter().for_each(|w| out.extend(w.to_le_bytes()));
        for p in &self.plants {
            out.extend(p.start.to_le_bytes());
            out.extend(p.amplitude.to_bits().to_le_bytes());
            out.extend(p.coherent);
            out.extend(p.noncoherent);
        }
        for (first, count) in self.blanks.iter().chain(&[(0, 0); Recipe::BLANKS]).take(Recipe::BLANKS) {
            out.extend(first.to_le_bytes());
            out.extend(count.to_le_bytes());
        }
        for (j, b) in self.stores.iter().chain(&[(u32::MAX, 0); Recipe::STORES]).take(Recipe::STORES) {
            out.extend(j.to_le_bytes());
            out.extend(b.to_le_bytes());
        }
        for a in [long, short] {
            out.extend(a.number.to_le_bytes());
            a.place.iter().chain(&a.repairs).chain([&a.slicer]).for_each(|&w| out.extend((w as u32).to_le_bytes()));
            out.extend(a.message);
            out.extend([0; 2]);
            [a.index as u32, (a.index >> 32) as u32, bits(a.cn0), bits(a.fraction), a.undecided as u32, a.trial as u32]
                .iter()
                .for_each(|w| out.extend(w.to_le_bytes()));
        }
        out
    }
}
