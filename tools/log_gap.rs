// Sweeps the proved logarithm against the Rust's own, in f32. See log-gap.
#[link(name = "log_sweep", kind = "static")]
extern "C" {
    fn log_sweep_ten_log10(x: f32) -> f32;
}

const LIMIT: f64 = 0.0002;

/// How many positive finite f32 there are: with a step above it the patterns would run over.
const ALL: u32 = 0x7f7f_ffff;

fn step() -> u32 {
    let words: Vec<String> = std::env::args().skip(1).collect();
    match &words[..] {
        [] => Some(1),
        [word] => word.parse().ok().filter(|step| (1..=ALL).contains(step)),
        _ => None,
    }
    .unwrap_or_else(|| {
        eprintln!("log_gap: one word at most, a whole number from 1 to {ALL}");
        std::process::exit(2)
    })
}

fn main() {
    let step = step();
    let (mut count, mut above, mut gap, mut at) = (0u64, 0u64, 0.0f64, 0u32);
    let mut bits = 1u32;
    while bits <= ALL {
        let x = f32::from_bits(bits);
        let ours = unsafe { log_sweep_ten_log10(x) };
        let theirs = 10.0 * x.log10();
        let d = (ours as f64 - theirs as f64).abs();
        if !(d <= LIMIT) {
            above += 1;
        }
        if !(d <= gap) {
            gap = d;
            at = bits;
        }
        count += 1;
        bits += step;
    }
    let x = f32::from_bits(at);
    println!(
        "{count} positive finite f32 (every pattern from 1 by {step}): largest gap {gap:.9} dB at {x:e} ({at:08X}), {above} above {LIMIT}"
    );
    let mut odd = 0;
    for x in [f32::NAN, -1.0, f32::NEG_INFINITY, 0.0, -0.0, f32::INFINITY] {
        let ours = unsafe { log_sweep_ten_log10(x) };
        let theirs = 10.0 * x.log10();
        if !(ours == theirs || ours.is_nan() && theirs.is_nan()) {
            odd += 1;
            println!("at {x}: {ours}, and the Rust has {theirs}");
        }
    }
    println!("NaN, -1, -infinity, 0, -0, +infinity: {} of 6 as in the Rust", 6 - odd);
    std::process::exit(if above + odd > 0 { 1 } else { 0 });
}
