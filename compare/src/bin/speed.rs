//! `speed [--passes N] [NAME..]`
//!
//! Nanoseconds per call, the oracle's against ours, one thread. Two sets of
//! 2^24 words: spread over all words (so over all exponents), and floats
//! spread evenly from -100 to 100. The best of N passes counts (3 if nothing
//! is said). Both sides are called through a pointer, so neither is inlined.

use luhvend_compare::function::{Function, ALL};
use std::hint::black_box;
use std::process::ExitCode;
use std::time::Instant;

const COUNT: u32 = 1 << 24;

/// Odd, so that the multiples go through words evenly and out of order.
const STEP: u32 = 0x9e37_79b9;

fn all_exponents() -> Vec<u32> {
    (0..COUNT).map(|i| i.wrapping_mul(STEP)).collect()
}

fn to_a_hundred() -> Vec<u32> {
    (0..COUNT)
        .map(|i| {
            let share = f64::from(i.wrapping_mul(STEP)) / 4294967296.0;
            ((share * 200.0 - 100.0) as f32).to_bits()
        })
        .collect()
}

fn nanoseconds(words: &[u32], call: impl Fn(u32) -> u32) -> f64 {
    let start = Instant::now();
    let mut all = 0;
    for &word in words {
        all ^= call(word);
    }
    black_box(all);
    start.elapsed().as_secs_f64() * 1e9 / words.len() as f64
}

fn wanted() -> Result<(u32, Vec<Function>), String> {
    let mut passes = 3;
    let mut functions = Vec::new();
    let mut arguments = std::env::args().skip(1);
    while let Some(argument) = arguments.next() {
        if argument == "--passes" {
            let text = arguments.next().ok_or("--passes needs a value")?;
            passes = match text.parse() {
                Ok(n) if n > 0 => n,
                _ => return Err(format!("`{text}` is no number of passes")),
            };
        } else {
            functions.push(Function::named(&argument)?);
        }
    }
    if functions.is_empty() {
        functions = ALL.to_vec();
    }
    Ok((passes, functions))
}

fn main() -> ExitCode {
    let (passes, functions) = match wanted() {
        Ok(wanted) => wanted,
        Err(what) => {
            eprintln!("speed: {what}");
            return ExitCode::from(2);
        }
    };
    let sets = [
        ("all exponents", all_exponents()),
        ("-100 to 100", to_a_hundred()),
    ];
    println!(
        "{:<8}{:<15}{:>10}{:>10}{:>8}",
        "", "", "pxfm ns", "ours ns", "ratio"
    );
    for function in functions {
        let oracle = black_box(function.oracle());
        let ours = black_box(function.ours());
        for (what, words) in &sets {
            let (mut of_pxfm, mut of_ours) = (f64::INFINITY, f64::INFINITY);
            for _ in 0..passes {
                of_pxfm = of_pxfm.min(nanoseconds(words, oracle));
                of_ours = of_ours.min(nanoseconds(words, |word| unsafe { ours(word) }));
            }
            let ratio = of_ours / of_pxfm;
            println!(
                "{:<8}{what:<15}{of_pxfm:>10.2}{of_ours:>10.2}{ratio:>8.2}",
                function.name()
            );
        }
    }
    ExitCode::SUCCESS
}
