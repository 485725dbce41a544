//! `sample words` writes lines `NAME WORD`, `sample answers` the lines
//! `NAME WORD RESULT` that our functions should answer to them: the oracle's
//! answers, but the standards' where they decide. Always the same lines.

use luhvend_compare::function::{Function, ALL};
use luhvend_compare::word::SIGN;
use std::collections::HashSet;
use std::f64::consts::PI;
use std::io::{self, BufWriter, Write};
use std::process::ExitCode;

/// Words where a path begins or ends, and their neighbours.
const BOUNDARIES: [u32; 17] = [
    0x3e49_0fdb,
    0x3e49_0fdc,
    0x39e8_9769,
    0x3980_0000,
    0x3dc9_0fdb,
    0x3d80_0000,
    0x3580_2126,
    0x38a2_f984,
    0x38d1_b717,
    0x4a7f_ffff,
    0x4a80_0000,
    0x4b00_0000,
    0x4b80_0000,
    0x7f7f_ffff,
    0x7f80_0000,
    0x0080_0000,
    0x0000_0002,
];

/// Words whose true value lies close to the middle between two floats, or
/// close to a pole or a zero.
const HARD: [u32; 24] = [
    0x4619_9998,
    0x5922_aa80,
    0x3d97_dfea,
    0x3ef1_1467,
    0x5a48_ffb0,
    0x690c_97ba,
    0x3ef5_d8b0,
    0x6f79_be45,
    0x697d_fe21,
    0x697f_f812,
    0x437c_e5f1,
    0x50a3_e87f,
    0x5980_0001,
    0x3e19_205e,
    0x4081_74dd,
    0x536b_7a05,
    0x54b1_e095,
    0x5680_7d7f,
    0x5d58_73ae,
    0x5ffd_33a4,
    0x61f0_c8e2,
    0x61fe_289f,
    0x6736_57c5,
    0x694e_c991,
];

const NANS: [u32; 6] = [
    0x7fc0_0000,
    0x7f80_0001,
    0x7fff_ffff,
    0xffc0_0000,
    0xff80_0001,
    0xffd2_3456,
];

/// A generator of pseudo-random numbers (splitmix64).
struct Random(u64);

impl Random {
    fn next(&mut self) -> u64 {
        self.0 = self.0.wrapping_add(0x9e37_79b9_7f4a_7c15);
        let mut z = self.0;
        z = (z ^ (z >> 30)).wrapping_mul(0xbf58_476d_1ce4_e5b9);
        z = (z ^ (z >> 27)).wrapping_mul(0x94d0_49bb_1331_11eb);
        z ^ (z >> 31)
    }

    fn word(&mut self) -> u32 {
        (self.next() >> 32) as u32
    }
}

/// Words in the order they came, each once.
#[derive(Default)]
struct Words {
    list: Vec<u32>,
    seen: HashSet<u32>,
}

impl Words {
    fn one(&mut self, word: u32) {
        if self.seen.insert(word) {
            self.list.push(word);
        }
    }

    fn both_signs(&mut self, word: u32) {
        self.one(word);
        self.one(word ^ SIGN);
    }

    /// The word and those of the floats just below and above.
    fn with_neighbours(&mut self, word: u32) {
        let x = f32::from_bits(word);
        self.one(x.next_down().to_bits());
        self.one(word);
        self.one(x.next_up().to_bits());
    }

    /// `value` with both signs, if it is a float.
    fn if_float(&mut self, value: f64) {
        let x = value as f32;
        if f64::from(x) == value {
            self.both_signs(x.to_bits());
        }
    }
}

fn words(function: Function) -> Vec<u32> {
    let mut words = Words::default();
    let mut random = Random(0x7369_6e65_7300 + function as u64);

    words.both_signs(0);
    words.both_signs(0x0000_0001);
    words.both_signs(0x007f_ffff);
    for word in BOUNDARIES {
        for near in [word - 1, word, word + 1] {
            words.both_signs(near);
        }
    }
    for word in HARD {
        words.both_signs(word);
    }
    for word in NANS {
        words.one(word);
    }

    for exponent in 0..256u32 {
        let (first, second) = (random.word() & 0x007f_ffff, random.word() & 0x007f_ffff);
        for mantissa in [0, 1, 0x007f_ffff, first, second] {
            words.both_signs(exponent << 23 | mantissa);
        }
    }

    if function.in_half_turns() {
        // The steps of the table, and of the quadrants.
        for k in -70..=200i32 {
            words.with_neighbours((k as f32 / 32.0).to_bits());
        }
        // n, n + 1/4, n + 1/2, n + 3/4.
        let small = 0..=10u32;
        let large = (4..=25).flat_map(|power| [(1 << power) - 1, 1 << power, (1 << power) + 1]);
        for n in small.chain(large) {
            for quarters in 0..4u32 {
                words.if_float(f64::from(n) + f64::from(quarters) / 4.0);
            }
        }
    } else {
        // The steps of the table.
        for k in 0..=200u32 {
            words.with_neighbours(((f64::from(k) * PI / 32.0) as f32).to_bits());
        }
    }

    // Any words at all, and floats spread evenly from -100 to 100.
    let left = if function.in_half_turns() { 70 } else { 250 };
    for _ in 0..left {
        words.one(random.word());
        let share = (random.next() >> 11) as f64 / (1u64 << 53) as f64;
        words.one(((share * 200.0 - 100.0) as f32).to_bits());
    }
    words.list
}

fn run(with_answers: bool) -> io::Result<()> {
    let mut out = BufWriter::new(io::stdout().lock());
    for function in ALL {
        let name = function.name();
        for word in words(function) {
            if with_answers {
                writeln!(out, "{name} {word:08x} {:08x}", function.expected(word))?;
            } else {
                writeln!(out, "{name} {word:08x}")?;
            }
        }
    }
    out.flush()
}

fn main() -> ExitCode {
    let arguments: Vec<String> = std::env::args().skip(1).collect();
    let with_answers = match arguments.iter().map(String::as_str).collect::<Vec<_>>()[..] {
        ["words"] => false,
        ["answers"] => true,
        _ => {
            eprintln!("sample: say `sample words` or `sample answers`");
            return ExitCode::from(2);
        }
    };
    match run(with_answers) {
        Ok(()) => ExitCode::SUCCESS,
        Err(what) => {
            eprintln!("sample: {what}");
            ExitCode::from(2)
        }
    }
}
